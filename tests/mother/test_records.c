/* Records that start did not make. */
#include "game.h"

/* One frame from a record that is zeros but for this channel. The record stays with no other answer than events. */
static void expect_record(game *g, int channel, mother_channel record, uint32_t number, uint32_t kind)
{
    mother_player given = { .window = 0x18 };
    uint32_t answer[MOTHER_ANSWER_WORDS];
    given.channels[channel] = record;
    mother_player player = given;
    CHECK(step_game(g, &player, answer) == number);
    CHECK(answer[0] == kind);
    CHECK(kind == REF_EVENTS || same_player(&player, &given));
    if (number == REF_BAD_RECORD)
        CHECK(are_zeros(answer, 1, MOTHER_ANSWER_WORDS));
}

static void bad(game *g, int channel, mother_channel record)
{
    expect_record(g, channel, record, REF_BAD_RECORD, REF_REFUSED);
}

static void good(game *g, int channel, mother_channel record)
{
    expect_record(g, channel, record, 0, REF_EVENTS);
}

static game *four_channels(void)
{
    game *g = new_game();
    play_block(g, 0, "B0 20 00");
    play_block(g, 1, "B0 20 00");
    play_block(g, 2, "B0 20 00");
    play_block(g, 3, "B0 04 00");
    return g;
}

static void test_offsets(void)
{
    game *g = four_channels();
    for (int channel = 0; channel < REF_CHANNELS; channel++) {
        uint16_t block = (uint16_t)BLOCK_OF(channel);
        bad(g, channel, (mother_channel){ .next = 257 });
        bad(g, channel, (mother_channel){ .loop_start = 257 });
        bad(g, channel, (mother_channel){ .next = 0xFFFF });
        good(g, channel, (mother_channel){ .next = 256, .loop_start = 256 });
        good(g, channel, (mother_channel){ .block = block, .loop_start = 256 });
        expect_record(g, channel, (mother_channel){ .block = block, .next = 256 }, REF_PAST_DATA, REF_REFUSED);
        bad(g, channel, (mother_channel){ .block = 1 });
        bad(g, channel, (mother_channel){ .block = 0x7FFF });
        bad(g, channel, (mother_channel){ .block = 0xC000 });
        bad(g, channel, (mother_channel){ .block = 0xFFFF });
        expect_record(g, channel, (mother_channel){ .block = 0xBFFF, .next = 1 }, REF_PAST_DATA, REF_REFUSED);
        /* list and row have no meaning without a block, and only at the playlist with one */
        good(g, channel, (mother_channel){ .list = 0xFFFF, .row = 0xFFFF });
        good(g, channel, (mother_channel){ .list = 1, .row = 0xFFFF, .block = block, .counter = 255, .ctrl = 255 });
    }
    free_game(g);
}

static void test_sounding(void)
{
    game *g = four_channels();
    for (int channel = 0; channel < REF_CHANNELS; channel++) {
        uint8_t sound = channel == REF_NOISE_CHANNEL ? 0x04 : 0x20;
        bad(g, channel, (mother_channel){ .left = 5, .length = 4, .sounding = sound });
        bad(g, channel, (mother_channel){ .left = 1, .length = 0, .sounding = sound });
        good(g, channel, (mother_channel){ .left = 5, .length = 5, .sounding = sound });
        good(g, channel, (mother_channel){ .left = 255, .length = 255, .sounding = sound });
        bad(g, channel, (mother_channel){ .left = 1, .length = 1, .sounding = 0x05 });
        good(g, channel, (mother_channel){ .left = 0, .length = 1, .sounding = 0x05 });
        bad(g, channel, (mother_channel){ .left = 1, .length = 1, .sounding = 0xFF });
    }
    for (int channel = 0; channel <= REF_TRIANGLE; channel++) {
        good(g, channel, (mother_channel){ .left = 1, .length = 1, .sounding = 0x00 });
        good(g, channel, (mother_channel){ .left = 1, .length = 1, .sounding = 0x02 });
        good(g, channel, (mother_channel){ .left = 1, .length = 1, .sounding = 0x84 });
        bad(g, channel, (mother_channel){ .left = 1, .length = 1, .sounding = 0x86 });
    }
    bad(g, 3, (mother_channel){ .left = 1, .length = 1, .sounding = 0x00 });
    bad(g, 3, (mother_channel){ .left = 1, .length = 1, .sounding = 0x1F });
    good(g, 3, (mother_channel){ .left = 1, .length = 1, .sounding = 0x01 });
    good(g, 3, (mother_channel){ .left = 1, .length = 1, .sounding = 0xC1 });
    good(g, 3, (mother_channel){ .left = 1, .length = 1, .sounding = 0xDC });
    free_game(g);
}

static void test_timbre(void)
{
    game *g = four_channels();
    bad(g, 0, (mother_channel){ .timbre = 0x1C });
    bad(g, 1, (mother_channel){ .timbre = 0xFF });
    good(g, 0, (mother_channel){ .timbre = 0xFB });
    good(g, 2, (mother_channel){ .timbre = 0xFF });
    good(g, 3, (mother_channel){ .timbre = 0xFF });
    free_game(g);
}

static void test_transpose(void)
{
    game *g = four_channels();
    uint32_t answer[MOTHER_ANSWER_WORDS];
    for (uint32_t byte = 0; byte < 256; byte++) {
        int odd = byte < 0x80 ? byte % 2 == 1 : byte % 2 == 0;
        mother_player player = { .stopped = 9, .transpose = (uint8_t)byte, .window = 0xFF };
        const mother_player given = player;
        CHECK(step_game(g, &player, answer) == (odd ? REF_BAD_RECORD : 0));
        CHECK(answer[0] == (odd ? REF_REFUSED : REF_STOPPED) && are_zeros(answer, 1, MOTHER_ANSWER_WORDS));
        CHECK(same_player(&player, &given));
    }
    free_game(g);
}

/* An unused channel's part is not looked at and stays; 16 comes before Stopped. */
static void test_unused(void)
{
    game *g = new_game();
    mother_player player = { .window = 0x18 };
    const mother_channel odd = { 1, 2, 3, 999, 999, 1, 2, 3, 5, 0x1F, 6 };
    uint32_t answer[MOTHER_ANSWER_WORDS];
    play_block(g, 2, "B0 20 00");
    player.channels[0] = odd;
    player.channels[3] = odd;
    CHECK(step_game(g, &player, answer) == 0);
    CHECK(answer[0] == REF_EVENTS && part_is(answer, 0, PART(0)) && part_is(answer, 3, PART(0)));
    mother_player wanted = { .window = 0x18, .channels = { odd, { 0 }, player.channels[2], odd } };
    CHECK(player.channels[2].left == 5 && same_player(&player, &wanted));
    player.stopped = 7;
    wanted = player;
    CHECK(step_game(g, &player, answer) == 0);
    CHECK(answer[0] == REF_STOPPED && same_player(&player, &wanted));
    player.channels[2].block = 2;
    CHECK(step_game(g, &player, answer) == REF_BAD_RECORD);
    free_game(g);
}

/* A row of 256 is refused at the playlist alone; a list outside the banks too. */
static void test_kept_list(void)
{
    game *g = four_channels();
    mother_channel record = { .list = (uint16_t)LIST_OF(1), .block = (uint16_t)BLOCK_OF(1), .next = 2 };
    for (uint32_t row = 0; row < 256; row += 255) {
        record.row = (uint16_t)row;
        good(g, 1, record);
    }
    record.row = 256;
    expect_record(g, 1, record, MOTHER_BAD_PLAYLIST, REF_REFUSED);
    record.row = 0xFFFF;
    expect_record(g, 1, record, MOTHER_BAD_PLAYLIST, REF_REFUSED);
    record.row = 0;
    record.list = 0xFFFF;
    expect_record(g, 1, record, MOTHER_BAD_PLAYLIST, REF_REFUSED);
    record.list = 0x7FFE;
    expect_record(g, 1, record, MOTHER_BAD_PLAYLIST, REF_REFUSED);
    record.list = 0xBFFF;
    expect_record(g, 1, record, MOTHER_BAD_PLAYLIST, REF_REFUSED);
    free_game(g);
}

/* The note's ctrl 1 in its frame `index`, by a record that names envelope 3 at this address. */
static uint32_t ctrl1_of(uint32_t address, uint8_t index)
{
    game *g = four_channels();
    uint32_t answer[MOTHER_ANSWER_WORDS];
    mother_player player = { .channels = { { .length = 255, .left = (uint8_t)(255 - index), .sounding = 0x20,
                                             .timbre = 0x03, .ctrl = 0x7C } } };
    for (uint32_t at = 0x9FF0; at < REF_BANK_END; at++)
        if (at < LIST_OF(0) || at >= LIST_OF(REF_CHANNELS))
            *game_at(g, at) = 0x12;
    game_word(g, g->places.envelope_addresses + 4, address);
    CHECK(step_game(g, &player, answer) == 0);
    free_game(g);
    return answer[MOTHER_ANSWER_PARTS + 4];
}

/* Of an envelope that set timbre would refuse, the bytes count as far as they go. */
static void test_bad_envelope(void)
{
    static const struct { uint32_t address; uint8_t index; uint32_t ctrl1; } frames[] = {
        { 0xA000, 0, 0x71 },   { 0xA000, 1, 0x72 },   { 0xA000, 126, 0x71 }, { 0xA000, 127, 0x72 },
        { 0xA000, 128, 0x7C }, { 0x9FF0, 127, 0x72 }, { 0x9FF0, 128, 0x7C }, { 0xBFFE, 3, 0x72 },
        { 0xBFFE, 4, 0x7C },   { 0x7FFF, 0, 0x7C },   { 0xC000, 0, 0x7C },   { 0xFFFF, 0, 0x7C },
    };
    for (size_t i = 0; i < sizeof frames / sizeof frames[0]; i++)
        CHECK(ctrl1_of(frames[i].address, frames[i].index) == frames[i].ctrl1);
}

void test_records(void)
{
    test_offsets();
    test_sounding();
    test_timbre();
    test_transpose();
    test_unused();
    test_kept_list();
    test_bad_envelope();
}
