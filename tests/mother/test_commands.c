/* The commands of a block: what they do, and where they are refused. */
#include "game.h"

/* What one channel's first frame gives: refused by this number at the offset, or 0 and the sounding byte in the
   offset's place; after so many commands of the block. */
typedef struct { int channel; const char *hex; uint32_t number, offset, commands; } sample;

static void expect_sound(game *g, const sample *wanted)
{
    mother_player player;
    uint32_t answer[MOTHER_ANSWER_WORDS];
    CHECK(start_game(g, &player) == 0);
    CHECK(step_game(g, &player, answer) == 0);
    CHECK(answer[0] == REF_EVENTS && answer[REF_ANSWER_COUNTS + wanted->channel] == 1 + wanted->commands);
    CHECK(player.channels[wanted->channel].sounding == wanted->offset);
}

static void expect_sample(const sample *wanted, uint32_t block)
{
    game *g = new_game();
    int has_address = wanted->number >= REF_NO_COMMAND && wanted->number <= REF_PAST_DATA;
    game_hex(g, block, wanted->hex);
    PLAYLIST(g, wanted->channel, (uint16_t)block, END_WORD);
    if (wanted->number == 0)
        expect_sound(g, wanted);
    else
        expect_refused(g, 0, wanted->number, wanted->channel, wanted->offset,
                       has_address ? block + wanted->offset : 0, 1 + wanted->commands);
    free_game(g);
}

static const sample samples[] = {
    /* no commands, keys and presets */
    { 0, "9E 18 81", REF_NO_COMMAND, 2, 1 }, { 0, "9D", REF_NO_COMMAND, 0, 0 }, { 1, "AF", REF_NO_COMMAND, 0, 0 },
    { 2, "81", REF_NO_COMMAND, 0, 0 }, { 3, "FF 9F 00 00", REF_NO_COMMAND, 1, 1 }, { 0, "7F", REF_NO_SUCH_KEY, 0, 0 },
    { 1, "01", REF_NO_SUCH_KEY, 0, 0 }, { 2, "AE", REF_NO_SUCH_KEY, 0, 0 }, { 2, "A0", REF_NO_SUCH_KEY, 0, 0 },
    { 3, "03", REF_NO_SUCH_KEY, 0, 0 }, { 3, "80", REF_NO_SUCH_KEY, 0, 0 }, { 3, "1D", REF_NO_SUCH_KEY, 0, 0 },
    { 3, "9D", REF_NO_SUCH_KEY, 0, 0 },
    /* a lone note: 11, then 14 */
    { 0, "20", REF_NO_LENGTH_YET, 0, 0 }, { 0, "02", REF_NO_LENGTH_YET, 0, 0 },
    { 2, "9C 81 9F 00 00 20", REF_NO_LENGTH_YET, 5, 2 }, { 3, "41", REF_NO_LENGTH_YET, 0, 0 },
    { 3, "9C 7E 1C", REF_NO_LENGTH_YET, 2, 1 }, { 0, "86", REF_NO_SUCH_KEY, 0, 0 },
    { 0, "9C 81 86", REF_NO_LENGTH_YET, 2, 1 }, { 0, "9C 02 84", REF_NO_SUCH_KEY, 2, 1 },
    /* set length: 12, 13, then its next byte */
    { 0, "9E 59 BF 20", REF_LENGTH_OUTSIDE, 2, 1 }, { 0, "9E 58 BF 20", 0, 0x20, 2 },
    { 1, "9E 67 B1", REF_LENGTH_OUTSIDE, 2, 1 }, { 1, "9E 67 B0 20", 0, 0x20, 2 },
    { 2, "9E FF B0 21", REF_LENGTH_OUTSIDE, 2, 1 }, { 3, "BE 04", REF_LENGTH_ZERO, 0, 0 },
    { 0, "BE 21", REF_LENGTH_ZERO, 0, 0 }, { 0, "B0 21", REF_NO_SUCH_KEY, 1, 0 }, { 0, "B0 FF", REF_NO_SUCH_KEY, 1, 0 },
    { 0, "B0 86", REF_NO_SUCH_KEY, 1, 0 }, { 3, "B0 00", REF_NO_SUCH_KEY, 1, 0 }, { 3, "B0 9F", REF_NO_SUCH_KEY, 1, 0 },
    /* the byte behind it is no command, whatever it is */
    { 0, "B0 00", 0, 0x00, 1 }, { 1, "9C 83 B0 88", 0, 0x84, 2 }, { 1, "9C FF B0 9C", 0, 0x1C, 2 },
    { 1, "9C FF B0 FE", 0, 0x7E, 2 }, { 2, "9C FF B0 B0", 0, 0x30, 2 }, { 3, "9C FF B0 04", 0, 0x04, 2 },
    { 3, "B0 9C", 0, 0x9C, 1 }, { 3, "B0 C1", 0, 0xC1, 1 }, { 3, "9C 7E B0 DC", 0, 0xDC, 2 },
    /* transposed: not the rest, and a sum of 2 is one */
    { 0, "9C 02 B0 00", 0, 0x02, 2 }, { 0, "9C 7E B0 02", 0, 0x02, 2 }, { 0, "9C 7E B0 06", 0, 0x84, 2 },
    { 0, "9C 7E B0 08", REF_NO_SUCH_KEY, 3, 1 }, { 0, "9C 81 B0 04", 0, 0x02, 2 }, { 0, "9C 83 B0 04", 0, 0x00, 2 },
    { 0, "9C 85 B0 04", REF_NO_SUCH_KEY, 3, 1 }, { 0, "9C 81 B0 00", REF_NO_SUCH_KEY, 3, 1 },
    { 2, "9C FF B0 84", 0, 0x04, 2 }, { 1, "9C 01", MOTHER_ODD_TRANSPOSE, 0, 0 },
    { 1, "9E 18 9C 80", MOTHER_ODD_TRANSPOSE, 2, 1 }, { 3, "9C 7F", MOTHER_ODD_TRANSPOSE, 0, 0 },
    /* set timbre: the triangle names no volume envelope */
    { 0, "9F 1C 30", REF_BAD_ENVELOPE_NUMBER, 0, 0 }, { 1, "FF 9F FF 30", REF_BAD_ENVELOPE_NUMBER, 1, 1 },
    { 2, "9F FF 30 B0 20", 0, 0x20, 2 }, { 0, "9F E0 30 B0 20", 0, 0x20, 2 },
};

/* Of blocks that stand up to the end of a bank. */
static const sample last_samples[] = {
    { 0, "9E 18", REF_PAST_DATA, 2, 1 }, { 0, "B0", REF_PAST_DATA, 1, 0 }, { 0, "9E 67 B1", REF_LENGTH_OUTSIDE, 2, 1 },
    { 3, "BE", REF_LENGTH_ZERO, 0, 0 }, { 1, "9C", REF_PAST_DATA, 1, 0 }, { 1, "9E", REF_PAST_DATA, 1, 0 },
    { 1, "9C 01", MOTHER_ODD_TRANSPOSE, 0, 0 }, { 2, "9F", REF_PAST_DATA, 1, 0 }, { 2, "9F 1F", REF_PAST_DATA, 2, 0 },
    { 0, "9F", REF_PAST_DATA, 1, 0 }, { 0, "9F 1C", REF_BAD_ENVELOPE_NUMBER, 0, 0 },
    { 0, "9F 05", REF_PAST_DATA, 2, 0 }, { 3, "9F", REF_NO_COMMAND, 0, 0 },
};

static void test_samples_of_commands(void)
{
    for (size_t i = 0; i < sizeof samples / sizeof samples[0]; i++)
        expect_sample(&samples[i], BLOCK_OF(samples[i].channel));
    for (size_t i = 0; i < sizeof last_samples / sizeof last_samples[0]; i++) {
        expect_sample(&last_samples[i], MOTHER_BANK_A - hex_size(last_samples[i].hex));
        expect_sample(&last_samples[i], REF_BANK_END - hex_size(last_samples[i].hex));
    }
}

/* A block of 256 bytes in the middle of a bank: nothing of its 257th byte is read. */
static void test_block_limit(void)
{
    game *g = new_game();
    for (uint32_t i = 0; i < MOTHER_BLOCK_LIMIT; i++)
        *game_at(g, BLOCK_OF(1) + i) = 0xFF;
    PLAYLIST(g, 1, (uint16_t)BLOCK_OF(1), END_WORD);
    expect_refused(g, 0, REF_PAST_DATA, 1, 256, BLOCK_OF(1) + 256, 257);
    *game_at(g, BLOCK_OF(1) + 255) = 0xB0;
    *game_at(g, BLOCK_OF(1) + 256) = 0x20;
    expect_refused(g, 0, REF_PAST_DATA, 1, 256, BLOCK_OF(1) + 256, 256);
    *game_at(g, BLOCK_OF(1) + 255) = 0x00;
    expect_ended(g, 0, 1, 258);
    free_game(g);
}

/* Number 0 is none even if the entry before the table's first is bad. */
static void test_no_envelope(void)
{
    game *g = new_game();
    mother_player player;
    uint32_t answer[MOTHER_ANSWER_WORDS];
    game_word(g, g->places.envelope_addresses - 2, 0);
    play_block(g, 0, "9F 60 B7 B0 20 9F 60 00 20 00");
    CHECK(start_game(g, &player) == 0);
    for (uint32_t n = 0; n < 12; n++) {
        CHECK(step_game(g, &player, answer) == 0);
        CHECK(part_is(answer, 0, PART(REF_NOTE, n % 6 == 0, 0x10, period_of_key(0x10), n < 6 ? 0xB7 : 0x10, 3)));
    }
    free_game(g);
}

static void test_envelope_faults(void)
{
    static const uint16_t outside[] = { 0x0000, 0x7FFF, 0xC000, 0xFFFF };
    game *g = new_game();
    play_block(g, 1, "9E 18 9F 03 30 B0 20 00");
    for (size_t i = 0; i < sizeof outside / sizeof outside[0]; i++) {
        set_envelope(g, 3, outside[i]);
        expect_refused(g, 0, REF_BAD_ENVELOPE, 1, 2, 0, 2);
    }
    put_endless_envelope(g, 3);
    expect_refused(g, 0, REF_BAD_ENVELOPE, 1, 2, 0, 2);
    *game_at(g, LAST_OF_ENDLESS) = 0xF0;
    expect_ended(g, 6, 1, 2);
    set_envelope(g, 3, 0xBFFE);
    expect_refused(g, 0, REF_BAD_ENVELOPE, 1, 2, 0, 2);
    *game_at(g, 0xBFFF) = 0xFF;
    expect_ended(g, 6, 1, 2);
    free_game(g);
}

static void test_loops(void)
{
    static const struct { const char *hex; uint32_t frames, count; } loops[] = {
        { "C3 B0 20 22 FF 00", 36, 3 },
        { "C0 BB 20 FF 00", 256, 3 },
        { "C1 BB 20 FF 00", 1, 3 },
        { "FE BB 20 FF FF 00", 62, 4 },
        { "C3 FF C2 C3 FF 00", 0, 1 + (1 + 3) + 1 + (1 + 3) + 2 },
    };
    game *g = new_game();
    for (size_t i = 0; i < sizeof loops / sizeof loops[0]; i++) {
        play_block(g, 2, loops[i].hex);
        expect_ended(g, loops[i].frames, 2, loops[i].count);
    }
    free_game(g);
}

/* A loop left behind by its block's end: the next block's FF goes on. */
static void test_counter_of_next_block(void)
{
    game *g = new_game();
    mother_player player;
    uint32_t answer[MOTHER_ANSWER_WORDS];
    PUT(g, { BLOCK_OF(2), "C3 B0 20 00" }, { BLOCK_OF(3), "9E 18 FF 22 00" });
    PLAYLIST(g, 2, (uint16_t)BLOCK_OF(2), (uint16_t)BLOCK_OF(3), END_WORD);
    play_frames(g, 6, &player);
    CHECK(player.channels[2].counter == 2 && player.channels[2].loop_start == 1 && player.channels[2].next == 3);
    CHECK(step_game(g, &player, answer) == 0);
    CHECK(answer[REF_ANSWER_COUNTS + 2] == 5);
    CHECK(player.channels[2].counter == 0 && player.channels[2].loop_start == 0 && player.channels[2].next == 4);
    expect_ended(g, 12, 2, 2);
    free_game(g);
}

/* What a channel sets holds for those after it in the same frame, and for all in later ones. */
static void test_later_channels(void)
{
    uint32_t answer[MOTHER_ANSWER_WORDS];
    mother_player player;
    game *g = new_game();
    play_block(g, 0, "B0 20 22 24 00");
    play_block(g, 1, "9C 04 9E 00 B0 20 20 20 20 00");
    play_block(g, 2, "B1 20 9C 81 20 00");
    play_block(g, 3, "B0 04 04 04 04 00");
    CHECK(start_game(g, &player) == 0);
    CHECK(step_game(g, &player, answer) == 0);
    CHECK(player.transpose == 4 && player.window == 0);
    CHECK(part_is(answer, 0, PART(REF_NOTE, 1, 0x10, period_of_key(0x10), 0x10, 0)));
    CHECK(part_is(answer, 1, PART(REF_NOTE, 1, 0x12, period_of_key(0x12), 0x10, 0)));
    CHECK(part_is(answer, 2, PART(REF_NOTE, 1, 0x12, period_of_key(0x12), 28, 0)));
    CHECK(player.channels[0].length == 6 && player.channels[1].length == 4 && player.channels[2].length == 8);
    CHECK(player.channels[3].length == 4);
    play_frames(g, 7, &player);
    CHECK(player.channels[0].sounding == 0x26);
    play_frames(g, 9, &player);
    CHECK(player.transpose == 0x81 && player.channels[2].sounding == 0x1E && player.channels[1].sounding == 0x24);
    play_frames(g, 13, &player);
    CHECK(player.channels[0].sounding == 0x22 && player.channels[1].sounding == 0x1E);
    free_game(g);
}

/* A refused frame takes back what earlier channels did in it. */
static void test_taken_back(void)
{
    game *g = new_game();
    mother_player player;
    play_block(g, 0, "B0 20 9C 04 9E 00 9F 25 33 20 00");
    play_block(g, 1, "B0 20 A1");
    expect_refused(g, 6, REF_NO_COMMAND, 1, 2, BLOCK_OF(1) + 2, 0);
    play_frames(g, 6, &player);
    CHECK(player.transpose == 0 && player.window == 0x18 && player.channels[0].timbre == 0);
    free_game(g);
}

/* Key $10 on the triangle, with this release. */
static int releases(game *g, mother_player *player, uint32_t release, uint32_t pitch)
{
    uint32_t answer[MOTHER_ANSWER_WORDS];
    CHECK(step_game(g, player, answer) == 0);
    return part_is(answer, 2, PART(REF_NOTE, 1, 0x10, period_of_key(0x10), release, pitch));
}

/* Notes of one frame but for the last: the later of set length and set timbre decides. */
static void test_triangle_ctrl(void)
{
    game *g = new_game();
    mother_player player;
    play_block(g, 2,
               "BB 20 9F 0A 85 20 BB 20 9F 00 05 20 9F 20 80 20 9F 40 7F 20 BB 20 9F A0 00 BB 20 9F C0 7F BB 20 "
               "9F 5F 00 BB 20 9F E0 FF B0 20");
    CHECK(start_game(g, &player) == 0);
    CHECK(releases(g, &player, 0, 0));
    CHECK(releases(g, &player, REF_RELEASE_NEVER, 0));
    CHECK(releases(g, &player, 10, 0));
    CHECK(player.channels[2].ctrl == 10 && player.channels[2].timbre == 0x0A);
    CHECK(releases(g, &player, 5, 0));
    CHECK(releases(g, &player, 0, 1));
    CHECK(player.channels[2].ctrl == 0x80);
    CHECK(releases(g, &player, 127, 2));
    CHECK(releases(g, &player, REF_RELEASE_NEVER, 2));
    CHECK(player.channels[2].ctrl == 0xFF);
    CHECK(releases(g, &player, REF_RELEASE_NEVER, 5));
    CHECK(releases(g, &player, 0, 6));
    CHECK(releases(g, &player, 0x1F, 2));
    CHECK(releases(g, &player, 20, 7));
    free_game(g);
}

/* Set length leaves a square's ctrl byte. */
static void test_square_ctrl(void)
{
    game *g = new_game();
    mother_player player;
    play_block(g, 0, "9F 45 B3 B0 20 B1 22 00");
    play_frames(g, 7, &player);
    CHECK(player.channels[0].ctrl == 0xB3 && player.channels[0].timbre == 0x45 && player.channels[0].length == 12);
    free_game(g);
}

void test_commands(void)
{
    test_samples_of_commands();
    test_block_limit();
    test_envelope_faults();
    test_no_envelope();
    test_loops();
    test_counter_of_next_block();
    test_later_channels();
    test_taken_back();
    test_triangle_ctrl();
    test_square_ctrl();
}
