/* Numbers 1 to 4, 8, 9 and 19 of the header, and their order. */
#include "game.h"

#include <string.h>

/* Start and frame answer the number, and nothing is told beside it; the record that a frame was given is damaged. */
static void expect_number(game *g, uint32_t number)
{
    const mother_player given = { 7, 0x01, 0xFF, { { 1, 999, 1, 257, 257, 1, 2, 3, 5, 0x1F, 6 } } };
    const mother_player fresh = { 0 };
    mother_player player = given;
    uint32_t answer[MOTHER_ANSWER_WORDS];
    CHECK(step_game(g, &player, answer) == number);
    CHECK(same_player(&player, &given));
    CHECK(answer[0] == REF_REFUSED && are_zeros(answer, 1, MOTHER_ANSWER_WORDS));
    CHECK(start_game(g, &player) == number);
    CHECK(same_player(&player, &fresh));
}

static void expect_started(game *g)
{
    mother_player player;
    mother_player wanted = { .transpose = *game_at(g, HEADER), .window = *game_at(g, HEADER + 1) };
    memset(&player, 0xEE, sizeof player);
    CHECK(start_game(g, &player) == 0);
    CHECK(same_player(&player, &wanted));
}

/* This size of one of the two banks, in memory that has it. */
static void expect_bad_size(game *g, uint8_t **bank, size_t *bank_len, size_t size)
{
    static uint8_t longest[2 * MOTHER_BANK_SIZE];
    uint8_t *kept = *bank;
    *bank = longest;
    *bank_len = size;
    expect_number(g, REF_BAD_BANK_SIZE);
    *bank = kept;
    *bank_len = MOTHER_BANK_SIZE;
}

static void test_sizes(void)
{
    static const size_t bad[] = { 0, MOTHER_BANK_SIZE - 1, MOTHER_BANK_SIZE + 1, 2 * MOTHER_BANK_SIZE };
    game *g = new_game();
    play_block(g, 0, "00");
    expect_started(g);
    g->track = 24;
    for (size_t i = 0; i < sizeof bad / sizeof bad[0]; i++) {
        expect_bad_size(g, &g->bank8, &g->bank8_len, bad[i]);
        expect_bad_size(g, &g->banka, &g->banka_len, bad[i]);
    }
    expect_number(g, REF_BAD_TRACK);
    free_game(g);
}

/* A table of this size at the first and last places is good, one further it is not, nor outside or far beyond. */
static void test_place(game *g, uint32_t *place, uint32_t size)
{
    const uint32_t bad[] = { 0, 0x7FFF, 0xC000 - size + 1, 0xC000, 0xFFFF, 0x18000, 0x1903E, 0xFFFFFFF0, 0xFFFFFFFF };
    uint32_t kept = *place;
    g->track = 24;
    *place = 0x8000;
    expect_number(g, REF_BAD_TRACK);
    *place = 0xC000 - size;
    expect_number(g, REF_BAD_TRACK);
    for (size_t i = 0; i < sizeof bad / sizeof bad[0]; i++) {
        *place = bad[i];
        expect_number(g, REF_BAD_PLACES);
    }
    *place = kept;
    g->track = 0;
}

static void test_places(void)
{
    static const uint32_t bad_counts[] = { 0, 256, 0x118, 0xFFFFFFFF };
    game *g = new_game();
    const struct { uint32_t *place, size; } tables[] = {
        { &g->places.header_offsets, 24 }, { &g->places.header_block, 1 },
        { &g->places.note_lengths, 104 },  { &g->places.key_periods, 134 },
        { &g->places.noise_presets, 31 },  { &g->places.envelope_addresses, 54 },
    };
    play_block(g, 0, "00");
    for (size_t i = 0; i < sizeof tables / sizeof tables[0]; i++)
        test_place(g, tables[i].place, tables[i].size);
    for (size_t i = 0; i < sizeof bad_counts / sizeof bad_counts[0]; i++) {
        g->places.track_count = bad_counts[i];
        expect_number(g, REF_BAD_PLACES);
    }
    g->places.track_count = 255;
    expect_started(g);
    g->track = 255;
    expect_number(g, REF_BAD_TRACK);
    g->track = 0x100;
    expect_number(g, REF_BAD_TRACK);
    free_game(g);
}

static void test_header_place(void)
{
    game *g = new_game();
    g->places.header_block = 0xBFFF;
    expect_number(g, REF_BAD_HEADER);
    g->places.header_block = 0xC000 - 9;
    expect_number(g, REF_BAD_HEADER);
    g->places.header_block = 0xC000 - 10;
    expect_number(g, REF_BAD_ADDRESS);
    *game_at(g, g->places.header_offsets) = 1;
    expect_number(g, REF_BAD_HEADER);
    free_game(g);
}

/* A header from $9ffc to $a005, then the lengths from $9ff9 on and a playlist word at $9fff. */
static void test_across(void)
{
    game *g = new_game();
    mother_player player;
    uint32_t answer[MOTHER_ANSWER_WORDS];
    g->places.header_block = 0x9F00;
    PUT(g, { g->places.header_offsets, "FC" }, { 0x9FFC, "02 07 FF FF 10 90 FF FF FF FF" });
    CHECK(start_game(g, &player) == 0);
    CHECK(player.transpose == 2 && player.window == 7);
    g->places.header_block = HEADER;
    g->places.note_lengths = 0x9FF9;
    PUT(g, { g->places.header_offsets, "00" }, { HEADER, "00 01 FF 9F" }, { 0x9FFF, "00 94 09" },
        { BLOCK_OF(0), "B7 20 00" });
    CHECK(start_game(g, &player) == 0);
    CHECK(step_game(g, &player, answer) == 0);
    CHECK(player.channels[0].length == 9 && player.channels[0].list == 0xA001);
    free_game(g);
}

static void test_playlist_addresses(void)
{
    static const uint16_t bad[] = { 0x0000, 0x0001, 0x076C, 0x7FFF, 0xC000, 0xFEFF };
    static const uint16_t good[] = { 0x8000, 0x9FFF, 0xA000, 0xBFFF };
    game *g = new_game();
    set_header(g, 0x01, 0xFF);
    expect_number(g, REF_NO_CHANNEL);
    for (int channel = 0; channel < REF_CHANNELS; channel++) {
        for (size_t i = 0; i < sizeof bad / sizeof bad[0]; i++) {
            name_playlist(g, channel, bad[i]);
            expect_number(g, REF_BAD_ADDRESS);
        }
        for (size_t i = 0; i < sizeof good / sizeof good[0]; i++) {
            name_playlist(g, channel, good[i]);
            expect_number(g, MOTHER_ODD_TRANSPOSE);
        }
        name_playlist(g, channel, 0xFF00);
        expect_number(g, REF_NO_CHANNEL);
    }
    free_game(g);
}

static void test_header_transpose(void)
{
    game *g = new_game();
    play_block(g, 2, "00");
    for (uint32_t byte = 0; byte < 256; byte++) {
        int odd = byte < 0x80 ? byte % 2 == 1 : byte % 2 == 0;
        set_header(g, (uint8_t)byte, 0xFF);
        if (odd)
            expect_number(g, MOTHER_ODD_TRANSPOSE);
        else
            expect_started(g);
    }
    free_game(g);
}

void test_headers(void)
{
    test_sizes();
    test_places();
    test_header_place();
    test_across();
    test_playlist_addresses();
    test_header_transpose();
}
