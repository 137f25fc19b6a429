/* The examples of document 003. */
#include "game.h"

#include <string.h>

/* The note or rest that began so many frames before, in all its frames; `count`: commands in the first of them. */
static void expect_part(game *g, mother_player *player, int channel, uint32_t frames, uint32_t count,
                        const uint32_t wanted[MOTHER_PART_WORDS])
{
    uint32_t part[MOTHER_PART_WORDS];
    memcpy(part, wanted, sizeof part);
    for (uint32_t i = 0; i < frames; i++) {
        uint32_t answer[MOTHER_ANSWER_WORDS];
        part[1] = i == 0;
        CHECK(step_game(g, player, answer) == 0);
        CHECK(answer[REF_ANSWER_COUNTS + channel] == (i == 0 ? count : 0));
        CHECK(part_is(answer, channel, part));
    }
}

/* 81 0C 8F 99 97 99 9F 99 A7 99: transpose -2, 180 BPM, four playlists. */
static void test_header(void)
{
    game *g = new_game();
    mother_player player;
    PUT(g, { HEADER, "81 0C 8F 99 97 99 9F 99 A7 99" }, { 0x998F, "AF 99" }, { 0x9997, "BF 99" },
        { 0x999F, "CF 99" }, { 0x99A7, "DF 99" }, { 0x99AF, "B0 1A" }, { 0x99BF, "B1 1A" }, { 0x99CF, "B2 1A" },
        { 0x99DF, "B3 04" });
    CHECK(start_game(g, &player) == 0);
    CHECK(player.transpose == 0x81 && player.window == 0x0C);
    expect_part(g, &player, 0, 5, 2, PART(REF_NOTE, 1, 0x0C, period_of_key(0x0C), 0x10, 0));
    CHECK(player.channels[1].left == 5 && player.channels[2].left == 15 && player.channels[3].left == 35);
    CHECK(player.channels[2].list == 0x99A1 && player.channels[2].row == 1 && player.channels[2].block == 0x99CF);
    free_game(g);
}

/* Square 1 ends the track; square 2's playlist has no end. */
static void test_victory(void)
{
    game *g = new_game();
    PUT(g, { HEADER, "00 18 5A 99 5E 99 FF FF FF FF" }, { 0x995A, "62 99 00 00" }, { 0x995E, "71 99" },
        { 0x9962, "B1 20 00" }, { 0x9971, "B0 20 22 00" });
    expect_ended(g, 12, 0, 2);
    free_game(g);
}

static void expect_blocks(game *g, mother_player *player, uint32_t frames, uint32_t square1, uint32_t square2)
{
    uint32_t answer[MOTHER_ANSWER_WORDS];
    for (uint32_t i = 0; i < frames; i++) {
        CHECK(step_game(g, player, answer) == 0);
        CHECK(answer[0] == REF_EVENTS);
        CHECK(player->channels[0].block == square1 && player->channels[1].block == square2);
    }
}

/* The playlists at $b0f8, $b100 and $b108: both squares come to $b102, until the triangle ends the track. */
static void test_game_over(void)
{
    game *g = new_game();
    mother_player player;
    uint32_t answer[MOTHER_ANSWER_WORDS];
    PUT(g, { HEADER, "00 18 F8 B0 00 B1 08 B1 FF FF" }, { 0xB0F8, "0C B1 15 B1 FF FF 02 B1" },
        { 0xB100, "12 B1 1F B1 FF FF 02 B1" }, { 0xB108, "2F B1 00 00" }, { 0xB10C, "B0 20 00" },
        { 0xB112, "BB 22 00" }, { 0xB115, "BC 24 00" }, { 0xB11F, "B1 26 00" }, { 0xB12F, "C2 B2 28 FF 00" });
    CHECK(start_game(g, &player) == 0);
    expect_blocks(g, &player, 1, 0xB10C, 0xB112);
    expect_blocks(g, &player, 5, 0xB10C, 0xB11F);
    expect_blocks(g, &player, 4, 0xB115, 0xB11F);
    CHECK(player.channels[0].row == 2 && player.channels[0].list == 0xB0FC && player.channels[1].row == 2);
    expect_blocks(g, &player, 38, 0xB11F, 0xB11F);
    CHECK(player.channels[0].row == 1 && player.channels[0].list == 0xB104 && player.channels[1].row == 1);
    CHECK(step_game(g, &player, answer) == 0);
    CHECK(answer[0] == REF_END && answer[1] == 0 && answer[2] == 0 && answer[3] == 3);
    free_game(g);
}

/* A track at 90 BPM of one channel with one block. */
static game *game_at_90(int channel, const char *hex)
{
    game *g = new_game();
    set_header(g, 0, 0x4C);
    play_block(g, channel, hex);
    return g;
}

/* 18 times three quarter notes and two 8ths; volume envelope $13, duty 12.5%, pitch envelope 5. */
static void test_square(void)
{
    game *g = game_at_90(0, "9F B3 31 D2 B2 1A 1A 1A B1 1A 1C FF 00");
    mother_player player;
    uint32_t answer[MOTHER_ANSWER_WORDS];
    const char *volumes = published_envelopes[0x13 - 1].volumes;
    CHECK(start_game(g, &player) == 0);
    for (uint32_t n = 0; n < 160; n++) {
        uint32_t index = n < 120 ? n % 40 : n % 20;
        uint32_t key = n < 140 ? 0x0D : 0x0E;
        uint32_t volume = (uint32_t)(volumes[index] - '0');
        CHECK(step_game(g, &player, answer) == 0);
        CHECK(part_is(answer, 0, PART(REF_NOTE, index == 0, key, period_of_key(key), 0x30 | volume, 5)));
    }
    expect_ended(g, 18 * 160, 0, 3);
    free_game(g);
}

static void test_triangle(void)
{
    game *g = game_at_90(2, "9F A0 00 B7 24 B0 02 00");
    mother_player player;
    CHECK(start_game(g, &player) == 0);
    expect_part(g, &player, 2, 30, 3, PART(REF_NOTE, 1, 0x12, period_of_key(0x12), REF_RELEASE_NEVER, 5));
    expect_part(g, &player, 2, 10, 1, PART(REF_REST, 1, 0, 0, 0, 5));
    set_header(g, 0, 0x28);
    play_block(g, 2, "9F 0A 00 B3 24 9E 18 9F 00 00 B3 26 B1 28 00");
    CHECK(start_game(g, &player) == 0);
    expect_part(g, &player, 2, 56, 3, PART(REF_NOTE, 1, 0x12, period_of_key(0x12), 10, 0));
    expect_part(g, &player, 2, 48, 3, PART(REF_NOTE, 1, 0x13, period_of_key(0x13), 4 * 15, 0));
    expect_part(g, &player, 2, 12, 1, PART(REF_NOTE, 1, 0x14, period_of_key(0x14), 4 * 11, 0));
    free_game(g);
}

static void test_noise(void)
{
    game *g = game_at_90(3, "D4 B2 41 44 41 07 FF 00");
    mother_player player;
    CHECK(start_game(g, &player) == 0);
    for (uint32_t play = 0; play < 20; play++) {
        expect_part(g, &player, 3, 40, play == 0 ? 3 : 2, PART(REF_REST, 1, 0, 0, 0, 1));
        expect_part(g, &player, 3, 40, 1, PART(REF_NOTE, 1, preset_byte(4), preset_byte(5), preset_byte(6), 1));
        expect_part(g, &player, 3, 40, 1, PART(REF_REST, 1, 0, 0, 0, 1));
        expect_part(g, &player, 3, 40, 1, PART(REF_NOTE, 1, preset_byte(7), preset_byte(8), preset_byte(9), 0));
    }
    expect_ended(g, 20 * 160, 3, 3);
    free_game(g);
}

/* Each preset and DMC code, also those that only set length reaches. */
static void test_presets(void)
{
    static const uint8_t presets[] = { 2, 4, 7, 0x0A, 0x0D, 0x10, 0x13, 0x16, 0x19, 0x1C };
    static const uint32_t drums[] = { 0, 1, 2, 0 };
    game *g = new_game();
    play_block(g, 3, "BB 01 00");
    for (size_t i = 0; i < sizeof presets; i++) {
        for (uint8_t code = 0; code < 4; code++) {
            uint8_t p = presets[i];
            mother_player player;
            *game_at(g, BLOCK_OF(3) + 1) = (uint8_t)(64 * code + p);
            CHECK(start_game(g, &player) == 0);
            expect_part(g, &player, 3, 1, 2,
                        PART(REF_NOTE, 1, preset_byte(p), preset_byte(p + 1u), preset_byte(p + 2u), drums[code]));
        }
    }
    free_game(g);
}

/* 9C 8D: -7 semitones. 9C 83: a 06 is a rest then. */
static void test_transpose(void)
{
    game *g = new_game();
    mother_player player;
    play_block(g, 0, "9C 8D B0 1A 02 9C 83 06 9C 02 00");
    CHECK(start_game(g, &player) == 0);
    expect_part(g, &player, 0, 6, 3, PART(REF_NOTE, 1, 6, period_of_key(6), 0x10, 0));
    expect_part(g, &player, 0, 6, 1, PART(REF_REST, 1, 0, 0, 0x10, 0));
    CHECK(player.transpose == 0x8D);
    expect_part(g, &player, 0, 6, 2, PART(REF_REST, 1, 0, 0, 0x10, 0));
    CHECK(player.transpose == 0x83 && player.channels[0].sounding == 2);
    free_game(g);
}

/* In a note of 144 frames: its volumes, then C or $10, with these duty bits. */
static void expect_envelope(uint32_t number, uint8_t ctrl)
{
    game *g = new_game();
    mother_player player;
    const published_envelope *envelope = &published_envelopes[number - 1];
    uint32_t then = envelope->last == 0xFF && ctrl != 0 ? ctrl : 0x10;
    play_block(g, 1, "9F 00 00 BF 20 00");
    *game_at(g, BLOCK_OF(1) + 1) = (uint8_t)number;
    *game_at(g, BLOCK_OF(1) + 2) = ctrl;
    CHECK(start_game(g, &player) == 0);
    for (uint32_t i = 0; i < 144; i++) {
        uint32_t answer[MOTHER_ANSWER_WORDS];
        uint32_t wanted = then;
        if (i < strlen(envelope->volumes)) {
            const char digit = envelope->volumes[i];
            wanted = (ctrl & 0xF0u) | (uint32_t)(digit <= '9' ? digit - '0' : digit - 'a' + 10);
        }
        CHECK(step_game(g, &player, answer) == 0);
        CHECK(part_is(answer, 1, PART(REF_NOTE, i == 0, 0x10, period_of_key(0x10), wanted, 0)));
    }
    free_game(g);
}

static void test_envelopes(void)
{
    for (uint32_t number = 1; number <= ENVELOPES; number++) {
        expect_envelope(number, 0xB3);
        expect_envelope(number, 0x00);
    }
}

void test_examples(void)
{
    test_header();
    test_victory();
    test_game_over();
    test_square();
    test_triangle();
    test_noise();
    test_presets();
    test_transpose();
    test_envelopes();
}
