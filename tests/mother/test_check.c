/* The check's verdicts, worked out by hand from the papers. */
#include "game.h"

#define UNTOUCHED 0xEEEEEEEEu

enum { MOST_ROOM = MOTHER_VERDICT_WORDS + 1, LENT = MOST_ROOM + 2 };

/* A word, where one is wanted of an address. */
#define BLOCK_WORD(channel) ((uint16_t)BLOCK_OF(channel))

/* These words are written as far as they fit, whatever room is lent, and nothing else. */
static void expect_words(game *g, uint32_t number, const uint32_t *words, size_t count)
{
    for (size_t room = 0; room <= MOST_ROOM; room++) {
        uint32_t verdict[LENT];
        for (size_t i = 0; i < LENT; i++)
            verdict[i] = UNTOUCHED;
        CHECK(check_game(g, verdict, room) == number);
        for (size_t i = 0; i < LENT; i++)
            CHECK(verdict[i] == (i < room && i < count ? words[i] : UNTOUCHED));
    }
}

/* 0, or a number that is told without a place. */
static void expect_alone(game *g, uint32_t number)
{
    expect_words(g, number, NULL, 0);
}

static void passes(game *g)
{
    expect_alone(g, 0);
}

/* A fault of the block. */
static void expect_at(game *g, uint32_t number, int channel, uint32_t place, uint32_t block, uint32_t offset)
{
    uint32_t address = number >= REF_NO_COMMAND && number <= REF_PAST_DATA ? block + offset : 0;
    const uint32_t words[MOTHER_VERDICT_WORDS] = { (uint32_t)channel, offset, place, address };
    expect_words(g, number, words, MOTHER_VERDICT_WORDS);
}

/* One of a playlist's word. */
static void expect_bad_word(game *g, int channel, uint32_t place)
{
    expect_at(g, MOTHER_BAD_PLAYLIST, channel, place, 0, 0);
}

/* A pass (0), or a fault of the first block that the channel names. */
static void expect_first(game *g, uint32_t number, int channel, uint32_t block, uint32_t offset)
{
    if (number == 0)
        passes(g);
    else
        expect_at(g, number, channel, 0, block, offset);
}

/* The same of the block that play_block puts; the game is over then. */
static void expect_played(game *g, uint32_t number, int channel, uint32_t offset)
{
    expect_first(g, number, channel, BLOCK_OF(channel), offset);
    free_game(g);
}

/* A channel's one block, and the track's verdict: a pass (0), or a fault at the offset. */
typedef struct { int channel; const char *hex; uint32_t number, offset; } sample;

static const sample samples[] = {
    /* a note or rest, and what stands behind the 00 */
    { 0, "B0 20 00", 0, 0 }, { 1, "B0 00 00", 0, 0 }, { 2, "B0 02 00 9D", 0, 0 }, { 3, "B0 01 00 9C", 0, 0 },
    { 3, "B0 9C 00", 0, 0 }, { 3, "B0 DC C1 41 00", 0, 0 }, { 0, "B0 84 00", 0, 0 }, { 0, "C0 B0 20 FF FF 00", 0, 0 },
    /* 22 */
    { 0, "00", 22, 0 }, { 1, "9E 18 FF 00", 22, 3 }, { 2, "9F 00 00 C2 FF 00", 22, 5 }, { 3, "9C 02 00 04", 22, 2 },
    /* 10 */
    { 0, "B0 20 9D", 10, 2 }, { 1, "AF", 10, 0 }, { 2, "B0 20 9E 18 81", 10, 4 }, { 3, "B0 04 9F 00 00", 10, 2 },
    /* 11 of what no transpose makes a key or preset */
    { 0, "B0 20 7F", 11, 2 }, { 1, "01", 11, 0 }, { 2, "B0 21 00", 11, 1 }, { 2, "B0 FF 00", 11, 1 },
    { 3, "B0 00 00", 11, 1 }, { 3, "03", 11, 0 }, { 3, "B0 9F 00", 11, 1 }, { 3, "B0 04 9D", 11, 2 },
    /* 11 under some transpose, wherever it stands */
    { 0, "B0 86 00", 11, 1 }, { 0, "B0 20 AE 00", 11, 2 }, { 0, "9C 02 B0 84 00", 11, 3 },
    { 0, "B0 84 9C 02 20 00", 11, 1 }, { 1, "9C 83 B0 88 00", 11, 3 }, { 2, "9C FF B0 84 20 00", 11, 4 },
    { 1, "9C 81 B0 00 00", 11, 3 }, { 2, "9C 85 B0 04 00", 11, 3 }, { 1, "9C 83 B0 04 00", 0, 0 },
    { 0, "9C 7E B0 06 00", 0, 0 }, { 0, "9C 7E B0 08 00", 11, 3 }, { 0, "9C 7E 9C FF B0 02 02 00", 0, 0 },
    { 3, "9C 7E 9C FF B0 1C 04 00", 0, 0 }, { 0, "9C 81 9C 02 B0 84 00", 11, 5 },
    { 0, "9C 02 9C 83 9C 81 B0 02 00", 0, 0 },
    /* 12 and 13 under some window, and both */
    { 0, "9E 59 BF 20 00", 12, 2 }, { 0, "9E 58 BF 20 00", 0, 0 }, { 3, "BF 04 9E 59 04 00", 12, 0 },
    { 1, "9E FF B0 20 00", 12, 2 }, { 2, "BE 20 00", 13, 0 }, { 3, "9E 00 BE 04 00", 13, 2 },
    { 0, "B2 20 9E 24 20 00", 13, 0 }, { 0, "B3 20 9E 24 20 00", 0, 0 }, { 0, "9E 60 BE 20 00", 12, 2 },
    { 0, "9E 26 9E 68 B0 20 00", 12, 4 }, { 0, "9E 28 9E 59 BF 20 00", 12, 4 }, { 0, "9E 28 9E 25 B1 20 00", 13, 4 },
    /* they come before what the byte behind is */
    { 0, "BE 21 00", 13, 0 }, { 3, "9E 67 B1 03", 12, 2 }, { 0, "BE 86 00", 13, 0 },
    /* 14, and 11 of the same byte */
    { 0, "20 00", 14, 0 }, { 1, "02 B0 20 00", 14, 0 }, { 2, "C2 20 B0 20 FF 00", 14, 1 }, { 3, "41 B0 04 00", 14, 0 },
    { 3, "9C 7E 1C 00", 14, 2 }, { 0, "86 B0 20 00", 11, 0 }, { 0, "9C 02 84 B0 20 00", 11, 2 },
    { 0, "84 9C 02 B0 20 00", 11, 0 }, { 0, "20 9D", 14, 0 }, { 0, "9E 18 20 00", 14, 2 },
    /* 19, 6 and 7's place among them */
    { 0, "9C 01 B0 20 00", 19, 0 }, { 1, "B0 20 9C 80 00", 19, 2 }, { 3, "B0 04 9C 7F 00", 19, 2 },
    { 2, "9C 01 86 00", 19, 0 }, { 2, "B0 86 9C 01 00", 11, 1 }, { 0, "9F 1C 30 B0 20 00", 6, 0 },
    { 1, "B0 20 9F FF 30 9C 01 00", 6, 2 }, { 2, "9F FF 30 B0 20 00", 0, 0 }, { 0, "9F FB 30 B0 20 00", 0, 0 },
    { 0, "9F E0 9D B0 20 00", 0, 0 },
};

/* Of blocks that stand up to the end of a bank. */
static const sample last_samples[] = {
    { 0, "B0 20 00", 0, 0 }, { 0, "B0 20", 15, 2 }, { 1, "B0", 15, 1 }, { 3, "FF", 15, 1 }, { 2, "B0 20 9C", 15, 3 },
    { 3, "B0 04 9E", 15, 3 }, { 3, "BE", 13, 0 }, { 1, "9E 67 B1", 12, 2 }, { 0, "9C 01", 19, 0 }, { 2, "9F", 15, 1 },
    { 2, "9F 1F", 15, 2 }, { 0, "9F", 15, 1 }, { 0, "9F 1C", 6, 0 }, { 1, "9F 05", 15, 2 }, { 0, "20", 14, 0 },
    { 3, "9F", 10, 0 }, { 0, "B0 20 9E 59", 15, 4 }, { 0, "BF 20 9E 59", 12, 0 },
};

static void expect_sample(const sample *s, uint32_t block)
{
    game *g = new_game();
    game_hex(g, block, s->hex);
    PLAYLIST(g, s->channel, (uint16_t)block, END_WORD);
    expect_first(g, s->number, s->channel, block, s->offset);
    free_game(g);
}

static void test_blocks(void)
{
    for (size_t i = 0; i < sizeof samples / sizeof samples[0]; i++)
        expect_sample(&samples[i], BLOCK_OF(samples[i].channel));
    for (size_t i = 0; i < sizeof last_samples / sizeof last_samples[0]; i++) {
        expect_sample(&last_samples[i], MOTHER_BANK_A - hex_size(last_samples[i].hex));
        expect_sample(&last_samples[i], REF_BANK_END - hex_size(last_samples[i].hex));
    }
}

/* 256 bytes in the middle of a bank. */
static void test_limit(void)
{
    game *g = new_game();
    uint32_t block = BLOCK_OF(1);
    play_block(g, 1, "B0 20");
    for (uint32_t i = 2; i < MOTHER_BLOCK_LIMIT; i++)
        *game_at(g, block + i) = 0xFF;
    *game_at(g, block + 256) = 0x00;
    expect_at(g, REF_PAST_DATA, 1, 0, block, 256);
    *game_at(g, block + 255) = 0xB0;
    expect_at(g, REF_PAST_DATA, 1, 0, block, 256);
    *game_at(g, block + 255) = 0x00;
    passes(g);
    *game_at(g, block) = 0xFF;
    *game_at(g, block + 1) = 0xFF;
    expect_at(g, MOTHER_NO_NOTE, 1, 0, block, 255);
    free_game(g);
}

static void test_envelopes(void)
{
    static const uint16_t outside[] = { 0x0000, 0x7FFF, 0xC000, 0xFFFF };
    game *g = new_game();
    play_block(g, 1, "9E 18 9F 03 30 B0 20 00");
    for (size_t i = 0; i < sizeof outside / sizeof outside[0]; i++) {
        set_envelope(g, 3, outside[i]);
        expect_at(g, REF_BAD_ENVELOPE, 1, 0, 0, 2);
    }
    put_endless_envelope(g, 3);
    expect_at(g, REF_BAD_ENVELOPE, 1, 0, 0, 2);
    *game_at(g, LAST_OF_ENDLESS) = 0xF0;
    passes(g);
    set_envelope(g, 3, 0x7FFF);
    play_block(g, 2, "9F 03 30 B0 20 00");
    play_block(g, 1, "9F 04 30 B0 20 00");
    passes(g);
    game_hex(g, 0xBFFC, "B0 20 9F 23");
    PLAYLIST(g, 0, 0xBFFC, END_WORD);
    expect_at(g, REF_BAD_ENVELOPE, 0, 0, 0, 2);
    free_game(g);
}

/* Square 1 plays one block and another channel this one. */
typedef struct { const char *square1; int other; const char *hex; uint32_t number; int channel; uint32_t offset; } pair;

static const pair pairs[] = {
    /* a transpose or window of another channel */
    { "B0 84 00", 2, "9C 02 B0 20 00", 11, 0, 1 }, { "B0 84 00", 3, "9C 02 B0 04 00", 11, 0, 1 },
    { "B0 84 00", 1, "B0 20 9C 02 00", 11, 0, 1 }, { "B0 20 00", 2, "9C 02 B0 84 00", 11, 2, 3 },
    { "9C 02 B0 20 00", 2, "B0 84 00", 11, 2, 1 }, { "9C 02 B0 20 00", 3, "B0 DC 00", 0, 0, 0 },
    { "BF 20 00", 3, "9E 59 B0 04 00", 12, 0, 0 }, { "B2 20 00", 1, "9E 24 B0 20 00", 13, 0, 0 },
    { "9E 24 B0 20 00", 3, "B2 04 00", 13, 3, 0 },
    /* behind what does not stop the reading: 6, 12, 13, 19, 14, and 11 of what a transpose mends */
    { "B0 84 00", 1, "9F 1C 30 9C 02 B0 20 00", 11, 0, 1 }, { "B0 84 00", 1, "9E 67 B1 20 9C 02 20 00", 11, 0, 1 },
    { "B0 84 00", 1, "BE 20 9C 02 20 00", 11, 0, 1 }, { "B0 84 00", 1, "9C 01 9C 02 B0 20 00", 11, 0, 1 },
    { "B0 84 00", 1, "20 9C 02 B0 20 00", 11, 0, 1 }, { "B0 84 00", 1, "B0 86 9C 02 20 00", 11, 0, 1 },
    { "B0 84 00", 2, "AE 9C 02 B0 20 00", 11, 0, 1 }, { "B0 84 00", 1, "C0 FF FF 9C 02 00", 11, 0, 1 },
    { "BF 20 00", 1, "9C 01 9E 59 B0 20 00", 12, 0, 0 },
    /* behind what does: 11 that no transpose mends, 10, 00 */
    { "B0 84 00", 1, "B0 21 9C 02 00", 11, 1, 1 }, { "B0 84 00", 1, "7F 9C 02 B0 20 00", 11, 1, 0 },
    { "B0 84 00", 1, "B0 20 9D 9C 02 00", 10, 1, 2 }, { "B0 84 00", 3, "B0 03 9C 02 00", 11, 3, 1 },
    { "B0 84 00", 3, "B0 04 9F 9C 02 00", 10, 3, 2 }, { "B0 84 00", 1, "B0 20 00 9C 02", 0, 0, 0 },
    { "BF 20 00", 2, "B0 21 9E 59 00", 11, 2, 1 }, { "BE 21 9C 02 00", 1, "B0 84 00", 13, 0, 0 },
    /* an odd one sets nothing, nor do bytes that belong to another command */
    { "B0 84 00", 1, "9C 7F B0 20 00", 19, 1, 0 }, { "B0 84 00", 1, "B0 20 9F 00 9C 02 00", 0, 0, 0 },
    { "B0 84 00", 1, "9C FF B0 9C 02 00", 11, 1, 3 }, { "B0 84 00", 3, "B0 9C 02 00", 0, 0, 0 },
    { "B0 84 00", 1, "9E 9C 02 B0 20 00", 12, 0, 0 },
    /* the first channel's, whatever its offset and number */
    { "B0 20 22 24 9D", 1, "9C 01", 10, 0, 4 }, { "B0 20 00", 3, "9F 00", 10, 3, 0 },
    /* an end of another channel hides nothing, and each has its own first length */
    { "B0 20 00", 1, "20 00", 14, 1, 0 }, { "B0 20 00", 3, "B0 04 04 04 04 9F", 10, 3, 5 },
};

static void test_pairs(void)
{
    for (size_t i = 0; i < sizeof pairs / sizeof pairs[0]; i++) {
        game *g = new_game();
        play_block(g, 0, pairs[i].square1);
        play_block(g, pairs[i].other, pairs[i].hex);
        expect_played(g, pairs[i].number, pairs[i].channel, pairs[i].offset);
    }
}

/* What the header sets counts too, even where a block sets another one first. */
static void test_header_settings(void)
{
    static const struct { uint8_t transpose, window; sample wanted; } headers[] = {
        { 0x02, 0x18, { 0, "B0 84 00", 11, 1 } }, { 0x02, 0x18, { 0, "9C 00 B0 84 00", 11, 3 } },
        { 0x81, 0x18, { 2, "B0 00 00", 11, 1 } }, { 0x7E, 0x18, { 1, "B0 08 00", 11, 1 } },
        { 0x7E, 0x18, { 1, "B0 06 00", 0, 0 } },  { 0x7E, 0x18, { 1, "B0 02 00", 0, 0 } },
        { 0x7E, 0x18, { 3, "B0 DC 00", 0, 0 } },  { 0xFF, 0x18, { 0, "B0 80 00", 0, 0 } },
        { 0xFF, 0x18, { 0, "B0 FE 00", 0, 0 } },  { 0xFF, 0x18, { 0, "9C 00 B0 FE 00", 11, 3 } },
        { 0x00, 0x59, { 0, "BF 20 00", 12, 0 } }, { 0x00, 0x59, { 3, "9E 18 BF 04 00", 12, 2 } },
        { 0x00, 0x24, { 2, "B2 20 00", 13, 0 } }, { 0x00, 0x24, { 1, "9E 18 B2 20 00", 13, 2 } },
        { 0x00, 0x67, { 1, "B0 20 00", 0, 0 } },  { 0x00, 0x68, { 1, "B0 20 00", 12, 0 } },
    };
    for (size_t i = 0; i < sizeof headers / sizeof headers[0]; i++) {
        const sample *s = &headers[i].wanted;
        game *g = new_game();
        set_header(g, headers[i].transpose, headers[i].window);
        play_block(g, s->channel, s->hex);
        expect_played(g, s->number, s->channel, s->offset);
    }
}

/* In playing order, and in each channel by itself. */
static void test_first_length(void)
{
    game *g = new_game();
    PUT(g, { BLOCK_OF(0), "B0 20 00" }, { BLOCK_OF(1), "20 00" }, { BLOCK_OF(2), "9E 18 22 B1 20 00" });
    PLAYLIST(g, 0, BLOCK_WORD(0), BLOCK_WORD(1), BLOCK_WORD(2), END_WORD);
    passes(g);
    PLAYLIST(g, 1, BLOCK_WORD(1), BLOCK_WORD(0), END_WORD);
    expect_at(g, REF_NO_LENGTH_YET, 1, 0, BLOCK_OF(1), 0);
    PLAYLIST(g, 0, BLOCK_WORD(2), BLOCK_WORD(0), END_WORD);
    expect_at(g, REF_NO_LENGTH_YET, 0, 0, BLOCK_OF(2), 2);
    PLAYLIST(g, 0, GOTO_WORD, (uint16_t)(LIST_OF(0) + 4), BLOCK_WORD(1), BLOCK_WORD(0), GOTO_WORD,
             (uint16_t)LIST_OF(0));
    expect_at(g, REF_NO_LENGTH_YET, 0, 1, BLOCK_OF(1), 0);
    PLAYLIST(g, 0, BLOCK_WORD(0), END_WORD);
    PLAYLIST(g, 1, BLOCK_WORD(0), GOTO_WORD, (uint16_t)(LIST_OF(1) + 6), BLOCK_WORD(1), END_WORD);
    passes(g);
    free_game(g);
}

static void test_bad_words(void)
{
    static const uint16_t outside[] = { 0x0100, 0x7FFF, 0xC000, 0xFEFF };
    game *g = new_game();
    game_hex(g, BLOCK_OF(1), "B0 20 00");
    for (size_t i = 0; i < sizeof outside / sizeof outside[0]; i++) {
        PLAYLIST(g, 1, outside[i], END_WORD);
        expect_bad_word(g, 1, 0);
        PLAYLIST(g, 1, BLOCK_WORD(1), outside[i], END_WORD);
        expect_bad_word(g, 1, 1);
        PLAYLIST(g, 1, BLOCK_WORD(1), BLOCK_WORD(1), GOTO_WORD, outside[i]);
        expect_bad_word(g, 1, 2);
    }
    PLAYLIST(g, 1, GOTO_WORD, 0x0000);
    expect_bad_word(g, 1, 0);
    PLAYLIST(g, 1, 0x00FF, 0x0100);
    passes(g);
    PLAYLIST(g, 1, BLOCK_WORD(1), 0xFF12, (uint16_t)(LIST_OF(1) + 6), BLOCK_WORD(1), 0x0080, 0x0100);
    passes(g);
    free_game(g);
}

/* Words and gotos at the ends of the banks. */
static void test_cut_words(void)
{
    game *g = new_game();
    game_hex(g, BLOCK_OF(1), "B0 20 00");
    name_playlist(g, 1, 0xBFFF);
    expect_bad_word(g, 1, 0);
    name_playlist(g, 1, 0xBFFE);
    game_word(g, 0xBFFE, BLOCK_OF(1));
    expect_bad_word(g, 1, 1);
    game_word(g, 0xBFFE, END_WORD);
    passes(g);
    game_word(g, 0xBFFE, GOTO_WORD);
    expect_bad_word(g, 1, 0);
    name_playlist(g, 1, 0xBFFC);
    put_goto(g, 0xBFFC, 0xBFFF);
    expect_bad_word(g, 1, 1);
    /* its own address as a block: FE BF */
    put_goto(g, 0xBFFC, 0xBFFE);
    expect_at(g, REF_PAST_DATA, 1, 1, 0xBFFE, 2);
    name_playlist(g, 1, 0x9FFD);
    game_word(g, 0x9FFD, BLOCK_OF(1));
    put_goto(g, 0x9FFF, 0x9FFD);
    passes(g);
    free_game(g);
}

static void test_gotos(void)
{
    game *g = new_game();
    PUT(g, { BLOCK_OF(1), "B0 20 00" }, { BLOCK_OF(2), "B0 20 9D" });
    PLAYLIST(g, 1, GOTO_WORD, (uint16_t)LIST_OF(1));
    expect_bad_word(g, 1, 1);
    PLAYLIST(g, 1, BLOCK_WORD(1), GOTO_WORD, (uint16_t)(LIST_OF(1) + 6), GOTO_WORD, (uint16_t)LIST_OF(1));
    expect_bad_word(g, 1, 2);
    /* what a goto leads to is looked at once: from the start, from the middle, and where two gotos lead in turn */
    PLAYLIST(g, 1, BLOCK_WORD(1), GOTO_WORD, (uint16_t)LIST_OF(1));
    passes(g);
    PLAYLIST(g, 1, BLOCK_WORD(1), BLOCK_WORD(1), GOTO_WORD, (uint16_t)(LIST_OF(1) + 2));
    passes(g);
    PLAYLIST(g, 1, BLOCK_WORD(1), GOTO_WORD, (uint16_t)(LIST_OF(1) + 6), BLOCK_WORD(1), GOTO_WORD,
             (uint16_t)LIST_OF(1));
    passes(g);
    /* an end is one also where a goto leads to it */
    PLAYLIST(g, 1, GOTO_WORD, (uint16_t)(LIST_OF(1) + 4), END_WORD);
    passes(g);
    /* a goto is a place, as a block word is */
    PLAYLIST(g, 1, GOTO_WORD, (uint16_t)(LIST_OF(1) + 6), BLOCK_WORD(2), BLOCK_WORD(1), GOTO_WORD,
             (uint16_t)(LIST_OF(1) + 12), BLOCK_WORD(1), BLOCK_WORD(2), GOTO_WORD, (uint16_t)(LIST_OF(1) + 4));
    expect_at(g, REF_NO_COMMAND, 1, 4, BLOCK_OF(2), 2);
    PLAYLIST(g, 1, BLOCK_WORD(1), GOTO_WORD, (uint16_t)(LIST_OF(1) + 8), BLOCK_WORD(2), BLOCK_WORD(1), GOTO_WORD,
             (uint16_t)(LIST_OF(1) + 6));
    expect_at(g, REF_NO_COMMAND, 1, 4, BLOCK_OF(2), 2);
    free_game(g);
}

/* 256 block words in a row, and a 257th; a goto begins a new row, also one that leads into the same words. */
static void test_row(void)
{
    game *g = new_game();
    game_hex(g, BLOCK_OF(1), "B0 20 00");
    name_playlist(g, 1, LONG_LIST);
    uint32_t after = put_words(g, LONG_LIST, 256, BLOCK_OF(1));
    game_word(g, after, END_WORD);
    passes(g);
    put_goto(g, after, LONG_LIST);
    passes(g);
    game_word(g, after, 0x0100);
    expect_bad_word(g, 1, 256);
    after = put_words(g, after, 1, BLOCK_OF(1));
    game_word(g, after, END_WORD);
    expect_bad_word(g, 1, 256);
    name_playlist(g, 1, LONG_LIST + 2);
    passes(g);
    put_goto(g, after, LONG_LIST);
    expect_bad_word(g, 1, 256 + 1 + 256);
    put_goto(g, after, OTHER_LIST);
    after = put_words(g, OTHER_LIST, 256, BLOCK_OF(1));
    put_goto(g, after, LONG_LIST + 2);
    passes(g);
    put_words(g, after, 1, BLOCK_OF(1));
    expect_bad_word(g, 1, 256 + 1 + 256);
    free_game(g);
}

/* Gotos, each to the next block word, and a fault behind the last. */
static void test_many_gotos(void)
{
    enum { GOTOS = 1000 };
    game *g = new_game();
    uint32_t at = LONG_LIST - 0x800;
    PUT(g, { BLOCK_OF(1), "B0 04 00" }, { BLOCK_OF(2), "B0 04 9C 03 00" });
    name_playlist(g, 3, at);
    for (int i = 0; i < GOTOS; i++) {
        at = put_words(g, at, 1, BLOCK_OF(1));
        at = put_goto(g, at, at + 4);
    }
    put_goto(g, put_words(g, at, 1, BLOCK_OF(1)), LONG_LIST - 0x800);
    passes(g);
    game_word(g, at, BLOCK_OF(2));
    expect_at(g, MOTHER_ODD_TRANSPOSE, 3, 2 * GOTOS, 0, 2);
    game_word(g, at, 0x0100);
    expect_bad_word(g, 3, 2 * GOTOS);
    free_game(g);
}

/* By channel, then by place, then by offset. */
static void test_order(void)
{
    game *g = new_game();
    PUT(g, { BLOCK_OF(0), "B0 20 22 00" }, { BLOCK_OF(1), "B0 20 22 24 9F 1C 00 00" }, { BLOCK_OF(2), "9C 01 9D" },
        { BLOCK_OF(3), "9E 18 00" });
    PLAYLIST(g, 1, BLOCK_WORD(2), END_WORD);
    PLAYLIST(g, 0, BLOCK_WORD(0), BLOCK_WORD(0), 0x0100);
    expect_bad_word(g, 0, 2);
    PLAYLIST(g, 0, BLOCK_WORD(0), BLOCK_WORD(1), BLOCK_WORD(2), 0x0100);
    expect_at(g, REF_BAD_ENVELOPE_NUMBER, 0, 1, 0, 4);
    PLAYLIST(g, 0, BLOCK_WORD(0), BLOCK_WORD(3), BLOCK_WORD(1), END_WORD);
    expect_at(g, MOTHER_NO_NOTE, 0, 1, 0, 2);
    PLAYLIST(g, 0, BLOCK_WORD(0), END_WORD);
    expect_at(g, MOTHER_ODD_TRANSPOSE, 1, 0, 0, 0);
    PLAYLIST(g, 1, END_WORD, BLOCK_WORD(2));
    passes(g);
    free_game(g);
}

/* Blocks before a bad word are named, blocks behind it or behind an end are not; nor those of an unused channel. */
static void test_named_blocks(void)
{
    game *g = new_game();
    play_block(g, 0, "B0 84 00");
    game_hex(g, BLOCK_OF(1), "9C 02 B0 20 00");
    PLAYLIST(g, 1, BLOCK_WORD(1), 0x0100);
    expect_at(g, REF_NO_SUCH_KEY, 0, 0, BLOCK_OF(0), 1);
    PLAYLIST(g, 1, 0x0100, BLOCK_WORD(1), END_WORD);
    expect_bad_word(g, 1, 0);
    PLAYLIST(g, 1, END_WORD, BLOCK_WORD(1));
    passes(g);
    PLAYLIST(g, 1, BLOCK_WORD(0), GOTO_WORD, (uint16_t)(LIST_OF(1) + 6), BLOCK_WORD(1), 0x0100);
    expect_at(g, REF_NO_SUCH_KEY, 0, 0, BLOCK_OF(0), 1);
    name_playlist(g, 1, 0xFF00 + 0x40);
    passes(g);
    /* the same block twice, by channels of both kinds */
    game_hex(g, BLOCK_OF(0), "B0 10 00");
    PLAYLIST(g, 3, BLOCK_WORD(0), BLOCK_WORD(0), END_WORD);
    passes(g);
    game_hex(g, BLOCK_OF(0), "B0 10 20 00");
    expect_at(g, REF_NO_SUCH_KEY, 3, 0, BLOCK_OF(0), 2);
    free_game(g);
}

/* 126 times C0 FF: 32,382 commands. Returns the address after them. */
static uint32_t put_idle(game *g, uint32_t address)
{
    for (uint32_t after = address + 2 * 126; address < after; address += 2)
        game_hex(g, address, "C0 FF");
    return address;
}

/* The most that a channel reads from one note to the next in a track that passes: it is never refused for 21. */
static void test_most_idle(void)
{
    game *g = new_game();
    mother_player player;
    uint32_t answer[MOTHER_ANSWER_WORDS];
    game_hex(g, BLOCK_OF(0), "BB 20");
    game_hex(g, put_idle(g, BLOCK_OF(0) + 2), "00");
    game_hex(g, put_idle(g, BLOCK_OF(1)), "BB 20 00");
    PLAYLIST(g, 0, BLOCK_WORD(0), GOTO_WORD, (uint16_t)(LIST_OF(0) + 6), BLOCK_WORD(1), GOTO_WORD,
             (uint16_t)LIST_OF(0));
    passes(g);
    play_frames(g, 1, &player);
    CHECK(step_game(g, &player, answer) == 0);
    CHECK(answer[REF_ANSWER_COUNTS] == 2 * 32382 + 4);
    play_frames(g, 20, &player);
    free_game(g);
}

/* 1 to 4, 8, 9 and the header's 19 come before all faults, without a place. */
static void test_alone(void)
{
    game *g = new_game();
    play_block(g, 0, "9C 01 9D");
    expect_at(g, MOTHER_ODD_TRANSPOSE, 0, 0, 0, 0);
    set_header(g, 0x01, 0x18);
    expect_alone(g, MOTHER_ODD_TRANSPOSE);
    name_playlist(g, 3, 0xC000);
    expect_alone(g, REF_BAD_ADDRESS);
    name_playlist(g, 3, 0xFFFF);
    name_playlist(g, 0, 0xFFFF);
    expect_alone(g, REF_NO_CHANNEL);
    *game_at(g, g->places.header_offsets + 23) = 1;
    g->places.header_block = 0xC000 - 10;
    g->track = 23;
    expect_alone(g, REF_BAD_HEADER);
    g->track = 24;
    expect_alone(g, REF_BAD_TRACK);
    g->places.track_count = 256;
    expect_alone(g, REF_BAD_PLACES);
    g->banka_len--;
    expect_alone(g, REF_BAD_BANK_SIZE);
    g->banka_len++;
    g->bank8_len--;
    expect_alone(g, REF_BAD_BANK_SIZE);
    free_game(g);
}

void test_check(void)
{
    test_blocks();
    test_limit();
    test_envelopes();
    test_pairs();
    test_header_settings();
    test_first_length();
    test_bad_words();
    test_cut_words();
    test_gotos();
    test_row();
    test_many_gotos();
    test_order();
    test_named_blocks();
    test_most_idle();
    test_alone();
}
