/* Playlists, and the most commands of a frame. */
#include "game.h"

#define IDLE_BLOCK 0x9A00u
#define LAST_BLOCK 0x9C00u

/* A playlist's words are refused after so many commands. */
static void refused(game *g, uint32_t count)
{
    expect_refused(g, 0, MOTHER_BAD_PLAYLIST, 1, 0, 0, count);
}

static void test_words(void)
{
    static const uint16_t outside[] = { 0x0100, 0x7FFF, 0xC000, 0xFEFF };
    game *g = new_game();
    game_hex(g, BLOCK_OF(1), "FF 00");
    for (size_t i = 0; i < sizeof outside / sizeof outside[0]; i++) {
        PLAYLIST(g, 1, outside[i], END_WORD);
        refused(g, 0);
        PLAYLIST(g, 1, (uint16_t)BLOCK_OF(1), outside[i], END_WORD);
        refused(g, 3);
        PLAYLIST(g, 1, GOTO_WORD, outside[i]);
        refused(g, 0);
    }
    PLAYLIST(g, 1, (uint16_t)BLOCK_OF(1), GOTO_WORD, 0x0000);
    refused(g, 3);
    PLAYLIST(g, 1, 0x00FF);
    expect_ended(g, 0, 1, 1);
    PLAYLIST(g, 1, (uint16_t)BLOCK_OF(1), 0x0080);
    expect_ended(g, 0, 1, 4);
    PLAYLIST(g, 1, 0xFF12, (uint16_t)(LIST_OF(1) + 4), END_WORD);
    expect_ended(g, 0, 1, 2);
    free_game(g);
}

/* Words and gotos that the banks' end cuts. */
static void test_cut_words(void)
{
    game *g = new_game();
    game_hex(g, BLOCK_OF(1), "00");
    name_playlist(g, 1, 0xBFFF);
    refused(g, 0);
    name_playlist(g, 1, 0xBFFE);
    game_word(g, 0xBFFE, BLOCK_OF(1));
    refused(g, 2);
    game_word(g, 0xBFFE, END_WORD);
    expect_ended(g, 0, 1, 1);
    game_word(g, 0xBFFE, GOTO_WORD);
    refused(g, 0);
    name_playlist(g, 1, 0xBFFD);
    game_word(g, 0xBFFD, GOTO_WORD);
    refused(g, 0);
    name_playlist(g, 1, 0xBFFC);
    put_goto(g, 0xBFFC, 0xBFFF);
    refused(g, 1);
    /* its own address as a block: FE BF */
    put_goto(g, 0xBFFC, 0xBFFE);
    expect_refused(g, 0, REF_PAST_DATA, 1, 2, 0xC000, 3);
    put_goto(g, 0x9FFD, 0x8FFF);
    game_word(g, 0x8FFF, END_WORD);
    name_playlist(g, 1, 0x9FFD);
    expect_ended(g, 0, 1, 2);
    free_game(g);
}

static void test_gotos(void)
{
    game *g = new_game();
    game_hex(g, BLOCK_OF(1), "00");
    PLAYLIST(g, 1, GOTO_WORD, (uint16_t)LIST_OF(1));
    refused(g, 1);
    PLAYLIST(g, 1, GOTO_WORD, (uint16_t)(LIST_OF(1) + 4), GOTO_WORD, 0x0000);
    refused(g, 1);
    PLAYLIST(g, 1, (uint16_t)BLOCK_OF(1), GOTO_WORD, (uint16_t)(LIST_OF(1) + 6), GOTO_WORD, (uint16_t)LIST_OF(1));
    refused(g, 3);
    PLAYLIST(g, 1, GOTO_WORD, (uint16_t)(LIST_OF(1) + 4), (uint16_t)BLOCK_OF(1), GOTO_WORD,
             (uint16_t)(LIST_OF(1) + 10), END_WORD);
    expect_ended(g, 0, 1, 5);
    free_game(g);
}

/* 256 block words in a row, and a 257th; a goto begins a new row. */
static void test_row(void)
{
    game *g = new_game();
    game_hex(g, BLOCK_OF(1), "00");
    name_playlist(g, 1, LONG_LIST);
    uint32_t after = put_words(g, LONG_LIST, 256, BLOCK_OF(1));
    game_word(g, after, END_WORD);
    expect_ended(g, 0, 1, 513);
    game_word(g, after, BLOCK_OF(1));
    refused(g, 512);
    put_goto(g, after, OTHER_LIST);
    after = put_words(g, OTHER_LIST, 256, BLOCK_OF(1));
    game_word(g, after, END_WORD);
    expect_ended(g, 0, 1, 512 + 1 + 513);
    game_word(g, after, BLOCK_OF(1));
    refused(g, 512 + 1 + 512);
    free_game(g);
}

/* The row is counted on from frame to frame. */
static void test_row_of_notes(void)
{
    game *g = new_game();
    mother_player player;
    game_hex(g, BLOCK_OF(1), "BB 20 00");
    name_playlist(g, 1, LONG_LIST);
    put_words(g, LONG_LIST, 257, BLOCK_OF(1));
    play_frames(g, 256, &player);
    CHECK(player.channels[1].row == 256 && player.channels[1].list == LONG_LIST + 512);
    expect_refused(g, 256, MOTHER_BAD_PLAYLIST, 1, 0, 0, 1);
    free_game(g);
}

/* Three blocks of 127 times C0 FF, each 32,641 commands with its word, and the last block's word: 97,924. */
static game *idle_game(void)
{
    game *g = new_game();
    for (uint32_t i = 0; i < 127; i++)
        game_hex(g, IDLE_BLOCK + 2 * i, "C0 FF");
    PLAYLIST(g, 1, IDLE_BLOCK, IDLE_BLOCK, IDLE_BLOCK, LAST_BLOCK, END_WORD);
    return g;
}

/* The last block: 2,056 commands, those of these bytes, and what follows. */
static void put_last(game *g, uint32_t block, const char *hex)
{
    for (uint32_t i = 0; i < 8; i++)
        game_hex(g, block + 2 * i, "C0 FF");
    game_hex(g, block + 16, hex);
}

static void expect_too_many(game *g, uint32_t offset)
{
    expect_refused(g, 0, MOTHER_TOO_MANY_COMMANDS, 1, offset, 0, 100000);
}

/* The 100,000th command is read, the 100,001st is not, whatever it is. 20 commands: D3 FF. */
static void test_most_commands(void)
{
    game *g = idle_game();
    mother_player player;
    uint32_t answer[MOTHER_ANSWER_WORDS];
    put_last(g, LAST_BLOCK, "D2 FF B0 20");
    CHECK(start_game(g, &player) == 0);
    CHECK(step_game(g, &player, answer) == 0);
    CHECK(answer[0] == REF_EVENTS && answer[2] == 100000 && player.channels[1].left == 5);
    put_last(g, LAST_BLOCK, "D1 FF 00");
    expect_ended(g, 0, 1, 100000);
    put_last(g, LAST_BLOCK, "D2 FF A1");
    expect_refused(g, 0, REF_NO_COMMAND, 1, 18, LAST_BLOCK + 18, 99999);
    put_last(g, LAST_BLOCK, "D3 FF B0 20");
    expect_too_many(g, 18);
    put_last(g, LAST_BLOCK, "D3 FF A1");
    expect_too_many(g, 18);
    put_last(g, LAST_BLOCK, "D3 FF 00");
    expect_too_many(g, 18);
    put_last(g, LAST_BLOCK, "D4 FF 00");
    expect_too_many(g, 17);
    put_last(g, LAST_BLOCK, "D2 FF 00");
    expect_too_many(g, 0);
    game_word(g, LIST_OF(1) + 8, 0x0100);
    expect_too_many(g, 0);
    free_game(g);
}

/* 21 comes before 15 at a bank's end. */
static void test_most_before_end(void)
{
    game *g = idle_game();
    game_word(g, LIST_OF(1) + 6, MOTHER_BANK_A - 18);
    put_last(g, MOTHER_BANK_A - 18, "D3 FF");
    expect_too_many(g, 18);
    put_last(g, MOTHER_BANK_A - 18, "D2 FF");
    expect_refused(g, 0, REF_PAST_DATA, 1, 18, MOTHER_BANK_A, 99999);
    free_game(g);
}

/* A goto and a block without a note: the track has no end. Each channel has its own count. */
static void test_endless(void)
{
    game *g = new_game();
    play_block(g, 0, "B0 20 00");
    game_hex(g, BLOCK_OF(3), "9E 18 00");
    PLAYLIST(g, 3, (uint16_t)BLOCK_OF(3), GOTO_WORD, (uint16_t)LIST_OF(3));
    expect_refused(g, 0, MOTHER_TOO_MANY_COMMANDS, 3, 0, 0, 100000);
    game_hex(g, BLOCK_OF(3), "00");
    expect_refused(g, 0, MOTHER_TOO_MANY_COMMANDS, 3, 0, 0, 100000);
    game_hex(g, BLOCK_OF(3), "9E 18 FF 00");
    expect_refused(g, 0, MOTHER_TOO_MANY_COMMANDS, 3, 0, 0, 100000);
    free_game(g);
}

void test_playlists(void)
{
    test_words();
    test_cut_words();
    test_gotos();
    test_row();
    test_row_of_notes();
    test_most_commands();
    test_most_before_end();
    test_endless();
}
