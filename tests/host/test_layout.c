/* The record as C sees it and as the library writes it. */
#include "host_test.h"
#include "layout.h"
#include "setup_mother.h"

#include <string.h>

/* The words of verdict, answer and change, as the paper numbers them; the independent ones are the same. */
static void test_words_told(void)
{
    EXPECT(HEM_PASS_FRAME == 0 && HEM_PASS_CHANNEL == 1);
    EXPECT(HEM_FAULT_CHANNEL == 0 && HEM_FAULT_OFFSET == 1 && HEM_FAULT_FRAME == 2 && HEM_FAULT_ADDRESS == 3);
    EXPECT(HEM_VERDICT_WORDS == 4);
    EXPECT(HEM_ANSWER_KIND == 0 && HEM_ANSWER_COUNTS == 1);
    EXPECT(HEM_ANSWER_CHANNEL == 5 && HEM_ANSWER_OFFSET == 6 && HEM_ANSWER_ADDRESS == 7);
    EXPECT(HEM_ANSWER_LEFT == 8 && HEM_ANSWER_PARTS == 9 && HEM_ANSWER_WORDS == 29);
    EXPECT(HEM_ANSWER_PART(HEM_CHANNELS) == HEM_ANSWER_WORDS);
    EXPECT(HEM_ANSWER_WORDS == REF_ANSWER_WORDS);
    EXPECT(HEM_CHANGE_OFFSET == 0 && HEM_CHANGE_OLD == 1 && HEM_CHANGE_NEW == 2);
    EXPECT(HEM_CHANGE_WORDS == REF_CHANGE_WORDS && HEM_CHANGE(2) == 6 && HEM_MEND_WORDS == REF_MEND_WORDS);
}

/* Start writes the 41 bytes that have a meaning and nothing around them. The triangle ends the track in frame 6. */
static void test_extent(const setup *s)
{
    struct { uint8_t before[4]; hem_player player; uint8_t after[16]; } lent;
    uint8_t pattern[sizeof lent.after];
    const uint8_t zeros[sizeof lent.player.channels] = { 0 };
    fill_pattern(&lent, sizeof lent);
    fill_pattern(pattern, sizeof pattern);
    EXPECT(hem_start(&lent.player, SETUP(s)) == HEM_OK);
    EXPECT(memcmp(lent.before, pattern, sizeof lent.before) == 0);
    EXPECT(lent.player.stopped == 0);
    EXPECT(memcmp(lent.player.channels, zeros, sizeof zeros) == 0);
    EXPECT(lent.player.frames_left == 6 && lent.player.pass_length == 6);
    EXPECT(memcmp(lent.after, pattern, sizeof lent.after) == 0);
}

/* What each channel's bytes are after a first frame, worked out by hand from the data. */
static void test_bytes(const setup *s)
{
    static const uint8_t after_one[32] = {
        3, 0, 1, 0, 1, 12, 11, 0x2A, /* square 1 */
        0, 0, 0, 0, 0, 0, 0, 0,      /* square 2, unused */
        2, 0, 0, 0, 0, 6, 5, 0x30,   /* triangle */
        5, 0, 3, 0, 61, 24, 23, 7    /* noise */
    };
    hem_player player;
    uint32_t answer[HEM_ANSWER_WORDS];
    EXPECT(hem_start(&player, SETUP(s)) == HEM_OK);
    EXPECT(hem_frame(&player, SETUP(s), answer, HEM_ANSWER_WORDS) == HEM_OK);
    EXPECT(player.stopped == 0);
    EXPECT(memcmp(player.channels, after_one, sizeof after_one) == 0);
    EXPECT(player.frames_left == 5 && player.pass_length == 6);
}

static void test_mother_words_told(void)
{
    EXPECT(HEM_MOTHER_ANSWER_PARTS == 8 && HEM_MOTHER_ANSWER_WORDS == 32 && HEM_MOTHER_PART_WORDS == 6);
    EXPECT(HEM_MOTHER_PART_PITCH == 5 && HEM_MOTHER_PART_DMC == 5);
    EXPECT(HEM_MOTHER_ANSWER_PART(HEM_CHANNELS) == HEM_MOTHER_ANSWER_WORDS);
    EXPECT(HEM_MOTHER_ANSWER_WORDS == MOTHER_ANSWER_WORDS);
}

/* A Mother record's bytes after start and a first frame, worked out by hand from playlists and blocks. */
static void test_mother_bytes(const mother_setup *s)
{
    static const uint8_t after_one[64] = {
        0x02, 0xA4, 1, 0, 0x00, 0x94, 6, 0, 1, 0, 1, 2, 1, 0x24, 0x63, 0xB4, /* square 1 */
        0,    0,    0, 0, 0,    0,    0, 0, 0, 0, 0, 0, 0, 0,    0,    0,    /* square 2, unused */
        0x82, 0xA4, 1, 0, 0x00, 0x98, 2, 0, 0, 0, 0, 9, 8, 0x1A, 0,    32,   /* triangle */
        0xC2, 0xA4, 1, 0, 0x00, 0x9A, 2, 0, 0, 0, 0, 6, 5, 0x44, 0,    0,    /* noise */
    };
    hem_mother_player player;
    uint32_t answer[HEM_MOTHER_ANSWER_WORDS];
    const uint8_t zeros[sizeof after_one] = { 0 };
    fill_pattern(&player, sizeof player);
    EXPECT(hem_mother_start(&player, MOTHER_SETUP(s)) == HEM_OK);
    EXPECT(player.stopped == 0 && player.transpose == 4 && player.window == 1);
    EXPECT(memcmp(player.channels, zeros, sizeof zeros) == 0);
    EXPECT(hem_mother_frame(&player, MOTHER_SETUP(s), answer, HEM_MOTHER_ANSWER_WORDS) == HEM_OK);
    EXPECT(player.stopped == 0 && player.transpose == 4 && player.window == 1);
    EXPECT(memcmp(player.channels, after_one, sizeof after_one) == 0);
}

static void test_mother_layout(void)
{
    static uint8_t bank8[HEM_MOTHER_BANK_SIZE], banka[HEM_MOTHER_BANK_SIZE];
    mother_setup s;
    plain_mother_setup(&s, bank8, banka);
    put_mother_bytes(&s, mother_header_of(&s), BYTES(4, 1));
    put_mother_word(&s, s.places.envelope_addresses + 4, 0x8000);
    *mother_byte_at(&s, 0x8000) = 0xFF;
    play_block(&s, HEM_SQUARE_1, BYTES(0xC2, 0x9F, 0x63, 0xB4, 0xB0, 0x20, 0x00));
    play_block(&s, HEM_TRIANGLE, BYTES(0xB7, 0x16, 0x00));
    play_block(&s, HEM_NOISE, BYTES(0xB4, 0x44, 0x00));
    test_mother_words_told();
    test_mother_bytes(&s);
}

void test_layout(void)
{
    static uint8_t bank[HEM_BANK_SIZE];
    setup s;
    begin_part("layout", 31);
    plain_setup(&s, bank);
    use_channel(&s, HEM_SQUARE_1, BYTES(0xC2, 0xB1, 0x2A, 0xFF, 0x00));
    use_channel(&s, HEM_TRIANGLE, BYTES(0xB0, 0x30, 0x00));
    use_channel(&s, HEM_NOISE, BYTES(0xC1, 0xFF, 0xFE, 0xB2, 0x07, 0x00));
    test_words_told();
    test_extent(&s);
    test_bytes(&s);
    test_mother_layout();
}
