/* Mother's calls against the independent player of its format. */
#include "measure.h"
#include "setup_mother.h"

#include <string.h>

#define SECOND_BLOCK_OF(channel) (BLOCK_OF(channel) + 0x100u)

/* A track, and the records that its starts have made. */
typedef struct {
    const mother_setup *s;
    mother_banks banks;
    hem_mother_player player;
    mother_player reference;
} mother_started;

static void check_library(const void *started)
{
    const mother_started *t = started;
    uint32_t verdict[HEM_VERDICT_WORDS];
    sink = hem_mother_check(MOTHER_SETUP(t->s), verdict, HEM_VERDICT_WORDS);
}

static void check_reference(const void *started)
{
    const mother_started *t = started;
    uint32_t verdict[MOTHER_VERDICT_WORDS];
    sink = mother_check(&t->banks, &t->s->places, t->s->track, verdict, MOTHER_VERDICT_WORDS);
}

static void start_library(const void *started)
{
    const mother_started *t = started;
    hem_mother_player player;
    sink = hem_mother_start(&player, MOTHER_SETUP(t->s));
}

static void start_reference(const void *started)
{
    const mother_started *t = started;
    mother_player player;
    sink = mother_start(&player, &t->banks, &t->s->places, t->s->track);
}

static void frames_library(const void *started)
{
    const mother_started *t = started;
    hem_mother_player player = t->player;
    uint32_t answer[HEM_MOTHER_ANSWER_WORDS];
    uint32_t number = HEM_OK;
    for (int i = 0; i < FRAMES && number == HEM_OK; i++) {
        number = hem_mother_frame(&player, MOTHER_SETUP(t->s), answer, HEM_MOTHER_ANSWER_WORDS);
        sink = answer[HEM_MOTHER_ANSWER_PARTS];
    }
}

static void frames_reference(const void *started)
{
    const mother_started *t = started;
    mother_player player = t->reference;
    uint32_t answer[MOTHER_ANSWER_WORDS];
    uint32_t number = 0;
    for (int i = 0; i < FRAMES && number == 0; i++) {
        number = mother_frame(&player, &t->banks, &t->s->places, t->s->track, answer);
        sink = answer[MOTHER_ANSWER_PARTS];
    }
}

static mother_started start_both(const mother_setup *s)
{
    mother_started t = { .s = s, .banks = mother_banks_of(s) };
    hem_mother_start(&t.player, MOTHER_SETUP(s));
    mother_start(&t.reference, &t.banks, &s->places, s->track);
    return t;
}

/* Two published envelopes, one of each end. */
static void put_envelopes(const mother_setup *s)
{
    put_mother_bytes(s, 0xB000, BYTES(0xF9, 0x87, 0x77, 0x77, 0x66, 0x65, 0x55, 0x44, 0xFF));
    put_mother_bytes(s, 0xB010, BYTES(0x77, 0x76, 0x65, 0x55, 0x44, 0x43, 0x32, 0x21, 0xF0));
    put_mother_word(s, s->places.envelope_addresses, 0xB000);
    put_mother_word(s, s->places.envelope_addresses + 2, 0xB010);
}

/* The channel's block twice and its second one, over and over. */
static void play_round(const mother_setup *s, int channel)
{
    const uint32_t words[] = { BLOCK_OF(channel), BLOCK_OF(channel), SECOND_BLOCK_OF(channel), 0xFFFF,
                               LIST_OF(channel) };
    for (uint32_t i = 0; i < sizeof words / sizeof words[0]; i++)
        put_mother_word(s, LIST_OF(channel) + 2 * i, words[i]);
    name_playlist(s, channel, LIST_OF(channel));
}

/* Four channels with a few loops; their notes have 4, 8, 12 or 16 frames. */
static void typical_mother_track(const mother_setup *s)
{
    put_envelopes(s);
    put_mother_bytes(s, BLOCK_OF(HEM_SQUARE_1),
                     BYTES(0x9F, 0x01, 0xB0, 0xC4, 0xB7, 0x30, 0x34, 0x38, 0x3E, 0xBF, 0x40, 0x02, 0xFF, 0x00));
    put_mother_bytes(s, SECOND_BLOCK_OF(HEM_SQUARE_1),
                     BYTES(0x9F, 0x42, 0x70, 0xC3, 0xB3, 0x3E, 0x3A, 0x38, 0x34, 0xBF, 0x30, 0xFF, 0x00));
    put_mother_bytes(s, BLOCK_OF(HEM_SQUARE_2),
                     BYTES(0x9F, 0x02, 0x70, 0xBF, 0x28, 0x2A, 0xC8, 0xB7, 0x28, 0x02, 0x2A, 0x02, 0xFF, 0x00));
    put_mother_bytes(s, SECOND_BLOCK_OF(HEM_SQUARE_2), BYTES(0x9F, 0x21, 0xB0, 0xBB, 0x20, 0x24, 0x28, 0x2A, 0x00));
    put_mother_bytes(s, BLOCK_OF(HEM_TRIANGLE),
                     BYTES(0xC5, 0xB3, 0x2A, 0x2A, 0x02, 0x2A, 0xB7, 0x34, 0x30, 0xFF, 0x00));
    put_mother_bytes(s, SECOND_BLOCK_OF(HEM_TRIANGLE), BYTES(0xC4, 0xB7, 0x38, 0x3A, 0xBF, 0x02, 0x34, 0xFF, 0x00));
    put_mother_bytes(s, BLOCK_OF(HEM_NOISE), BYTES(0xD4, 0xB7, 0x04, 0xB3, 0x47, 0x01, 0xFF, 0x00));
    put_mother_bytes(s, SECOND_BLOCK_OF(HEM_NOISE), BYTES(0xBF, 0x0A, 0x84, 0x07, 0x01, 0x0A, 0x00));
    for (int channel = 0; channel < HEM_CHANNELS; channel++)
        play_round(s, channel);
}

/* 127 times C0 FF, and a note of one frame: 32,641 commands with the block's word, then 15 at offset 256. */
static void many_commands(const mother_setup *s)
{
    uint8_t bytes[HEM_MOTHER_BLOCK_LIMIT];
    for (size_t i = 0; i < sizeof bytes; i += 2) {
        bytes[i] = 0xC0;
        bytes[i + 1] = 0xFF;
    }
    bytes[254] = 0xB0;
    bytes[255] = 0x30;
    play_block(s, HEM_SQUARE_1, bytes, sizeof bytes);
}

/* A block of 253 notes, named 256 times. */
static void many_blocks(const mother_setup *s)
{
    uint8_t bytes[HEM_MOTHER_BLOCK_LIMIT];
    memset(bytes, 0x30, sizeof bytes);
    bytes[0] = 0xB0;
    bytes[sizeof bytes - 1] = 0x00;
    play_block(s, HEM_SQUARE_1, bytes, sizeof bytes);
    for (uint32_t i = 0; i < MOTHER_MOST_BLOCK_WORDS; i++)
        put_mother_word(s, LIST_OF(HEM_SQUARE_1) + 2 * i, BLOCK_OF(HEM_SQUARE_1));
    put_mother_word(s, LIST_OF(HEM_SQUARE_1) + 2 * MOTHER_MOST_BLOCK_WORDS, 0x0000);
}

void compare_mother(void)
{
    static uint8_t bank8[HEM_MOTHER_BANK_SIZE], banka[HEM_MOTHER_BANK_SIZE];
    mother_setup s;
    plain_mother_setup(&s, bank8, banka);
    typical_mother_track(&s);
    mother_started t = start_both(&s);
    compare("check", "Mother, typical", check_library, check_reference, &t, 0);
    compare("start", "Mother, typical", start_library, start_reference, &t, 0);
    compare("frames", "Mother, typical", frames_library, frames_reference, &t, 1.0);
    plain_mother_setup(&s, bank8, banka);
    many_commands(&s);
    t = start_both(&s);
    compare("frames", "Mother, 127 C0 FF", frames_library, frames_reference, &t, 1.0);
    plain_mother_setup(&s, bank8, banka);
    many_blocks(&s);
    t = start_both(&s);
    compare("check", "Mother, 256 blocks", check_library, check_reference, &t, 0);
}
