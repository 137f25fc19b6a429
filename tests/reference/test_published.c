/* The published examples and tables of document 001. */
#include "selftest.h"

#include <stdlib.h>
#include <string.h>

static void test_header_example(void)
{
    cart *c = new_cart();
    ref_track track;
    put_word(c, c->places.envelope_addresses + 2, 0xBCC5);
    put_word(c, c->places.envelope_addresses + 4, 0xBCCF);
    *cart_at(c, 0xBCC5) = 0xFF;
    *cart_at(c, 0xBCCF) = 0xF0;
    put_hex(c, c->places.header_block, "0B FF 00 02 03 00 B0 57 B0 C1 B0 2B B1");
    CHECK(ref_open(c->bytes, REF_BANK_SIZE, &c->places, 0, &track) == 0);
    CHECK(track.t == 0x0B && track.restart == 0xFF && track.release == 0);
    CHECK(track.envelope_number[0] == 2 && track.envelope_number[1] == 3);
    CHECK(track.envelope[0] == cart_at(c, 0xBCC5) && track.envelope[1] == cart_at(c, 0xBCCF));
    CHECK(track.address[0] == 0xB000 && track.address[1] == 0xB057);
    CHECK(track.address[2] == 0xB0C1 && track.address[3] == 0xB12B);
    CHECK(track.data[3] == cart_at(c, 0xB12B) && track.data_len[3] == 256);
    free(c);
}

/* The windows of the three tempos, by the walk of one note for each L. */
static void test_tempos(void)
{
    static const uint8_t bases[3] = { 0x00, 0x0B, 0x17 };
    static const uint8_t windows[3][16] = {
        { 4, 8, 16, 32, 64, 24, 48, 12, 11, 5, 2, 6, 12, 24, 48, 96 },
        { 6, 12, 24, 48, 96, 36, 72, 18, 16, 8, 3, 16, 7, 14, 28, 56 },
        { 7, 14, 28, 56, 112, 42, 84, 21, 18, 2, 3, 32, 252, 179, 173, 77 },
    };
    for (int tempo = 0; tempo < 3; tempo++)
        for (int l = 0; l < 16; l++) {
            uint8_t data[3] = { (uint8_t)(0xB0 + l), 0x2A, 0x00 };
            ref_timeline line = ref_walk(REF_MELODIC, data, 3, published_lengths, bases[tempo]);
            CHECK(line.number == 0 && line.offset == 2 && line.commands == 2);
            CHECK(line.frames == windows[tempo][l]);
        }
}

/* The formula's words as a bank has them: from key 2 on they fall, and two keys are silent. */
static void test_periods(void)
{
    static const struct { unsigned key; uint32_t word; } words[] = {
        { 0x00, 0x07F1 }, { 0x01, 0x0000 }, { 0x02, 0x064D }, { 0x03, 0x05F3 }, { 0x04, 0x054C },
        { 0x05, 0x0500 }, { 0x15, 0x01FB }, { 0x1A, 0x017C }, { 0x21, 0x00FD }, { 0x3F, 0x002C },
    };
    cart *c = new_cart();
    for (size_t i = 0; i < sizeof words / sizeof words[0]; i++) {
        const uint8_t *word = cart_at(c, 0xBE77 + 2 * words[i].key);
        CHECK(period_of_key(words[i].key) == words[i].word);
        CHECK(word[0] == words[i].word / 256 && word[1] == words[i].word % 256);
    }
    for (unsigned key = 0; key < PERIOD_KEYS; key++)
        CHECK((period_of_key(key) % 256 == 0) == (key == 1 || key == 5));
    for (unsigned key = 3; key < PERIOD_KEYS; key++)
        CHECK(period_of_key(key) < period_of_key(key - 1));
    free(c);
}

/* Loop of three notes and two rests, ten times, then two quarter notes. */
static void test_first_example(void)
{
    cart *c = new_cart();
    ref_player p;
    uint32_t answer[REF_ANSWER_WORDS];
    const uint32_t *part = &answer[REF_ANSWER_PARTS + REF_PART_WORDS * REF_TRIANGLE];
    cart_header(c)[HEADER_WINDOW] = 0x17;
    use_channel(c, REF_TRIANGLE, "CA B0 2A 2A 2A 02 02 FF B2 34 34 00");
    expect_pass(c, 10 * 5 * 7 + 2 * 28, REF_TRIANGLE);
    CHECK(ref_start(&p, c->bytes, REF_BANK_SIZE, &c->places, 0) == 0);
    for (unsigned n = 0; n < 10 * 35 + 56; n++) {
        CHECK(ref_frame(&p, c->bytes, REF_BANK_SIZE, &c->places, 0, answer) == 0);
        if (n == 0)
            CHECK(p.channels[REF_TRIANGLE].counter == 9);
        if (n >= 350) {
            CHECK(part[0] == REF_NOTE && part[2] == 0x1A && part[4] == 15 * 4);
            CHECK(part[1] == ((n - 350) % 28 == 0));
            continue;
        }
        CHECK(part[1] == (n % 7 == 0));
        if (n % 35 < 21)
            CHECK(part[0] == REF_NOTE && part[2] == 0x15 && part[4] == 6 * 4);
        else
            CHECK(part[0] == REF_REST && part[2] == 0 && part[4] == 0);
    }
    free(c);
}

/* The paper prints C0 for the length command and explains B0. C0 as printed begins a loop. */
static void test_second_example(void)
{
    cart *c = new_cart();
    ref_player p;
    uint32_t answer[REF_ANSWER_WORDS];
    const uint32_t *part = &answer[REF_ANSWER_PARTS + REF_PART_WORDS * REF_TRIANGLE];
    cart_header(c)[HEADER_RELEASE] = 0x05;
    use_channel(c, REF_TRIANGLE, "B0 38 3A 00");
    expect_pass(c, 12, REF_TRIANGLE);
    CHECK(frame_after(c, 0, &p, answer) == 0);
    CHECK(part[0] == REF_NOTE && part[2] == 0x1C && part[4] == 5);
    CHECK(frame_after(c, 6, &p, answer) == 0);
    CHECK(part[0] == REF_NOTE && part[2] == 0x1D && part[4] == 5);
    cart_header(c)[HEADER_RELEASE] = 0xF0;
    CHECK(frame_after(c, 6, &p, answer) == 0);
    CHECK(part[4] == REF_RELEASE_NEVER);
    cart_header(c)[HEADER_RELEASE] = 0xF5;
    CHECK(frame_after(c, 6, &p, answer) == 0);
    CHECK(part[4] == 5);
    use_channel(c, REF_TRIANGLE, "C0 38 3A 00");
    expect_fault(c, REF_NO_LENGTH_YET, REF_TRIANGLE, 1, 0, 0x9401);
    free(c);
}

typedef struct { uint16_t address; const char *volumes; uint8_t end; } published_envelope;

static const published_envelope envelopes[5] = {
    { 0xBCBA, "1223345678", 0xFF },
    { 0xBCC5, "245678765", 0xFF },
    { 0xBCCF, "0d97655544", 0xFF },
    { 0xBCDA, "2677766665554443333233333222222222211111", 0xF0 },
    { 0xBD03, "aa9876543277654432225554322211443212211122211", 0xF0 },
};

static uint8_t volume(char digit)
{
    return (uint8_t)(digit <= '9' ? digit - '0' : digit - 'a' + 10);
}

static void put_envelopes(cart *c)
{
    for (unsigned i = 0; i < 5; i++) {
        size_t n = strlen(envelopes[i].volumes);
        put_word(c, c->places.envelope_addresses + 2 * i, envelopes[i].address);
        for (size_t j = 0; j < n; j++)
            *cart_at(c, envelopes[i].address + (uint32_t)j) = volume(envelopes[i].volumes[j]);
        *cart_at(c, envelopes[i].address + (uint32_t)n) = envelopes[i].end;
    }
}

/* They stand without a gap up to the header block. */
static void test_envelope_sizes(void)
{
    for (int i = 0; i < 5; i++) {
        uint32_t next = i < 4 ? envelopes[i + 1].address : 0xBD31u;
        CHECK(envelopes[i].address + strlen(envelopes[i].volumes) + 1 == next);
    }
}

static void test_envelope(uint8_t number, uint8_t ctrl)
{
    cart *c = new_cart();
    ref_player p;
    uint32_t answer[REF_ANSWER_WORDS];
    const published_envelope *e = &envelopes[number - 1];
    uint32_t after = e->end == 0xF0 || ctrl == 0 ? 0x10 : ctrl;
    put_envelopes(c);
    c->places.default1 = 0x11;
    c->places.default2 = ctrl;
    cart_header(c)[HEADER_ENVELOPES + 1] = number;
    use_channel(c, 1, "B4 18 00");
    CHECK(ref_start(&p, c->bytes, REF_BANK_SIZE, &c->places, 0) == 0);
    for (unsigned n = 0; n < 96; n++) {
        uint32_t wanted = after;
        if (n < strlen(e->volumes))
            wanted = (ctrl & 0xF0u) | volume(e->volumes[n]);
        CHECK(ref_frame(&p, c->bytes, REF_BANK_SIZE, &c->places, 0, answer) == 0);
        CHECK(answer[REF_ANSWER_PARTS + REF_PART_WORDS + 4] == wanted);
    }
    CHECK(ref_frame(&p, c->bytes, REF_BANK_SIZE, &c->places, 0, answer) == 0);
    CHECK(answer[0] == REF_END);
    free(c);
}

/* Offset, t, loop, release, envelopes, addresses, by the published track table. */
typedef struct { uint8_t offset, t, loop, release, e1, e2; uint16_t address[4]; } published_track;

static const published_track tracks[12] = {
    { 0x41, 0x0B, 0xFF, 0xF0, 1, 1, { 0xB022, 0xB031, 0xB000, 0 } },
    { 0x8F, 0x0B, 0xFF, 0x03, 0, 0, { 0xBE59, 0xBE47, 0xBE62, 0 } },
    { 0x34, 0x0B, 0xFF, 0x03, 0, 0, { 0xBDDA, 0xBDDC, 0xBDCD, 0 } },
    { 0x27, 0x00, 0xFF, 0xF0, 0, 0, { 0xB03F, 0xB041, 0xB0AA, 0 } },
    { 0x1A, 0x0B, 0xFF, 0xF0, 4, 4, { 0xB000, 0xB026, 0xB057, 0xB08B } },
    { 0x0D, 0x0B, 0xFF, 0x00, 2, 2, { 0xB04D, 0xB000, 0xB0CF, 0xB15A } },
    { 0x00, 0x0B, 0xFF, 0xF5, 0, 0, { 0xB18C, 0xB18E, 0xB161, 0 } },
    { 0x82, 0x0B, 0xFF, 0x00, 2, 3, { 0xB000, 0xB057, 0xB0C1, 0xB12B } },
    { 0x68, 0x0B, 0x00, 0xF0, 2, 0, { 0xBE3E, 0xBE1D, 0xBE36, 0 } },
    { 0x75, 0x00, 0x00, 0xF0, 1, 0, { 0xBDF7, 0xBE0D, 0xBE08, 0 } },
    { 0x4E, 0x17, 0x00, 0x00, 2, 1, { 0xAC00, 0xADC5, 0xACF5, 0xAE8E } },
    { 0x5B, 0x17, 0x00, 0xF0, 2, 5, { 0xB0B9, 0xB000, 0xB076, 0xB115 } },
};

static void put_track(cart *c, uint32_t n)
{
    const published_track *t = &tracks[n];
    uint32_t header = c->places.header_block + t->offset;
    uint8_t fields[5] = { t->t, t->loop, t->release, t->e1, t->e2 };
    *cart_at(c, c->places.header_offsets + n) = t->offset;
    memcpy(cart_at(c, header), fields, sizeof fields);
    for (uint32_t i = 0; i < REF_CHANNELS; i++)
        put_word(c, header + HEADER_ADDRESSES + 2 * i, t->address[i]);
}

static void test_track_table(void)
{
    cart *c = new_cart();
    put_envelopes(c);
    for (uint32_t n = 0; n < 12; n++)
        put_track(c, n);
    for (uint32_t n = 0; n < 12; n++) {
        ref_track track;
        CHECK(ref_open(c->bytes, REF_BANK_SIZE, &c->places, n, &track) == 0);
        CHECK(track.t == tracks[n].t && track.restart == tracks[n].loop);
        CHECK(track.release == tracks[n].release);
        CHECK(track.envelope_number[0] == tracks[n].e1 && track.envelope_number[1] == tracks[n].e2);
        for (int i = 0; i < REF_CHANNELS; i++) {
            CHECK(track.address[i] == tracks[n].address[i]);
            CHECK((track.data[i] != NULL) == (tracks[n].address[i] != 0));
        }
    }
    free(c);
}

void test_published(void)
{
    static const uint8_t defaults[7] = { 0xB3, 0x92, 0x34, 0xF4, 0xB6, 0x0F, 0x00 };
    test_header_example();
    test_tempos();
    test_periods();
    test_first_example();
    test_second_example();
    test_envelope_sizes();
    for (uint8_t number = 1; number <= 5; number++)
        for (int i = 0; i < 7; i++)
            test_envelope(number, defaults[i]);
    test_track_table();
}
