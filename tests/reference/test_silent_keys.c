/* Silent keys: a melodic key whose period word has low byte 0 is a rest, and no other key is one. */
#include "selftest.h"
#include "silent_cases.h"

#include <stdlib.h>
#include <string.h>

static cart *new_loud_cart(void)
{
    cart *c = new_cart();
    c->places.default1 = DEFAULT_1;
    c->places.default2 = DEFAULT_2;
    put_word(c, c->places.envelope_addresses, 0xA000);
    put_hex(c, 0xA000, "04 02 FF");
    cart_header(c)[HEADER_ENVELOPES] = 1;
    return c;
}

/* The channel has this key for six frames, then the end. */
static void use_key(cart *c, int channel, unsigned key)
{
    uint8_t *data = cart_at(c, DATA_ADDRESS(channel));
    data[0] = 0xB0;
    data[1] = (uint8_t)(2 * key);
    data[2] = 0x00;
    set_address(c, channel, (uint16_t)DATA_ADDRESS(channel));
}

static uint32_t step(cart *c, ref_player *p, uint32_t *answer)
{
    return ref_frame(p, c->bytes, REF_BANK_SIZE, &c->places, 0, answer);
}

/* In the frame with this index of the key's six. */
static void check_key(const uint32_t *answer, int channel, uint32_t index, uint32_t began, key_word k)
{
    if (k.silent)
        CHECK(tells_part(answer, channel, REF_REST, began, 0, 0, of_rest[channel]));
    else
        CHECK(tells_part(answer, channel, REF_NOTE, began, k.key, k.word, of_note[channel][index]));
}

/* So many keys one after the other, each for six frames, and the end. */
static void expect_row(cart *c, int channel, const key_word *keys, uint32_t count)
{
    ref_player p;
    uint32_t answer[REF_ANSWER_WORDS];
    expect_pass(c, count * NOTE_FRAMES, (uint32_t)channel);
    CHECK(ref_start(&p, c->bytes, REF_BANK_SIZE, &c->places, 0) == 0);
    for (uint32_t n = 0; n < count * NOTE_FRAMES; n++) {
        const key_word *k = &keys[n / NOTE_FRAMES];
        uint32_t index = n % NOTE_FRAMES;
        CHECK(step(c, &p, answer) == 0);
        CHECK(answer[0] == REF_EVENTS && answer[REF_ANSWER_COUNTS + channel] == (index == 0));
        check_key(answer, channel, index, index == 0, *k);
        CHECK(p.channels[channel].sounding == 2 * k->key && p.channels[channel].left == NOTE_FRAMES - 1 - index);
    }
}

static void test_words_of_keys(void)
{
    for (size_t i = 0; i < COUNT_OF(lone_keys); i++)
        for (int channel = 0; channel < MELODIC; channel++) {
            cart *c = new_loud_cart();
            put_period(cart_periods(c), lone_keys[i].key, lone_keys[i].word);
            use_key(c, channel, lone_keys[i].key);
            expect_row(c, channel, &lone_keys[i], 1);
            free(c);
        }
}

static void test_row(void)
{
    for (int channel = 0; channel < MELODIC; channel++) {
        cart *c = new_loud_cart();
        for (size_t i = 0; i < COUNT_OF(row_of_keys); i++)
            put_period(cart_periods(c), row_of_keys[i].key, row_of_keys[i].word);
        use_channel(c, channel, "B0 2A 08 02 0A 12 B0 00 42 00");
        expect_row(c, channel, row_of_keys, COUNT_OF(row_of_keys));
        free(c);
    }
}

static uint32_t first_state(cart *c, int channel)
{
    ref_player p;
    uint32_t answer[REF_ANSWER_WORDS];
    CHECK(frame_after(c, 0, &p, answer) == 0);
    return part_of(answer, channel)[0];
}

/* All keys sound but one, which is each in turn. */
static void test_each_key(void)
{
    cart *c = new_loud_cart();
    for (unsigned silent = 0; silent < PERIOD_KEYS; silent++) {
        for (unsigned key = 0; key < PERIOD_KEYS; key++)
            put_period(cart_periods(c), key, key == silent ? 0x0300 : 0x00FB);
        for (unsigned key = 0; key < PERIOD_KEYS; key++) {
            use_key(c, 0, key);
            CHECK(first_state(c, 0) == (key == silent ? REF_REST : REF_NOTE));
        }
    }
    free(c);
}

/* Each byte as the low one and as the high one. */
static void test_each_byte(void)
{
    cart *c = new_loud_cart();
    use_key(c, REF_TRIANGLE, 1);
    for (uint32_t byte = 0; byte < 256; byte++) {
        put_period(cart_periods(c), 1, byte);
        CHECK(first_state(c, REF_TRIANGLE) == (byte == 0 ? REF_REST : REF_NOTE));
        put_period(cart_periods(c), 1, 0x0700 + byte);
        CHECK(first_state(c, REF_TRIANGLE) == (byte == 0 ? REF_REST : REF_NOTE));
        put_period(cart_periods(c), 1, 256 * byte);
        CHECK(first_state(c, REF_TRIANGLE) == REF_REST);
    }
    free(c);
}

static void test_releases(void)
{
    cart *c = new_loud_cart();
    ref_player p;
    uint32_t answer[REF_ANSWER_WORDS];
    put_period(cart_periods(c), 4, 0x0700);
    use_channel(c, REF_TRIANGLE, "B0 2A 08 00");
    for (size_t i = 0; i < COUNT_OF(releases); i++) {
        cart_header(c)[HEADER_RELEASE] = releases[i].control;
        CHECK(ref_start(&p, c->bytes, REF_BANK_SIZE, &c->places, 0) == 0);
        for (uint32_t n = 0; n < 2 * NOTE_FRAMES; n++) {
            CHECK(step(c, &p, answer) == 0);
            if (n < NOTE_FRAMES)
                CHECK(tells_part(answer, REF_TRIANGLE, REF_NOTE, n == 0, 0x15, 0x01FB, releases[i].of_note));
            else
                CHECK(tells_part(answer, REF_TRIANGLE, REF_REST, n == NOTE_FRAMES, 0, 0, 0));
        }
    }
    free(c);
}

/* A record in the middle of a note, three of its six frames left, is played whatever the key's word is. One with an
   odd byte is refused as ever. */
static void expect_record(int channel, key_word k)
{
    cart *c = new_loud_cart();
    uint32_t answer[REF_ANSWER_WORDS];
    ref_player p = {0};
    p.channels[channel] = (ref_channel){ 2, 0, 0, NOTE_FRAMES, 3, (uint8_t)(2 * k.key) };
    ref_player wanted = p;
    wanted.channels[channel].left = 2;
    put_period(cart_periods(c), k.key, k.word);
    use_key(c, channel, 0x15);
    CHECK(step(c, &p, answer) == 0);
    CHECK(answer[0] == REF_EVENTS && answer[REF_ANSWER_COUNTS + channel] == 0);
    check_key(answer, channel, 3, 0, k);
    CHECK(same_record(&p, &wanted));
    p.channels[channel].sounding |= 1;
    CHECK(step(c, &p, answer) == REF_BAD_RECORD);
    free(c);
}

static void test_records_of_keys(void)
{
    for (size_t i = 0; i < COUNT_OF(record_keys); i++)
        for (int channel = 0; channel < MELODIC; channel++)
            expect_record(channel, record_keys[i]);
}

/* Noise asks no period: its rest and presets are the same with every word 0 and with every word $0101. */
static void test_noise(void)
{
    cart *c = new_loud_cart();
    ref_player p;
    uint32_t answer[REF_ANSWER_WORDS];
    use_channel(c, REF_NOISE_CHANNEL, "B0 01 04 07 0A 00");
    for (int byte = 0; byte < 2; byte++) {
        memset(cart_periods(c), byte, 2 * PERIOD_KEYS);
        CHECK(ref_start(&p, c->bytes, REF_BANK_SIZE, &c->places, 0) == 0);
        for (unsigned n = 0; n < 4 * NOTE_FRAMES; n++) {
            unsigned at = 1 + 3 * (n / NOTE_FRAMES);
            CHECK(step(c, &p, answer) == 0);
            if (at == 1)
                CHECK(tells_part(answer, REF_NOISE_CHANNEL, REF_REST, n == 0, 0, 0, 0));
            else
                CHECK(tells_part(answer, REF_NOISE_CHANNEL, REF_NOTE, n % NOTE_FRAMES == 0, preset_byte(at),
                                 preset_byte(at + 1), preset_byte(at + 2)));
        }
    }
    free(c);
}

/* Sample tracks with every key silent and with none. */
static void test_verdicts_stay(void)
{
    cart *c = new_loud_cart();
    for (int byte = 0; byte < 2; byte++) {
        memset(cart_periods(c), byte, 2 * PERIOD_KEYS);
        use_channel(c, REF_TRIANGLE, "C3 B0 2A 02 FF 00");
        expect_pass(c, 36, REF_TRIANGLE);
        use_channel(c, REF_TRIANGLE, "B0 00 00");
        expect_pass(c, 6, REF_TRIANGLE);
        use_channel(c, REF_TRIANGLE, "B0 2A A0");
        expect_fault(c, REF_NO_COMMAND, REF_TRIANGLE, 2, 6, 0x9402);
        use_channel(c, REF_TRIANGLE, "02 00");
        expect_fault(c, REF_NO_LENGTH_YET, REF_TRIANGLE, 0, 0, 0x9400);
    }
    free(c);
}

void test_silent_keys(void)
{
    test_words_of_keys();
    test_row();
    test_each_key();
    test_each_byte();
    test_releases();
    test_records_of_keys();
    test_noise();
    test_verdicts_stay();
}
