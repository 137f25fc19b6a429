/* Silent keys: a melodic key whose period word has low byte 0 is a rest, and no other key is one. No other
   implementation is asked. */
#include "host_test.h"
#include "silent_cases.h"

#include <string.h>

static uint8_t bank[HEM_BANK_SIZE];

static void loud_setup(setup *s)
{
    plain_setup(s, bank);
    s->places.default1 = DEFAULT_1;
    s->places.default2 = DEFAULT_2;
    header_of(s)[ENVELOPE_1] = 1;
}

/* The channel has this key for six frames, then the end. */
static void use_key(setup *s, int channel, uint32_t key)
{
    use_channel(s, channel, BYTES(0xB0, (uint8_t)(2 * key), 0x00));
}

static void expect_part(const uint32_t *answer, int channel, const uint32_t wanted[HEM_PART_WORDS])
{
    EXPECT(memcmp(answer + HEM_ANSWER_PART(channel), wanted, HEM_PART_WORDS * sizeof wanted[0]) == 0);
}

/* In the frame with this index of the key's six. */
static void expect_key(const uint32_t *answer, int channel, uint32_t index, uint32_t began, key_word k)
{
    const uint32_t rest[HEM_PART_WORDS] = { HEM_REST, began, 0, 0, of_rest[channel] };
    const uint32_t note[HEM_PART_WORDS] = { HEM_NOTE, began, k.key, k.word, of_note[channel][index] };
    expect_part(answer, channel, k.silent ? rest : note);
}

/* So many keys one after the other, each for six frames, and the end. */
static void expect_row(const setup *s, int channel, const key_word *keys, uint32_t count)
{
    hem_player player;
    uint32_t answer[HEM_ANSWER_WORDS];
    expect_pass(s, count * NOTE_FRAMES, (uint32_t)channel);
    start_track(s, count * NOTE_FRAMES, &player);
    for (uint32_t n = 0; n < count * NOTE_FRAMES; n++) {
        const key_word *k = &keys[n / NOTE_FRAMES];
        uint32_t index = n % NOTE_FRAMES;
        EXPECT(hem_frame(&player, SETUP(s), answer, HEM_ANSWER_WORDS) == HEM_OK);
        EXPECT(answer[HEM_ANSWER_KIND] == HEM_EVENTS && answer[HEM_ANSWER_LEFT] == count * NOTE_FRAMES - n);
        EXPECT(answer[HEM_ANSWER_COUNTS + channel] == (index == 0));
        expect_key(answer, channel, index, index == 0, *k);
        EXPECT(player.channels[channel].sounding == 2 * k->key);
        EXPECT(player.channels[channel].left == NOTE_FRAMES - 1 - index);
    }
    expect_frame(s, &player, HEM_OK, HEM_END, 0, 0, 0, 0);
}

static void test_words_of_keys(void)
{
    for (size_t i = 0; i < COUNT_OF(lone_keys); i++) {
        begin_round(i);
        for (int channel = HEM_SQUARE_1; channel < MELODIC; channel++) {
            setup s;
            loud_setup(&s);
            put_period(periods_of(&s), lone_keys[i].key, lone_keys[i].word);
            use_key(&s, channel, lone_keys[i].key);
            expect_row(&s, channel, &lone_keys[i], 1);
        }
    }
}

static void test_row(void)
{
    for (int channel = HEM_SQUARE_1; channel < MELODIC; channel++) {
        setup s;
        begin_round((unsigned long)channel);
        loud_setup(&s);
        for (size_t i = 0; i < COUNT_OF(row_of_keys); i++)
            put_period(periods_of(&s), row_of_keys[i].key, row_of_keys[i].word);
        use_channel(&s, channel, BYTES(0xB0, 0x2A, 0x08, 0x02, 0x0A, 0x12, 0xB0, 0x00, 0x42, 0x00));
        expect_row(&s, channel, row_of_keys, COUNT_OF(row_of_keys));
    }
}

static void expect_first_state(const setup *s, int channel, uint32_t state)
{
    hem_player player;
    uint32_t answer[HEM_ANSWER_WORDS];
    EXPECT(hem_start(&player, SETUP(s)) == HEM_OK);
    EXPECT(hem_frame(&player, SETUP(s), answer, HEM_ANSWER_WORDS) == HEM_OK);
    EXPECT(answer[HEM_ANSWER_PART(channel) + HEM_PART_STATE] == state);
}

/* All keys sound but one, which is each in turn. */
static void test_each_key(void)
{
    setup s;
    loud_setup(&s);
    for (uint32_t silent = 0; silent < PERIOD_KEYS; silent++) {
        begin_round(silent);
        for (uint32_t key = 0; key < PERIOD_KEYS; key++)
            put_period(periods_of(&s), key, key == silent ? 0x0300 : 0x00FB);
        for (uint32_t key = 0; key < PERIOD_KEYS; key++) {
            use_key(&s, HEM_SQUARE_1, key);
            expect_first_state(&s, HEM_SQUARE_1, key == silent ? HEM_REST : HEM_NOTE);
        }
    }
}

/* Each byte as the low one and as the high one. */
static void test_each_byte(void)
{
    setup s;
    loud_setup(&s);
    use_key(&s, HEM_TRIANGLE, 1);
    for (uint32_t byte = 0; byte < 256; byte++) {
        begin_round(byte);
        put_period(periods_of(&s), 1, byte);
        expect_first_state(&s, HEM_TRIANGLE, byte == 0 ? HEM_REST : HEM_NOTE);
        put_period(periods_of(&s), 1, 0x0700 + byte);
        expect_first_state(&s, HEM_TRIANGLE, byte == 0 ? HEM_REST : HEM_NOTE);
        put_period(periods_of(&s), 1, 256 * byte);
        expect_first_state(&s, HEM_TRIANGLE, HEM_REST);
    }
}

/* Key $15 has it, a silent key has 0. */
static void test_releases(void)
{
    setup s;
    loud_setup(&s);
    put_period(periods_of(&s), 0x04, 0x0700);
    use_channel(&s, HEM_TRIANGLE, BYTES(0xB0, 0x2A, 0x08, 0x00));
    for (size_t i = 0; i < COUNT_OF(releases); i++) {
        hem_player player;
        begin_round(i);
        header_of(&s)[RELEASE] = releases[i].control;
        start_track(&s, 2 * NOTE_FRAMES, &player);
        for (uint32_t n = 0; n < 2 * NOTE_FRAMES; n++) {
            const uint32_t note[HEM_PART_WORDS] = { HEM_NOTE, n == 0, 0x15, 0x01FB, releases[i].of_note };
            const uint32_t rest[HEM_PART_WORDS] = { HEM_REST, n == NOTE_FRAMES, 0, 0, 0 };
            uint32_t answer[HEM_ANSWER_WORDS];
            EXPECT(hem_frame(&player, SETUP(&s), answer, HEM_ANSWER_WORDS) == HEM_OK);
            expect_part(answer, HEM_TRIANGLE, n < NOTE_FRAMES ? note : rest);
        }
    }
}

/* A record in the middle of a note, three of its six frames left, is played whatever the key's word is. One with an
   odd byte is refused as ever. */
static void expect_record(int channel, key_word k)
{
    setup s;
    hem_player player = { .stopped = 0 };
    uint32_t answer[HEM_ANSWER_WORDS];
    loud_setup(&s);
    put_period(periods_of(&s), k.key, k.word);
    use_key(&s, channel, 0x15);
    player.channels[channel] = (hem_channel){ 2, 0, 0, NOTE_FRAMES, 3, (uint8_t)(2 * k.key) };
    ref_player next = as_reference(&player);
    next.channels[channel].left = 2;
    EXPECT(hem_frame(&player, SETUP(&s), answer, HEM_ANSWER_WORDS) == HEM_OK);
    EXPECT(answer[HEM_ANSWER_KIND] == HEM_EVENTS && answer[HEM_ANSWER_COUNTS + channel] == 0);
    expect_key(answer, channel, 3, 0, k);
    EXPECT(same_record(&player, &next));
    player.channels[channel].sounding |= 1;
    expect_frame(&s, &player, HEM_BAD_RECORD, HEM_REFUSED, 0, 0, 0, 0);
}

static void test_records(void)
{
    for (size_t i = 0; i < COUNT_OF(record_keys); i++) {
        begin_round(i);
        for (int channel = HEM_SQUARE_1; channel < MELODIC; channel++)
            expect_record(channel, record_keys[i]);
    }
}

/* Noise asks no period: its rest and presets are the same with every word 0 and with every word $0101. */
static void test_noise(void)
{
    static const uint32_t parts[4][HEM_PART_WORDS] = {
        { HEM_REST, 1, 0, 0, 0 },
        { HEM_NOTE, 1, 0x14, 0x15, 0x16 },
        { HEM_NOTE, 1, 0x17, 0x18, 0x19 },
        { HEM_NOTE, 1, 0x1A, 0x1B, 0x1C },
    };
    setup s;
    loud_setup(&s);
    use_channel(&s, HEM_NOISE, BYTES(0xB0, 0x01, 0x04, 0x07, 0x0A, 0x00));
    for (int byte = 0; byte < 2; byte++) {
        hem_player player;
        memset(periods_of(&s), byte, PERIOD_BYTES);
        start_track(&s, 4 * NOTE_FRAMES, &player);
        for (uint32_t n = 0; n < 4 * NOTE_FRAMES; n++) {
            uint32_t wanted[HEM_PART_WORDS], answer[HEM_ANSWER_WORDS];
            memcpy(wanted, parts[n / NOTE_FRAMES], sizeof wanted);
            wanted[HEM_PART_BEGAN] = n % NOTE_FRAMES == 0;
            EXPECT(hem_frame(&player, SETUP(&s), answer, HEM_ANSWER_WORDS) == HEM_OK);
            expect_part(answer, HEM_NOISE, wanted);
        }
    }
}

/* Sample tracks with every key silent and with none. */
static void test_verdicts_stay(void)
{
    setup s;
    loud_setup(&s);
    for (int byte = 0; byte < 2; byte++) {
        memset(periods_of(&s), byte, PERIOD_BYTES);
        use_channel(&s, HEM_TRIANGLE, BYTES(0xC3, 0xB0, 0x2A, 0x02, 0xFF, 0x00));
        expect_pass(&s, 36, HEM_TRIANGLE);
        use_channel(&s, HEM_TRIANGLE, BYTES(0xB0, 0x00, 0x00));
        expect_pass(&s, 6, HEM_TRIANGLE);
        use_channel(&s, HEM_TRIANGLE, BYTES(0xB0, 0x2A, 0xA0));
        expect_fault(&s, HEM_NO_COMMAND, HEM_TRIANGLE, 2, 6, 0x9202);
        use_channel(&s, HEM_TRIANGLE, BYTES(0x02, 0x00));
        expect_fault(&s, HEM_NO_LENGTH_YET, HEM_TRIANGLE, 0, 0, 0x9200);
    }
}

void test_silent_keys(void)
{
    begin_part("words of keys", 2208);
    test_words_of_keys();
    begin_part("keys in a row", 786);
    test_row();
    begin_part("each key silent", 12288);
    test_each_key();
    begin_part("each byte of a word", 2304);
    test_each_byte();
    begin_part("releases of silent keys", 130);
    test_releases();
    begin_part("records of silent keys", 120);
    test_records();
    begin_part("noise without periods", 100);
    test_noise();
    begin_part("verdicts with silent keys", 112);
    test_verdicts_stay();
}
