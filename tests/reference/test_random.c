/* Random tracks, records and data. */
#include "selftest.h"

#include <stdlib.h>
#include <string.h>

#define RANDOM_TRACKS 20000
#define RANDOM_LISTS 20000
#define RANDOM_RECORDS 20000
#define LONGEST_DATA 24

static uint8_t random_sound(ref_kind kind)
{
    static const uint8_t noise[4] = { 0x01, 0x04, 0x07, 0x0A };
    if (kind == REF_NOISE)
        return noise[random_below(4)];
    return (uint8_t)(random_below(16) == 0 ? 0x02 : 2 + 2 * random_below(63));
}

/* Directly after BL or sounding, where key 0 is one too. */
static uint8_t random_sound_or_key_0(ref_kind kind)
{
    return kind == REF_MELODIC && random_below(16) == 0 ? 0 : random_sound(kind);
}

/* One random command, legal most of the time. Returns its size. */
static size_t random_command(ref_kind kind, uint8_t *out)
{
    uint32_t die = random_below(200);
    if (die < 70) {
        out[0] = (uint8_t)(0xB0 + random_below(random_below(8) == 0 ? 16 : 4));
        out[1] = random_below(60) == 0 ? (uint8_t)random_below(256) : random_sound_or_key_0(kind);
        return 2;
    }
    if (die < 120)
        out[0] = random_sound(kind);
    else if (die < 155)
        out[0] = 0xFF;
    else if (die < 185)
        out[0] = (uint8_t)(0xC0 + 1 + random_below(4));
    else if (die < 187)
        out[0] = 0xC0;
    else if (die < 195)
        out[0] = 0x00;
    else
        out[0] = (uint8_t)random_below(256);
    return 1;
}

static void random_data(cart *c, int channel)
{
    uint32_t size = 1 + random_below(LONGEST_DATA);
    uint32_t address = DATA_ADDRESS(channel);
    uint8_t bytes[LONGEST_DATA + 2];
    size_t n = 0;
    /* most data begins with a length, so that 14 does not decide nearly all */
    if (random_below(10) != 0) {
        bytes[n++] = (uint8_t)(0xB0 + random_below(4));
        bytes[n++] = random_sound(ref_kind_of(channel));
    }
    while (n < size)
        n += random_command(ref_kind_of(channel), bytes + n);
    if (random_below(8) == 0)
        address = REF_BANK_END - size;
    for (size_t i = 0; i < size; i++)
        *cart_at(c, address + (uint32_t)i) = bytes[i];
    set_address(c, channel, (uint16_t)address);
}

static void random_lengths(cart *c)
{
    for (uint32_t i = 0; i < REF_LENGTH_COUNT; i++) {
        uint32_t length = random_below(40) == 0 ? 0 : 1 + random_below(4);
        *cart_at(c, c->places.note_lengths + i) = (uint8_t)length;
    }
}

/* A third of the keys is silent, and a third has high byte 0. */
static void random_periods(cart *c)
{
    for (unsigned key = 0; key < PERIOD_KEYS; key++) {
        uint32_t high = random_below(3) == 0 ? 0 : random_below(256);
        uint32_t low = random_below(3) == 0 ? 0 : 1 + random_below(255);
        put_period(cart_periods(c), key, 256 * high + low);
    }
}

static void random_envelopes(cart *c)
{
    for (uint32_t i = 0; i < 5; i++) {
        uint32_t address = 0xA000 + 0x40 * i;
        uint32_t size = random_below(5);
        put_word(c, c->places.envelope_addresses + 2 * i, (uint16_t)address);
        for (uint32_t j = 0; j < size; j++)
            *cart_at(c, address + j) = (uint8_t)random_below(240);
        *cart_at(c, address + size) = random_below(2) == 0 ? 0xF0 : 0xFF;
    }
}

/* Places are moved so that data may stand at the bank's end. */
static cart *random_cart(void)
{
    cart *c = new_cart();
    memset(cart_at(c, 0xB800), 0, 0x800);
    c->places.note_lengths = 0xA800;
    c->places.header_block = 0xA900;
    c->places.key_periods = 0xAA00;
    c->places.default1 = (uint8_t)random_below(256);
    c->places.default2 = (uint8_t)(random_below(2) * random_below(256));
    random_lengths(c);
    random_periods(c);
    random_envelopes(c);
    cart_header(c)[HEADER_WINDOW] = (uint8_t)random_below(32);
    cart_header(c)[HEADER_RESTART] = (uint8_t)random_below(2);
    cart_header(c)[HEADER_RELEASE] = (uint8_t)(random_below(2) * random_below(256));
    cart_header(c)[HEADER_ENVELOPES] = (uint8_t)random_below(6);
    cart_header(c)[HEADER_ENVELOPES + 1] = (uint8_t)random_below(6);
    uint32_t used = 1 + random_below(15);
    for (int i = 0; i < REF_CHANNELS; i++)
        if ((used >> i & 1) != 0)
            random_data(c, i);
    return c;
}

/* How often each number and each kind of answer came, an address at the bank's end and behind it, and a record with
   too many frames, to see that the tracks and records are of many sorts. */
static unsigned verdicts[REF_NO_ROOM + 1], answers[REF_REFUSED + 1], at_bank_end, past_bank_end, too_many_frames;

/* A fault's address is the header's word of its channel plus the offset; without a fault there is none. */
static void check_address(cart *c, uint32_t number, uint32_t channel, uint32_t offset, uint32_t address)
{
    const uint8_t *word = cart_header(c) + HEADER_ADDRESSES + 2 * channel;
    if (number >= REF_NO_COMMAND && number <= REF_PAST_DATA)
        CHECK(address == word[0] + 256u * word[1] + offset);
    else
        CHECK(address == 0);
    at_bank_end += address == REF_BANK_END;
    past_bank_end += address > REF_BANK_END;
}

static void print_refusals(void)
{
    for (int number = 1; number <= REF_NO_ROOM; number++)
        if (verdicts[number] != 0)
            printf(", %u refuse %d", verdicts[number], number);
}

static void test_checks_agree(void)
{
    uint64_t longest = 0;
    for (int i = 0; i < RANDOM_TRACKS; i++) {
        cart *c = random_cart();
        ref_verdict by_frames = ref_check_by_frames(c->bytes, REF_BANK_SIZE, &c->places, 0);
        ref_verdict by_channels = ref_check_by_channels(c->bytes, REF_BANK_SIZE, &c->places, 0);
        CHECK(same_verdict(&by_frames, &by_channels));
        check_address(c, by_frames.number, by_frames.channel, by_frames.offset, by_frames.address);
        expect_countdown(c, REF_BANK_SIZE, 0);
        verdicts[by_frames.number]++;
        if (by_frames.frame > longest)
            longest = by_frames.frame;
        free(c);
    }
    printf("random tracks: %u pass", verdicts[0]);
    print_refusals();
    printf("; longest %llu frames\n", (unsigned long long)longest);
    CHECK(verdicts[0] > 1000);
    for (int number = REF_NO_COMMAND; number <= REF_PAST_DATA; number++)
        CHECK(verdicts[number] > 100);
    CHECK(at_bank_end > 100 && past_bank_end == 0);
}

static ref_channel random_channel(ref_kind kind)
{
    ref_channel ch;
    ch.next = (uint16_t)random_below(random_below(8) == 0 ? 300 : LONGEST_DATA);
    ch.loop_start = (uint16_t)random_below(random_below(8) == 0 ? 300 : LONGEST_DATA);
    ch.counter = (uint8_t)random_below(random_below(8) == 0 ? 256 : 3);
    ch.length = (uint8_t)random_below(5);
    ch.left = (uint8_t)random_below(random_below(8) == 0 ? 6 : ch.length + 1u);
    ch.sounding = random_below(8) == 0 ? (uint8_t)random_below(256) : random_sound_or_key_0(kind);
    return ch;
}

/* Few, around the most that a record may name, or any. */
static uint32_t random_frames(void)
{
    if (random_below(32) == 0)
        return random_below(UINT32_MAX);
    return random_below(16) == 0 ? 16777214 + random_below(5) : random_below(4);
}

/* What an answer shows and hands back of the frames, by the record that was given. */
static void check_frames(cart *c, const ref_player *given, const ref_player *next, const uint32_t *answer)
{
    ref_player fresh = {0};
    CHECK(answer[REF_ANSWER_LEFT] == given->frames_left);
    if (answer[0] == REF_EVENTS) {
        CHECK(next->pass_length == given->pass_length);
        CHECK(next->frames_left == (given->frames_left == 0 ? 0 : given->frames_left - 1));
    } else if (answer[0] == REF_END) {
        fresh.stopped = cart_header(c)[HEADER_RESTART] == 0;
        fresh.frames_left = fresh.pass_length = fresh.stopped ? 0 : given->pass_length;
        CHECK(same_record(next, &fresh));
    } else {
        CHECK(same_record(next, given));
    }
}

/* How often a silent key came: one above 1, key 0, one whose word is not 0; and how often a note of key 1, or of a word
   with high byte 0. */
static unsigned silent_keys, silent_key_0, silent_not_0, notes_of_key_1, notes_high_0;

static void count_key(unsigned key, uint32_t word)
{
    int silent = word % 256 == 0;
    silent_keys += silent && key > 1;
    silent_key_0 += silent && key == 0;
    silent_not_0 += silent && word != 0;
    notes_of_key_1 += !silent && key == 1;
    notes_high_0 += !silent && word < 256;
}

/* A used melodic channel tells the sounding key and its word, or a rest. */
static void check_keys(cart *c, const ref_player *next, const uint32_t *answer)
{
    for (int i = 0; i < REF_NOISE_CHANNEL; i++) {
        const uint32_t *part = part_of(answer, i);
        if (part[0] == REF_OFF)
            continue;
        unsigned key = next->channels[i].sounding / 2u;
        uint32_t word = 256u * cart_periods(c)[2 * key] + cart_periods(c)[2 * key + 1];
        int silent = word % 256 == 0;
        CHECK(part[0] == (silent ? REF_REST : REF_NOTE));
        CHECK(part[2] == (silent ? 0 : key) && part[3] == (silent ? 0 : word));
        CHECK(!silent || part[4] == (i == REF_TRIANGLE ? 0 : 0x10));
        count_key(key, word);
    }
}

static void expect_keys_seen(void)
{
    printf("silent keys: above 1 %u, key 0 %u, word not 0 %u; notes: key 1 %u, high byte 0 %u\n", silent_keys,
           silent_key_0, silent_not_0, notes_of_key_1, notes_high_0);
    CHECK(silent_keys > 1000 && silent_key_0 > 50 && silent_not_0 > 500);
    CHECK(notes_of_key_1 > 100 && notes_high_0 > 1000);
}

static void test_one_record(cart *c, const ref_player *given)
{
    ref_player p = *given;
    uint32_t answer[REF_ANSWER_WORDS];
    uint32_t number = ref_frame(&p, c->bytes, REF_BANK_SIZE, &c->places, 0, answer);
    CHECK((answer[0] == REF_REFUSED) == (number != 0));
    CHECK(number == 0 || (number >= REF_NO_COMMAND && number <= REF_BAD_RECORD));
    check_address(c, number, answer[REF_ANSWER_CHANNEL], answer[REF_ANSWER_OFFSET], answer[REF_ANSWER_ADDRESS]);
    check_frames(c, given, &p, answer);
    check_keys(c, &p, answer);
    if (given->frames_left > 16777216 || given->pass_length > 16777216) {
        CHECK(number == REF_BAD_RECORD);
        too_many_frames++;
    }
    if (answer[0] != REF_EVENTS)
        for (int i = REF_ANSWER_PARTS; i < REF_ANSWER_WORDS; i++)
            CHECK(answer[i] == 0);
    verdicts[number]++;
    answers[answer[0]]++;
}

/* Records as from a damaged save: what each outcome leaves behind. */
static void test_records(void)
{
    memset(verdicts, 0, sizeof verdicts);
    for (int i = 0; i < RANDOM_RECORDS; i++) {
        cart *c = random_cart();
        ref_player p = {0};
        p.stopped = (uint8_t)(random_below(10) == 0 ? random_below(256) : 0);
        for (int j = 0; j < REF_CHANNELS; j++)
            p.channels[j] = random_channel(ref_kind_of(j));
        p.frames_left = random_frames();
        p.pass_length = random_frames();
        test_one_record(c, &p);
        free(c);
    }
    printf("random records: %u events, %u ends, %u stopped", answers[REF_EVENTS], answers[REF_END],
           answers[REF_STOPPED]);
    print_refusals();
    printf("; %u with too many frames\n", too_many_frames);
    for (int kind = REF_EVENTS; kind <= REF_REFUSED; kind++)
        CHECK(answers[kind] > 500);
    for (int number = REF_NO_COMMAND; number <= REF_PAST_DATA; number++)
        CHECK(verdicts[number] > 0);
    CHECK(verdicts[REF_BAD_RECORD] > 1000);
    CHECK(too_many_frames > 1000);
    expect_keys_seen();
    CHECK(past_bank_end > 10);
}

/* Data that reads, written again, gives the same bytes up to and including its end. Whether it reads. */
static unsigned read_then_write(ref_kind kind)
{
    uint8_t data[LONGEST_DATA + 1], back[LONGEST_DATA];
    uint16_t words[LONGEST_DATA];
    size_t n = 0, count, offset, written;
    while (n < LONGEST_DATA)
        n += random_command(kind, data + n);
    if (ref_read_words(kind, data, LONGEST_DATA, words, LONGEST_DATA, &count, &offset) != 0)
        return 0;
    CHECK(ref_write_words(kind, words, count, back, LONGEST_DATA, &written) == 0);
    CHECK(written >= count && memcmp(data, back, written) == 0 && back[written - 1] == 0);
    CHECK(ref_write_words(kind, words, count, back, written - 1, &written) == REF_NO_ROOM);
    return 1;
}

/* A list that writes, read again, gives the same words, whatever stands behind its bytes. Whether it writes. */
static unsigned write_then_read(ref_kind kind)
{
    uint16_t words[LONGEST_DATA], back[LONGEST_DATA];
    uint8_t data[2 * LONGEST_DATA];
    size_t n = 1 + random_below(LONGEST_DATA), count, offset, written;
    for (size_t i = 0; i < n - 1; i++) {
        uint8_t command[2] = { 0, 0 };
        random_command(kind, command);
        words[i] = (uint16_t)(command[0] + 256 * command[1]);
    }
    words[n - 1] = 0;
    memset(data, (int)random_below(256), sizeof data);
    if (ref_write_words(kind, words, n, data, sizeof data, &written) != 0)
        return 0;
    CHECK(ref_read_words(kind, data, sizeof data, back, LONGEST_DATA, &count, &offset) == 0);
    CHECK(count == n && memcmp(words, back, n * sizeof words[0]) == 0);
    CHECK(ref_read_words(kind, data, written - 1, back, LONGEST_DATA, &count, &offset) == REF_PAST_DATA);
    return 1;
}

static void test_lists(void)
{
    unsigned read = 0, wrote = 0;
    for (int i = 0; i < RANDOM_LISTS; i++) {
        ref_kind kind = random_below(2) == 0 ? REF_MELODIC : REF_NOISE;
        read += read_then_write(kind);
        wrote += write_then_read(kind);
    }
    printf("random lists: of %d each, %u read and written back, %u written and read back\n", RANDOM_LISTS, read, wrote);
    CHECK(read > RANDOM_LISTS / 4 && wrote > RANDOM_LISTS / 4);
}

void test_random(void)
{
    test_checks_agree();
    test_records();
    test_lists();
}
