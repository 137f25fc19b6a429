/* Each number of refusal, the orders of the tests, and the words. */
#include "selftest.h"

#include <stdlib.h>
#include <string.h>

/* Start, frame and both checks answer the number, and nothing is told beside it but the record's frames left. */
static void expect_number(cart *c, size_t len, uint32_t track, uint32_t number)
{
    ref_player given = { 7, { { 300, 300, 1, 2, 3, 4 } }, UINT32_MAX, 16777217 };
    ref_player p = given;
    ref_player fresh = {0};
    ref_verdict wanted = { number, 0, 0, 0, 0 };
    uint32_t answer[REF_ANSWER_WORDS];
    CHECK(ref_frame(&p, c->bytes, len, &c->places, track, answer) == number);
    CHECK(same_record(&p, &given));
    CHECK(answer[0] == REF_REFUSED && tells_only_left(answer, UINT32_MAX));
    CHECK(ref_start(&p, c->bytes, len, &c->places, track) == number);
    CHECK(same_record(&p, &fresh));
    ref_verdict by_frames = ref_check_by_frames(c->bytes, len, &c->places, track);
    ref_verdict by_channels = ref_check_by_channels(c->bytes, len, &c->places, track);
    CHECK(same_verdict(&by_frames, &wanted));
    CHECK(same_verdict(&by_channels, &wanted));
    expect_countdown(c, len, track);
}

/* A table of this size at its last place is good, one further it is not, nor below the bank or far beyond. */
static void test_place(cart *c, uint32_t *place, uint32_t size)
{
    static const uint32_t bad[] = { 0, 0x7FFF, 0xC000, 0xFFFF, 0x18000, 0xFFFFFFFF, 0xFFFFFFF0 };
    uint32_t kept = *place;
    ref_track track;
    *place = 0xC000 - size;
    CHECK(ref_open(c->bytes, REF_BANK_SIZE, &c->places, 0, &track) != REF_BAD_PLACES);
    *place = 0x8000;
    CHECK(ref_open(c->bytes, REF_BANK_SIZE, &c->places, 0, &track) != REF_BAD_PLACES);
    *place = 0xC000 - size + 1;
    expect_number(c, REF_BANK_SIZE, 0, REF_BAD_PLACES);
    for (size_t i = 0; i < sizeof bad / sizeof bad[0]; i++) {
        *place = bad[i];
        expect_number(c, REF_BANK_SIZE, 0, REF_BAD_PLACES);
    }
    *place = kept;
}

static void test_places(void)
{
    cart *c = new_cart();
    use_channel(c, 0, "00");
    expect_number(c, 0, 0, REF_BAD_BANK_SIZE);
    expect_number(c, REF_BANK_SIZE - 1, 0, REF_BAD_BANK_SIZE);
    expect_number(c, REF_BANK_SIZE + 1, 0, REF_BAD_BANK_SIZE);
    test_place(c, &c->places.header_offsets, 12);
    test_place(c, &c->places.header_block, 1);
    test_place(c, &c->places.note_lengths, 40);
    test_place(c, &c->places.key_periods, 128);
    test_place(c, &c->places.noise_presets, 13);
    test_place(c, &c->places.envelope_addresses, 10);
    c->places.track_count = 0;
    expect_number(c, REF_BANK_SIZE, 0, REF_BAD_PLACES);
    c->places.track_count = 256;
    expect_number(c, REF_BANK_SIZE, 0, REF_BAD_PLACES);
    c->places.track_count = 255;
    expect_number(c, REF_BANK_SIZE, 255, REF_BAD_TRACK);
    expect_number(c, REF_BANK_SIZE, 0x100, REF_BAD_TRACK);
    c->places.track_count = 1;
    expect_number(c, REF_BANK_SIZE, 1, REF_BAD_TRACK);
    expect_pass(c, 0, 0);
    free(c);
}

static void test_header(void)
{
    cart *c = new_cart();
    expect_number(c, REF_BANK_SIZE, 0, REF_NO_CHANNEL);
    set_address(c, 3, 0x7FFF);
    expect_number(c, REF_BANK_SIZE, 0, REF_BAD_ADDRESS);
    set_address(c, 3, 0xC000);
    expect_number(c, REF_BANK_SIZE, 0, REF_BAD_ADDRESS);
    cart_header(c)[HEADER_ENVELOPES + 1] = 5;
    set_address(c, 1, 1);
    expect_number(c, REF_BANK_SIZE, 0, REF_BAD_ENVELOPE);
    cart_header(c)[HEADER_ENVELOPES] = 6;
    expect_number(c, REF_BANK_SIZE, 0, REF_BAD_ENVELOPE_NUMBER);
    cart_header(c)[HEADER_WINDOW] = 0x20;
    expect_number(c, REF_BANK_SIZE, 0, REF_BAD_WINDOW);
    c->places.header_block = 0xC000 - 12;
    expect_number(c, REF_BANK_SIZE, 0, REF_BAD_HEADER);
    c->places.header_block = 0xBFFF;
    expect_number(c, REF_BANK_SIZE, 0, REF_BAD_HEADER);
    expect_number(c, REF_BANK_SIZE, 12, REF_BAD_TRACK);
    c->places.header_block = 0xC000 - 13;
    memset(cart_at(c, 0xC000 - 13), 0, 13);
    expect_number(c, REF_BANK_SIZE, 0, REF_NO_CHANNEL);
    *cart_at(c, c->places.header_offsets) = 1;
    expect_number(c, REF_BANK_SIZE, 0, REF_BAD_HEADER);
    free(c);
}

/* An envelope's terminator at its 64th byte, its 65th, and cut at $bfff; only for a square that is used. */
static void test_envelope_search(void)
{
    cart *c = new_cart();
    ref_track track;
    cart_header(c)[HEADER_ENVELOPES] = 1;
    put_word(c, c->places.envelope_addresses, 0xA000);
    *cart_at(c, 0xA000 + 64) = 0xFF;
    use_channel(c, REF_TRIANGLE, "00");
    expect_pass(c, 0, REF_TRIANGLE);
    use_channel(c, 0, "00");
    expect_number(c, REF_BANK_SIZE, 0, REF_BAD_ENVELOPE);
    *cart_at(c, 0xA000 + 63) = 0xF0;
    CHECK(ref_open(c->bytes, REF_BANK_SIZE, &c->places, 0, &track) == 0);
    put_word(c, c->places.envelope_addresses, 0xBFFF);
    expect_number(c, REF_BANK_SIZE, 0, REF_BAD_ENVELOPE);
    *cart_at(c, 0xBFFF) = 0xFF;
    CHECK(ref_open(c->bytes, REF_BANK_SIZE, &c->places, 0, &track) == 0);
    put_word(c, c->places.envelope_addresses, 0x7FFF);
    expect_number(c, REF_BANK_SIZE, 0, REF_BAD_ENVELOPE);
    put_word(c, c->places.envelope_addresses, 0xC000);
    expect_number(c, REF_BANK_SIZE, 0, REF_BAD_ENVELOPE);
    free(c);
}

static void expect_record(cart *c, int channel, ref_channel record, uint8_t stopped, uint32_t number,
                          uint32_t outcome)
{
    ref_player given = { .stopped = stopped };
    uint32_t answer[REF_ANSWER_WORDS];
    given.channels[channel] = record;
    ref_player p = given;
    CHECK(ref_frame(&p, c->bytes, REF_BANK_SIZE, &c->places, 0, answer) == number);
    CHECK(answer[0] == outcome);
    CHECK(outcome == REF_EVENTS || outcome == REF_END || same_record(&p, &given));
    if (number == REF_BAD_RECORD || outcome == REF_STOPPED)
        CHECK(tells_only_left(answer, 0));
}

/* Fields in order: next, loop, counter, length, left, sounding. */
static void test_records(void)
{
    cart *c = new_cart();
    use_channel(c, REF_TRIANGLE, "00");
    use_channel(c, REF_NOISE_CHANNEL, "B0 01");
    expect_record(c, 2, (ref_channel){ 257, 0, 0, 0, 0, 0 }, 0, REF_BAD_RECORD, REF_REFUSED);
    expect_record(c, 2, (ref_channel){ 0, 257, 0, 0, 0, 0 }, 0, REF_BAD_RECORD, REF_REFUSED);
    expect_record(c, 2, (ref_channel){ 256, 256, 0, 0, 0, 0 }, 0, REF_PAST_DATA, REF_REFUSED);
    expect_record(c, 2, (ref_channel){ 0, 0, 0, 0, 0, 0x81 }, 0, 0, REF_END);
    expect_record(c, 2, (ref_channel){ 0, 0, 0, 4, 5, 0x02 }, 0, REF_BAD_RECORD, REF_REFUSED);
    expect_record(c, 2, (ref_channel){ 0, 0, 0, 5, 5, 0x03 }, 0, REF_BAD_RECORD, REF_REFUSED);
    expect_record(c, 2, (ref_channel){ 0, 0, 0, 5, 5, 0x80 }, 0, REF_BAD_RECORD, REF_REFUSED);
    expect_record(c, 2, (ref_channel){ 0, 0, 0, 5, 5, 0x7E }, 0, 0, REF_EVENTS);
    expect_record(c, 2, (ref_channel){ 0, 0, 0, 5, 5, 0x00 }, 0, 0, REF_EVENTS);
    expect_record(c, 2, (ref_channel){ 0, 0, 0, 5, 5, 0x00 }, 9, 0, REF_STOPPED);
    expect_record(c, 2, (ref_channel){ 257, 0, 0, 5, 5, 0x00 }, 1, REF_BAD_RECORD, REF_REFUSED);
    expect_record(c, 0, (ref_channel){ 257, 257, 0, 4, 5, 0x81 }, 0, 0, REF_END);
    expect_record(c, 3, (ref_channel){ 0, 0, 0, 5, 5, 0x00 }, 0, REF_BAD_RECORD, REF_REFUSED);
    expect_record(c, 3, (ref_channel){ 0, 0, 0, 5, 5, 0x02 }, 0, REF_BAD_RECORD, REF_REFUSED);
    expect_record(c, 3, (ref_channel){ 0, 0, 0, 5, 5, 0x0A }, 0, 0, REF_END);
    free(c);
}

typedef struct { uint8_t stopped; uint32_t frames_left, pass_length; } marks;

/* A record that is all 0 but for these: what a frame answers, and which it hands back. The frames left are shown as
   they were given. */
static void expect_marks(cart *c, marks given, uint32_t number, uint32_t outcome, marks wanted)
{
    ref_player p = { given.stopped, { { 0, 0, 0, 0, 0, 0 } }, given.frames_left, given.pass_length };
    uint32_t answer[REF_ANSWER_WORDS];
    CHECK(ref_frame(&p, c->bytes, REF_BANK_SIZE, &c->places, 0, answer) == number);
    CHECK(answer[0] == outcome && answer[REF_ANSWER_LEFT] == given.frames_left);
    CHECK(p.stopped == wanted.stopped);
    CHECK(p.frames_left == wanted.frames_left && p.pass_length == wanted.pass_length);
}

/* 16 by a number above 16,777,216, before Stopped, whatever the track does. */
static void expect_most_frames(cart *c)
{
    static const marks above[] = {
        { 0, 16777217, 0 }, { 0, 0, 16777217 }, { 1, 16777217, 16777216 }, { 255, 16777216, 16777217 },
        { 0, UINT32_MAX, UINT32_MAX }, { 0, 0x80000000, 5 }, { 0, 5, 0x80000000 },
    };
    marks most = { 1, 16777216, 16777216 };
    for (size_t i = 0; i < sizeof above / sizeof above[0]; i++)
        expect_marks(c, above[i], REF_BAD_RECORD, REF_REFUSED, above[i]);
    expect_marks(c, most, 0, REF_STOPPED, most);
}

static void test_frames_of_record(void)
{
    cart *c = new_cart();
    use_channel(c, REF_TRIANGLE, "B0 2A 00");
    expect_most_frames(c);
    expect_marks(c, (marks){ 0, 16777216, 16777216 }, 0, REF_EVENTS, (marks){ 0, 16777215, 16777216 });
    expect_marks(c, (marks){ 0, 9, 3 }, 0, REF_EVENTS, (marks){ 0, 8, 3 });
    expect_marks(c, (marks){ 0, 1, 3 }, 0, REF_EVENTS, (marks){ 0, 0, 3 });
    expect_marks(c, (marks){ 0, 0, 3 }, 0, REF_EVENTS, (marks){ 0, 0, 3 });
    expect_marks(c, (marks){ 7, 9, 3 }, 0, REF_STOPPED, (marks){ 7, 9, 3 });
    use_channel(c, REF_TRIANGLE, "00");
    expect_most_frames(c);
    expect_marks(c, (marks){ 0, 16777216, 16777216 }, 0, REF_END, (marks){ 1, 0, 0 });
    expect_marks(c, (marks){ 0, 9, 3 }, 0, REF_END, (marks){ 1, 0, 0 });
    cart_header(c)[HEADER_RESTART] = 1;
    expect_most_frames(c);
    expect_marks(c, (marks){ 0, 0, 16777216 }, 0, REF_END, (marks){ 0, 16777216, 16777216 });
    expect_marks(c, (marks){ 0, 9, 3 }, 0, REF_END, (marks){ 0, 3, 3 });
    expect_marks(c, (marks){ 0, 9, 0 }, 0, REF_END, (marks){ 0, 0, 0 });
    use_channel(c, REF_TRIANGLE, "A0");
    expect_most_frames(c);
    expect_marks(c, (marks){ 0, 9, 3 }, REF_NO_COMMAND, REF_REFUSED, (marks){ 0, 9, 3 });
    free(c);
}

/* An unused channel's part of the record stays as it was given, through a frame with events. */
static void test_unused_part(void)
{
    cart *c = new_cart();
    ref_channel odd = { 900, 901, 9, 3, 200, 0x81 };
    ref_player p = { .channels = { odd, odd, { 0, 0, 0, 0, 0, 0 }, odd } };
    ref_player wanted = { .channels = { odd, odd, { 3, 1, 1, 6, 5, 0x2A }, odd } };
    uint32_t answer[REF_ANSWER_WORDS];
    use_channel(c, REF_TRIANGLE, "C2 B0 2A FF 00");
    CHECK(ref_frame(&p, c->bytes, REF_BANK_SIZE, &c->places, 0, answer) == 0);
    CHECK(answer[0] == REF_EVENTS && answer[3] == 2);
    CHECK(same_record(&p, &wanted));
    free(c);
}

static void expect_walk(ref_kind kind, const char *hex, uint32_t number, uint32_t offset, uint64_t frames,
                        uint64_t commands)
{
    static const uint8_t lengths[40] = { 1, 2, 0, 3 };
    uint8_t data[REF_DATA_LIMIT];
    size_t n = hex_bytes(hex, data);
    ref_timeline line = ref_walk(kind, data, n, lengths, 0);
    CHECK(line.number == number && line.offset == offset && line.frames == frames);
    CHECK(line.commands == commands);
}

static void test_commands(void)
{
    expect_walk(REF_MELODIC, "B2", REF_LENGTH_ZERO, 0, 0, 0);
    expect_walk(REF_MELODIC, "B1 81", REF_NO_SUCH_KEY, 1, 0, 0);
    expect_walk(REF_MELODIC, "B1", REF_PAST_DATA, 1, 0, 0);
    expect_walk(REF_MELODIC, "", REF_PAST_DATA, 0, 0, 0);
    expect_walk(REF_MELODIC, "03", REF_NO_SUCH_KEY, 0, 0, 0);
    expect_walk(REF_MELODIC, "02", REF_NO_LENGTH_YET, 0, 0, 0);
    expect_walk(REF_MELODIC, "B1 00 7E 02 00", 0, 4, 6, 4);
    expect_walk(REF_MELODIC, "B1 00 7F", REF_NO_SUCH_KEY, 2, 2, 1);
    expect_walk(REF_MELODIC, "C1 B0 02 FF 00", 0, 4, 1, 4);
    expect_walk(REF_MELODIC, "FE B0 02 FF 00", 0, 4, 62, 1 + 62 * 2 + 1);
    expect_walk(REF_MELODIC, "C2 C3 B0 02 FF FF 00", 0, 6, 3, 2 + 3 * 2 + 1 + 1);
    expect_walk(REF_NOISE, "B3 01 04 07 0A 00", 0, 5, 12, 5);
    expect_walk(REF_NOISE, "B3 00", REF_NO_SUCH_KEY, 1, 0, 0);
    expect_walk(REF_NOISE, "B3 01 02", REF_NO_SUCH_KEY, 2, 3, 1);
    expect_walk(REF_NOISE, "04", REF_NO_LENGTH_YET, 0, 0, 0);
    expect_walk(REF_NOISE, "AF", REF_NO_COMMAND, 0, 0, 0);
    expect_walk(REF_NOISE, "80", REF_NO_COMMAND, 0, 0, 0);
}

static int channel_is(const ref_channel *ch, ref_channel wanted)
{
    return ch->next == wanted.next && ch->loop_start == wanted.loop_start && ch->counter == wanted.counter
        && ch->length == wanted.length && ch->left == wanted.left && ch->sounding == wanted.sounding;
}

/* From a record, to the record: fields next, loop, counter, length, left, sounding. */
static void expect_until(const char *hex, ref_channel from, ref_channel to, uint32_t number, int ended,
                         uint32_t offset, uint32_t count)
{
    uint8_t data[REF_DATA_LIMIT];
    size_t n = hex_bytes(hex, data);
    int got_ended;
    uint32_t got_offset, got_count;
    ref_channel ch = from;
    CHECK(ref_read_until(REF_MELODIC, data, n, published_lengths, 0, &ch, &got_ended, &got_offset, &got_count)
          == number);
    CHECK(got_ended == ended && got_offset == offset && got_count == count);
    CHECK(channel_is(&ch, to));
}

static void test_read_until(void)
{
    ref_channel fresh = { 0, 0, 0, 0, 0, 0 };
    expect_until("B0 2A 00", fresh, (ref_channel){ 2, 0, 0, 4, 0, 0x2A }, 0, 0, 0, 1);
    expect_until("C3 B1 00", fresh, (ref_channel){ 3, 1, 2, 8, 0, 0x00 }, 0, 0, 0, 2);
    /* left is not looked at */
    expect_until("2A", (ref_channel){ 0, 9, 3, 5, 77, 2 }, (ref_channel){ 1, 9, 3, 5, 77, 0x2A }, 0, 0, 0, 1);
    /* the end and a refused command leave the channel as it was before them */
    expect_until("C2 FF 00", fresh, (ref_channel){ 2, 1, 0, 0, 0, 0 }, 0, 1, 2, 4);
    expect_until("C2 B0 81", fresh, (ref_channel){ 1, 1, 1, 0, 0, 0 }, REF_NO_SUCH_KEY, 0, 2, 1);
    expect_until("C2 2A", fresh, (ref_channel){ 1, 1, 1, 0, 0, 0 }, REF_NO_LENGTH_YET, 0, 1, 1);
    /* FF with a counter jumps to the record's loop offset, forward or past the data too */
    expect_until("FF 80 2A", (ref_channel){ 0, 2, 1, 5, 0, 2 }, (ref_channel){ 3, 2, 0, 5, 0, 0x2A }, 0, 0, 0, 2);
    expect_until("FF 00", (ref_channel){ 0, 200, 1, 5, 0, 2 }, (ref_channel){ 200, 200, 0, 5, 0, 2 },
                 REF_PAST_DATA, 0, 200, 1);
    expect_until("C2 FF 00", (ref_channel){ 1, 0, 1, 0, 0, 0 }, (ref_channel){ 2, 1, 0, 0, 0, 0 }, 0, 1, 2, 5);
}

static void expect_reading(ref_kind kind, const char *hex, size_t room, uint32_t number, size_t offset,
                           size_t count)
{
    uint8_t data[REF_DATA_LIMIT];
    uint16_t words[REF_DATA_LIMIT];
    size_t n = hex_bytes(hex, data);
    size_t got_count, got_offset;
    memset(words, 0xEE, sizeof words);
    CHECK(ref_read_words(kind, data, n, words, room, &got_count, &got_offset) == number);
    CHECK(got_offset == offset && got_count == count);
    for (size_t i = got_count; i < REF_DATA_LIMIT; i++)
        CHECK(words[i] == 0xEEEE);
}

static void test_reading(void)
{
    expect_reading(REF_MELODIC, "C3 B0 2A 02 FF 00 81", 5, 0, 0, 5);
    expect_reading(REF_MELODIC, "C3 B0 2A 02 FF 00 81", 4, REF_NO_ROOM, 0, 0);
    expect_reading(REF_MELODIC, "00", 0, REF_NO_ROOM, 0, 0);
    expect_reading(REF_MELODIC, "80", 0, REF_NO_COMMAND, 0, 0);
    expect_reading(REF_MELODIC, "2A B0", 1, REF_PAST_DATA, 2, 0);
    expect_reading(REF_MELODIC, "2A B0 81", 1, REF_NO_SUCH_KEY, 2, 0);
    expect_reading(REF_MELODIC, "2A 03", 1, REF_NO_SUCH_KEY, 1, 0);
    expect_reading(REF_MELODIC, "2A", 1, REF_PAST_DATA, 1, 0);
    expect_reading(REF_MELODIC, "2A 2C 81", 1, REF_NO_ROOM, 0, 0);
    expect_reading(REF_MELODIC, "", 0, REF_PAST_DATA, 0, 0);
    expect_reading(REF_MELODIC, "B0 00 00", 2, 0, 0, 2);
    expect_reading(REF_NOISE, "B0 00 00", 2, REF_NO_SUCH_KEY, 1, 0);
    expect_reading(REF_NOISE, "01 04 07 0A 00", 9, 0, 0, 5);
}

/* Data longer than 256 bytes is read up to there. */
static void test_long_data(void)
{
    uint8_t data[300];
    uint16_t words[300];
    size_t count, offset;
    memset(data, 0x2A, sizeof data);
    data[256] = 0x00;
    CHECK(ref_read_words(REF_MELODIC, data, 300, words, 300, &count, &offset) == REF_PAST_DATA);
    CHECK(offset == 256);
    data[255] = 0xB0;
    CHECK(ref_read_words(REF_MELODIC, data, 300, words, 300, &count, &offset) == REF_PAST_DATA);
    CHECK(offset == 256);
    data[255] = 0x00;
    CHECK(ref_read_words(REF_MELODIC, data, 300, words, 300, &count, &offset) == 0);
    CHECK(count == 256 && words[255] == 0 && words[0] == 0x2A);
    CHECK(ref_write_words(REF_MELODIC, words, 256, data, 256, &count) == 0);
    CHECK(count == 256);
    CHECK(ref_write_words(REF_MELODIC, words, 256, data, 255, &count) == REF_NO_ROOM);
    words[0] = 0x2AB0;
    CHECK(ref_write_words(REF_MELODIC, words, 256, data, 300, &count) == REF_NO_ROOM);
}

static void test_long_walk(void)
{
    uint8_t data[300];
    ref_channel ch = { 255, 0, 0, 4, 0, 2 };
    int ended;
    uint32_t offset, count;
    memset(data, 0xFF, sizeof data);
    data[256] = 0x00;
    ref_timeline line = ref_walk(REF_MELODIC, data, 300, published_lengths, 0);
    CHECK(line.number == REF_PAST_DATA && line.offset == 256 && line.commands == 256);
    CHECK(ref_read_until(REF_MELODIC, data, 300, published_lengths, 0, &ch, &ended, &offset, &count)
          == REF_PAST_DATA);
    CHECK(!ended && offset == 256 && count == 1 && ch.next == 256);
}

static void test_writing(void)
{
    static const uint16_t good[3] = { 0x2AB0, 0x00B1, 0x0000 };
    static const uint16_t two_ends[2] = { 0x0000, 0x0000 };
    static const uint16_t no_end[2] = { 0x2AB0, 0x0002 };
    static const uint16_t late_fault[3] = { 0x0002, 0x01FF, 0x0000 };
    static const uint8_t wanted[6] = { 0xB0, 0x2A, 0xB1, 0x00, 0x00, 0xEE };
    uint8_t bytes[6];
    size_t count;
    memset(bytes, 0xEE, sizeof bytes);
    CHECK(ref_write_words(REF_MELODIC, good, 0, bytes, 6, &count) == REF_BAD_WORD);
    CHECK(ref_write_words(REF_MELODIC, two_ends, 2, bytes, 6, &count) == REF_BAD_WORD);
    CHECK(ref_write_words(REF_MELODIC, no_end, 2, bytes, 6, &count) == REF_BAD_WORD);
    CHECK(ref_write_words(REF_MELODIC, late_fault, 3, bytes, 0, &count) == REF_BAD_WORD);
    CHECK(ref_write_words(REF_NOISE, good, 3, bytes, 6, &count) == REF_BAD_WORD);
    CHECK(ref_write_words(REF_MELODIC, good, 3, bytes, 4, &count) == REF_NO_ROOM);
    CHECK(bytes[0] == 0xEE && count == 0);
    CHECK(ref_write_words(REF_MELODIC, good, 3, bytes, 5, &count) == 0);
    CHECK(count == 5 && memcmp(bytes, wanted, 6) == 0);
}

void test_refusals(void)
{
    test_places();
    test_header();
    test_envelope_search();
    test_records();
    test_frames_of_record();
    test_unused_part();
    test_commands();
    test_read_until();
    test_reading();
    test_long_data();
    test_long_walk();
    test_writing();
}
