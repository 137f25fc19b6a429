/* The sample tracks of document 01. */
#include "selftest.h"

#include <stdlib.h>
#include <string.h>

static void triangle_passes(const char *hex, uint64_t frame)
{
    cart *c = new_cart();
    use_channel(c, REF_TRIANGLE, hex);
    expect_pass(c, frame, REF_TRIANGLE);
    free(c);
}

static void triangle_faults(const char *hex, uint32_t number, uint32_t offset, uint64_t frame, uint32_t address)
{
    cart *c = new_cart();
    use_channel(c, REF_TRIANGLE, hex);
    expect_fault(c, number, REF_TRIANGLE, offset, frame, address);
    free(c);
}

static void test_verdicts(void)
{
    triangle_passes("B0 2A 00", 6);
    triangle_passes("C3 B0 2A 02 FF 00", 36);
    triangle_passes("C0 B0 2A FF 00", 1536);
    triangle_passes("FF 00", 0);
    triangle_passes("B0 00 00", 6);
    triangle_faults("2A 00", REF_NO_LENGTH_YET, 0, 0, 0x9400);
    triangle_faults("B0 81", REF_NO_SUCH_KEY, 1, 0, 0x9401);
    triangle_faults("B0 2A A0", REF_NO_COMMAND, 2, 6, 0x9402);
}

/* Key $15, release 20 quarter-frames, in each of the note's six frames. */
static void test_one_note(void)
{
    cart *c = new_cart();
    ref_player p;
    ref_player stopped = { .stopped = 1 };
    uint32_t answer[REF_ANSWER_WORDS];
    use_channel(c, REF_TRIANGLE, "B0 2A 00");
    for (uint64_t n = 0; n < 6; n++) {
        CHECK(frame_after(c, n, &p, answer) == 0);
        CHECK(answer[0] == REF_EVENTS);
        CHECK(answer[1 + REF_TRIANGLE] == (n == 0 ? 1u : 0u) && place_is(answer, 0, 0, 0));
        CHECK(tells_part(answer, REF_TRIANGLE, REF_NOTE, n == 0, 0x15, period_of_key(0x15), 20));
        CHECK(tells_part(answer, 0, REF_OFF, 0, 0, 0, 0));
        CHECK(p.channels[REF_TRIANGLE].left == 5 - n);
        CHECK(p.frames_left == 5 - n && p.pass_length == 6);
    }
    CHECK(frame_after(c, 6, &p, answer) == 0);
    CHECK(answer[0] == REF_END && answer[1 + REF_TRIANGLE] == 1 && place_is(answer, 0, 0, 0));
    CHECK(tells_part(answer, REF_TRIANGLE, REF_OFF, 0, 0, 0, 0));
    CHECK(same_record(&p, &stopped));
    CHECK(frame_after(c, 7, &p, answer) == 0);
    CHECK(answer[0] == REF_STOPPED && answer[1 + REF_TRIANGLE] == 0 && place_is(answer, 0, 0, 0));
    CHECK(same_record(&p, &stopped));
    free(c);
}

static void test_restart(void)
{
    cart *c = new_cart();
    ref_player p;
    ref_player again = { .frames_left = 6, .pass_length = 6 };
    uint32_t answer[REF_ANSWER_WORDS];
    use_channel(c, REF_TRIANGLE, "B0 2A 00");
    cart_header(c)[HEADER_RESTART] = 0xFF;
    CHECK(frame_after(c, 6, &p, answer) == 0);
    CHECK(answer[0] == REF_END);
    CHECK(same_record(&p, &again));
    CHECK(frame_after(c, 7, &p, answer) == 0);
    CHECK(answer[0] == REF_EVENTS);
    CHECK(tells_part(answer, REF_TRIANGLE, REF_NOTE, 1, 0x15, period_of_key(0x15), 20));
    free(c);
}

/* What each of nine frames shows of the frames left. */
static void expect_left(const char *hex, uint8_t restart, const uint32_t wanted[9])
{
    cart *c = new_cart();
    ref_player p;
    uint32_t answer[REF_ANSWER_WORDS];
    use_channel(c, REF_TRIANGLE, hex);
    cart_header(c)[HEADER_RESTART] = restart;
    CHECK(ref_start(&p, c->bytes, REF_BANK_SIZE, &c->places, 0) == 0);
    for (int n = 0; n < 9; n++) {
        ref_frame(&p, c->bytes, REF_BANK_SIZE, &c->places, 0, answer);
        CHECK(answer[REF_ANSWER_LEFT] == wanted[n]);
    }
    free(c);
}

static void test_frames_left(void)
{
    expect_left("B0 2A 00", 0, (uint32_t[9]){ 6, 5, 4, 3, 2, 1, 0, 0, 0 });
    expect_left("B0 2A 00", 1, (uint32_t[9]){ 6, 5, 4, 3, 2, 1, 0, 6, 5 });
    expect_left("B0 2A A0", 1, (uint32_t[9]){ 6, 5, 4, 3, 2, 1, 0, 0, 0 });
    expect_left("FF 00", 1, (uint32_t[9]){ 0 });
    expect_left("2A 00", 1, (uint32_t[9]){ 0 });
    expect_left("C3 B0 2A 02 FF 00", 0, (uint32_t[9]){ 36, 35, 34, 33, 32, 31, 30, 29, 28 });
}

/* Two commands in frames 0, 12, 24 and 36, one where the rest begins. */
static void test_loop_counts(void)
{
    cart *c = new_cart();
    ref_player p;
    uint32_t answer[REF_ANSWER_WORDS];
    use_channel(c, REF_TRIANGLE, "C3 B0 2A 02 FF 00");
    for (uint64_t n = 0; n <= 36; n++) {
        uint32_t wanted = n % 12 == 0 ? 2 : n % 12 == 6 ? 1 : 0;
        CHECK(frame_after(c, n, &p, answer) == 0);
        CHECK(answer[0] == (n == 36 ? REF_END : REF_EVENTS));
        CHECK(answer[1 + REF_TRIANGLE] == wanted);
        if (n < 36 && n % 12 >= 6)
            CHECK(tells_part(answer, REF_TRIANGLE, REF_REST, n % 12 == 6, 0, 0, 0));
    }
    free(c);
}

static void test_key_zero(void)
{
    cart *c = new_cart();
    ref_player p;
    uint32_t answer[REF_ANSWER_WORDS];
    use_channel(c, REF_TRIANGLE, "B0 00 00");
    CHECK(frame_after(c, 5, &p, answer) == 0);
    CHECK(tells_part(answer, REF_TRIANGLE, REF_NOTE, 0, 0, period_of_key(0), 20));
    free(c);
}

/* The triangle's fault in frame 6 against an end in the same frame, before it and after it in order. */
static void test_same_frame(void)
{
    cart *c = new_cart();
    ref_player p, before;
    uint32_t answer[REF_ANSWER_WORDS];
    use_channel(c, REF_TRIANGLE, "B0 2A A0");
    use_channel(c, 0, "B0 2A 00");
    expect_pass(c, 6, 0);
    CHECK(frame_after(c, 6, &p, answer) == 0);
    CHECK(answer[0] == REF_END && answer[1] == 1 && answer[3] == 0);
    set_address(c, 0, 0);
    use_channel(c, REF_NOISE_CHANNEL, "B0 04 00");
    expect_fault(c, REF_NO_COMMAND, REF_TRIANGLE, 2, 6, 0x9402);
    CHECK(frame_after(c, 5, &before, answer) == 0);
    CHECK(tells_part(answer, REF_NOISE_CHANNEL, REF_NOTE, 0, preset_byte(4), preset_byte(5), preset_byte(6)));
    for (uint64_t n = 6; n < 9; n++) {
        CHECK(frame_after(c, n, &p, answer) == REF_NO_COMMAND);
        CHECK(answer[0] == REF_REFUSED && answer[3] == 0 && answer[4] == 0);
        CHECK(place_is(answer, REF_TRIANGLE, 2, 0x9402));
        CHECK(same_record(&p, &before));
    }
    free(c);
}

static void test_window_end(void)
{
    cart *c = new_cart();
    cart_header(c)[HEADER_WINDOW] = 0x1F;
    use_channel(c, REF_TRIANGLE, "B8 2A 00");
    expect_pass(c, 6, REF_TRIANGLE);
    use_channel(c, REF_TRIANGLE, "B9 2A 00");
    expect_fault(c, REF_LENGTH_OUTSIDE, REF_TRIANGLE, 0, 0, 0x9400);
    free(c);
}

static void test_last_byte(void)
{
    cart *c = new_cart();
    set_address(c, REF_TRIANGLE, LAST_ADDRESS);
    *cart_at(c, LAST_ADDRESS) = 0x00;
    expect_pass(c, 0, REF_TRIANGLE);
    *cart_at(c, LAST_ADDRESS) = 0xB0;
    expect_fault(c, REF_PAST_DATA, REF_TRIANGLE, 1, 0, 0xC000);
    free(c);
}

static void test_envelope_default(uint8_t ctrl, uint32_t first, uint32_t second, uint32_t then)
{
    cart *c = new_cart();
    ref_player p;
    uint32_t answer[REF_ANSWER_WORDS];
    c->places.default1 = ctrl;
    c->places.default2 = 0x77;
    put_word(c, c->places.envelope_addresses, 0xA000);
    put_hex(c, 0xA000, "04 02 FF 55");
    cart_header(c)[HEADER_ENVELOPES] = 1;
    use_channel(c, 0, "B0 2A 02 2C 00");
    for (uint64_t n = 0; n < 18; n++) {
        uint64_t index = n % 6;
        uint32_t wanted = index == 0 ? first : index == 1 ? second : then;
        CHECK(frame_after(c, n, &p, answer) == 0);
        if (n / 6 == 1)
            CHECK(tells_part(answer, 0, REF_REST, index == 0, 0, 0, 0x10));
        else
            CHECK(part_of(answer, 0)[0] == REF_NOTE && part_of(answer, 0)[4] == wanted);
    }
    free(c);
}

static void test_many_commands(void)
{
    cart *c = new_cart();
    ref_player p;
    ref_player fresh = {0};
    uint32_t answer[REF_ANSWER_WORDS];
    for (unsigned i = 0; i < 128; i++) {
        *cart_at(c, DATA_ADDRESS(0) + 2 * i) = 0xC0;
        *cart_at(c, DATA_ADDRESS(0) + 2 * i + 1) = 0xFF;
    }
    set_address(c, 0, (uint16_t)DATA_ADDRESS(0));
    expect_fault(c, REF_PAST_DATA, 0, 256, 0, 0x9100);
    CHECK(frame_after(c, 0, &p, answer) == REF_PAST_DATA);
    CHECK(answer[0] == REF_REFUSED && answer[1] == 32896 && place_is(answer, 0, 256, 0x9100));
    CHECK(same_record(&p, &fresh));
    free(c);
}

/* The longest: C0, B0 2A, 251 times 2A, FF 00, all lengths 255. Then one note more in place of the end. */
static void test_longest(void)
{
    cart *c = new_cart();
    uint8_t *data = cart_at(c, DATA_ADDRESS(REF_TRIANGLE));
    memset(cart_at(c, c->places.note_lengths), 255, REF_LENGTH_COUNT);
    memset(data, 0x2A, REF_DATA_LIMIT);
    data[0] = 0xC0;
    data[1] = 0xB0;
    data[254] = 0xFF;
    data[255] = 0x00;
    set_address(c, REF_TRIANGLE, (uint16_t)DATA_ADDRESS(REF_TRIANGLE));
    ref_timeline line = ref_walk(REF_MELODIC, data, 256, cart_at(c, c->places.note_lengths), 0x0B);
    CHECK(line.frames == 16450560 && line.number == 0 && line.offset == 255);
    CHECK(line.commands == 1 + 256 * 253 + 1);
    expect_pass(c, 16450560, REF_TRIANGLE);
    data[254] = 0x2A;
    data[255] = 0xFF;
    expect_fault(c, REF_PAST_DATA, REF_TRIANGLE, 256, 16515840, 0x9500);
    free(c);
}

void test_samples(void)
{
    test_verdicts();
    test_one_note();
    test_restart();
    test_frames_left();
    test_loop_counts();
    test_key_zero();
    test_same_frame();
    test_window_end();
    test_last_byte();
    test_envelope_default(0xB3, 0xB4, 0xB2, 0xB3);
    test_envelope_default(0x00, 0x04, 0x02, 0x10);
    test_many_commands();
    test_longest();
}
