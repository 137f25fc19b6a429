/* The sample tracks of the papers and the places of faults, with what they say of them: no other implementation is
   asked. */
#include "host_test.h"

#include <string.h>

static uint8_t bank[HEM_BANK_SIZE];

/* To the end and behind it, without and with a restart. */
static void expect_passes(const setup *s, uint32_t frame)
{
    hem_player player;
    start_track(s, frame, &player);
    expect_events(s, &player, frame);
    expect_frame(s, &player, HEM_OK, HEM_END, 0, 0, 0, 0);
    expect_frame(s, &player, HEM_OK, HEM_STOPPED, 0, 0, 0, 0);
    expect_frame(s, &player, HEM_OK, HEM_STOPPED, 0, 0, 0, 0);
    header_of(s)[RESTART] = 0xFF;
    start_track(s, frame, &player);
    for (int pass = 0; pass < 3; pass++) {
        expect_events(s, &player, frame);
        expect_frame(s, &player, HEM_OK, HEM_END, 0, 0, 0, 0);
    }
}

static void triangle_passes(uint32_t frame, const uint8_t *bytes, size_t count)
{
    setup s;
    plain_setup(&s, bank);
    use_channel(&s, HEM_TRIANGLE, bytes, count);
    expect_pass(&s, frame, HEM_TRIANGLE);
    expect_passes(&s, frame);
}

static void triangle_faults(uint32_t number, uint32_t offset, uint32_t frame, uint32_t address, const uint8_t *bytes,
                            size_t count)
{
    setup s;
    plain_setup(&s, bank);
    use_channel(&s, HEM_TRIANGLE, bytes, count);
    expect_fault(&s, number, HEM_TRIANGLE, offset, frame, address);
}

static void test_triangles(void)
{
    triangle_passes(6, BYTES(0xB0, 0x2A, 0x00));
    triangle_passes(36, BYTES(0xC3, 0xB0, 0x2A, 0x02, 0xFF, 0x00));
    triangle_passes(1536, BYTES(0xC0, 0xB0, 0x2A, 0xFF, 0x00));
    triangle_passes(0, BYTES(0xFF, 0x00));
    triangle_passes(6, BYTES(0xB0, 0x00, 0x00));
    triangle_faults(HEM_NO_LENGTH_YET, 0, 0, 0x9200, BYTES(0x2A, 0x00));
    triangle_faults(HEM_NO_SUCH_KEY, 1, 0, 0x9201, BYTES(0xB0, 0x81));
    triangle_faults(HEM_NO_COMMAND, 2, 6, 0x9202, BYTES(0xB0, 0x2A, 0xA0));
}

/* A fault at frame 6 in the triangle: an end in square 1 comes before it, one in the noise channel after it. */
static void test_order_of_channels(void)
{
    setup s;
    plain_setup(&s, bank);
    use_channel(&s, HEM_TRIANGLE, BYTES(0xB0, 0x2A, 0xA0));
    use_channel(&s, HEM_NOISE, BYTES(0xB0, 0x04, 0x00));
    expect_fault(&s, HEM_NO_COMMAND, HEM_TRIANGLE, 2, 6, 0x9202);
    use_channel(&s, HEM_SQUARE_1, BYTES(0xB0, 0x2A, 0x00));
    expect_pass(&s, 6, HEM_SQUARE_1);
}

static void test_edges(void)
{
    setup s;
    plain_setup(&s, bank);
    header_of(&s)[WINDOW] = 0x1F;
    use_channel(&s, HEM_TRIANGLE, BYTES(0xB8, 0x2A, 0x00));
    expect_pass(&s, 6, HEM_TRIANGLE);
    use_channel(&s, HEM_TRIANGLE, BYTES(0xB9, 0x2A, 0x00));
    expect_fault(&s, HEM_LENGTH_OUTSIDE, HEM_TRIANGLE, 0, 0, 0x9200);
    plain_setup(&s, bank);
    name_channel(&s, HEM_TRIANGLE, AFTER_BANK - 1);
    expect_pass(&s, 0, HEM_TRIANGLE);
    *byte_at(&s, AFTER_BANK - 1) = 0xB0;
    expect_fault(&s, HEM_PAST_DATA, HEM_TRIANGLE, 1, 0, 0xC000);
}

/* With one note more in place of the end the latest refusal, 15, comes after 253 x 255 x 256 frames. */
static void test_latest(void)
{
    static const uint32_t wanted[HEM_VERDICT_WORDS] = { HEM_SQUARE_1, 256, 16515840, 0x9100 };
    hem_player player;
    setup s;
    plain_setup(&s, bank);
    for (int i = HEM_NOISE; i >= HEM_SQUARE_1; i--) {
        latest_end(&s, i);
        expect_pass(&s, 16450560, (uint32_t)i);
    }
    start_track(&s, 16450560, &player);
    expect_frame(&s, &player, HEM_OK, HEM_EVENTS, 16450560, 0, 0, 0);
    expect_frame(&s, &player, HEM_OK, HEM_EVENTS, 16450559, 0, 0, 0);
    plain_setup(&s, bank);
    latest_end(&s, HEM_SQUARE_1);
    memcpy(byte_at(&s, DATA_OF(HEM_SQUARE_1) + 254), (uint8_t[]){ 0x2A, 0xFF }, 2);
    expect_verdict(&s, HEM_PAST_DATA, wanted);
    start_track(&s, 16515840, &player);
}

static void test_most_commands(void)
{
    hem_player player;
    uint32_t answer[HEM_ANSWER_WORDS];
    setup s;
    plain_setup(&s, bank);
    most_commands(&s, HEM_SQUARE_1);
    expect_fault(&s, HEM_PAST_DATA, HEM_SQUARE_1, 256, 0, 0x9100);
    EXPECT(hem_start(&player, SETUP(&s)) == HEM_OK);
    EXPECT(hem_frame(&player, SETUP(&s), answer, HEM_ANSWER_WORDS) == HEM_PAST_DATA);
    EXPECT(answer[HEM_ANSWER_COUNTS + HEM_SQUARE_1] == 32896);
}

/* L 1 is 2 frames, L 2 a length of 0, L 9 outside. 12 and 13 name the set-length command, 11 the byte behind it. */
static void test_fault_places(void)
{
    static const struct {
        int channel;
        uint8_t bytes[3];
        uint32_t number, offset, frame, address;
    } places[] = {
        { HEM_SQUARE_1, { 0xB1, 0x2A, 0xA0 }, HEM_NO_COMMAND, 2, 2, 0x9002 },
        { HEM_SQUARE_2, { 0xB1, 0x2A, 0x03 }, HEM_NO_SUCH_KEY, 2, 2, 0x9102 },
        { HEM_TRIANGLE, { 0xFF, 0xB1, 0x81 }, HEM_NO_SUCH_KEY, 2, 0, 0x9202 },
        { HEM_NOISE, { 0xFF, 0xB9, 0x04 }, HEM_LENGTH_OUTSIDE, 1, 0, 0x9301 },
        { HEM_TRIANGLE, { 0xFF, 0xB2, 0x2A }, HEM_LENGTH_ZERO, 1, 0, 0x9201 },
        { HEM_NOISE, { 0xC1, 0x04, 0x00 }, HEM_NO_LENGTH_YET, 1, 0, 0x9301 },
    };
    for (size_t i = 0; i < sizeof places / sizeof places[0]; i++) {
        setup s;
        plain_setup(&s, bank);
        header_of(&s)[WINDOW] = 0x1F;
        *byte_at(&s, s.places.note_lengths + 0x1F + 2) = 0;
        use_channel(&s, places[i].channel, places[i].bytes, sizeof places[i].bytes);
        expect_fault(&s, places[i].number, (uint32_t)places[i].channel, places[i].offset, places[i].frame,
                     places[i].address);
    }
}

/* Data without an end, and a set-length command as its last byte: start + 256 or the bank's end. */
static void test_past_data(void)
{
    setup s;
    plain_setup(&s, bank);
    memset(byte_at(&s, 0x9200), 0xFF, HEM_DATA_LIMIT);
    name_channel(&s, HEM_TRIANGLE, 0x9200);
    expect_fault(&s, HEM_PAST_DATA, HEM_TRIANGLE, 256, 0, 0x9300);
    *byte_at(&s, 0x92FF) = 0xB0;
    expect_fault(&s, HEM_PAST_DATA, HEM_TRIANGLE, 256, 0, 0x9300);
    memset(byte_at(&s, 0xBEFF), 0xFF, AFTER_BANK - 0xBEFF);
    name_channel(&s, HEM_TRIANGLE, 0xBEFF);
    expect_fault(&s, HEM_PAST_DATA, HEM_TRIANGLE, 256, 0, 0xBFFF);
    name_channel(&s, HEM_TRIANGLE, 0xBF00);
    expect_fault(&s, HEM_PAST_DATA, HEM_TRIANGLE, 256, 0, 0xC000);
    name_channel(&s, HEM_TRIANGLE, 0xBF01);
    expect_fault(&s, HEM_PAST_DATA, HEM_TRIANGLE, 255, 0, 0xC000);
}

/* Two channels with a fault each: the address is of the one that is met. */
static void test_fault_of_second(void)
{
    setup s;
    plain_setup(&s, bank);
    use_channel(&s, HEM_SQUARE_1, BYTES(0xB1, 0x2A, 0xA0));
    use_channel(&s, HEM_TRIANGLE, BYTES(0xB0, 0x2A, 0x03));
    expect_fault(&s, HEM_NO_SUCH_KEY, HEM_TRIANGLE, 2, 6, 0x9202);
    use_channel(&s, HEM_TRIANGLE, BYTES(0xB1, 0x2A, 0x03));
    expect_fault(&s, HEM_NO_COMMAND, HEM_SQUARE_1, 2, 12, 0x9002);
}

/* Records that stand or jump behind the data of one byte: the address is not cut. */
static void test_record_past_data(void)
{
    static const struct {
        hem_channel record;
        uint32_t offset, address;
    } places[] = {
        { { 1, 0, 0, 0, 0, 0 }, 1, 0xC000 },
        { { 2, 0, 0, 0, 0, 0 }, 2, 0xC001 },
        { { 256, 0, 0, 0, 0, 0 }, 256, 0xC0FF },
        { { 0, 256, 1, 0, 0, 0 }, 256, 0xC0FF },
    };
    setup s;
    plain_setup(&s, bank);
    name_channel(&s, HEM_TRIANGLE, AFTER_BANK - 1);
    *byte_at(&s, AFTER_BANK - 1) = 0xFF;
    for (size_t i = 0; i < sizeof places / sizeof places[0]; i++) {
        hem_player player = { .channels = { [HEM_TRIANGLE] = places[i].record } };
        expect_frame(&s, &player, HEM_PAST_DATA, HEM_REFUSED, 0, HEM_TRIANGLE, places[i].offset, places[i].address);
    }
}

/* What of a record is not its channels. */
typedef struct { uint8_t stopped; uint32_t frames_left, pass_length; } marks;

/* A record whose channels are fresh: what a frame answers, and the marks that it hands back. */
static void expect_marks(const setup *s, marks given, uint32_t number, uint32_t kind, marks wanted)
{
    hem_player player = { given.stopped, { { 0, 0, 0, 0, 0, 0 } }, given.frames_left, given.pass_length };
    uint32_t answer[HEM_ANSWER_WORDS];
    EXPECT(hem_frame(&player, SETUP(s), answer, HEM_ANSWER_WORDS) == number);
    EXPECT(answer[HEM_ANSWER_KIND] == kind && answer[HEM_ANSWER_LEFT] == given.frames_left);
    EXPECT(player.stopped == wanted.stopped && player.frames_left == wanted.frames_left);
    EXPECT(player.pass_length == wanted.pass_length);
}

/* 16 by either number, also of a stopped record, whatever the track does; after 1 to 9. */
static void expect_most_frames(setup *s)
{
    static const marks above[] = { { 0, 16777217, 0 }, { 0, 0, 16777217 }, { 1, 16777217, 16777216 },
                                   { 255, 16777216, 16777217 }, { 0, UINT32_MAX, 5 }, { 0, 5, UINT32_MAX } };
    const marks most = { 1, 16777216, 16777216 };
    for (size_t i = 0; i < sizeof above / sizeof above[0]; i++) {
        expect_marks(s, above[i], HEM_BAD_RECORD, HEM_REFUSED, above[i]);
        s->track = HEM_PUBLISHED_TRACK_COUNT;
        expect_marks(s, above[i], HEM_BAD_TRACK, HEM_REFUSED, above[i]);
        s->track = 0;
    }
    expect_marks(s, most, HEM_OK, HEM_STOPPED, most);
}

static void test_record_frames(void)
{
    setup s;
    plain_setup(&s, bank);
    use_channel(&s, HEM_TRIANGLE, BYTES(0xB0, 0x2A, 0x00));
    expect_most_frames(&s);
    expect_marks(&s, (marks){ 0, 16777216, 16777216 }, HEM_OK, HEM_EVENTS, (marks){ 0, 16777215, 16777216 });
    expect_marks(&s, (marks){ 0, 9, 3 }, HEM_OK, HEM_EVENTS, (marks){ 0, 8, 3 });
    expect_marks(&s, (marks){ 0, 1, 3 }, HEM_OK, HEM_EVENTS, (marks){ 0, 0, 3 });
    expect_marks(&s, (marks){ 0, 0, 3 }, HEM_OK, HEM_EVENTS, (marks){ 0, 0, 3 });
    expect_marks(&s, (marks){ 7, 9, 3 }, HEM_OK, HEM_STOPPED, (marks){ 7, 9, 3 });
    use_channel(&s, HEM_TRIANGLE, BYTES(0x00));
    expect_most_frames(&s);
    expect_marks(&s, (marks){ 0, 16777216, 16777216 }, HEM_OK, HEM_END, (marks){ 1, 0, 0 });
    expect_marks(&s, (marks){ 0, 9, 3 }, HEM_OK, HEM_END, (marks){ 1, 0, 0 });
    header_of(&s)[RESTART] = 1;
    expect_most_frames(&s);
    expect_marks(&s, (marks){ 0, 0, 16777216 }, HEM_OK, HEM_END, (marks){ 0, 16777216, 16777216 });
    expect_marks(&s, (marks){ 0, 9, 3 }, HEM_OK, HEM_END, (marks){ 0, 3, 3 });
    expect_marks(&s, (marks){ 0, 9, 0 }, HEM_OK, HEM_END, (marks){ 0, 0, 0 });
    use_channel(&s, HEM_TRIANGLE, BYTES(0xA0));
    expect_most_frames(&s);
    expect_marks(&s, (marks){ 0, 9, 3 }, HEM_NO_COMMAND, HEM_REFUSED, (marks){ 0, 9, 3 });
}

/* Events, end, stopped, 16 and 1 to 9 tell no place. */
static void test_no_place(void)
{
    hem_player player;
    setup s;
    plain_setup(&s, bank);
    use_channel(&s, HEM_TRIANGLE, BYTES(0xB0, 0x2A, 0x00));
    EXPECT(hem_start(&player, SETUP(&s)) == HEM_OK);
    expect_events(&s, &player, 6);
    expect_frame(&s, &player, HEM_OK, HEM_END, 0, 0, 0, 0);
    expect_frame(&s, &player, HEM_OK, HEM_STOPPED, 0, 0, 0, 0);
    player.channels[HEM_TRIANGLE].next = HEM_DATA_LIMIT + 1;
    expect_frame(&s, &player, HEM_BAD_RECORD, HEM_REFUSED, 0, 0, 0, 0);
    s.track = HEM_PUBLISHED_TRACK_COUNT;
    expect_frame(&s, &player, HEM_BAD_TRACK, HEM_REFUSED, 0, 0, 0, 0);
}

/* Square 1 with default B3 and envelope 04 02 FF, square 2 with default 0 and the same, a dynamic release, a preset. */
static void test_events(void)
{
    static const uint32_t preset[3] = { 0x14, 0x15, 0x16 };
    static const uint32_t ctrl1[3][2] = { { 0xB4, 0x04 }, { 0xB2, 0x02 }, { 0xB3, 0x10 } };
    hem_player player;
    uint32_t answer[HEM_ANSWER_WORDS];
    const uint32_t *triangle = answer + HEM_ANSWER_PART(HEM_TRIANGLE);
    const uint32_t *noise = answer + HEM_ANSWER_PART(HEM_NOISE);
    setup s;
    plain_setup(&s, bank);
    s.places.default1 = 0xB3;
    header_of(&s)[ENVELOPE_1] = header_of(&s)[ENVELOPE_2] = 1;
    use_channel(&s, HEM_SQUARE_1, BYTES(0xB0, 0x2A, 0x00));
    use_channel(&s, HEM_SQUARE_2, BYTES(0xB0, 0x2A, 0x00));
    use_channel(&s, HEM_TRIANGLE, BYTES(0xB0, 0x2A, 0x00));
    use_channel(&s, HEM_NOISE, BYTES(0xB0, 0x04, 0x00));
    EXPECT(hem_start(&player, SETUP(&s)) == HEM_OK);
    for (uint32_t i = 0; i < 3; i++) {
        EXPECT(hem_frame(&player, SETUP(&s), answer, HEM_ANSWER_WORDS) == HEM_OK);
        EXPECT(answer[HEM_ANSWER_PART(HEM_SQUARE_1) + HEM_PART_CTRL1] == ctrl1[i][0]);
        EXPECT(answer[HEM_ANSWER_PART(HEM_SQUARE_2) + HEM_PART_CTRL1] == ctrl1[i][1]);
        EXPECT(triangle[HEM_PART_STATE] == HEM_NOTE && triangle[HEM_PART_BEGAN] == (i == 0));
        EXPECT(triangle[HEM_PART_KEY] == 0x15 && triangle[HEM_PART_PERIOD] == 0x01FB);
        EXPECT(triangle[HEM_PART_RELEASE] == 20);
        EXPECT(memcmp(noise + HEM_PART_PRESET, preset, sizeof preset) == 0);
    }
}

void test_samples(void)
{
    begin_part("samples", 26256);
    test_triangles();
    test_order_of_channels();
    test_edges();
    test_latest();
    test_most_commands();
    test_fault_places();
    test_past_data();
    test_fault_of_second();
    test_record_past_data();
    test_record_frames();
    test_no_place();
    test_events();
}
