/* Tools of the selftest. */
#include "selftest.h"

#include <stdlib.h>
#include <string.h>

/* A longer track is not run to its stop once more. */
#define LONGEST_COUNTDOWN 10000u

const uint8_t published_lengths[REF_LENGTH_COUNT] = {
    4,  8,  16, 32, 64, 24, 48, 12, 11, 5,   2,  6,  12, 24, 48, 96,
    36, 72, 18, 16, 8,  3,  16, 7,  14, 28,  56, 112, 42, 84, 21, 18,
    2,  3,  32, 252, 179, 173, 77, 6,
};

unsigned checks_run, checks_failed;

void check_that(int holds, const char *file, int line, const char *what)
{
    checks_run++;
    if (holds)
        return;
    checks_failed++;
    fprintf(stderr, "%s:%d: does not hold: %s\n", file, line, what);
}

uint8_t *cart_at(cart *c, uint32_t address)
{
    return &c->bytes[address - REF_BANK_FIRST];
}

uint8_t *cart_header(cart *c)
{
    return cart_at(c, c->places.header_block);
}

void put_word(cart *c, uint32_t address, uint16_t word)
{
    *cart_at(c, address) = (uint8_t)(word & 0xFF);
    *cart_at(c, address + 1) = (uint8_t)(word >> 8);
}

size_t put_hex(cart *c, uint32_t address, const char *hex)
{
    uint8_t bytes[REF_DATA_LIMIT];
    size_t n = hex_bytes(hex, bytes);
    memcpy(cart_at(c, address), bytes, n);
    return n;
}

void set_address(cart *c, int channel, uint16_t address)
{
    put_word(c, c->places.header_block + HEADER_ADDRESSES + 2u * (unsigned)channel, address);
}

void use_channel(cart *c, int channel, const char *hex)
{
    put_hex(c, DATA_ADDRESS(channel), hex);
    set_address(c, channel, (uint16_t)DATA_ADDRESS(channel));
}

uint8_t *cart_periods(cart *c)
{
    return cart_at(c, c->places.key_periods);
}

uint8_t preset_byte(unsigned offset)
{
    return (uint8_t)(0x51u + 7u * offset);
}

/* Tempo 150 BPM, no restart, dynamic release, no envelopes, no channel used. */
cart *new_cart(void)
{
    cart *c = calloc(1, sizeof *c);
    if (c == NULL)
        abort();
    c->places = ref_published_places();
    memcpy(cart_at(c, c->places.note_lengths), published_lengths, sizeof published_lengths);
    put_periods(cart_periods(c));
    for (unsigned i = 0; i < 13; i++)
        *cart_at(c, c->places.noise_presets + i) = preset_byte(i);
    cart_header(c)[HEADER_WINDOW] = 0x0B;
    return c;
}

static int same_channel(const ref_channel *a, const ref_channel *b)
{
    return a->next == b->next && a->loop_start == b->loop_start && a->counter == b->counter
        && a->length == b->length && a->left == b->left && a->sounding == b->sounding;
}

int same_record(const ref_player *a, const ref_player *b)
{
    for (int i = 0; i < REF_CHANNELS; i++)
        if (!same_channel(&a->channels[i], &b->channels[i]))
            return 0;
    return a->stopped == b->stopped && a->frames_left == b->frames_left && a->pass_length == b->pass_length;
}

int same_verdict(const ref_verdict *a, const ref_verdict *b)
{
    return a->number == b->number && a->channel == b->channel && a->offset == b->offset
        && a->frame == b->frame && a->address == b->address;
}

/* What frame n of a run shows. */
static uint64_t left_in_frame(cart *c, const ref_verdict *first_stop, uint64_t n)
{
    if (first_stop->number == 0 && cart_header(c)[HEADER_RESTART] != 0)
        return first_stop->frame - n % (first_stop->frame + 1);
    return n < first_stop->frame ? first_stop->frame - n : 0;
}

void expect_countdown(cart *c, size_t len, uint32_t track)
{
    ref_player p;
    uint32_t answer[REF_ANSWER_WORDS];
    ref_verdict first_stop = ref_check_by_frames(c->bytes, len, &c->places, track);
    ref_start(&p, c->bytes, len, &c->places, track);
    CHECK(p.frames_left == first_stop.frame && p.pass_length == first_stop.frame);
    for (uint64_t n = 0; n < 2 * (first_stop.frame + 1) + 3; n++) {
        ref_frame(&p, c->bytes, len, &c->places, track, answer);
        CHECK(answer[REF_ANSWER_LEFT] == left_in_frame(c, &first_stop, n));
        CHECK((answer[REF_ANSWER_LEFT] == 0) == (answer[0] != REF_EVENTS));
    }
}

static void expect_verdict(cart *c, ref_verdict wanted)
{
    ref_player p;
    ref_verdict by_frames = ref_check_by_frames(c->bytes, REF_BANK_SIZE, &c->places, 0);
    ref_verdict by_channels = ref_check_by_channels(c->bytes, REF_BANK_SIZE, &c->places, 0);
    CHECK(same_verdict(&by_frames, &wanted));
    CHECK(same_verdict(&by_channels, &wanted));
    CHECK(ref_start(&p, c->bytes, REF_BANK_SIZE, &c->places, 0) == 0);
    CHECK(p.frames_left == wanted.frame && p.pass_length == wanted.frame);
    if (wanted.frame <= LONGEST_COUNTDOWN)
        expect_countdown(c, REF_BANK_SIZE, 0);
}

void expect_pass(cart *c, uint64_t frame, uint32_t channel)
{
    ref_verdict wanted = { 0, channel, 0, frame, 0 };
    expect_verdict(c, wanted);
}

void expect_fault(cart *c, uint32_t number, uint32_t channel, uint32_t offset, uint64_t frame, uint32_t address)
{
    ref_verdict wanted = { number, channel, offset, frame, address };
    expect_verdict(c, wanted);
}

uint32_t frame_after(cart *c, uint64_t n, ref_player *p, uint32_t *answer)
{
    uint32_t number = ref_start(p, c->bytes, REF_BANK_SIZE, &c->places, 0);
    for (uint64_t i = 0; i <= n; i++)
        number = ref_frame(p, c->bytes, REF_BANK_SIZE, &c->places, 0, answer);
    return number;
}

const uint32_t *part_of(const uint32_t *answer, int channel)
{
    return &answer[REF_ANSWER_PARTS + REF_PART_WORDS * channel];
}

int tells_part(const uint32_t *answer, int channel, uint32_t state, uint32_t began, uint32_t third, uint32_t fourth,
               uint32_t fifth)
{
    const uint32_t *p = part_of(answer, channel);
    return p[0] == state && p[1] == began && p[2] == third && p[3] == fourth && p[4] == fifth;
}

int place_is(const uint32_t *answer, uint32_t channel, uint32_t offset, uint32_t address)
{
    return answer[REF_ANSWER_CHANNEL] == channel && answer[REF_ANSWER_OFFSET] == offset
        && answer[REF_ANSWER_ADDRESS] == address;
}

int tells_only_left(const uint32_t *answer, uint32_t left)
{
    for (int i = 1; i < REF_ANSWER_WORDS; i++)
        if (answer[i] != (i == REF_ANSWER_LEFT ? left : 0))
            return 0;
    return 1;
}

/* A fixed sequence, so that a failure comes again. */
uint32_t random_below(uint32_t limit)
{
    static uint64_t state = 0x9E3779B97F4A7C15u;
    state ^= state << 13;
    state ^= state >> 7;
    state ^= state << 17;
    return (uint32_t)((state >> 32) % limit);
}
