/* The check against the independent one, and what it leaves of the lent buffer. */
#include "host_test.h"

#include <string.h>

enum { ROOM = HEM_VERDICT_WORDS + 2, LENT = ROOM + 3 };

/* How often the address wanted was the first one behind the bank. */
static unsigned long at_bank_end;

/* The buffer as it should be found: the values as far as they fit, the pattern behind. */
static void expected_verdict(const ref_verdict *v, size_t room, uint32_t buffer[LENT])
{
    uint32_t values[HEM_VERDICT_WORDS] = { v->channel, v->offset, (uint32_t)v->frame, v->address };
    size_t count = v->number >= HEM_NO_COMMAND ? HEM_VERDICT_WORDS : 0;
    if (v->number == HEM_OK) {
        values[HEM_PASS_FRAME] = (uint32_t)v->frame;
        values[HEM_PASS_CHANNEL] = v->channel;
        count = 2;
    }
    fill_pattern(buffer, LENT * sizeof buffer[0]);
    for (size_t i = 0; i < count && i < room; i++)
        buffer[i] = values[i];
}

/* Of a fault, whatever address the independent check tells: start plus offset, and at most the bank's end. */
static void expect_fault_address(const setup *s, uint32_t number, const uint32_t *verdict)
{
    uint32_t address = verdict[HEM_FAULT_ADDRESS];
    EXPECT(right_address(s, number, verdict[HEM_FAULT_CHANNEL], verdict[HEM_FAULT_OFFSET], address));
    EXPECT(address <= AFTER_BANK);
    at_bank_end += address == AFTER_BANK;
}

static void compare_check(const setup *s)
{
    ref_verdict v = ref_check_by_channels(s->bank, s->bank_len, &s->places, s->track);
    for (size_t room = 0; room <= ROOM; room++) {
        uint32_t found[LENT], wanted[LENT];
        fill_pattern(found, sizeof found);
        expected_verdict(&v, room, wanted);
        uint32_t number = hem_check(SETUP(s), found, room);
        count_number(CHECK, number);
        EXPECT(number == v.number);
        EXPECT(memcmp(found, wanted, sizeof found) == 0);
        if (v.number >= HEM_NO_COMMAND && room == HEM_VERDICT_WORDS)
            expect_fault_address(s, v.number, found);
    }
}

/* Expectations of one comparison: three for each room. */
#define LEAST_EACH (3 * (ROOM + 1))

/* A track of one channel, in the middle of the bank or at its end: its verdict is where that channel stops, and after
   how many frames. */
static void round_of_one_channel(int channel)
{
    static uint8_t bank[HEM_BANK_SIZE];
    uint8_t bytes[HEM_DATA_LIMIT];
    uint32_t size = 1 + below(one_in(3) ? HEM_DATA_LIMIT : 40);
    setup s;
    plain_setup(&s, bank);
    for (uint32_t i = 0; i < LENGTH_BYTES; i++)
        *byte_at(&s, s.places.note_lengths + i) = (uint8_t)(one_in(12) ? 0 : 1 + below(255));
    header_of(&s)[WINDOW] = (uint8_t)below(32);
    random_data(channel == HEM_NOISE, bytes, size);
    put_channel(&s, channel, one_in(4) ? AFTER_BANK - size : DATA_OF(channel), bytes, size);
    compare_check(&s);
}

void test_check(unsigned long rounds)
{
    uint8_t *memory = fenced_memory();
    begin_part("check", rounds * LEAST_EACH);
    for (unsigned long i = 0; i < rounds; i++) {
        setup s;
        begin_round(i);
        random_setup(&s, memory);
        compare_check(&s);
    }
    begin_part("check of one channel", rounds * HEM_CHANNELS * LEAST_EACH);
    for (unsigned long i = 0; i < rounds; i++) {
        begin_round(i);
        for (int channel = HEM_SQUARE_1; channel < HEM_CHANNELS; channel++)
            round_of_one_channel(channel);
    }
    printf("faults at the bank's end: %lu\n", at_bank_end);
    EXPECT(at_bank_end > rounds / 10);
}
