/* The addresses of faults: the channel's start plus the offset. */
#include "selftest.h"

#include <stdlib.h>
#include <string.h>

/* L 1 is 2 frames, L 2 a length of 0, L 9 outside. 12 and 13 name BL, 11 after BL the byte behind it. */
static void test_fault_places(void)
{
    static const struct {
        int channel;
        const char *hex;
        uint32_t number, offset, frame, address;
    } faults[] = {
        { 0, "B1 2A A0", REF_NO_COMMAND, 2, 2, 0x9002 },
        { 1, "B1 2A 03", REF_NO_SUCH_KEY, 2, 2, 0x9202 },
        { 2, "FF B1 81", REF_NO_SUCH_KEY, 2, 0, 0x9402 },
        { 3, "FF B9 04", REF_LENGTH_OUTSIDE, 1, 0, 0x9601 },
        { 2, "FF B2 2A", REF_LENGTH_ZERO, 1, 0, 0x9401 },
        { 3, "C1 04", REF_NO_LENGTH_YET, 1, 0, 0x9601 },
    };
    for (size_t i = 0; i < sizeof faults / sizeof faults[0]; i++) {
        cart *c = new_cart();
        cart_header(c)[HEADER_WINDOW] = 0x1F;
        *cart_at(c, c->places.note_lengths + 0x1F + 2) = 0;
        use_channel(c, faults[i].channel, faults[i].hex);
        expect_fault(c, faults[i].number, (uint32_t)faults[i].channel, faults[i].offset, faults[i].frame,
                     faults[i].address);
        free(c);
    }
}

/* Data without an end, and BL as its last byte: the address wanted, at most the first one behind the bank. */
static void test_past_data(void)
{
    cart *c = new_cart();
    memset(cart_at(c, 0x9400), 0xFF, REF_DATA_LIMIT);
    set_address(c, REF_TRIANGLE, 0x9400);
    expect_fault(c, REF_PAST_DATA, REF_TRIANGLE, 256, 0, 0x9500);
    *cart_at(c, 0x94FF) = 0xB0;
    expect_fault(c, REF_PAST_DATA, REF_TRIANGLE, 256, 0, 0x9500);
    memset(cart_at(c, 0xBEFF), 0xFF, 0xC000 - 0xBEFF);
    set_address(c, REF_TRIANGLE, 0xBEFF);
    expect_fault(c, REF_PAST_DATA, REF_TRIANGLE, 256, 0, 0xBFFF);
    set_address(c, REF_TRIANGLE, 0xBF00);
    expect_fault(c, REF_PAST_DATA, REF_TRIANGLE, 256, 0, 0xC000);
    set_address(c, REF_TRIANGLE, 0xBF01);
    expect_fault(c, REF_PAST_DATA, REF_TRIANGLE, 255, 0, 0xC000);
    free(c);
}

/* The address is of the channel that has the fault, and a pass has none. */
static void test_fault_of_second(void)
{
    cart *c = new_cart();
    use_channel(c, 0, "B1 2A A0");
    use_channel(c, REF_TRIANGLE, "B0 2A 03");
    expect_fault(c, REF_NO_SUCH_KEY, REF_TRIANGLE, 2, 6, 0x9402);
    use_channel(c, REF_TRIANGLE, "B0 2A 00");
    expect_pass(c, 6, REF_TRIANGLE);
    use_channel(c, REF_TRIANGLE, "B1 2A 03");
    expect_fault(c, REF_NO_COMMAND, 0, 2, 12, 0x9002);
    free(c);
}

static void expect_place(cart *c, ref_channel record, uint32_t offset, uint32_t address)
{
    ref_player p = { .channels = { [REF_TRIANGLE] = record } };
    uint32_t answer[REF_ANSWER_WORDS];
    CHECK(ref_frame(&p, c->bytes, REF_BANK_SIZE, &c->places, 0, answer) == REF_PAST_DATA);
    CHECK(place_is(answer, REF_TRIANGLE, offset, address));
}

/* Records that stand or jump behind the data's end: the address is not cut at the bank's end. */
static void test_record_past_data(void)
{
    cart *c = new_cart();
    set_address(c, REF_TRIANGLE, LAST_ADDRESS);
    *cart_at(c, LAST_ADDRESS) = 0xFF;
    expect_place(c, (ref_channel){ 1, 0, 0, 0, 0, 0 }, 1, 0xC000);
    expect_place(c, (ref_channel){ 2, 0, 0, 0, 0, 0 }, 2, 0xC001);
    expect_place(c, (ref_channel){ 256, 0, 0, 0, 0, 0 }, 256, 0xC0FF);
    expect_place(c, (ref_channel){ 0, 256, 1, 0, 0, 0 }, 256, 0xC0FF);
    set_address(c, REF_TRIANGLE, 0x9400);
    expect_place(c, (ref_channel){ 256, 0, 0, 0, 0, 0 }, 256, 0x9500);
    free(c);
}

void test_addresses(void)
{
    test_fault_places();
    test_past_data();
    test_fault_of_second();
    test_record_past_data();
}
