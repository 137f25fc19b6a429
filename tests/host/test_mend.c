/* Mending against the independent one. */
#include "expect_mended.h"
#include "mend_cases.h"
#include "words_calls.h"

#include <string.h>

enum {
    LIST_LENT = HEM_MEND_WORDS + 4,
    EVERY_ROOM_UP_TO = HEM_CHANGE(20),
    EACH_CALL = 5, /* expectations of one comparison; data has at least three rooms that are enough */
    EACH_DATA = 3 * (EACH_CALL + LEAST_MENDED),
    FAR = 0x10000,
    MOST_FLIPS = 8
};

typedef struct { uint8_t bytes[LENT]; uint16_t list[LIST_LENT]; } lent;

static unsigned long successes, refusals;

static lent lend(const uint8_t *bytes, size_t size)
{
    lent l;
    fill_pattern(&l, sizeof l);
    memcpy(l.bytes, bytes, size);
    return l;
}

/* Returns how many changes were made. */
static size_t compare_mending(int noise, const uint8_t *bytes, size_t size, size_t room)
{
    lent found = lend(bytes, size), wanted = found;
    told_words told = lend_told();
    size_t count;
    uint32_t wanted_number = ref_mend(kind_of(noise), wanted.bytes, size, wanted.list, room, &count);
    if (wanted_number == HEM_OK)
        want_told(&told, count);
    uint32_t number = hem_mend(any_number_of(noise), found.bytes, size, found.list, room, told.found, told.room);
    compare_answer(MEND, number, wanted_number, &told);
    EXPECT(memcmp(found.bytes, wanted.bytes, sizeof found.bytes) == 0);
    EXPECT(memcmp(found.list, wanted.list, sizeof found.list) == 0);
    successes += number == HEM_OK;
    refusals += number != HEM_OK;
    if (number == HEM_OK)
        expect_mended(noise, bytes, size, room);
    return count;
}

/* In ample room, and in each up to one more than is needed; of many changes, in those around what is needed and in
   some. */
static void compare_rooms(int noise, const uint8_t *bytes, size_t size)
{
    size_t needed = HEM_CHANGE(compare_mending(noise, bytes, size, HEM_MEND_WORDS + 2));
    size_t room = needed <= EVERY_ROOM_UP_TO ? 0 : needed - 4;
    for (; room <= needed + 1; room++)
        compare_mending(noise, bytes, size, room);
    if (needed > EVERY_ROOM_UP_TO) {
        compare_mending(noise, bytes, size, 0);
        compare_mending(noise, bytes, size, below((uint32_t)needed));
    }
}

static void all_of_two_bytes(int noise)
{
    for (uint32_t i = 0; i < EVERY_WORD; i++) {
        const uint8_t bytes[] = { (uint8_t)i, (uint8_t)(i >> 8) };
        begin_round(i);
        compare_rooms(noise, bytes, 2);
        if (i <= UINT8_MAX)
            compare_rooms(noise, bytes, 1);
    }
}

/* One of each kind of byte, in both kinds of channel. */
static const uint8_t few_bytes[] = { 0x00, 0x01, 0x02, 0x81, 0xB0, 0xFF };
enum { FEW = sizeof few_bytes, OF_THREE = FEW * FEW * FEW, OF_FIVE = OF_THREE * FEW * FEW };

/* All data of so many bytes that are such. */
static void all_of_few_bytes(int noise, size_t size, uint32_t count)
{
    for (uint32_t i = 0; i < count; i++) {
        uint8_t bytes[LENT];
        uint32_t left = i;
        begin_round(i);
        for (size_t j = 0; j < size; j++, left /= FEW)
            bytes[j] = few_bytes[left % FEW];
        compare_rooms(noise, bytes, size);
    }
}

static void replace_ends(uint8_t *bytes, size_t size, uint8_t other)
{
    for (size_t i = 0; i < size; i++)
        if (bytes[i] == 0x00)
            bytes[i] = other;
}

/* The last byte stands behind a BL. */
static void stop_in_length(uint8_t *bytes, size_t size)
{
    if (size < 2)
        return;
    bytes[size - 2] = (uint8_t)(0xB0 + below(16));
    bytes[size - 1] = one_in(2) ? 0x00 : any_byte();
}

static void flip_some(uint8_t *bytes, size_t size)
{
    for (uint32_t flips = below(MOST_FLIPS); flips > 0 && size > 0; flips--)
        bytes[below((uint32_t)size)] = any_byte();
}

static void random_bytes(uint8_t *bytes, size_t size, int few)
{
    for (size_t i = 0; i < size; i++)
        bytes[i] = few ? few_bytes[below(FEW)] : any_byte();
}

/* Legal data, or nearly, and changed: some bytes flipped, 00 from some place on, no 00, a BL at the end. Or random
   bytes: any, any without 00, few. */
static void rotten_data(int noise, uint8_t *bytes, size_t size)
{
    size_t place = below((uint32_t)size + 1);
    uint32_t kind = below(8);
    random_data(noise, bytes, size);
    if (kind >= 5)
        random_bytes(bytes, size, kind == 7);
    if (kind == 1)
        flip_some(bytes, size);
    if (kind == 2)
        memset(bytes + place, 0x00, size - place);
    if (kind == 3 || kind == 4)
        replace_ends(bytes, size, noise ? 0x01 : 0x02);
    if (kind == 4)
        stop_in_length(bytes, size);
    if (kind == 6)
        replace_ends(bytes, size, 0x80);
}

static void round_of_mending(int noise)
{
    uint8_t bytes[LENT];
    size_t size = one_in(16) ? HEM_DATA_LIMIT - 2 + below(5) : random_size();
    rotten_data(noise, bytes, size);
    compare_rooms(noise, bytes, size);
}

/* The library under the independent one's name. */
static uint32_t library_mend(ref_kind kind, uint8_t *bytes, size_t len, uint16_t *list, size_t room, size_t *count)
{
    uint32_t told = UINT32_MAX;
    uint32_t number = hem_mend(kind == REF_NOISE, bytes, len, list, room, &told, 1);
    EXPECT((number == HEM_OK) == (told != UINT32_MAX));
    *count = number == HEM_OK ? told : 0;
    return number;
}

static void judge_by_expect(int holds, const char *what)
{
    expect(holds, what, __FILE__, __LINE__);
}

/* A size or room that is right in its low 16 bits alone: the one is refused, the other enough. */
static void test_far_numbers(int noise)
{
    static uint8_t bytes[FAR + LENT], same_bytes[FAR + LENT];
    static uint16_t list[FAR + 2], same_list[FAR + 2];
    uint32_t told = UINT32_MAX;
    fill_pattern(list, sizeof list);
    fill_pattern(same_list, sizeof same_list);
    memset(bytes, 0x81, sizeof bytes);
    memset(same_bytes, 0x81, sizeof same_bytes);
    for (size_t size = FAR - 1; size <= FAR + HEM_DATA_LIMIT + 1; size++)
        EXPECT(hem_mend((uint32_t)noise, bytes, size, list, FAR, &told, 1) == HEM_BAD_DATA_SIZE);
    EXPECT(memcmp(bytes, same_bytes, sizeof bytes) == 0 && memcmp(list, same_list, sizeof list) == 0);
    EXPECT(told == UINT32_MAX);
    for (size_t room = FAR - 1; room <= FAR + 2; room++) {
        bytes[0] = 0x81;
        EXPECT(hem_mend((uint32_t)noise, bytes, 1, list, room, &told, 1) == HEM_OK && told == 1);
        EXPECT(bytes[0] == 0x00 && list[HEM_CHANGE_OLD] == 0x81);
    }
    EXPECT(memcmp(list + 3, same_list + 3, sizeof list - 3 * sizeof list[0]) == 0);
}

static void test_kinds_met(unsigned long rounds)
{
    printf("mending: done %lu, refused %lu; changed %lu, read %lu, last byte refused %lu, BL at rest %lu, of 00 %lu\n",
           successes, refusals, met.changed, met.readable, met.refused_last, met.rested_bl, met.rested_bl_of_0);
    EXPECT(successes > rounds && refusals > rounds && met.changed > rounds && met.readable > rounds / 2);
    EXPECT(met.refused_last > rounds / 10 && met.rested_bl > rounds / 10 && met.rested_bl_of_0 > rounds / 20);
}

void test_mend(unsigned long rounds)
{
    begin_part("mending by hand", 69000);
    run_mend_cases(library_mend, judge_by_expect);
    begin_part("mending, far numbers", 540);
    test_far_numbers(0);
    test_far_numbers(1);
    begin_part("mending of two bytes", 2 * EVERY_WORD * EACH_DATA);
    all_of_two_bytes(0);
    all_of_two_bytes(1);
    begin_part("mending of few bytes", 2 * (OF_THREE + OF_FIVE) * EACH_DATA);
    for (int noise = 0; noise < 2; noise++) {
        all_of_few_bytes(noise, 3, OF_THREE);
        all_of_few_bytes(noise, 5, OF_FIVE);
    }
    memset(&met, 0, sizeof met);
    successes = refusals = 0;
    begin_part("mending", rounds * 3 * EACH_CALL);
    for (unsigned long i = 0; i < rounds; i++) {
        begin_round(i);
        round_of_mending((int)below(2));
    }
    test_kinds_met(rounds);
}
