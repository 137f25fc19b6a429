/* Mending: the cases worked out by hand, and random data against a second way. */
#include "mend_cases.h"
#include "selftest.h"

#include <string.h>

#define RANDOM_DATA 300000

static void judge_by_check(int holds, const char *what)
{
    check_that(holds, __FILE__, __LINE__, what);
}

/* How often data was met that reads, that needs two changes or more, and whose last byte is a BL's, with no end. */
static unsigned readable, rotten, without_end;

/* Reads the whole from its start again after each change, and looks for the last command by the sizes. */
static void mend_again_and_again(ref_kind kind, uint8_t *bytes, size_t len)
{
    const uint8_t rest = kind == REF_NOISE ? 0x01 : 0x02;
    uint16_t words[REF_DATA_LIMIT];
    size_t count, offset, at = 0;
    while (ref_read_words(kind, bytes, len, words, len, &count, &offset) != 0 && offset < len)
        bytes[offset] = rest;
    if (count > 0)
        return;
    while (at + 2 < len)
        at += ref_byte_class(bytes[at]) == REF_BYTE_LENGTH ? 2 : 1;
    if (at + 2 == len && ref_byte_class(bytes[at]) == REF_BYTE_LENGTH) {
        bytes[at] = rest;
        without_end++;
    }
    bytes[len - 1] = 0x00;
}

static void test_one(ref_kind kind, const uint8_t *bytes, size_t len)
{
    uint8_t mended[REF_DATA_LIMIT], wanted[REF_DATA_LIMIT], back[REF_DATA_LIMIT];
    uint16_t list[REF_MEND_WORDS], words[REF_DATA_LIMIT];
    size_t count, read, offset;
    memcpy(mended, bytes, len);
    memcpy(wanted, bytes, len);
    mend_again_and_again(kind, wanted, len);
    CHECK(ref_mend(kind, mended, len, list, REF_MEND_WORDS, &count) == 0);
    CHECK(memcmp(mended, wanted, len) == 0);
    CHECK(ref_read_words(kind, mended, len, words, len, &read, &offset) == 0);
    memcpy(back, mended, len);
    for (size_t i = 0; i < count; i++)
        back[list[REF_CHANGE_WORDS * i]] = (uint8_t)list[REF_CHANGE_WORDS * i + 1];
    CHECK(memcmp(back, bytes, len) == 0);
    int reads = ref_read_words(kind, bytes, len, words, len, &read, &offset) == 0;
    CHECK(reads == (count == 0));
    readable += reads;
    rotten += count > 1;
}

/* Few bytes are any, the others are the first so many of these. */
static void test_random_data(void)
{
    static const uint8_t few[] = { 0xB0, 0x04, 0xFF, 0x02, 0x00, 0x81, 0x03, 0xBF, 0x01 };
    for (int i = 0; i < RANDOM_DATA; i++) {
        uint8_t bytes[REF_DATA_LIMIT];
        size_t len = 1 + random_below(random_below(8) == 0 ? REF_DATA_LIMIT : 12);
        uint32_t most = 1 + random_below(sizeof few), any = 1 + random_below(64);
        for (size_t j = 0; j < len; j++)
            bytes[j] = (uint8_t)(random_below(any) == 0 ? random_below(256) : few[random_below(most)]);
        test_one(random_below(2) == 0 ? REF_MELODIC : REF_NOISE, bytes, len);
    }
    printf("random data to mend: %u read, %u with two changes or more, %u without an end after a BL\n", readable,
           rotten, without_end);
    CHECK(readable > RANDOM_DATA / 20 && rotten > RANDOM_DATA / 4 && without_end > RANDOM_DATA / 40);
}

void test_mend(void)
{
    run_mend_cases(ref_mend, judge_by_check);
    test_random_data();
}
