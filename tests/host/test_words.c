/* Reading and writing of words against the independent ones. */
#include "words_calls.h"

#include <string.h>

/* LEAST_EACH: expectations of one comparison. */
enum { LEAST_EACH = 4 };

/* Round trips that were made: not all data reads, and not every list writes. */
static unsigned long data_trips, list_trips;

/* Room for all, or any at or below what a list of this size may need. */
static size_t random_room(size_t size)
{
    return one_in(2) ? LONGEST : below((uint32_t)size + 2);
}

static void compare_reading(int noise, const uint8_t *bytes, size_t size, size_t room)
{
    uint16_t found[LENT], wanted[LENT];
    told_words told = lend_told();
    size_t count, offset;
    fill_pattern(found, sizeof found);
    fill_pattern(wanted, sizeof wanted);
    uint32_t wanted_number = ref_read_words(kind_of(noise), bytes, size, wanted, room, &count, &offset);
    if (wanted_number != HEM_NO_ROOM)
        want_told(&told, wanted_number == HEM_OK ? count : offset);
    uint32_t number = hem_read_words(any_number_of(noise), bytes, size, found, room, told.found, told.room);
    compare_answer(READ_WORDS, number, wanted_number, &told);
    EXPECT(memcmp(found, wanted, sizeof found) == 0);
}

static void compare_writing(int noise, const uint16_t *words, size_t size, size_t room)
{
    uint8_t found[LENT], wanted[LENT];
    told_words told = lend_told();
    size_t count;
    fill_pattern(found, sizeof found);
    fill_pattern(wanted, sizeof wanted);
    uint32_t wanted_number = ref_write_words(kind_of(noise), words, size, wanted, room, &count);
    if (wanted_number == HEM_OK)
        want_told(&told, count);
    uint32_t number = hem_write_words(any_number_of(noise), words, size, found, room, told.found, told.room);
    compare_answer(WRITE_WORDS, number, wanted_number, &told);
    EXPECT(memcmp(found, wanted, sizeof found) == 0);
}

/* Every word alone and before an end, and all data of one or two bytes, alone and before an end. */
static void all_of_two_bytes(int noise)
{
    for (uint32_t i = 0; i < EVERY_WORD; i++) {
        const uint16_t words[] = { (uint16_t)i, 0 };
        const uint8_t bytes[] = { (uint8_t)i, (uint8_t)(i >> 8), 0x00 };
        begin_round(i);
        compare_writing(noise, words, 1, LONGEST);
        compare_writing(noise, words, 2, LONGEST);
        compare_reading(noise, bytes, 2, LONGEST);
        compare_reading(noise, bytes, 3, LONGEST);
        if (i <= UINT8_MAX)
            compare_reading(noise, bytes, 1, LONGEST);
    }
}

/* Random data, with an end at some place more often than not. */
static void round_of_reading(int noise)
{
    uint8_t bytes[LENT];
    size_t size = random_size();
    random_data(noise, bytes, size);
    if (size > 0 && !one_in(3))
        bytes[below((uint32_t)size)] = 0x00;
    compare_reading(noise, bytes, size, random_room(size));
}

/* Commands without an end, then one; sometimes none, a second one, or a word that is none. */
static size_t random_list(int noise, uint16_t words[LONGEST])
{
    size_t size = random_size();
    int may_be_wrong = one_in(2);
    for (size_t i = 0; i < size; i++) {
        words[i] = noise ? 0x04 : 0x2A;
        if (one_in(3))
            words[i] = (uint16_t)(words[i] * 256 + 0xB0 + below(16));
        if (may_be_wrong && one_in(8))
            words[i] = random_command(noise);
        if (may_be_wrong && one_in(60))
            words[i] = (uint16_t)below(EVERY_WORD);
    }
    if (size > 0 && !one_in(10))
        words[size - 1] = 0;
    return size;
}

static void round_of_writing(int noise)
{
    uint16_t words[LONGEST];
    size_t size = random_list(noise, words);
    compare_writing(noise, words, size, random_room(size));
}

/* One-byte commands up to an end that stands beside the limit; then a set-length command near it. */
static void round_at_the_limit(int noise)
{
    uint8_t bytes[LENT];
    uint16_t words[LENT];
    size_t size = HEM_DATA_LIMIT - 2 + below(5);
    memset(bytes, noise ? 0x04 : 0x2A, size);
    bytes[size - 1] = 0x00;
    for (size_t i = 0; i < size; i++)
        words[i] = bytes[i];
    compare_reading(noise, bytes, size, random_room(size));
    compare_writing(noise, words, size, random_room(size));
    bytes[size - 1 - below(3)] = 0xB0;
    compare_reading(noise, bytes, size, random_room(size));
}

/* Data that reads, written again, is the same bytes. */
static void read_then_write(int noise)
{
    uint8_t bytes[HEM_DATA_LIMIT], back[HEM_DATA_LIMIT];
    uint16_t words[HEM_DATA_LIMIT];
    uint32_t count = 0, written = 0;
    random_data(noise, bytes, sizeof bytes);
    if (hem_read_words((uint32_t)noise, bytes, sizeof bytes, words, HEM_DATA_LIMIT, &count, 1) != HEM_OK)
        return;
    data_trips++;
    EXPECT(hem_write_words((uint32_t)noise, words, count, back, sizeof back, &written, 1) == HEM_OK);
    EXPECT(written >= count && written <= sizeof back && memcmp(bytes, back, written) == 0);
}

/* A list that writes, read again, is the same words, whatever stands behind its bytes. */
static void write_then_read(int noise)
{
    uint16_t words[LONGEST], back[LONGEST];
    uint8_t bytes[HEM_DATA_LIMIT];
    uint32_t count = 0, written = 0;
    size_t size = random_list(noise, words);
    random_data(noise, bytes, sizeof bytes);
    if (hem_write_words((uint32_t)noise, words, size, bytes, sizeof bytes, &written, 1) != HEM_OK)
        return;
    list_trips++;
    EXPECT(written >= size && written <= sizeof bytes);
    EXPECT(hem_read_words((uint32_t)noise, bytes, sizeof bytes, back, LONGEST, &count, 1) == HEM_OK);
    EXPECT(count == size && memcmp(words, back, size * sizeof words[0]) == 0);
}

void test_words(unsigned long rounds)
{
    begin_part("all words, melodic", 4 * EVERY_WORD * LEAST_EACH);
    all_of_two_bytes(0);
    begin_part("all words, noise", 4 * EVERY_WORD * LEAST_EACH);
    all_of_two_bytes(1);
    begin_part("words", 5 * rounds * LEAST_EACH);
    for (unsigned long i = 0; i < rounds; i++) {
        begin_round(i);
        int noise = (int)below(2);
        round_of_reading(noise);
        round_of_writing(noise);
        round_at_the_limit(noise);
        read_then_write(noise);
        write_then_read(noise);
    }
    printf("round trips: data %lu, lists %lu\n", data_trips, list_trips);
    EXPECT(data_trips > rounds / 4 && list_trips > rounds / 4);
}
