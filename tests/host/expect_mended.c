/* What mending owes by itself. */
#include "expect_mended.h"
#include "words_calls.h"

#include <string.h>

typedef struct {
    int noise;
    const uint8_t *given;
    size_t size;
    uint8_t *bytes;
    uint16_t *list;
    uint32_t count;
} mended;

mended_kinds met;

/* The last so many bytes of a memory that ends in a fence. */
static void *at_fence(uint8_t **memory, size_t size)
{
    if (*memory == NULL)
        *memory = fenced_memory();
    return *memory + LONGEST_BANK - size;
}

static uint32_t read_data(int noise, const uint8_t *bytes, size_t size, uint16_t words[HEM_DATA_LIMIT], uint32_t *count)
{
    return hem_read_words((uint32_t)noise, bytes, size, words, HEM_DATA_LIMIT, count, 1);
}

static int is_length(uint8_t byte)
{
    return (byte & 0xF0) == 0xB0;
}

/* The list is what differs, byte by byte. */
static void expect_differences(const mended *m)
{
    const uint16_t *change = m->list;
    uint32_t left = m->count;
    for (size_t i = 0; i < m->size; i++) {
        if (m->bytes[i] == m->given[i])
            continue;
        EXPECT(left > 0);
        if (left == 0)
            return;
        EXPECT(change[HEM_CHANGE_OFFSET] == i);
        EXPECT(change[HEM_CHANGE_OLD] == m->given[i] && change[HEM_CHANGE_NEW] == m->bytes[i]);
        change += HEM_CHANGE_WORDS;
        left--;
    }
    EXPECT(left == 0);
}

static void expect_restored(const mended *m)
{
    uint8_t bytes[HEM_DATA_LIMIT];
    uint32_t least = 0;
    memcpy(bytes, m->bytes, m->size);
    for (uint32_t i = 0; i < m->count; i++) {
        const uint16_t *change = m->list + HEM_CHANGE(i);
        uint32_t offset = change[HEM_CHANGE_OFFSET];
        EXPECT(offset >= least && offset < m->size && change[HEM_CHANGE_OLD] != change[HEM_CHANGE_NEW]);
        if (offset < m->size)
            bytes[offset] = (uint8_t)change[HEM_CHANGE_OLD];
        least = offset + 1;
    }
    EXPECT(memcmp(bytes, m->given, m->size) == 0);
}

/* It reads, and nothing behind its first end has changed. */
static void expect_readable(const mended *m)
{
    uint16_t words[HEM_DATA_LIMIT];
    uint32_t count = 0;
    size_t end = 0;
    uint32_t number = read_data(m->noise, m->bytes, m->size, words, &count);
    EXPECT(number == HEM_OK);
    if (number != HEM_OK)
        return;
    for (uint32_t i = 0; i < count; i++)
        end += is_length((uint8_t)words[i]) ? 2 : 1;
    EXPECT(end <= m->size && memcmp(m->bytes + end, m->given + end, m->size - end) == 0);
}

static void expect_mended_once(const mended *m)
{
    uint8_t bytes[HEM_DATA_LIMIT];
    uint16_t list[1];
    uint32_t count = UINT32_MAX;
    memcpy(bytes, m->bytes, m->size);
    EXPECT(hem_mend((uint32_t)m->noise, bytes, m->size, list, 0, &count, 1) == HEM_OK && count == 0);
    EXPECT(memcmp(bytes, m->bytes, m->size) == 0);
}

/* There are changes exactly if it didn't read before. */
static void expect_needed(const mended *m)
{
    uint16_t words[HEM_DATA_LIMIT];
    uint32_t count;
    int reads = read_data(m->noise, m->given, m->size, words, &count) == HEM_OK;
    EXPECT(reads == (m->count == 0));
    EXPECT(reads == (memcmp(m->bytes, m->given, m->size) == 0));
    met.readable += reads;
}

/* No end was met, and the last byte was a BL's second: each BL of the mended data has its own behind it. */
static int bl_has_rested(const mended *m)
{
    size_t at = m->size - 2;
    return m->size >= 2 && is_length(m->given[at]) && !is_length(m->bytes[at])
        && (at == 0 || !is_length(m->bytes[at - 1]));
}

static void count_kinds(const mended *m)
{
    size_t last = m->size - 1;
    int refused = m->given[last] < 0xB0 && !ref_is_sound(kind_of(m->noise), m->given[last]);
    met.changed += m->count > 0;
    met.refused_last += refused && m->given[last] != 0x00 && m->bytes[last] == 0x00;
    met.rested_bl += bl_has_rested(m);
    met.rested_bl_of_0 += bl_has_rested(m) && m->given[last] == 0x00;
}

void expect_mended(int noise, const uint8_t *given, size_t size, size_t room)
{
    static uint8_t *data_memory, *list_memory;
    mended m = { noise, given, size, at_fence(&data_memory, size), NULL, UINT32_MAX };
    m.list = at_fence(&list_memory, room * sizeof m.list[0]);
    memcpy(m.bytes, given, size);
    uint32_t number = hem_mend((uint32_t)noise, m.bytes, size, m.list, room, &m.count, 1);
    int fits = size > 0 && size <= HEM_DATA_LIMIT && m.count <= size && HEM_CHANGE(m.count) <= room;
    EXPECT(number == HEM_OK && fits);
    if (!fits)
        return;
    expect_differences(&m);
    expect_restored(&m);
    expect_readable(&m);
    expect_mended_once(&m);
    expect_needed(&m);
    count_kinds(&m);
}
