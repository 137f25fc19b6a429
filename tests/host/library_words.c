/* The library's words calls under the independent ones' names, so that words_table.c prints the library's table. */
#include "hemgosling.h"
#include "reference.h"

uint32_t ref_read_words(ref_kind kind, const uint8_t *bytes, size_t len, uint16_t *words, size_t room, size_t *count,
                        size_t *offset)
{
    uint32_t told = 0;
    uint32_t number = hem_read_words(kind == REF_NOISE, bytes, len, words, room, &told, 1);
    *count = number == HEM_OK ? told : 0;
    *offset = number == HEM_OK ? 0 : told;
    return number;
}

uint32_t ref_write_words(ref_kind kind, const uint16_t *words, size_t n, uint8_t *bytes, size_t room, size_t *count)
{
    uint32_t told = 0;
    uint32_t number = hem_write_words(kind == REF_NOISE, words, n, bytes, room, &told, 1);
    *count = told;
    return number;
}
