/* Prints the tables that words_table.py prints, from the C functions. The format is told there. */
#include "reference.h"

#include <inttypes.h>

#define WORD_COUNT 65536u
#define ROOM 8

static void print_word(char letter, ref_kind kind, uint16_t word)
{
    uint16_t list[2] = { word, 0 };
    uint8_t bytes[ROOM];
    size_t n = word == 0 ? 1 : 2;
    size_t count;
    uint32_t number = ref_write_words(kind, list, n, bytes, ROOM, &count);
    printf("%cw %04x ", letter, word);
    if (number != 0) {
        printf("!%" PRIu32 "\n", number);
        return;
    }
    /* the end that was added is not shown */
    size_t shown = word == 0 ? count : count - 1;
    for (size_t i = 0; i < shown; i++)
        printf("%02x", bytes[i]);
    printf("%s\n", bytes[count - 1] == 0 ? "" : " no end");
}

static void print_reading(char letter, ref_kind kind, const uint8_t *bytes, size_t len)
{
    uint16_t words[ROOM];
    size_t count, offset;
    uint32_t number = ref_read_words(kind, bytes, len, words, ROOM, &count, &offset);
    printf("%cr ", letter);
    for (size_t i = 0; i < len; i++)
        printf("%02x", bytes[i]);
    if (number != 0) {
        printf(" !%" PRIu32 "@%zu\n", number, offset);
        return;
    }
    for (size_t i = 0; i < count; i++)
        printf("%c%04x", i == 0 ? ' ' : ',', words[i]);
    printf("\n");
}

static void print_kind(char letter, ref_kind kind)
{
    for (uint32_t word = 0; word < WORD_COUNT; word++)
        print_word(letter, kind, (uint16_t)word);
    for (unsigned a = 0; a < 256; a++) {
        uint8_t bytes[1] = { (uint8_t)a };
        print_reading(letter, kind, bytes, 1);
    }
    for (unsigned a = 0; a < 256; a++)
        for (unsigned b = 0; b < 256; b++) {
            uint8_t bytes[2] = { (uint8_t)a, (uint8_t)b };
            print_reading(letter, kind, bytes, 2);
        }
}

int main(void)
{
    print_kind('m', REF_MELODIC);
    print_kind('n', REF_NOISE);
    return 0;
}
