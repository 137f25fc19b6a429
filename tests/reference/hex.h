/* Bytes and words written in hex, for the tests. */
#ifndef HEX_H
#define HEX_H

#include <stddef.h>
#include <stdint.h>
#include <stdlib.h>

/* Takes the first number off the text. */
static inline uint16_t next_hex(const char **hex)
{
    char *behind;
    unsigned long number = strtoul(*hex, &behind, 16);
    *hex = behind;
    return (uint16_t)number;
}

/* They return how many there are. */
static inline size_t hex_bytes(const char *hex, uint8_t *out)
{
    size_t n = 0;
    while (*hex != '\0')
        out[n++] = (uint8_t)next_hex(&hex);
    return n;
}

static inline size_t hex_words(const char *hex, uint16_t *out)
{
    size_t n = 0;
    while (*hex != '\0')
        out[n++] = next_hex(&hex);
    return n;
}

#endif
