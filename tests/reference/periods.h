/* Period tables for the tests' banks, by the formula of document 001. */
#ifndef PERIODS_H
#define PERIODS_H

#include <stdint.h>

#define PERIOD_KEYS 64u

/* Key 0 is A1, and from key 4, E2, on no key is left out. The paper's key table has lost its columns: 2 and 3 are taken
   for C#2 and D2. */
static inline unsigned semitones_above_a1(unsigned key)
{
    if (key == 0)
        return 0;
    return key < 4 ? key + 2 : key + 3;
}

/* Key 1 must be 0, the paper says. Key 5, F2, comes to $0500 and so is silent; no other word has a low byte of 0. */
static inline uint32_t period_of_key(unsigned key)
{
    double frequency = 55.0;
    if (key == 1)
        return 0;
    for (unsigned i = 0; i < semitones_above_a1(key); i++)
        frequency *= 1.0594630943592953;
    return (uint32_t)(1789773.0 / frequency / 16.0 - 1.0 + 0.5);
}

/* A key's word in a table. */
static inline void put_period(uint8_t *table, unsigned key, uint32_t word)
{
    table[2 * key] = (uint8_t)(word >> 8);
    table[2 * key + 1] = (uint8_t)word;
}

static inline void put_periods(uint8_t *table)
{
    for (unsigned key = 0; key < PERIOD_KEYS; key++)
        put_period(table, key, period_of_key(key));
}

#endif
