/* Shared by the tests of the calls on one channel's data. */
#include "words_calls.h"

#include <string.h>

told_words lend_told(void)
{
    told_words told = { .room = below(TOLD) };
    fill_pattern(told.found, sizeof told.found);
    fill_pattern(told.wanted, sizeof told.wanted);
    return told;
}

void want_told(told_words *told, size_t value)
{
    if (told->room > 0)
        told->wanted[0] = (uint32_t)value;
}

void compare_answer(library_call call, uint32_t number, uint32_t wanted_number, const told_words *told)
{
    count_number(call, number);
    EXPECT(number == wanted_number);
    EXPECT(memcmp(told->found, told->wanted, sizeof told->found) == 0);
}

ref_kind kind_of(int noise)
{
    return noise ? REF_NOISE : REF_MELODIC;
}

uint32_t any_number_of(int noise)
{
    return noise ? 1 + below(UINT32_MAX) : 0;
}

size_t random_size(void)
{
    return below(one_in(3) ? LONGEST + 1 : 30);
}
