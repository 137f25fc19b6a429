/* Shared by the tests of the calls on one channel's data: reading, writing and mending. */
#ifndef WORDS_CALLS_H
#define WORDS_CALLS_H

#include "host_test.h"

/* Bytes of data, and of what is lent for it; words of told; words, or data of two bytes. */
enum { LONGEST = 300, LENT = LONGEST + 4, TOLD = 3, EVERY_WORD = 0x10000 };

/* What a call tells, as found and as wanted, of which it is lent some words. */
typedef struct {
    uint32_t found[TOLD], wanted[TOLD];
    size_t room;
} told_words;

told_words lend_told(void);
void want_told(told_words *told, size_t value);
/* Three expectations. */
void compare_answer(library_call call, uint32_t number, uint32_t wanted_number, const told_words *told);

ref_kind kind_of(int noise);
/* 0 is melodic, any other number noise. */
uint32_t any_number_of(int noise);
/* Up to LONGEST, but short more often. */
size_t random_size(void);

#endif
