/* Random setups, records, data and word lists: legal most of the time. */
#ifndef GENERATOR_H
#define GENERATOR_H

#include "setup.h"

/* Longer than any bank that is given to a call. */
enum { LONGEST_BANK = 20480 };

/* A bank is cut into slots, so that what is put into different ones does not overlap. */
enum { SLOT = 1024, SLOTS = 16, PLACES = 6 };

void seed_random(uint64_t seed);
/* 0 to limit - 1 */
uint32_t below(uint32_t limit);
/* true once in n times */
int one_in(uint32_t n);
uint8_t any_byte(void);
/* Room for so many words, two times in three, else any up to `most`. */
size_t answer_room(uint32_t words, uint32_t most);
/* Random or zeros. The size is a multiple of 8. */
void fill_bank(uint8_t *bank, size_t size);

/* A named table: its address and how many bytes must be in the bank. */
typedef struct { uint32_t *address, size; } table;
void shuffle(uint32_t slots[SLOTS]);
/* An address in the slot for so many bytes, often at one of its ends. */
uint32_t address_in(uint32_t slot, uint32_t size);
/* Each into a slot of its own. */
void scatter(const table tables[PLACES], const uint32_t slots[PLACES]);

/* A number beside the first or behind the last right one, far off, or right in its low bits only. */
uint32_t wrong_number(uint32_t first, uint32_t last, uint32_t right);
/* Names a wrong address of one of the tables. */
void damage_place(const table tables[PLACES]);
/* Another length than the right one; the bank ends where it ended. */
void damage_length(uint8_t **bank, size_t *bank_len, size_t right);

/* Memory of LONGEST_BANK bytes: the byte behind it can't be touched. */
uint8_t *fenced_memory(void);
/* The bank is the last bank_len bytes of the memory. Tables, headers, envelopes and data stand in slots of their own;
   but where data has no end, its channel reads on into the next slot. */
void whole_setup(setup *s, uint8_t *memory);
/* The same, with one thing damaged in a third of them. */
void random_setup(setup *s, uint8_t *memory);
/* A third of the words has high byte 0 and, where there are silent keys, a third low byte 0; else none has. */
void random_periods(setup *s, int silent_keys);
/* Legal, or with one thing wrong. */
void random_record(hem_player *player);

/* A command as a word, legal for the channel most of the time. */
uint16_t random_command(int noise);
/* Commands that fill exactly `size` bytes. */
void random_data(int noise, uint8_t *bytes, size_t size);

#endif
