/* Silent keys, case by case, for the independent player and for the library. */
#ifndef SILENT_CASES_H
#define SILENT_CASES_H

#include "reference.h"

enum { NOTE_FRAMES = 6, MELODIC = REF_NOISE_CHANNEL };

/* The fifth word in each of a note's six frames, and of a rest, by channel: square 1 has default B3 and envelope
   04 02 FF, square 2 default 77 and none, the triangle a dynamic release. */
enum { DEFAULT_1 = 0xB3, DEFAULT_2 = 0x77 };
static const uint32_t of_note[MELODIC][NOTE_FRAMES] = {
    { 0xB4, 0xB2, 0xB3, 0xB3, 0xB3, 0xB3 },
    { 0x77, 0x77, 0x77, 0x77, 0x77, 0x77 },
    { 20, 20, 20, 20, 20, 20 },
};
static const uint32_t of_rest[MELODIC] = { 0x10, 0x10, 0 };

typedef struct { uint8_t key; uint32_t word; int silent; } key_word;

/* Each in a track of its own. */
static const key_word lone_keys[] = {
    { 0x00, 0x0700, 1 }, { 0x00, 0x0000, 1 }, { 0x00, 0x00FB, 0 }, { 0x00, 0x07F1, 0 },
    { 0x01, 0x06AE, 0 }, { 0x01, 0x00FB, 0 }, { 0x01, 0x0000, 1 }, { 0x01, 0x0500, 1 },
    { 0x15, 0x0700, 1 }, { 0x15, 0x0000, 1 }, { 0x15, 0x00FB, 0 }, { 0x15, 0x01FB, 0 },
    { 0x3F, 0x0100, 1 }, { 0x3F, 0xFF00, 1 }, { 0x3F, 0x0001, 0 }, { 0x3F, 0x0101, 0 },
};

/* One behind the other. */
static const key_word row_of_keys[] = {
    { 0x15, 0x01FB, 0 }, { 0x04, 0x0700, 1 }, { 0x01, 0x06AE, 0 }, { 0x05, 0x0500, 1 },
    { 0x09, 0x0000, 1 }, { 0x00, 0x07F1, 0 }, { 0x21, 0x00FD, 0 },
};

/* In a record in the middle of a note. */
static const key_word record_keys[] = {
    { 0x00, 0x0700, 1 }, { 0x01, 0x06AE, 0 }, { 0x04, 0x0000, 1 }, { 0x15, 0x00FB, 0 }, { 0x3F, 0x0100, 1 },
};

/* A header's release byte, and what a triangle's note of six frames has by it: dynamic, fixed and never. */
static const struct { uint8_t control; uint32_t of_note; } releases[] = {
    { 0x00, 20 }, { 0x05, 5 }, { 0xFF, 15 }, { 0xF0, REF_RELEASE_NEVER }, { 0x10, REF_RELEASE_NEVER },
};

#define COUNT_OF(list) (sizeof(list) / sizeof(list)[0])

#endif
