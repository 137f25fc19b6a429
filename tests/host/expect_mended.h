/* What mending owes by itself, whatever another implementation answers. */
#ifndef EXPECT_MENDED_H
#define EXPECT_MENDED_H

#include "hemgosling.h"

/* What was met: data with changes, data that reads, a last byte that was refused and then became the end, a BL before
   it that became a rest, and one whose second byte was an 00 before. */
typedef struct { unsigned long changed, readable, refused_last, rested_bl, rested_bl_of_0; } mended_kinds;
extern mended_kinds met;

/* Expectations at least. */
enum { LEAST_MENDED = 9 };

/* Mends the data in this room, which must be enough. The bytes behind data and list can't be touched. */
void expect_mended(int noise, const uint8_t *given, size_t size, size_t room);

#endif
