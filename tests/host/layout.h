/* Where the fields of the records stand and how large they are, as C and as C++. */
#ifndef LAYOUT_H
#define LAYOUT_H

#include "hemgosling.h"

#include <assert.h>
#include <stdalign.h>

#define STANDS_AT(record, field, offset, size)                                                                         \
    static_assert(offsetof(record, field) == (offset) && sizeof(((record *)0)->field) == (size), #record "." #field)

static_assert(sizeof(hem_channel) == 8 && alignof(hem_channel) == 2, "hem_channel");
STANDS_AT(hem_channel, next, 0, 2);
STANDS_AT(hem_channel, loop_start, 2, 2);
STANDS_AT(hem_channel, counter, 4, 1);
STANDS_AT(hem_channel, length, 5, 1);
STANDS_AT(hem_channel, left, 6, 1);
STANDS_AT(hem_channel, sounding, 7, 1);

static_assert(sizeof(hem_player) == 44 && alignof(hem_player) == 4, "hem_player");
STANDS_AT(hem_player, stopped, 0, 1);
STANDS_AT(hem_player, channels, 2, 32);
STANDS_AT(hem_player, frames_left, 36, 4);
STANDS_AT(hem_player, pass_length, 40, 4);

static_assert(sizeof(hem_mother_channel) == 16 && alignof(hem_mother_channel) == 2, "hem_mother_channel");
STANDS_AT(hem_mother_channel, list, 0, 2);
STANDS_AT(hem_mother_channel, row, 2, 2);
STANDS_AT(hem_mother_channel, block, 4, 2);
STANDS_AT(hem_mother_channel, next, 6, 2);
STANDS_AT(hem_mother_channel, loop_start, 8, 2);
STANDS_AT(hem_mother_channel, counter, 10, 1);
STANDS_AT(hem_mother_channel, length, 11, 1);
STANDS_AT(hem_mother_channel, left, 12, 1);
STANDS_AT(hem_mother_channel, sounding, 13, 1);
STANDS_AT(hem_mother_channel, timbre, 14, 1);
STANDS_AT(hem_mother_channel, ctrl, 15, 1);

static_assert(sizeof(hem_mother_player) == 68 && alignof(hem_mother_player) == 2, "hem_mother_player");
STANDS_AT(hem_mother_player, stopped, 0, 1);
STANDS_AT(hem_mother_player, transpose, 1, 1);
STANDS_AT(hem_mother_player, window, 2, 1);
STANDS_AT(hem_mother_player, channels, 4, 64);

#endif
