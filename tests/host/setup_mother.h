/* What a call on a Mother track is given: two banks, their places and a track; and banks built by hand. */
#ifndef SETUP_MOTHER_H
#define SETUP_MOTHER_H

#include "mother.h"
#include "setup.h"

/* The first blocks are melodic, the others noise. */
enum { MELODIC_BLOCKS = 5, BLOCKS = 7 };

typedef struct {
    uint8_t *bank8, *banka;
    size_t bank8_len, banka_len;
    mother_places places;
    uint32_t track;
    uint32_t lists[HEM_CHANNELS], blocks[BLOCKS]; /* where playlists and blocks stand, for records that name them */
} mother_setup;

/* A setup as the arguments from bank8 to track. */
#define MOTHER_SETUP(s)                                                                                                \
    (s)->bank8, (s)->bank8_len, (s)->banka, (s)->banka_len, (s)->places.header_offsets, (s)->places.header_block,      \
        (s)->places.note_lengths, (s)->places.key_periods, (s)->places.noise_presets, (s)->places.envelope_addresses,  \
        (s)->places.track_count, (s)->track

enum {
    BANK_A = 0xA000,
    MOTHER_HEADER_BYTES = 10,
    MOTHER_TRANSPOSE_AT = 0,
    MOTHER_WINDOW_AT = 1,
    MOTHER_PLAYLISTS_AT = 2,
    MOTHER_LENGTH_BYTES = 104,
    MOTHER_PERIOD_BYTES = 134,
    MOTHER_PRESET_BYTES = 31,
    MOTHER_ENVELOPES = 27,
    MOTHER_ENVELOPE_TABLE_BYTES = 2 * MOTHER_ENVELOPES
};

/* Where the hand-built banks have the playlist and the block of a channel. */
#define LIST_OF(channel) (0xA400u + 0x40u * (unsigned)(channel))
#define BLOCK_OF(channel) (0x9400u + 0x200u * (unsigned)(channel))

/* The address must be in the banks. */
uint8_t *mother_byte_at(const mother_setup *s, uint32_t address);
void put_mother_word(const mother_setup *s, uint32_t address, uint32_t word);
/* Those of the bytes that are in the banks. */
void put_mother_bytes(const mother_setup *s, uint32_t address, const uint8_t *bytes, size_t count);
uint32_t mother_header_of(const mother_setup *s);
void name_playlist(const mother_setup *s, int channel, uint32_t address);
/* The channel plays this block, at its own place, and then ends the track. */
void play_block(const mother_setup *s, int channel, const uint8_t *bytes, size_t count);

mother_banks mother_banks_of(const mother_setup *s);

/* Zeroed banks with the published places of the low tracks, lengths 1 to 104, and all offsets 0: the one header has no
   transpose, window 0 and no channel used. */
void plain_mother_setup(mother_setup *s, uint8_t *bank8, uint8_t *banka);

#endif
