/* What a call is given: a bank, its places and a track; and banks built by hand. */
#ifndef SETUP_H
#define SETUP_H

#include "hemgosling.h"
#include "periods.h"
#include "reference.h"

typedef struct {
    uint8_t *bank;
    size_t bank_len;
    ref_places places;
    uint32_t track;
} setup;

/* A setup as the arguments from bank to default2. */
#define SETUP(s)                                                                                                       \
    (s)->bank, (s)->bank_len, (s)->places.header_offsets, (s)->places.header_block, (s)->places.note_lengths,          \
        (s)->places.key_periods, (s)->places.noise_presets, (s)->places.envelope_addresses, (s)->places.track_count,   \
        (s)->track, (s)->places.default1, (s)->places.default2

/* Bytes as pointer and length. */
#define BYTES(...) (const uint8_t[]){ __VA_ARGS__ }, sizeof((const uint8_t[]){ __VA_ARGS__ })

enum {
    FIRST_ADDRESS = 0x8000,
    AFTER_BANK = 0xC000,
    HEADER_BYTES = 13,
    WINDOW = 0,
    RESTART = 1,
    RELEASE = 2,
    ENVELOPE_1 = 3,
    ENVELOPE_2 = 4,
    ADDRESSES = 5,
    LENGTH_BYTES = 40,
    PERIOD_BYTES = 2 * PERIOD_KEYS,
    PRESET_BYTES = 13,
    ENVELOPES = 5,
    ENVELOPE_TABLE_BYTES = 2 * ENVELOPES,
    MOST_FRAMES = 16777216 /* that a record may name */
};

/* Where the hand-built banks have the data of channel 0; each next one stands a page on. */
#define DATA_OF(channel) (0x9000u + 0x100u * (unsigned)(channel))

/* The address must be in the bank. */
uint8_t *byte_at(const setup *s, uint32_t address);
void put_low_first(setup *s, uint32_t address, uint32_t word);
uint8_t *header_of(const setup *s);
uint8_t *periods_of(const setup *s);
void name_channel(setup *s, int channel, uint32_t address);
uint32_t named_address(const setup *s, uint32_t channel);
/* Puts the bytes at the address and names it in the header. */
void put_channel(setup *s, int channel, uint32_t address, const uint8_t *bytes, size_t count);
/* The same at the channel's own address. */
void use_channel(setup *s, int channel, const uint8_t *bytes, size_t count);

/* A zeroed bank of 16,384 bytes with the published places and lengths, the formula's periods, tempo 150 BPM, no track
   using any channel. */
void plain_setup(setup *s, uint8_t *bank);

/* Tracks that the tests and the benchmark share. */
void typical_track(setup *s);
void latest_end(setup *s, int channel);
void most_commands(setup *s, int channel);

#endif
