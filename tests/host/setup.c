/* Banks built by hand. */
#include "setup.h"

#include <string.h>

enum { TEMPO_150 = 0x0B };

uint8_t *byte_at(const setup *s, uint32_t address)
{
    return s->bank + (address - FIRST_ADDRESS);
}

void put_low_first(setup *s, uint32_t address, uint32_t word)
{
    byte_at(s, address)[0] = (uint8_t)word;
    byte_at(s, address)[1] = (uint8_t)(word >> 8);
}

uint8_t *header_of(const setup *s)
{
    uint32_t offset = *byte_at(s, s->places.header_offsets + s->track);
    return byte_at(s, s->places.header_block + offset);
}

uint8_t *periods_of(const setup *s)
{
    return byte_at(s, s->places.key_periods);
}

void name_channel(setup *s, int channel, uint32_t address)
{
    uint8_t *entry = header_of(s) + ADDRESSES + 2 * channel;
    entry[0] = (uint8_t)address;
    entry[1] = (uint8_t)(address >> 8);
}

uint32_t named_address(const setup *s, uint32_t channel)
{
    const uint8_t *entry = header_of(s) + ADDRESSES + 2 * channel;
    return entry[0] + 256u * entry[1];
}

void put_channel(setup *s, int channel, uint32_t address, const uint8_t *bytes, size_t count)
{
    memcpy(byte_at(s, address), bytes, count);
    name_channel(s, channel, address);
}

void use_channel(setup *s, int channel, const uint8_t *bytes, size_t count)
{
    put_channel(s, channel, DATA_OF(channel), bytes, count);
}

static void put_tables(setup *s)
{
    static const uint8_t lengths[LENGTH_BYTES] = {
        4, 8, 16, 32, 64, 24, 48, 12, 11, 5, 2, 6, 12, 24, 48, 96, 36, 72, 18, 16,
        8, 3, 16, 7, 14, 28, 56, 112, 42, 84, 21, 18, 2, 3, 32, 252, 179, 173, 77, 6
    };
    static const uint8_t envelope[] = { 0x04, 0x02, 0xFF };
    memcpy(byte_at(s, s->places.note_lengths), lengths, sizeof lengths);
    put_periods(periods_of(s));
    for (uint32_t i = 1; i < PRESET_BYTES; i++)
        *byte_at(s, s->places.noise_presets + i) = (uint8_t)(0x10 + i);
    for (uint32_t i = 0; i < ENVELOPES; i++) {
        put_low_first(s, s->places.envelope_addresses + 2 * i, 0xA000 + 16 * i);
        memcpy(byte_at(s, 0xA000 + 16 * i), envelope, sizeof envelope);
    }
}

void plain_setup(setup *s, uint8_t *bank)
{
    ref_places published = { HEM_PUBLISHED_PLACES, 0, 0 };
    memset(bank, 0, HEM_BANK_SIZE);
    s->bank = bank;
    s->bank_len = HEM_BANK_SIZE;
    s->places = published;
    s->track = 0;
    put_tables(s);
    for (uint32_t i = 0; i < HEM_PUBLISHED_TRACK_COUNT; i++) {
        *byte_at(s, s->places.header_offsets + i) = (uint8_t)(HEADER_BYTES * i);
        byte_at(s, s->places.header_block + HEADER_BYTES * i)[WINDOW] = TEMPO_150;
    }
}

/* Four channels with a few loops; the noise channel ends it in frame 600. */
void typical_track(setup *s)
{
    uint8_t *header = header_of(s);
    header[RESTART] = 0xFF;
    header[ENVELOPE_1] = 2;
    header[ENVELOPE_2] = 3;
    use_channel(s, HEM_SQUARE_1,
                BYTES(0xC4, 0xB1, 0x30, 0x34, 0x38, 0x3E, 0xB2, 0x40, 0x02, 0xFF, 0xC3, 0xB0, 0x3E, 0x3A, 0x38, 0x34,
                      0xB2, 0x30, 0xFF, 0xB4, 0x2A, 0x2E, 0x00));
    use_channel(s, HEM_SQUARE_2,
                BYTES(0xB2, 0x28, 0x2A, 0xC8, 0xB1, 0x28, 0x02, 0x2A, 0x02, 0xFF, 0xB3, 0x20, 0x24, 0x28, 0x2A, 0x00));
    use_channel(s, HEM_TRIANGLE,
                BYTES(0xC5, 0xB0, 0x2A, 0x2A, 0x02, 0x2A, 0xB1, 0x34, 0x30, 0xFF, 0xC4, 0xB1, 0x38, 0x3A, 0xB2, 0x02,
                      0x34, 0xFF, 0xC2, 0xB0, 0x2A, 0x02, 0xB1, 0x2A, 0xB3, 0x18, 0xFF, 0x00));
    use_channel(s, HEM_NOISE,
                BYTES(0xD4, 0xB1, 0x04, 0xB0, 0x07, 0x01, 0xFF, 0xB2, 0x0A, 0x04, 0x07, 0x01, 0x0A, 0x00));
}

/* All lengths 255 frames, and 252 notes played 256 times: 16,450,560 frames. */
void latest_end(setup *s, int channel)
{
    uint8_t note = channel == HEM_NOISE ? 0x04 : 0x2A;
    uint8_t bytes[HEM_DATA_LIMIT];
    memset(byte_at(s, s->places.note_lengths), 255, LENGTH_BYTES);
    memset(bytes, note, sizeof bytes);
    bytes[0] = 0xC0;
    bytes[1] = 0xB0;
    bytes[254] = 0xFF;
    bytes[255] = 0x00;
    use_channel(s, channel, bytes, sizeof bytes);
}

/* 128 times C0 FF: 32,896 commands in frame 0, then 15 at offset 256. */
void most_commands(setup *s, int channel)
{
    uint8_t bytes[HEM_DATA_LIMIT];
    for (size_t i = 0; i < sizeof bytes; i += 2) {
        bytes[i] = 0xC0;
        bytes[i + 1] = 0xFF;
    }
    use_channel(s, channel, bytes, sizeof bytes);
}
