/* The bank, its places and a track's header: numbers 1 to 9. */
#include "reference.h"

#define HEADER_SIZE 13u
#define PERIODS_SIZE 128u
#define PRESETS_SIZE 13u
#define ENVELOPE_TABLE_SIZE 10u
#define MAX_TRACKS 255u
#define MAX_ENVELOPE 5
#define ENVELOPE_SEARCH 64u

ref_places ref_published_places(void)
{
    ref_places places = {
        .header_offsets = 0xBBFA,
        .header_block = 0xBD31,
        .note_lengths = 0xBEF7,
        .key_periods = 0xBE77,
        .noise_presets = 0xB200,
        .envelope_addresses = 0xBCB0,
        .track_count = 12,
        .default1 = 0,
        .default2 = 0,
    };
    return places;
}

static int within_bank(uint64_t address, uint64_t size)
{
    return address >= REF_BANK_FIRST && address + size <= REF_BANK_END;
}

static const uint8_t *at(const uint8_t *bank, uint32_t address)
{
    return bank + (address - REF_BANK_FIRST);
}

static uint16_t little_endian(const uint8_t *bytes)
{
    return (uint16_t)(bytes[0] + 256 * bytes[1]);
}

static int places_are_good(const ref_places *places)
{
    if (places->track_count < 1 || places->track_count > MAX_TRACKS)
        return 0;
    return within_bank(places->header_offsets, places->track_count)
        && within_bank(places->header_block, 1)
        && within_bank(places->note_lengths, REF_LENGTH_COUNT)
        && within_bank(places->key_periods, PERIODS_SIZE)
        && within_bank(places->noise_presets, PRESETS_SIZE)
        && within_bank(places->envelope_addresses, ENVELOPE_TABLE_SIZE);
}

/* Bytes from the address to $bfff, but at most `limit`. */
static uint32_t cut(uint32_t address, uint32_t limit)
{
    uint32_t rest = REF_BANK_END - address;
    return rest < limit ? rest : limit;
}

static int envelope_terminates(const uint8_t *bank, uint32_t address)
{
    if (!within_bank(address, 1))
        return 0;
    for (uint32_t i = 0; i < cut(address, ENVELOPE_SEARCH); i++) {
        uint8_t byte = *at(bank, address + i);
        if (byte == 0xF0 || byte == 0xFF)
            return 1;
    }
    return 0;
}

static void take_header(ref_track *track, const uint8_t *header)
{
    track->t = header[0];
    track->restart = header[1];
    track->release = header[2];
    track->envelope_number[0] = header[3];
    track->envelope_number[1] = header[4];
    for (int i = 0; i < REF_CHANNELS; i++)
        track->address[i] = little_endian(header + 5 + 2 * i);
}

/* Numbers 5 to 9. */
static uint32_t test_header(const uint8_t *bank, const ref_places *places, ref_track *track)
{
    if ((track->t & 0xE0) != 0)
        return REF_BAD_WINDOW;
    for (int i = 0; i < REF_SQUARES; i++)
        if (track->envelope_number[i] > MAX_ENVELOPE)
            return REF_BAD_ENVELOPE_NUMBER;
    for (int i = 0; i < REF_SQUARES; i++) {
        if (track->address[i] == 0 || track->envelope_number[i] == 0)
            continue;
        uint32_t entry = places->envelope_addresses + 2u * (track->envelope_number[i] - 1u);
        uint32_t address = little_endian(at(bank, entry));
        if (!envelope_terminates(bank, address))
            return REF_BAD_ENVELOPE;
        track->envelope[i] = at(bank, address);
    }
    for (int i = 0; i < REF_CHANNELS; i++)
        if (track->address[i] != 0 && !within_bank(track->address[i], 1))
            return REF_BAD_ADDRESS;
    for (int i = 0; i < REF_CHANNELS; i++)
        if (track->address[i] != 0)
            return 0;
    return REF_NO_CHANNEL;
}

static void take_tables(ref_track *track, const uint8_t *bank, const ref_places *places)
{
    track->default_ctrl[0] = places->default1;
    track->default_ctrl[1] = places->default2;
    track->lengths = at(bank, places->note_lengths);
    track->periods = at(bank, places->key_periods);
    track->presets = at(bank, places->noise_presets);
    for (int i = 0; i < REF_CHANNELS; i++) {
        if (track->address[i] == 0)
            continue;
        track->data[i] = at(bank, track->address[i]);
        track->data_len[i] = cut(track->address[i], REF_DATA_LIMIT);
    }
}

uint32_t ref_open(const uint8_t *bank, size_t len, const ref_places *places, uint32_t track, ref_track *out)
{
    ref_track opened = {0};
    if (len != REF_BANK_SIZE)
        return REF_BAD_BANK_SIZE;
    if (!places_are_good(places))
        return REF_BAD_PLACES;
    if (track >= places->track_count)
        return REF_BAD_TRACK;
    uint32_t header = places->header_block + *at(bank, places->header_offsets + track);
    if (!within_bank(header, HEADER_SIZE))
        return REF_BAD_HEADER;
    take_header(&opened, at(bank, header));
    uint32_t number = test_header(bank, places, &opened);
    if (number != 0)
        return number;
    take_tables(&opened, bank, places);
    *out = opened;
    return 0;
}

uint32_t ref_address_of(const ref_track *track, int channel, uint32_t offset)
{
    return track->address[channel] + offset;
}
