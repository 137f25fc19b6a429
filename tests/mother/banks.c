/* The two banks, the places in them and a track's header. */
#include "mother.h"

#define HEADER_SIZE 10u
#define PERIODS_SIZE 134u
#define PRESETS_SIZE 31u
#define ENVELOPE_TABLE_SIZE 54u
#define MOST_TRACKS 255u
#define UNUSED_HIGH 0xFFu

int mother_within(uint64_t address, uint64_t size)
{
    return address >= REF_BANK_FIRST && address + size <= REF_BANK_END;
}

uint8_t mother_byte(const mother_banks *banks, uint32_t address)
{
    if (address < MOTHER_BANK_A)
        return banks->bank8[address - REF_BANK_FIRST];
    return banks->banka[address - MOTHER_BANK_A];
}

uint32_t mother_word(const mother_banks *banks, uint32_t address)
{
    return mother_byte(banks, address) + 256u * mother_byte(banks, address + 1);
}

uint32_t mother_block_size(uint32_t block)
{
    uint32_t bank_end = block < MOTHER_BANK_A ? MOTHER_BANK_A : REF_BANK_END;
    uint32_t rest = bank_end - block;
    return rest < MOTHER_BLOCK_LIMIT ? rest : MOTHER_BLOCK_LIMIT;
}

int mother_amount(uint8_t transpose)
{
    int m = transpose & 0x7F;
    return (transpose & 0x80) != 0 ? -1 - m : m;
}

int mother_is_odd(uint8_t transpose)
{
    return mother_amount(transpose) % 2 != 0;
}

int mother_is_used(const mother_track *track, int channel)
{
    return track->playlists[channel] >> 8 != UNUSED_HIGH;
}

static int places_are_good(const mother_places *p)
{
    return p->track_count >= 1 && p->track_count <= MOST_TRACKS && mother_within(p->header_offsets, p->track_count)
        && mother_within(p->header_block, 1) && mother_within(p->note_lengths, MOTHER_LENGTH_COUNT)
        && mother_within(p->key_periods, PERIODS_SIZE) && mother_within(p->noise_presets, PRESETS_SIZE)
        && mother_within(p->envelope_addresses, ENVELOPE_TABLE_SIZE);
}

static void take_header(mother_track *track, uint32_t header)
{
    track->transpose = mother_byte(&track->banks, header);
    track->window = mother_byte(&track->banks, header + 1);
    for (uint32_t i = 0; i < REF_CHANNELS; i++)
        track->playlists[i] = (uint16_t)mother_word(&track->banks, header + 2 + 2 * i);
}

/* 8, 9, 19 */
static uint32_t header_fault(const mother_track *track)
{
    int used = 0;
    for (int i = 0; i < REF_CHANNELS; i++) {
        if (!mother_is_used(track, i))
            continue;
        if (!mother_within(track->playlists[i], 1))
            return REF_BAD_ADDRESS;
        used++;
    }
    if (used == 0)
        return REF_NO_CHANNEL;
    return mother_is_odd(track->transpose) ? MOTHER_ODD_TRANSPOSE : 0;
}

uint32_t mother_open(const mother_banks *banks, const mother_places *places, uint32_t number, mother_track *out)
{
    mother_track track = { .banks = *banks, .places = *places };
    if (banks->bank8_len != MOTHER_BANK_SIZE || banks->banka_len != MOTHER_BANK_SIZE)
        return REF_BAD_BANK_SIZE;
    if (!places_are_good(places))
        return REF_BAD_PLACES;
    if (number >= places->track_count)
        return REF_BAD_TRACK;
    uint32_t header = places->header_block + mother_byte(banks, places->header_offsets + number);
    if (!mother_within(header, HEADER_SIZE))
        return REF_BAD_HEADER;
    take_header(&track, header);
    uint32_t fault = header_fault(&track);
    if (fault == 0)
        *out = track;
    return fault;
}
