/* Mother banks built by hand. */
#include "setup_mother.h"

#include <string.h>

uint8_t *mother_byte_at(const mother_setup *s, uint32_t address)
{
    return address < BANK_A ? s->bank8 + (address - FIRST_ADDRESS) : s->banka + (address - BANK_A);
}

void put_mother_word(const mother_setup *s, uint32_t address, uint32_t word)
{
    put_mother_bytes(s, address, BYTES((uint8_t)word, (uint8_t)(word >> 8)));
}

void put_mother_bytes(const mother_setup *s, uint32_t address, const uint8_t *bytes, size_t count)
{
    for (uint32_t i = 0; i < count && address + i < AFTER_BANK; i++)
        *mother_byte_at(s, address + i) = bytes[i];
}

uint32_t mother_header_of(const mother_setup *s)
{
    return s->places.header_block + *mother_byte_at(s, s->places.header_offsets + s->track);
}

void name_playlist(const mother_setup *s, int channel, uint32_t address)
{
    put_mother_word(s, mother_header_of(s) + MOTHER_PLAYLISTS_AT + 2 * (uint32_t)channel, address);
}

void play_block(const mother_setup *s, int channel, const uint8_t *bytes, size_t count)
{
    put_mother_bytes(s, BLOCK_OF(channel), bytes, count);
    put_mother_word(s, LIST_OF(channel), BLOCK_OF(channel));
    put_mother_word(s, LIST_OF(channel) + 2, 0);
    name_playlist(s, channel, LIST_OF(channel));
}

mother_banks mother_banks_of(const mother_setup *s)
{
    return (mother_banks){ s->bank8, s->bank8_len, s->banka, s->banka_len };
}

void plain_mother_setup(mother_setup *s, uint8_t *bank8, uint8_t *banka)
{
    const mother_setup plain = {
        .bank8 = bank8,
        .banka = banka,
        .bank8_len = HEM_MOTHER_BANK_SIZE,
        .banka_len = HEM_MOTHER_BANK_SIZE,
        .places = { HEM_MOTHER_PUBLISHED_LOW_PLACES },
    };
    *s = plain;
    memset(bank8, 0, HEM_MOTHER_BANK_SIZE);
    memset(banka, 0, HEM_MOTHER_BANK_SIZE);
    for (uint32_t i = 0; i < MOTHER_LENGTH_BYTES; i++)
        *mother_byte_at(s, s->places.note_lengths + i) = (uint8_t)(1 + i);
    for (int channel = 0; channel < HEM_CHANNELS; channel++)
        name_playlist(s, channel, 0xFFFF);
}
