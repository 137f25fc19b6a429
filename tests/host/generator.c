/* Random setups, records, data and word lists. */
#define _DEFAULT_SOURCE
#include "generator.h"

#include <stdio.h>
#include <stdlib.h>
#include <string.h>
#include <sys/mman.h>

enum { ENVELOPE_ROOM = 72, ENVELOPE_LIMIT = 64, DAMAGES = 12 };

static uint64_t state;

void seed_random(uint64_t seed)
{
    state = seed;
}

/* splitmix64 */
static uint64_t random_bits(void)
{
    uint64_t z = state += 0x9E3779B97F4A7C15u;
    z = (z ^ (z >> 30)) * 0xBF58476D1CE4E5B9u;
    z = (z ^ (z >> 27)) * 0x94D049BB133111EBu;
    return z ^ (z >> 31);
}

uint32_t below(uint32_t limit)
{
    return (uint32_t)(random_bits() >> 32) % limit;
}

int one_in(uint32_t n)
{
    return below(n) == 0;
}

uint8_t any_byte(void)
{
    return (uint8_t)below(256);
}

size_t answer_room(uint32_t words, uint32_t most)
{
    return one_in(3) ? below(most + 1) : words;
}

uint8_t *fenced_memory(void)
{
    uint8_t *memory = mmap(NULL, 2 * LONGEST_BANK, PROT_READ | PROT_WRITE, MAP_PRIVATE | MAP_ANONYMOUS, -1, 0);
    if (memory == MAP_FAILED || mprotect(memory + LONGEST_BANK, LONGEST_BANK, PROT_NONE) != 0) {
        perror("fenced memory");
        exit(2);
    }
    return memory;
}

static uint8_t random_note(int noise)
{
    if (noise)
        return (uint8_t)(1 + 3 * below(4));
    return (uint8_t)(2 * (one_in(16) ? 1 : 1 + below(63)));
}

uint16_t random_command(int noise)
{
    uint32_t die = below(1000);
    if (die < 400)
        return random_note(noise);
    if (die < 620) {
        uint32_t length = 0xB0 + below(one_in(4) ? 16 : 5);
        uint32_t note = one_in(100) ? any_byte() : one_in(10) && !noise ? 0 : random_note(noise);
        return (uint16_t)(length + 256 * note);
    }
    if (die < 760)
        return (uint16_t)(0xC0 + (one_in(4) ? below(63) : 1 + below(4)));
    if (die < 940)
        return 0xFF;
    if (die < 975)
        return 0x00;
    return (uint16_t)(die < 985 ? 0x80 + below(0x30) : any_byte());
}

void random_data(int noise, uint8_t *bytes, size_t size)
{
    size_t at = 0;
    /* most data begins with a length, or refusal 14 would hide the rest */
    uint16_t word = (uint16_t)(0xB0 + below(4) + 256 * random_note(noise));
    if (one_in(16))
        word = random_command(noise);
    while (at < size) {
        bytes[at++] = (uint8_t)word;
        if ((word & 0xF0) == 0xB0 && at < size)
            bytes[at++] = (uint8_t)(word >> 8);
        word = random_command(noise);
    }
}

uint32_t address_in(uint32_t slot, uint32_t size)
{
    uint32_t room = SLOT - size;
    uint32_t within = one_in(4) ? 0 : one_in(4) ? room : below(room + 1);
    return FIRST_ADDRESS + SLOT * slot + within;
}

void shuffle(uint32_t slots[SLOTS])
{
    for (uint32_t i = 0; i < SLOTS; i++)
        slots[i] = i;
    for (uint32_t i = SLOTS - 1; i > 0; i--) {
        uint32_t j = below(i + 1);
        uint32_t kept = slots[i];
        slots[i] = slots[j];
        slots[j] = kept;
    }
}

void fill_bank(uint8_t *bank, size_t size)
{
    int zeros = one_in(2);
    for (size_t i = 0; i < size; i += sizeof(uint64_t)) {
        uint64_t eight = zeros ? 0 : random_bits();
        memcpy(bank + i, &eight, sizeof eight);
    }
}

void scatter(const table tables[PLACES], const uint32_t slots[PLACES])
{
    for (int i = 0; i < PLACES; i++)
        *tables[i].address = address_in(slots[i], tables[i].size);
}

/* `block`: how many bytes of the header block must be in the bank. */
static void tables_of(setup *s, uint32_t block, table tables[PLACES])
{
    ref_places *p = &s->places;
    const table all[PLACES] = {
        { &p->header_offsets, p->track_count }, { &p->header_block, block },
        { &p->note_lengths, LENGTH_BYTES },     { &p->key_periods, PERIOD_BYTES },
        { &p->noise_presets, PRESET_BYTES },    { &p->envelope_addresses, ENVELOPE_TABLE_BYTES },
    };
    memcpy(tables, all, sizeof all);
}

static void choose_places(setup *s, const uint32_t slots[PLACES])
{
    table tables[PLACES];
    ref_places *p = &s->places;
    p->track_count = 1 + below(one_in(4) ? 255 : 12);
    tables_of(s, 255 + HEADER_BYTES, tables);
    scatter(tables, slots);
    p->default1 = one_in(3) ? 0 : any_byte();
    p->default2 = one_in(3) ? 0 : any_byte();
    s->track = below(p->track_count);
}

void random_periods(setup *s, int silent_keys)
{
    for (unsigned key = 0; key < PERIOD_KEYS; key++) {
        uint32_t high = one_in(3) ? 0 : any_byte();
        uint32_t low = silent_keys && one_in(3) ? 0 : 1 + below(255);
        put_period(periods_of(s), key, 256 * high + low);
    }
}

static void fill_tables(setup *s)
{
    const ref_places *p = &s->places;
    int longer = one_in(4);
    for (uint32_t i = 0; i < p->track_count; i++)
        *byte_at(s, p->header_offsets + i) = any_byte();
    for (uint32_t i = 0; i < LENGTH_BYTES; i++)
        *byte_at(s, p->note_lengths + i) = (uint8_t)(one_in(30) ? 0 : 1 + below(longer ? 255 : 6));
    random_periods(s, 1);
    for (uint32_t i = 0; i < PRESET_BYTES; i++)
        *byte_at(s, p->noise_presets + i) = any_byte();
}

static void fill_envelopes(setup *s, uint32_t slot)
{
    uint32_t first = address_in(slot, ENVELOPES * ENVELOPE_ROOM);
    for (uint32_t i = 0; i < ENVELOPES; i++) {
        uint32_t address = first + i * ENVELOPE_ROOM;
        uint32_t size = one_in(10) ? ENVELOPE_LIMIT - 1 : below(20);
        put_low_first(s, s->places.envelope_addresses + 2 * i, address);
        for (uint32_t j = 0; j < size; j++)
            *byte_at(s, address + j) = (uint8_t)below(0xF0);
        *byte_at(s, address + size) = one_in(2) ? 0xF0 : 0xFF;
    }
}

static void fill_header(setup *s, const uint32_t slots[HEM_CHANNELS])
{
    uint8_t *header = header_of(s);
    header[WINDOW] = (uint8_t)(one_in(4) ? 31 - below(8) : below(25));
    header[RESTART] = one_in(2) ? 0 : any_byte();
    header[RELEASE] = (uint8_t)(one_in(3) ? 0 : one_in(3) ? 0x10 * below(16) : any_byte());
    header[ENVELOPE_1] = (uint8_t)below(ENVELOPES + 1);
    header[ENVELOPE_2] = (uint8_t)below(ENVELOPES + 1);
    for (int i = 0; i < HEM_CHANNELS; i++) {
        uint8_t bytes[HEM_DATA_LIMIT];
        uint32_t size = 1 + below(one_in(3) ? HEM_DATA_LIMIT : 40);
        uint32_t address = address_in(slots[i], size);
        name_channel(s, i, 0);
        if (one_in(4))
            continue;
        random_data(i == HEM_NOISE, bytes, size);
        put_channel(s, i, address, bytes, size);
    }
}

uint32_t wrong_number(uint32_t first, uint32_t last, uint32_t right)
{
    switch (below(6)) {
    case 0: return first - below(3);
    case 1: return last - 1 + below(4);
    case 2: return right + 0x10000u * (1 + below(0xFFFF));
    case 3: return right + 0x100u * (1 + below(4));
    case 4: return UINT32_MAX - below(300);
    default: return (uint32_t)random_bits();
    }
}

void damage_place(const table tables[PLACES])
{
    uint32_t which = below(PLACES);
    uint32_t *address = tables[which].address;
    *address = wrong_number(FIRST_ADDRESS, AFTER_BANK - tables[which].size, *address);
}

static void damage_one_place(setup *s)
{
    table tables[PLACES];
    tables_of(s, 1, tables);
    damage_place(tables);
}

void damage_length(uint8_t **bank, size_t *bank_len, size_t right)
{
    size_t beside = right - 2 + below(5);
    uint8_t *end = *bank + *bank_len;
    *bank_len = one_in(2) ? beside : below(LONGEST_BANK + 1);
    *bank = end - *bank_len;
}

/* Moves the block so that the header ends within three bytes of the bank's end. */
static void damage_block(setup *s)
{
    uint32_t offset = *byte_at(s, s->places.header_offsets + s->track);
    s->places.header_block = AFTER_BANK - HEADER_BYTES - offset - 3 + below(7);
}

static void damage_envelope(setup *s)
{
    static const uint16_t outside[] = { 0x0000, 0x7FFF, 0xC000, 0xFFFF };
    uint32_t entry = s->places.envelope_addresses + 2 * below(ENVELOPES);
    uint32_t address = FIRST_ADDRESS + below(HEM_BANK_SIZE - ENVELOPE_ROOM);
    uint32_t kind = below(3);
    if (kind == 0) {
        address = outside[below(4)];
    } else if (kind == 1) {
        address = AFTER_BANK - 1 - below(4);
        memset(byte_at(s, AFTER_BANK - 4), 0x01, 4);
        *byte_at(s, AFTER_BANK - 1) = one_in(2) ? 0xFF : 0x01;
    } else {
        memset(byte_at(s, address), 0x02, ENVELOPE_LIMIT);
        *byte_at(s, address + ENVELOPE_LIMIT - below(2)) = 0xF0;
    }
    put_low_first(s, entry, address);
}

static void damage_addresses(setup *s)
{
    static const uint16_t outside[] = { 0x0001, 0x7FFF, 0xC000, 0xFFFF };
    if (one_in(2)) {
        name_channel(s, (int)below(HEM_CHANNELS), outside[below(4)]);
        return;
    }
    for (int i = 0; i < HEM_CHANNELS; i++)
        name_channel(s, i, 0);
}

static void damage(setup *s)
{
    uint8_t *header = header_of(s);
    switch (below(DAMAGES)) {
    case 0: damage_length(&s->bank, &s->bank_len, HEM_BANK_SIZE); return;
    case 1: s->places.track_count = wrong_number(1, 255, s->places.track_count); return;
    case 2: s->track = wrong_number(0, s->places.track_count - 1, s->track); return;
    case 3: damage_block(s); return;
    case 4: header[WINDOW] = any_byte(); return;
    case 5: header[ENVELOPE_1 + below(2)] = (uint8_t)(one_in(2) ? ENVELOPES + 1 : any_byte()); return;
    case 6: damage_envelope(s); return;
    case 7: damage_addresses(s); return;
    case 8: header[below(HEADER_BYTES)] = any_byte(); return;
    case 9: s->bank[below(HEM_BANK_SIZE)] = any_byte(); return;
    case 10: name_channel(s, (int)below(HEM_CHANNELS), AFTER_BANK - 1 - below(4)); return;
    default: damage_one_place(s); return;
    }
}

void whole_setup(setup *s, uint8_t *memory)
{
    uint32_t slots[SLOTS];
    s->bank_len = HEM_BANK_SIZE;
    s->bank = memory + LONGEST_BANK - HEM_BANK_SIZE;
    shuffle(slots);
    fill_bank(s->bank, s->bank_len);
    choose_places(s, slots);
    fill_tables(s);
    fill_envelopes(s, slots[PLACES]);
    fill_header(s, slots + PLACES + 1);
}

void random_setup(setup *s, uint8_t *memory)
{
    whole_setup(s, memory);
    if (one_in(3))
        damage(s);
}

static void random_channel(hem_channel *channel, int noise)
{
    channel->next = (uint16_t)below(one_in(6) ? HEM_DATA_LIMIT + 1 : 40);
    channel->loop_start = (uint16_t)below(one_in(6) ? HEM_DATA_LIMIT + 1 : 40);
    channel->counter = one_in(6) ? any_byte() : (uint8_t)below(3);
    channel->length = one_in(6) ? any_byte() : (uint8_t)below(8);
    channel->left = (uint8_t)below(channel->length + 1u);
    channel->sounding = noise || !one_in(20) ? random_note(noise) : 0;
}

static void damage_channel(hem_channel *channel)
{
    switch (below(4)) {
    case 0: channel->next = (uint16_t)(one_in(2) ? HEM_DATA_LIMIT + below(2) : below(0x10000)); return;
    case 1: channel->loop_start = (uint16_t)(one_in(2) ? HEM_DATA_LIMIT + below(2) : below(0x10000)); return;
    case 2: channel->left = (uint8_t)(channel->length + below(3)); return;
    default: channel->sounding = any_byte(); return;
    }
}

static uint32_t random_frames(void)
{
    return one_in(8) ? MOST_FRAMES - below(3) : below(one_in(4) ? MOST_FRAMES + 1 : 40);
}

static void damage_frames(uint32_t *frames)
{
    *frames = one_in(2) ? MOST_FRAMES + below(3) : (uint32_t)random_bits();
}

/* A third has a channel damaged, a twelfth a number of frames. */
void random_record(hem_player *player)
{
    memset(player, 0, sizeof *player);
    player->stopped = one_in(16) ? any_byte() : 0;
    for (int i = 0; i < HEM_CHANNELS; i++)
        random_channel(&player->channels[i], i == HEM_NOISE);
    player->frames_left = random_frames();
    player->pass_length = random_frames();
    if (one_in(3))
        damage_channel(&player->channels[below(HEM_CHANNELS)]);
    else if (one_in(8))
        damage_frames(one_in(2) ? &player->frames_left : &player->pass_length);
}
