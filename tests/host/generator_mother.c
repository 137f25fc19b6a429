/* Random Mother setups and records. */
#include "generator_mother.h"

#include <string.h>

/* NOTE_OF_BOTH: a key's byte and a preset's. */
enum { LIST_ROOM = 200, GOTO_BYTES = 4, LONG_ROW = 256, DAMAGES = 13, SPOILS = 11, NOTE_OF_BOTH = 0x10 };

/* While a mild setup is made. */
static int mild;

/* Once in n times something is put that may be refused; never into a mild setup. */
static int bad_one_in(uint32_t n)
{
    return !mild && one_in(n);
}

/* Addresses at and around the ends of the banks. */
static uint16_t edge_address(void)
{
    static const uint16_t edges[] = { 0x0000, 0x7FFE, 0x7FFF, 0x8000, 0x9FFE, 0x9FFF,
                                      0xA000, 0xBFFC, 0xBFFE, 0xBFFF, 0xC000, 0xFFFF };
    return one_in(3) ? (uint16_t)below(0x10000) : edges[below(sizeof edges / sizeof edges[0])];
}

/* Of DMC preset 2 and 3 some stand for a command where they stand alone. */
static uint8_t noise_note(void)
{
    static const uint8_t presets[] = { 1, 2, 4, 7, 0x0A, 0x0D, 0x10, 0x13, 0x16, 0x19, 0x1C };
    return (uint8_t)(presets[below(sizeof presets)] + 64 * below(mild ? 2 : 4));
}

static uint8_t melodic_note(void)
{
    return (uint8_t)(one_in(8) ? 2 : bad_one_in(30) ? 2 * below(128) : 2 * (8 + below(42)));
}

static uint8_t random_note(int noise)
{
    return noise ? noise_note() : melodic_note();
}

/* Mostly of even amount, -8 to +8. */
static uint8_t random_transpose(void)
{
    static const uint8_t even[] = { 0, 2, 4, 8, 0x81, 0x83, 0x87 };
    return bad_one_in(12) ? any_byte() : even[below(sizeof even)];
}

static uint8_t random_window(void)
{
    return bad_one_in(24) ? any_byte() : bad_one_in(10) ? (uint8_t)(84 + below(24)) : (uint8_t)below(88);
}

static uint8_t random_timbre(void)
{
    return (uint8_t)(32 * below(8) + (one_in(4) ? 0 : bad_one_in(6) ? below(32) : below(MOTHER_ENVELOPES + 1)));
}

static size_t put_bytes(uint8_t *out, size_t size, uint8_t first, uint8_t second, uint8_t third)
{
    const uint8_t bytes[] = { first, second, third };
    memcpy(out, bytes, size);
    return size;
}

/* One command, legal most of the time. Returns its size. */
static size_t put_command(int noise, uint8_t *out)
{
    uint32_t die = below(100);
    if (die < 30)
        return put_bytes(out, 1, random_note(noise), 0, 0);
    if (die < 56)
        return put_bytes(out, 2, (uint8_t)(0xB0 + below(16)), bad_one_in(100) ? any_byte() : random_note(noise), 0);
    if (die < 63)
        return put_bytes(out, 1, (uint8_t)(0xC0 + (one_in(6) ? below(63) : 1 + below(3))), 0, 0);
    if (die < 72)
        return put_bytes(out, 1, 0xFF, 0, 0);
    if (die < 82)
        return put_bytes(out, 1, 0x00, 0, 0);
    if (die < 87)
        return put_bytes(out, 2, 0x9C, random_transpose(), 0);
    if (die < 91)
        return put_bytes(out, 2, 0x9E, random_window(), 0);
    if (die < 98 && (!noise || bad_one_in(40)))
        return put_bytes(out, 3, 0x9F, random_timbre(), any_byte());
    return put_bytes(out, 1, bad_one_in(3) ? any_byte() : random_note(noise), 0, 0);
}

/* Begins with a length most of the time, or 14 and 21 would hide the rest, and has an end; in a mild setup behind all
   of its commands. Half of the melodic ones set the timbre before it. */
static void put_block(const mother_setup *s, uint32_t address, int noise)
{
    uint8_t bytes[HEM_MOTHER_BLOCK_LIMIT + 3];
    size_t most = one_in(16) ? HEM_MOTHER_BLOCK_LIMIT - (mild ? 3 : 0) : 1 + below(20);
    size_t size = noise || one_in(2) ? 0 : put_bytes(bytes, 3, 0x9F, random_timbre(), any_byte());
    if (!bad_one_in(16))
        size += put_bytes(bytes + size, 2, (uint8_t)(0xB0 + below(16)), random_note(noise), 0);
    while (size < most)
        size += put_command(noise, bytes + size);
    if (mild)
        bytes[size++] = 0x00;
    else
        bytes[one_in(16) ? below((uint32_t)size) : size - 1] = 0x00;
    put_mother_bytes(s, address, bytes, size);
}

/* In its slot or, sometimes, up to the end of a bank. */
static void put_blocks(mother_setup *s, const uint32_t slots[BLOCKS])
{
    for (uint32_t i = 0; i < BLOCKS; i++) {
        s->blocks[i] = address_in(slots[i], HEM_MOTHER_BLOCK_LIMIT);
        if (bad_one_in(12))
            s->blocks[i] = (one_in(2) ? BANK_A : AFTER_BANK) - 1 - below(16);
        put_block(s, s->blocks[i], i >= MELODIC_BLOCKS);
    }
}

static uint32_t random_block(const mother_setup *s, int channel)
{
    if (bad_one_in(60))
        return edge_address();
    if (bad_one_in(20))
        return s->blocks[below(BLOCKS)];
    return s->blocks[channel == HEM_NOISE ? MELODIC_BLOCKS + below(BLOCKS - MELODIC_BLOCKS) : below(MELODIC_BLOCKS)];
}

/* A word of this or of another playlist, `row` words after this one's start; of a mild setup one that names a block of
   the channel. */
static uint32_t random_target(const mother_setup *s, int channel, uint32_t row)
{
    int from = one_in(4) ? (int)below(HEM_CHANNELS) : channel;
    if (!mild)
        return one_in(30) ? edge_address() : s->lists[from] + (one_in(16) ? 1 : 2 * below(4));
    if (from == channel || from == HEM_NOISE || channel == HEM_NOISE)
        return s->lists[channel] + 2 * below(row);
    return s->lists[from];
}

static void put_goto(const mother_setup *s, uint32_t address, uint32_t target)
{
    put_mother_word(s, address, 0xFF00u + any_byte());
    put_mother_word(s, address + 2, target);
}

/* An end or a goto; or none, and what stands behind it follows. */
static void put_last_word(const mother_setup *s, uint32_t address, int channel, uint32_t row)
{
    if (one_in(4))
        put_mother_word(s, address, any_byte());
    else if (!bad_one_in(16))
        put_goto(s, address, random_target(s, channel, row));
}

static void put_playlist(const mother_setup *s, int channel, int is_long)
{
    uint32_t row = is_long ? LONG_ROW - 1 + below(3) : 1 + below(5);
    uint32_t only = is_long ? random_block(s, channel) : 0;
    for (uint32_t i = 0; i < row; i++)
        put_mother_word(s, s->lists[channel] + 2 * i, only != 0 ? only : random_block(s, channel));
    put_last_word(s, s->lists[channel] + 2 * row, channel, row);
}

/* All in one slot or, sometimes, one across the border or at the banks' end, or a long one, which in a mild setup has
   the second slot for itself. */
static void put_playlists(mother_setup *s, const uint32_t slots[2])
{
    uint32_t roomy = mild && one_in(20) ? below(HEM_CHANNELS) : HEM_CHANNELS;
    for (uint32_t i = 0; i < HEM_CHANNELS; i++) {
        uint32_t slot = FIRST_ADDRESS + SLOT * slots[i == roomy];
        s->lists[i] = slot + LIST_ROOM * (i == roomy ? 1 : i) + GOTO_BYTES + below(LIST_ROOM / 8);
    }
    if (bad_one_in(8))
        s->lists[below(HEM_CHANNELS)] = (one_in(3) ? AFTER_BANK : BANK_A) - 1 - below(12);
    for (uint32_t i = 0; i < HEM_CHANNELS; i++)
        put_playlist(s, (int)i, i == roomy || bad_one_in(200));
}

/* The playlist or, in a mild setup half of the time, a goto before it that leads to it. */
static uint32_t list_to_name(const mother_setup *s, int channel)
{
    uint32_t list = s->lists[channel];
    if (!mild || !one_in(2))
        return list;
    put_goto(s, list - GOTO_BYTES, list);
    return list - GOTO_BYTES;
}

/* `block`: how many bytes of the header block must be in the banks. */
static void mother_tables_of(mother_setup *s, uint32_t block, table tables[PLACES])
{
    mother_places *p = &s->places;
    table *next = tables;
    *next++ = (table){ &p->header_offsets, p->track_count };
    *next++ = (table){ &p->header_block, block };
    *next++ = (table){ &p->note_lengths, MOTHER_LENGTH_BYTES };
    *next++ = (table){ &p->key_periods, MOTHER_PERIOD_BYTES };
    *next++ = (table){ &p->noise_presets, MOTHER_PRESET_BYTES };
    *next = (table){ &p->envelope_addresses, MOTHER_ENVELOPE_TABLE_BYTES };
}

/* Sometimes one stands across the border of the banks. */
static void choose_mother_places(mother_setup *s, const uint32_t slots[PLACES])
{
    table tables[PLACES];
    s->places.track_count = 1 + below(one_in(4) ? 255 : 25);
    mother_tables_of(s, 255 + MOTHER_HEADER_BYTES, tables);
    scatter(tables, slots);
    const table *across = &tables[below(PLACES)];
    if (bad_one_in(3))
        *across->address = BANK_A - below(across->size);
    s->track = below(s->places.track_count);
}

static void put_any_bytes(const mother_setup *s, uint32_t address, uint32_t count)
{
    for (uint32_t i = 0; i < count; i++)
        *mother_byte_at(s, address + i) = any_byte();
}

static void put_same_bytes(const mother_setup *s, uint32_t address, uint32_t count, uint8_t byte)
{
    for (uint32_t i = 0; i < count; i++)
        *mother_byte_at(s, address + i) = byte;
}

static void fill_mother_tables(const mother_setup *s)
{
    const mother_places *p = &s->places;
    int longer = one_in(6);
    put_any_bytes(s, p->header_offsets, p->track_count);
    put_any_bytes(s, p->key_periods, MOTHER_PERIOD_BYTES);
    put_any_bytes(s, p->noise_presets, MOTHER_PRESET_BYTES);
    for (uint32_t i = 0; i < MOTHER_LENGTH_BYTES; i++)
        *mother_byte_at(s, p->note_lengths + i) = (uint8_t)(bad_one_in(60) ? 0 : 1 + below(longer ? 255 : 5));
}

/* All in one slot, over each other; about one byte in ten ends one. */
static void fill_mother_envelopes(const mother_setup *s, uint32_t slot)
{
    uint32_t first = FIRST_ADDRESS + SLOT * slot;
    for (uint32_t i = 0; i < SLOT; i++)
        *mother_byte_at(s, first + i) = one_in(10) ? (one_in(2) ? 0xF0 : 0xFF) : (uint8_t)below(0xF0);
    for (uint32_t i = 0; i < MOTHER_ENVELOPES; i++)
        put_mother_word(s, s->places.envelope_addresses + 2 * i, first + below(SLOT));
}

static void fill_mother_header(const mother_setup *s)
{
    uint32_t header = mother_header_of(s);
    *mother_byte_at(s, header + MOTHER_TRANSPOSE_AT) = one_in(8) ? random_transpose() : 0;
    *mother_byte_at(s, header + MOTHER_WINDOW_AT) = random_window();
    for (int i = 0; i < HEM_CHANNELS; i++)
        name_playlist(s, i, one_in(4) ? 0xFF00u + any_byte() : list_to_name(s, i));
}

/* 65 bytes with an end in one of the last three alone, and half of the envelopes there or at an edge. */
static void damage_mother_envelopes(const mother_setup *s)
{
    const uint32_t starts[] = { FIRST_ADDRESS + below(0x3F00), BANK_A - 1 - below(64), AFTER_BANK - 1 - below(66) };
    uint32_t start = starts[below(3)];
    uint8_t bytes[65];
    memset(bytes, 0x21, sizeof bytes);
    bytes[62 + below(3)] = one_in(2) ? 0xFF : 0xF0;
    put_mother_bytes(s, start, bytes, sizeof bytes);
    for (uint32_t i = 0; i < MOTHER_ENVELOPES; i += 2)
        put_mother_word(s, s->places.envelope_addresses + 2 * i, one_in(3) ? edge_address() : start);
}

static void damage_playlist_addresses(const mother_setup *s)
{
    if (one_in(2)) {
        name_playlist(s, (int)below(HEM_CHANNELS), edge_address());
        return;
    }
    for (int i = 0; i < HEM_CHANNELS; i++)
        name_playlist(s, i, 0xFF00u + any_byte());
}

static void damage_one_place(mother_setup *s)
{
    table tables[PLACES];
    mother_tables_of(s, 1, tables);
    damage_place(tables);
}

/* Moves the block so that the header ends within three bytes of the banks' end. */
static void damage_header_place(mother_setup *s)
{
    uint32_t offset = mother_header_of(s) - s->places.header_block;
    s->places.header_block = AFTER_BANK - MOTHER_HEADER_BYTES - offset - 3 + below(7);
}

void damage_mother_setup(mother_setup *s)
{
    uint32_t header = mother_header_of(s);
    switch (below(DAMAGES)) {
    case 0: damage_length(&s->bank8, &s->bank8_len, HEM_MOTHER_BANK_SIZE); return;
    case 1: damage_length(&s->banka, &s->banka_len, HEM_MOTHER_BANK_SIZE); return;
    case 2: s->places.track_count = wrong_number(1, 255, s->places.track_count); return;
    case 3: s->track = wrong_number(0, s->places.track_count - 1, s->track); return;
    case 4: damage_header_place(s); return;
    case 5: *mother_byte_at(s, header + MOTHER_TRANSPOSE_AT) = any_byte(); return;
    case 6: damage_playlist_addresses(s); return;
    case 7: put_any_bytes(s, header + below(MOTHER_HEADER_BYTES), 1); return;
    case 8: put_any_bytes(s, FIRST_ADDRESS + below(AFTER_BANK - FIRST_ADDRESS), 1); return;
    case 9: put_any_bytes(s, s->lists[below(HEM_CHANNELS)], 1); return;
    case 10: damage_one_place(s); return;
    default: damage_mother_envelopes(s); return;
    }
}

static void make_setup(mother_setup *s, uint8_t *memory8, uint8_t *memorya)
{
    uint32_t slots[SLOTS];
    s->bank8_len = HEM_MOTHER_BANK_SIZE;
    s->banka_len = HEM_MOTHER_BANK_SIZE;
    s->bank8 = memory8 + LONGEST_BANK - s->bank8_len;
    s->banka = memorya + LONGEST_BANK - s->banka_len;
    shuffle(slots);
    fill_bank(s->bank8, s->bank8_len);
    fill_bank(s->banka, s->banka_len);
    choose_mother_places(s, slots);
    fill_mother_tables(s);
    fill_mother_envelopes(s, slots[PLACES]);
    put_blocks(s, slots + PLACES + 1);
    put_playlists(s, slots + PLACES + 1 + BLOCKS);
    fill_mother_header(s);
}

void random_mother_setup(mother_setup *s, uint8_t *memory8, uint8_t *memorya)
{
    make_setup(s, memory8, memorya);
    if (one_in(4))
        damage_mother_setup(s);
}

void mild_mother_setup(mother_setup *s, uint8_t *memory8, uint8_t *memorya)
{
    mild = 1;
    make_setup(s, memory8, memorya);
    mild = 0;
}

/* A byte that is a command, and no command, on one kind of channel or the other; or any. */
static uint8_t telling_byte(void)
{
    static const uint8_t telling[] = { 0x00, 0x02, 0x20, 0x7F, 0x9C, 0x9D, 0x9E, 0x9F, 0xB0, 0xBE, 0xC0, 0xFF };
    return one_in(3) ? any_byte() : telling[below(sizeof telling)];
}

static void spoil_list(const mother_setup *s)
{
    uint32_t at = s->lists[below(HEM_CHANNELS)] + 2 * below(6);
    switch (below(4)) {
    case 0: put_mother_word(s, at, edge_address()); return;
    case 1: put_mother_word(s, at, any_byte()); return;
    case 2: put_mother_word(s, at, s->blocks[below(BLOCKS)]); return;
    default: put_goto(s, at, s->lists[below(HEM_CHANNELS)] + 2 * below(6)); return;
    }
}

void spoil_mother_setup(const mother_setup *s)
{
    uint32_t block = s->blocks[below(BLOCKS)];
    uint32_t header = mother_header_of(s);
    switch (below(SPOILS)) {
    case 0: *mother_byte_at(s, header + MOTHER_TRANSPOSE_AT) = random_transpose(); return;
    case 1: *mother_byte_at(s, header + MOTHER_WINDOW_AT) = random_window(); return;
    case 2: *mother_byte_at(s, s->places.note_lengths + below(MOTHER_LENGTH_BYTES)) = 0; return;
    case 3: put_mother_word(s, s->places.envelope_addresses + 2 * below(MOTHER_ENVELOPES), edge_address()); return;
    case 4: put_mother_bytes(s, block, BYTES(0x9E, random_window(), 0x00)); return;
    case 5: put_mother_bytes(s, block + 2 * below(6), BYTES(0x9C, random_transpose())); return;
    case 6: put_same_bytes(s, block + 5, HEM_MOTHER_BLOCK_LIMIT - 5, 0xFF); return;
    case 7: *mother_byte_at(s, block + 1) = (uint8_t)(MOTHER_ENVELOPES + below(5)); return;
    case 8: *mother_byte_at(s, block) = NOTE_OF_BOTH; return;
    case 9: spoil_list(s); return;
    default: *mother_byte_at(s, block + below(24)) = telling_byte(); return;
    }
}

static uint16_t random_offset(void)
{
    return (uint16_t)(one_in(12) ? HEM_MOTHER_BLOCK_LIMIT - below(4) : below(20));
}

static void random_mother_channel(hem_mother_channel *c, const mother_setup *s, int channel)
{
    c->list = (uint16_t)(s->lists[channel] + 2 * below(5));
    c->row = (uint16_t)(one_in(3) ? 252 + below(8) : below(8));
    c->block = (uint16_t)(one_in(6) ? 0 : random_block(s, channel));
    c->next = random_offset();
    c->loop_start = random_offset();
    c->counter = one_in(8) ? any_byte() : (uint8_t)below(3);
    c->length = one_in(6) ? any_byte() : (uint8_t)below(8);
    c->left = (uint8_t)below(c->length + 1u);
    c->sounding = channel == HEM_NOISE ? noise_note() : (uint8_t)(2 * below(67));
    c->timbre = (uint8_t)(32 * below(8) + below(MOTHER_ENVELOPES + 1));
    c->ctrl = any_byte();
}

static void damage_mother_channel(hem_mother_channel *c)
{
    switch (below(12)) {
    case 0: c->list = edge_address(); return;
    case 1: c->row = (uint16_t)(one_in(2) ? 255 + below(3) : below(0x10000)); return;
    case 2: c->block = edge_address(); return;
    case 3: c->next = (uint16_t)(one_in(2) ? 255 + below(3) : below(0x10000)); return;
    case 4: c->loop_start = (uint16_t)(one_in(2) ? 255 + below(3) : below(0x10000)); return;
    case 5: c->counter = any_byte(); return;
    case 6: c->length = any_byte(); return;
    case 7: c->left = (uint8_t)(one_in(2) ? c->length + below(3) : below(256)); return;
    case 8: c->sounding = any_byte(); return;
    case 9: c->timbre = any_byte(); return;
    case 10: c->ctrl = any_byte(); return;
    default: c->left = 0; return;
    }
}

void damage_mother_record(hem_mother_player *player)
{
    switch (below(10)) {
    case 0: player->stopped = any_byte(); return;
    case 1: player->transpose = any_byte(); return;
    case 2: player->window = any_byte(); return;
    default: damage_mother_channel(&player->channels[below(HEM_CHANNELS)]); return;
    }
}

void random_mother_record(hem_mother_player *player, const mother_setup *s)
{
    if (one_in(16)) {
        for (size_t i = 0; i < sizeof *player; i++)
            ((uint8_t *)player)[i] = any_byte();
        return;
    }
    player->stopped = one_in(16) ? any_byte() : 0;
    player->transpose = random_transpose();
    player->window = random_window();
    for (int i = 0; i < HEM_CHANNELS; i++)
        random_mother_channel(&player->channels[i], s, i);
    if (one_in(3))
        damage_mother_record(player);
}
