/* Tools of the selftest. */
#include "game.h"

#include <stdlib.h>
#include <string.h>

static const uint8_t lengths[MOTHER_LENGTH_COUNT] = {
    4,   8,  16,  32, 64, 24, 48, 12,  10,  5,  2,  1,  5,   10, 20, 40,  /* $00: 225 BPM, $0c: 180 BPM */
    80,  30, 60,  15, 12, 6,  3,  2,   6,   12, 24, 48, 96,  36, 72, 18,  /* $18: 150 BPM */
    16,  8,  3,   1,  4,  2,  0,  144, 7,   14, 28, 56, 112, 42, 84, 21,  /* $28: 129 BPM */
    18,  9,  3,   1,  2,  8,  16, 32,  64,  128, 48, 96, 24, 21, 10, 4,   /* $35: 113 BPM */
    1,   2,  192, 9,  18, 36, 72, 144, 54,  108, 27, 24, 10, 20, 40, 80,  /* $43: 100 BPM, $4c: 90 BPM */
    160, 60, 120, 30, 26, 13, 5,  1,   2,   23, 11, 22, 44,  88, 176, 66, /* $5a: 82 BPM */
    132, 33, 29,  14, 5,  1,  2,  23,
};

const published_envelope published_envelopes[ENVELOPES] = {
    { 0x8E4F, "233456776554", 0xFF },
    { 0x8E56, "5a9888776666655555", 0xFF },
    { 0x8E76, "111122223333444444455555556666777888", 0xFF },
    { 0x8E89, "f987777766655544", 0xFF },
    { 0x8E92, "a876", 0xFF },
    { 0x8E98, "99", 0xFF },
    { 0x8E48, "235678888887", 0xFF },
    { 0x8E9A, "dcba998887765544", 0xFF },
    { 0x8EA3, "2344333333333332", 0xFF },
    { 0x8E95, "7432", 0xFF },
    { 0x8EAC, "7776655544433221", 0xF0 },
    { 0x8EB5, "44433332221111", 0xF0 },
    { 0x8EBD, "33332222111111", 0xF0 },
    { 0x8EC5, "222222111111", 0xF0 },
    { 0x8ECC, "1111111111110100", 0xF0 },
    { 0x8ED5, "998877766655544433333332222222222111111111111111", 0xF0 },
    { 0x8F20, "23455544333322", 0xFF },
    { 0x8F28, "87654321443321113221111121111111111111", 0xFF },
    { 0x8EEE, "6555544433333333222222221111111111111111", 0xF0 },
    { 0x8F3C, "666542213221111121111111111111", 0xFF },
    { 0x8F03, "fbbaaa99999998887777776666665554444443333322222222111111", 0xF0 },
    { 0x8E23, "7611111431", 0xFF },
    { 0x8E60, "111122223333444444455555556666777888765432", 0xFF },
    { 0x8E3F, "9876632287765311", 0xF0 },
    { 0x8E38, "233332222222", 0xFF },
    { 0x8E2D, "91919191919191919191", 0xF0 },
    { 0x8E29, "334566", 0xFF },
};

uint8_t *game_at(game *g, uint32_t address)
{
    return address < MOTHER_BANK_A ? &g->bank8[address - REF_BANK_FIRST] : &g->banka[address - MOTHER_BANK_A];
}

void game_word(game *g, uint32_t address, uint32_t word)
{
    *game_at(g, address) = (uint8_t)word;
    *game_at(g, address + 1) = (uint8_t)(word >> 8);
}

uint32_t hex_size(const char *hex)
{
    uint8_t bytes[MOTHER_BLOCK_LIMIT];
    return (uint32_t)hex_bytes(hex, bytes);
}

void game_hex(game *g, uint32_t address, const char *hex)
{
    uint8_t bytes[MOTHER_BLOCK_LIMIT];
    size_t count = hex_bytes(hex, bytes);
    for (size_t i = 0; i < count; i++)
        *game_at(g, address + (uint32_t)i) = bytes[i];
}

void put_pieces(game *g, const piece *pieces, size_t count)
{
    for (size_t i = 0; i < count; i++)
        game_hex(g, pieces[i].address, pieces[i].hex);
}

static void put_envelope(game *g, uint32_t number)
{
    const published_envelope *envelope = &published_envelopes[number];
    size_t size = strlen(envelope->volumes) / 2;
    game_word(g, g->places.envelope_addresses + 2 * number, envelope->address);
    for (size_t i = 0; i < size; i++) {
        const char two[] = { envelope->volumes[2 * i], envelope->volumes[2 * i + 1], '\0' };
        *game_at(g, envelope->address + (uint32_t)i) = (uint8_t)strtoul(two, NULL, 16);
    }
    *game_at(g, envelope->address + (uint32_t)size) = envelope->last;
}

static uint8_t *new_bank(void)
{
    uint8_t *bank = calloc(MOTHER_BANK_SIZE, 1);
    if (bank == NULL)
        abort();
    return bank;
}

static void put_tables(game *g)
{
    for (uint32_t i = 0; i < MOTHER_LENGTH_COUNT; i++)
        *game_at(g, g->places.note_lengths + i) = lengths[i];
    for (uint32_t key = 0; key <= MOTHER_LAST_KEY / 2; key++) {
        *game_at(g, g->places.key_periods + 2 * key) = (uint8_t)(period_of_key(key) >> 8);
        *game_at(g, g->places.key_periods + 2 * key + 1) = (uint8_t)period_of_key(key);
    }
    for (uint32_t i = 0; i < 31; i++)
        *game_at(g, g->places.noise_presets + i) = preset_byte(i);
    for (uint32_t i = 0; i < ENVELOPES; i++)
        put_envelope(g, i);
}

game *new_game(void)
{
    static const mother_places low = MOTHER_LOW_PLACES;
    game *g = calloc(1, sizeof *g);
    if (g == NULL)
        abort();
    g->bank8 = new_bank();
    g->banka = new_bank();
    g->bank8_len = MOTHER_BANK_SIZE;
    g->banka_len = MOTHER_BANK_SIZE;
    g->places = low;
    put_tables(g);
    set_header(g, 0, 0x18);
    for (int channel = 0; channel < REF_CHANNELS; channel++)
        name_playlist(g, channel, 0xFFFF);
    return g;
}

void free_game(game *g)
{
    free(g->bank8);
    free(g->banka);
    free(g);
}

void set_header(game *g, uint8_t transpose, uint8_t window)
{
    *game_at(g, HEADER) = transpose;
    *game_at(g, HEADER + 1) = window;
}

void name_playlist(game *g, int channel, uint32_t address)
{
    game_word(g, HEADER + 2 + 2 * (uint32_t)channel, address);
}

void put_playlist(game *g, int channel, const uint16_t *words, size_t count)
{
    name_playlist(g, channel, LIST_OF(channel));
    for (uint32_t i = 0; i < count; i++)
        game_word(g, LIST_OF(channel) + 2 * i, words[i]);
}

void play_block(game *g, int channel, const char *hex)
{
    game_hex(g, BLOCK_OF(channel), hex);
    PLAYLIST(g, channel, (uint16_t)BLOCK_OF(channel), END_WORD);
}

uint32_t put_words(game *g, uint32_t address, uint32_t count, uint32_t block)
{
    for (uint32_t i = 0; i < count; i++)
        game_word(g, address + 2 * i, block);
    return address + 2 * count;
}

uint32_t put_goto(game *g, uint32_t address, uint32_t to)
{
    game_word(g, address, GOTO_WORD);
    game_word(g, address + 2, to);
    return address + 4;
}

void set_envelope(game *g, uint32_t number, uint32_t address)
{
    game_word(g, g->places.envelope_addresses + 2 * (number - 1), address);
}

void put_endless_envelope(game *g, uint32_t number)
{
    set_envelope(g, number, LAST_OF_ENDLESS - 63);
    for (uint32_t at = LAST_OF_ENDLESS - 63; at <= LAST_OF_ENDLESS; at++)
        *game_at(g, at) = 0x12;
    *game_at(g, LAST_OF_ENDLESS + 1) = 0xFF;
}

static mother_banks banks_of(const game *g)
{
    return (mother_banks){ g->bank8, g->bank8_len, g->banka, g->banka_len };
}

uint32_t start_game(game *g, mother_player *player)
{
    mother_banks banks = banks_of(g);
    return mother_start(player, &banks, &g->places, g->track);
}

uint32_t step_game(game *g, mother_player *player, uint32_t *answer)
{
    mother_banks banks = banks_of(g);
    return mother_frame(player, &banks, &g->places, g->track, answer);
}

uint32_t check_game(game *g, uint32_t *verdict, size_t verdict_len)
{
    mother_banks banks = banks_of(g);
    return mother_check(&banks, &g->places, g->track, verdict, verdict_len);
}

static int same_part(const mother_channel *a, const mother_channel *b)
{
    return a->list == b->list && a->row == b->row && a->block == b->block && a->next == b->next
        && a->loop_start == b->loop_start && a->counter == b->counter && a->length == b->length && a->left == b->left
        && a->sounding == b->sounding && a->timbre == b->timbre && a->ctrl == b->ctrl;
}

int same_player(const mother_player *a, const mother_player *b)
{
    int same = a->stopped == b->stopped && a->transpose == b->transpose && a->window == b->window;
    for (int i = 0; i < REF_CHANNELS; i++)
        same = same && same_part(&a->channels[i], &b->channels[i]);
    return same;
}

int part_is(const uint32_t *answer, int channel, const uint32_t wanted[MOTHER_PART_WORDS])
{
    const uint32_t *part = &answer[MOTHER_ANSWER_PARTS + MOTHER_PART_WORDS * channel];
    return memcmp(part, wanted, MOTHER_PART_WORDS * sizeof part[0]) == 0;
}

int are_zeros(const uint32_t *answer, int first, int after)
{
    for (int i = first; i < after; i++)
        if (answer[i] != 0)
            return 0;
    return 1;
}

void play_frames(game *g, uint32_t frames, mother_player *player)
{
    uint32_t answer[MOTHER_ANSWER_WORDS];
    CHECK(start_game(g, player) == 0);
    for (uint32_t i = 0; i < frames; i++) {
        CHECK(step_game(g, player, answer) == 0);
        CHECK(answer[0] == REF_EVENTS && place_is(answer, 0, 0, 0));
    }
}

/* The channel is the last one read, with this count, and no events are told. */
static int stops_at(const uint32_t *answer, int channel, uint32_t count)
{
    return answer[REF_ANSWER_COUNTS + channel] == count
        && are_zeros(answer, REF_ANSWER_COUNTS + channel + 1, REF_ANSWER_CHANNEL)
        && are_zeros(answer, MOTHER_ANSWER_PARTS, MOTHER_ANSWER_WORDS);
}

void expect_refused(game *g, uint32_t frame, uint32_t number, int channel, uint32_t offset, uint32_t address,
                    uint32_t count)
{
    mother_player player, before;
    uint32_t answer[MOTHER_ANSWER_WORDS];
    play_frames(g, frame, &player);
    before = player;
    for (int again = 0; again < 2; again++) {
        CHECK(step_game(g, &player, answer) == number);
        CHECK(answer[0] == REF_REFUSED && stops_at(answer, channel, count));
        CHECK(place_is(answer, (uint32_t)channel, offset, address));
        CHECK(same_player(&player, &before));
    }
}

void expect_ended(game *g, uint32_t frame, int channel, uint32_t count)
{
    const mother_player stopped = { .stopped = 1 };
    mother_player player;
    uint32_t answer[MOTHER_ANSWER_WORDS];
    play_frames(g, frame, &player);
    CHECK(step_game(g, &player, answer) == 0);
    CHECK(answer[0] == REF_END && stops_at(answer, channel, count) && place_is(answer, 0, 0, 0));
    CHECK(same_player(&player, &stopped));
    for (int again = 0; again < 2; again++) {
        CHECK(step_game(g, &player, answer) == 0);
        CHECK(answer[0] == REF_STOPPED && are_zeros(answer, 1, MOTHER_ANSWER_WORDS));
        CHECK(same_player(&player, &stopped));
    }
}
