/* Start and frame of the Mother calls against the independent player, from start and from any record. */
#include "generator_mother.h"
#include "host_test.h"

#include <string.h>

/* WORDS_LENT: what is lent at most, and a few words behind it. */
enum { MOST_WORDS = HEM_MOTHER_ANSWER_WORDS + 1, WORDS_LENT = MOST_WORDS + 2, MOTHER_FRAMES = 24 };

/* Expectations of a start, of a frame, and of a round: these two and one of the banks. */
enum { EXPECTED_OF_START = 4, EXPECTED_OF_FRAME = 5, LEAST_OF_ROUND = EXPECTED_OF_START + EXPECTED_OF_FRAME + 1 };

/* Both records have the same fields in the same order. */
_Static_assert(sizeof(mother_player) == sizeof(hem_mother_player), "the independent record");

/* How many frames were compared, and how often each kind of answer, each state of a channel, each pitch envelope and
   DMC preset was seen. */
static unsigned long frames_compared, kinds[HEM_REFUSED + 1], states[HEM_NOTE + 1], pitches[8], drums[3];

static void count_answer(const uint32_t *answer)
{
    frames_compared++;
    kinds[answer[HEM_ANSWER_KIND]]++;
    for (int i = 0; i < HEM_CHANNELS; i++) {
        const uint32_t *part = answer + HEM_MOTHER_ANSWER_PART(i);
        states[part[HEM_PART_STATE]]++;
        if (part[HEM_PART_STATE] != HEM_OFF && i == HEM_NOISE)
            drums[part[HEM_MOTHER_PART_DMC]]++;
        else if (part[HEM_PART_STATE] != HEM_OFF)
            pitches[part[HEM_MOTHER_PART_PITCH]]++;
    }
}

static void expect_all_seen(void)
{
    printf("mother: %lu frames: events %lu, end %lu, stopped %lu, refused %lu; rests %lu, notes %lu\n",
           frames_compared, kinds[HEM_EVENTS], kinds[HEM_END], kinds[HEM_STOPPED], kinds[HEM_REFUSED],
           states[HEM_REST], states[HEM_NOTE]);
    for (int i = HEM_EVENTS; i <= HEM_REFUSED; i++)
        EXPECT(kinds[i] > 0);
    for (int i = HEM_OFF; i <= HEM_NOTE; i++)
        EXPECT(states[i] > 0);
    for (int i = 0; i < 8; i++)
        EXPECT(pitches[i] > 0);
    for (int i = 0; i < 3; i++)
        EXPECT(drums[i] > 0);
}

/* A record between bytes that keep theirs. */
typedef struct { uint8_t before[4]; hem_mother_player player; uint8_t after[16]; } lent_record;

static int bytes_around_stay(const lent_record *lent)
{
    lent_record pattern;
    fill_pattern(&pattern, sizeof pattern);
    return memcmp(lent->before, pattern.before, sizeof pattern.before) == 0
        && memcmp(lent->after, pattern.after, sizeof pattern.after) == 0;
}

static int same_mother_record(const hem_mother_player *a, const mother_player *b)
{
    return a->stopped == b->stopped && a->transpose == b->transpose && a->window == b->window
        && memcmp(a->channels, b->channels, sizeof a->channels) == 0;
}

static void compare_start(const mother_setup *s, hem_mother_player *player)
{
    const mother_banks banks = mother_banks_of(s);
    lent_record lent;
    mother_player wanted;
    fill_pattern(&lent, sizeof lent);
    uint32_t number = hem_mother_start(&lent.player, MOTHER_SETUP(s));
    count_number(MOTHER_START, number);
    EXPECT(number == mother_start(&wanted, &banks, &s->places, s->track));
    EXPECT(same_mother_record(&lent.player, &wanted));
    EXPECT(bytes_around_stay(&lent));
    *player = lent.player;
}

/* One frame: number, answer as far as it fits, what lies behind it, and the record. */
static uint32_t compare_frame(const mother_setup *s, hem_mother_player *player, size_t room)
{
    const mother_banks banks = mother_banks_of(s);
    uint32_t answer[MOTHER_ANSWER_WORDS], found[WORDS_LENT], wanted[WORDS_LENT];
    mother_player next;
    lent_record lent;
    memcpy(&next, player, sizeof next);
    uint32_t wanted_number = mother_frame(&next, &banks, &s->places, s->track, answer);
    count_answer(answer);
    fill_pattern(wanted, sizeof wanted);
    for (size_t i = 0; i < room && i < MOTHER_ANSWER_WORDS; i++)
        wanted[i] = answer[i];
    fill_pattern(found, sizeof found);
    fill_pattern(&lent, sizeof lent);
    lent.player = *player;
    uint32_t number = hem_mother_frame(&lent.player, MOTHER_SETUP(s), found, room);
    count_number(MOTHER_FRAME, number);
    EXPECT(number == wanted_number);
    EXPECT(memcmp(found, wanted, sizeof found) == 0);
    EXPECT(same_mother_record(&lent.player, &next));
    EXPECT(bytes_around_stay(&lent));
    *player = lent.player;
    return number;
}

/* A refused or stopped record is mostly swapped for a random one, any other sometimes damaged. */
static void change_record(hem_mother_player *player, const mother_setup *s, uint32_t number)
{
    int stays = number != HEM_OK || player->stopped != 0;
    if (stays && !one_in(3))
        random_mother_record(player, s);
    else if (one_in(12))
        damage_mother_record(player);
}

/* Frames from start or from a random record. Not many of arguments that no record changes, nor of long readings. */
static void compare_run(const mother_setup *s)
{
    hem_mother_player player;
    compare_start(s, &player);
    if (one_in(2))
        random_mother_record(&player, s);
    for (uint32_t left = 1 + below(MOTHER_FRAMES); left > 0; left--) {
        uint32_t number = compare_frame(s, &player, answer_room(HEM_MOTHER_ANSWER_WORDS, MOST_WORDS));
        int of_arguments = number != HEM_OK && number <= HEM_NO_CHANNEL && number != HEM_BAD_ENVELOPE_NUMBER
            && number != HEM_BAD_ENVELOPE;
        if (number == HEM_TOO_MANY_COMMANDS || (of_arguments && one_in(2)))
            return;
        change_record(&player, s, number);
    }
}

static void compare_random(unsigned long rounds)
{
    static uint8_t before8[LONGEST_BANK], beforea[LONGEST_BANK];
    uint8_t *memory8 = fenced_memory();
    uint8_t *memorya = fenced_memory();
    for (unsigned long i = 0; i < rounds; i++) {
        mother_setup s;
        begin_round(i);
        random_mother_setup(&s, memory8, memorya);
        memcpy(before8, memory8, sizeof before8);
        memcpy(beforea, memorya, sizeof beforea);
        compare_run(&s);
        EXPECT(memcmp(before8, memory8, sizeof before8) == 0 && memcmp(beforea, memorya, sizeof beforea) == 0);
    }
}

static uint8_t bank8[HEM_MOTHER_BANK_SIZE], banka[HEM_MOTHER_BANK_SIZE];

/* Two frames with events, a refusal and the end, into every room. */
static void compare_rooms(void)
{
    mother_setup s;
    plain_mother_setup(&s, bank8, banka);
    play_block(&s, HEM_SQUARE_2, BYTES(0x9F, 0x60, 0xB4, 0xB1, 0x20, 0x00));
    play_block(&s, HEM_NOISE, BYTES(0xB2, 0x44, 0x00));
    for (size_t room = 0; room <= MOST_WORDS; room++) {
        hem_mother_player player;
        begin_round(room);
        compare_start(&s, &player);
        for (int frame = 0; frame < 4; frame++) {
            *mother_byte_at(&s, BLOCK_OF(HEM_SQUARE_2) + 5) = frame == 2 ? 0xA1 : 0x00;
            compare_frame(&s, &player, room);
        }
    }
}

/* The places of the limit's test. 97,924 commands stand before the last block: three times a block of 127 times C0 FF
   and its end, with their words, and the last block's word. */
enum { IDLE_BLOCK = 0x9A00, LAST_BLOCK = 0x9C00, BEFORE_LAST = 3 * (1 + 127 * 257 + 1) + 1, MOST_COMMANDS = 100000 };

/* Loops over nothing that are so many commands: a begin and its FF, or an FF alone. Returns the address after them. */
static uint32_t put_idle(const mother_setup *s, uint32_t address, uint32_t commands)
{
    while (commands > 0) {
        uint32_t plays = commands > 256 ? 256 : commands > 63 ? 62 : commands - 1;
        if (plays > 0)
            *mother_byte_at(s, address++) = (uint8_t)(0xC0 | (plays & 0x3F));
        *mother_byte_at(s, address++) = 0xFF;
        commands -= 1 + plays;
    }
    return address;
}

/* The channel reads so many commands, and then these bytes stand there, up to the end of bank 8 if `cut`. */
static void put_limit(mother_setup *s, int channel, uint32_t commands, const uint8_t *bytes, size_t count, int cut)
{
    uint32_t list = LIST_OF(channel);
    uint32_t size = put_idle(s, LAST_BLOCK, commands - BEFORE_LAST) - LAST_BLOCK;
    uint32_t last = cut ? BANK_A - size - (uint32_t)count : LAST_BLOCK;
    put_idle(s, IDLE_BLOCK, 127 * 257);
    *mother_byte_at(s, IDLE_BLOCK + 254) = 0x00;
    put_idle(s, last, commands - BEFORE_LAST);
    put_mother_bytes(s, last + size, bytes, count);
    for (uint32_t i = 0; i < 3; i++)
        put_mother_word(s, list + 2 * i, IDLE_BLOCK);
    put_mother_word(s, list + 6, last);
    name_playlist(s, channel, list);
}

/* What may stand at the 100,001st command or beside it: sounds, commands, the playlist, and each sort of refusal. */
static void compare_limit(void)
{
    static const struct { uint8_t bytes[3]; size_t count; uint16_t word; int cut; } tails[] = {
        { { 0xB0, 0x10 }, 2, 0, 0 }, { { 0x00 }, 1, 0x0000, 0 },     { { 0x00 }, 1, 0x0100, 0 },
        { { 0x00 }, 1, 0xFFFF, 0 },  { { 0x00 }, 1, LAST_BLOCK, 0 }, { { 0x81, 0x9F }, 2, 0, 0 },
        { { 0x03 }, 1, 0, 0 },       { { 0xB0 }, 1, 0, 1 },          { { 0 }, 0, 0, 1 },
        { { 0x9C, 0x01 }, 2, 0, 0 }, { { 0x10 }, 1, 0, 0 },          { { 0x9E, 0x01, 0xFF }, 3, 0, 0 },
    };
    const size_t count = sizeof tails / sizeof tails[0];
    begin_part("mother, most commands", 5 * count * (EXPECTED_OF_START + EXPECTED_OF_FRAME));
    for (size_t i = 0; i < count; i++) {
        for (uint32_t commands = MOST_COMMANDS - 3; commands <= MOST_COMMANDS + 1; commands++) {
            int channel = (int)below(HEM_CHANNELS);
            hem_mother_player player;
            mother_setup s;
            begin_round(MOST_COMMANDS * i + commands);
            plain_mother_setup(&s, bank8, banka);
            put_limit(&s, channel, commands, tails[i].bytes, tails[i].count, tails[i].cut);
            put_mother_word(&s, LIST_OF(channel) + 8, tails[i].word);
            compare_start(&s, &player);
            compare_frame(&s, &player, HEM_MOTHER_ANSWER_WORDS);
        }
    }
}

void test_mother(unsigned long rounds)
{
    begin_part("mother", rounds * LEAST_OF_ROUND);
    compare_random(rounds);
    begin_part("mother, rooms", (MOST_WORDS + 1) * (EXPECTED_OF_START + 4 * EXPECTED_OF_FRAME));
    compare_rooms();
    compare_limit();
    expect_all_seen();
}
