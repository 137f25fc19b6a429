/* Two banks that differ in the period table alone, one without silent keys: a silent key changes what a note tells, and
   nothing else. */
#include "host_test.h"

#include <string.h>

enum { FRAMES = 60, CTRL1_OF_REST = 0x10 };

/* Expectations of check and start, of a frame without a note, and of a round: at least these two. */
enum { EACH_START = 4, EACH_FRAME = 10, LEAST_EACH = EACH_START + EACH_FRAME };

typedef struct { setup sounding, silent; } two_banks;

/* How often a note was one in both banks, and how often silenced; and of passes, faults and refused frames. */
static unsigned long notes, silenced, passes, faults, refused_frames;

/* No channel's 256 bytes run into the period table. */
static int periods_apart(const setup *s)
{
    uint32_t table = s->places.key_periods;
    for (uint32_t i = 0; i < HEM_CHANNELS; i++) {
        uint32_t data = named_address(s, i);
        if (data < table + PERIOD_BYTES && table < data + HEM_DATA_LIMIT)
            return 0;
    }
    return 1;
}

static void random_banks(two_banks *banks, uint8_t *memory)
{
    static uint8_t copy[HEM_BANK_SIZE];
    do
        whole_setup(&banks->silent, memory);
    while (!periods_apart(&banks->silent));
    banks->sounding = banks->silent;
    banks->sounding.bank = copy;
    memcpy(copy, banks->silent.bank, sizeof copy);
    random_periods(&banks->sounding, 0);
}

static void compare_records(const hem_player *sounding, const hem_player *silent)
{
    ref_player wanted = as_reference(sounding);
    EXPECT(same_record(silent, &wanted));
}

static void compare_start(const two_banks *banks, hem_player *player)
{
    hem_player other;
    uint32_t wanted[HEM_VERDICT_WORDS], found[HEM_VERDICT_WORDS];
    fill_pattern(wanted, sizeof wanted);
    fill_pattern(found, sizeof found);
    uint32_t number = hem_check(SETUP(&banks->sounding), wanted, HEM_VERDICT_WORDS);
    EXPECT(hem_check(SETUP(&banks->silent), found, HEM_VERDICT_WORDS) == number);
    EXPECT(memcmp(found, wanted, sizeof found) == 0);
    passes += number == HEM_OK;
    faults += number >= HEM_NO_COMMAND;
    number = hem_start(player, SETUP(&banks->sounding));
    EXPECT(hem_start(&other, SETUP(&banks->silent)) == number);
    compare_records(player, &other);
}

static uint32_t word_of(const setup *s, uint32_t key)
{
    const uint8_t *word = periods_of(s) + 2 * key;
    return 256u * word[0] + word[1];
}

/* What the part of a note becomes where keys are silent. */
static void silence(const setup *silent, int channel, uint32_t part[HEM_PART_WORDS])
{
    uint32_t word = word_of(silent, part[HEM_PART_KEY]);
    if (word % 256 != 0) {
        part[HEM_PART_PERIOD] = word;
        notes++;
        return;
    }
    part[HEM_PART_STATE] = HEM_REST;
    part[HEM_PART_KEY] = part[HEM_PART_PERIOD] = 0;
    part[HEM_PART_CTRL1] = channel == HEM_TRIANGLE ? 0 : CTRL1_OF_REST;
    silenced++;
}

/* Of a melodic channel, which is at rest in the bank with silent keys alone. */
static void compare_part(const two_banks *banks, int channel, const uint32_t *sounding, const uint32_t *silent)
{
    uint32_t wanted[HEM_PART_WORDS];
    memcpy(wanted, sounding, sizeof wanted);
    EXPECT(sounding[HEM_PART_STATE] != HEM_REST);
    if (sounding[HEM_PART_STATE] == HEM_NOTE) {
        EXPECT(sounding[HEM_PART_PERIOD] == word_of(&banks->sounding, sounding[HEM_PART_KEY]));
        silence(&banks->silent, channel, wanted);
    }
    EXPECT(memcmp(silent, wanted, sizeof wanted) == 0);
}

static uint32_t compare_frame(const two_banks *banks, hem_player *player)
{
    hem_player other = *player;
    uint32_t sounding[HEM_ANSWER_WORDS], silent[HEM_ANSWER_WORDS];
    const size_t noise = HEM_ANSWER_PART(HEM_NOISE);
    uint32_t number = hem_frame(player, SETUP(&banks->sounding), sounding, HEM_ANSWER_WORDS);
    EXPECT(hem_frame(&other, SETUP(&banks->silent), silent, HEM_ANSWER_WORDS) == number);
    compare_records(player, &other);
    EXPECT(memcmp(silent, sounding, HEM_ANSWER_PARTS * sizeof silent[0]) == 0);
    for (int i = HEM_SQUARE_1; i <= HEM_TRIANGLE; i++)
        compare_part(banks, i, sounding + HEM_ANSWER_PART(i), silent + HEM_ANSWER_PART(i));
    EXPECT(memcmp(silent + noise, sounding + noise, HEM_PART_WORDS * sizeof silent[0]) == 0);
    refused_frames += number != HEM_OK;
    return number;
}

/* Frames from start or from a random record, the same for both. */
static void compare_banks(const two_banks *banks)
{
    hem_player player;
    uint32_t frames = 1 + below(FRAMES);
    compare_start(banks, &player);
    if (one_in(2))
        random_record(&player);
    for (uint32_t i = 0; i < frames; i++)
        if (compare_frame(banks, &player) != HEM_OK && one_in(2))
            random_record(&player);
}

void test_tables(unsigned long rounds)
{
    uint8_t *memory = fenced_memory();
    begin_part("two period tables", rounds * LEAST_EACH);
    for (unsigned long i = 0; i < rounds; i++) {
        two_banks banks;
        begin_round(i);
        random_banks(&banks, memory);
        compare_banks(&banks);
    }
    printf("two period tables: passes %lu, faults %lu, refused frames %lu; notes %lu, silenced %lu\n", passes, faults,
           refused_frames, notes, silenced);
    EXPECT(passes > rounds / 10 && faults > rounds / 10 && refused_frames > rounds);
    EXPECT(notes > rounds && silenced > rounds);
}
