/* The check of Mother tracks against the independent one, and what it leaves of the lent buffer; and that nothing it
   passes is refused in playing. */
#include "generator_mother.h"
#include "host_test.h"

#include <string.h>

/* LENT: what is lent at most, and a few words behind it. */
enum { MOST_ROOM = HEM_VERDICT_WORDS + 1, LENT = MOST_ROOM + 3, FRAMES_OF_PASS = 300 };

/* Expectations of a round: three for each of two rooms. */
enum { LEAST_OF_ROUND = 2 * 3 };

/* How often each number came with a place, with one above 0, and behind a goto; and how often the place was that of a
   257th word or later. */
static unsigned long placed[HEM_NO_NOTE + 1], behind[HEM_NO_NOTE + 1], behind_goto[HEM_NO_NOTE + 1], far_behind;
/* How often the header's 19 came; how many tracks were judged and passed, and of these ended or played on. */
static unsigned long headers_19, judged, passed, ended, played_on;

/* Gotos before the fault's word. */
static uint32_t gotos_before(const mother_setup *s, const uint32_t *verdict)
{
    const mother_banks banks = mother_banks_of(s);
    uint32_t at = mother_word(&banks, mother_header_of(s) + MOTHER_PLAYLISTS_AT + 2 * verdict[HEM_FAULT_CHANNEL]);
    uint32_t gotos = 0;
    for (uint32_t i = 0; i < verdict[MOTHER_VERDICT_PLACE]; i++) {
        mother_entry entry = mother_entry_at(&banks, at);
        gotos += entry.kind == MOTHER_GOTO;
        at = entry.kind == MOTHER_GOTO ? entry.address : at + 2;
    }
    return gotos;
}

static void count_verdict(const mother_setup *s, uint32_t number, const uint32_t *verdict)
{
    uint32_t untouched;
    fill_pattern(&untouched, sizeof untouched);
    judged++;
    passed += number == HEM_OK;
    if (verdict[HEM_FAULT_CHANNEL] == untouched) {
        headers_19 += number == HEM_ODD_TRANSPOSE;
        return;
    }
    placed[number]++;
    behind[number] += verdict[MOTHER_VERDICT_PLACE] > 0;
    behind_goto[number] += gotos_before(s, verdict) > 0;
    far_behind += verdict[MOTHER_VERDICT_PLACE] >= MOTHER_MOST_BLOCK_WORDS;
}

/* The number, the verdict as far as it fits, and what lies behind it. */
static uint32_t compare_room(const mother_setup *s, size_t room, uint32_t wanted[LENT])
{
    const mother_banks banks = mother_banks_of(s);
    uint32_t found[LENT];
    fill_pattern(found, sizeof found);
    fill_pattern(wanted, LENT * sizeof wanted[0]);
    uint32_t wanted_number = mother_check(&banks, &s->places, s->track, wanted, room);
    uint32_t number = hem_mother_check(MOTHER_SETUP(s), found, room);
    count_number(MOTHER_CHECK, number);
    EXPECT(number == wanted_number);
    EXPECT(memcmp(found, wanted, sizeof found) == 0);
    return wanted_number;
}

/* Start and the frames up to the end, or some hundreds, are not refused. */
static void play_pass(const mother_setup *s)
{
    hem_mother_player player;
    uint32_t answer[HEM_MOTHER_ANSWER_WORDS] = { HEM_EVENTS };
    uint32_t number = hem_mother_start(&player, MOTHER_SETUP(s));
    for (uint32_t i = 0; i < FRAMES_OF_PASS && number == HEM_OK && answer[HEM_ANSWER_KIND] == HEM_EVENTS; i++)
        number = hem_mother_frame(&player, MOTHER_SETUP(s), answer, HEM_MOTHER_ANSWER_WORDS);
    EXPECT(number == HEM_OK);
    ended += answer[HEM_ANSWER_KIND] == HEM_END;
    played_on += answer[HEM_ANSWER_KIND] == HEM_EVENTS;
}

static void compare_verdicts(const mother_setup *s, size_t room)
{
    uint32_t wanted[LENT];
    compare_room(s, room, wanted);
    uint32_t number = compare_room(s, HEM_VERDICT_WORDS, wanted);
    count_verdict(s, number, wanted);
    if (number == HEM_OK)
        play_pass(s);
}

/* A quarter is anything, a quarter mild; the others are mild but for some things. */
static void random_track(mother_setup *s, uint8_t *memory8, uint8_t *memorya, unsigned long round)
{
    unsigned long kind = round % 4;
    if (kind == 0)
        random_mother_setup(s, memory8, memorya);
    else
        mild_mother_setup(s, memory8, memorya);
    if (kind <= 1)
        return;
    for (uint32_t left = 1 + below(6); left > 0; left--)
        spoil_mother_setup(s);
    if (one_in(6))
        damage_mother_setup(s);
}

static void compare_random(unsigned long rounds)
{
    uint8_t *memory8 = fenced_memory();
    uint8_t *memorya = fenced_memory();
    for (unsigned long i = 0; i < rounds; i++) {
        mother_setup s;
        begin_round(i);
        random_track(&s, memory8, memorya, i);
        compare_verdicts(&s, below(MOST_ROOM + 1));
    }
}

/* That a number came with a place, if it is one of those that have one. */
static void expect_came(uint32_t number)
{
    int has_place = number == HEM_BAD_ENVELOPE_NUMBER || number == HEM_BAD_ENVELOPE
        || (number >= HEM_NO_COMMAND && number <= HEM_PAST_DATA)
        || (number >= HEM_ODD_TRANSPOSE && number != HEM_TOO_MANY_COMMANDS);
    begin_round(number);
    EXPECT((placed[number] > 0) == has_place);
    EXPECT((behind[number] > 0) == has_place);
    EXPECT((behind_goto[number] > 0) == has_place);
    if (has_place)
        printf(" %u:%lu,%lu,%lu", number, placed[number], behind[number], behind_goto[number]);
}

static void expect_all_came(void)
{
    printf("mother check: %lu of %lu tracks pass: %lu end, %lu play on; the header's 19: %lu; far behind: %lu\n",
           passed, judged, ended, played_on, headers_19, far_behind);
    printf("faults, those behind a word, those behind a goto:");
    for (uint32_t number = 0; number <= HEM_NO_NOTE; number++)
        expect_came(number);
    printf("\n");
    EXPECT(headers_19 > 0 && far_behind > 0);
    EXPECT(passed >= judged / 10 && ended > 0 && played_on > 0);
}

/* Twice the rounds, so that what is rare comes in a short run too. */
void test_mother_check(unsigned long rounds)
{
    begin_part("mother check", 2 * rounds * LEAST_OF_ROUND);
    compare_random(2 * rounds);
    expect_all_came();
}
