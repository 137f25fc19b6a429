/* The library against the independent player, as a C host sees it.

   host_test [ROUNDS [SEED]] */
#include "host_test.h"

#include <stdlib.h>
#include <string.h>

enum { DEFAULT_ROUNDS = 90000, MOST_MESSAGES = 20, LAST_NUMBER = HEM_BAD_DATA_SIZE };

#ifdef WITHOUT_WORDS
static const library_call last_call = MOTHER_CHECK;
#else
static const library_call last_call = MEND;
#endif

/* Numbers as bits. */
#define ONE(number) (1u << (number))
#define FROM_TO(first, last) (2 * ONE(last) - ONE(first))

/* What each call can return. */
static const struct { const char *name; uint32_t numbers; } calls[CALLS] = {
    [CHECK] = { "check", FROM_TO(HEM_OK, HEM_PAST_DATA) },
    [START] = { "start", FROM_TO(HEM_OK, HEM_NO_CHANNEL) },
    [FRAME] = { "frame", FROM_TO(HEM_OK, HEM_BAD_RECORD) },
    [MOTHER_START] = { "mother start", FROM_TO(HEM_OK, HEM_BAD_HEADER) | FROM_TO(HEM_BAD_ADDRESS, HEM_NO_CHANNEL)
                                           | ONE(HEM_ODD_TRANSPOSE) },
    [MOTHER_FRAME] = { "mother frame", FROM_TO(HEM_OK, HEM_BAD_HEADER)
                                           | FROM_TO(HEM_BAD_ENVELOPE_NUMBER, HEM_BAD_RECORD)
                                           | FROM_TO(HEM_ODD_TRANSPOSE, HEM_TOO_MANY_COMMANDS) },
    [MOTHER_CHECK] = { "mother check", FROM_TO(HEM_OK, HEM_BAD_HEADER)
                                           | FROM_TO(HEM_BAD_ENVELOPE_NUMBER, HEM_PAST_DATA)
                                           | FROM_TO(HEM_ODD_TRANSPOSE, HEM_BAD_PLAYLIST) | ONE(HEM_NO_NOTE) },
    [READ_WORDS] = { "read words", ONE(HEM_OK) | FROM_TO(HEM_NO_COMMAND, HEM_NO_SUCH_KEY) | ONE(HEM_PAST_DATA)
                                       | ONE(HEM_NO_ROOM) },
    [WRITE_WORDS] = { "write words", ONE(HEM_OK) | FROM_TO(HEM_BAD_WORD, HEM_NO_ROOM) },
    [MEND] = { "mend", ONE(HEM_OK) | ONE(HEM_NO_ROOM) | ONE(HEM_BAD_DATA_SIZE) },
};

static const char *part = "";
static unsigned long part_began, part_least, round_now, expected, failed;
static unsigned long hits[CALLS][LAST_NUMBER + 1];

void expect(int holds, const char *text, const char *file, int line)
{
    expected++;
    if (holds)
        return;
    failed++;
    if (failed <= MOST_MESSAGES)
        fprintf(stderr, "%s:%d: %s, round %lu: not so: %s\n", file, line, part, round_now, text);
}

void begin_part(const char *name, unsigned long least)
{
    EXPECT(expected - part_began >= part_least);
    part = name;
    part_began = expected;
    part_least = least;
    round_now = 0;
}

void begin_round(unsigned long round)
{
    round_now = round;
}

void count_number(library_call call, uint32_t number)
{
    EXPECT(number <= LAST_NUMBER);
    if (number <= LAST_NUMBER)
        hits[call][number]++;
}

void fill_pattern(void *buffer, size_t size)
{
    memset(buffer, 0xA5, size);
}

int right_address(const setup *s, uint32_t number, uint32_t channel, uint32_t offset, uint32_t address)
{
    if (number < HEM_NO_COMMAND || number > HEM_PAST_DATA)
        return address == 0;
    return channel < HEM_CHANNELS && address == named_address(s, channel) + offset;
}

ref_player as_reference(const hem_player *player)
{
    ref_player r;
    memset(&r, 0, sizeof r);
    r.stopped = player->stopped;
    for (int i = 0; i < HEM_CHANNELS; i++) {
        r.channels[i].next = player->channels[i].next;
        r.channels[i].loop_start = player->channels[i].loop_start;
        r.channels[i].counter = player->channels[i].counter;
        r.channels[i].length = player->channels[i].length;
        r.channels[i].left = player->channels[i].left;
        r.channels[i].sounding = player->channels[i].sounding;
    }
    r.frames_left = player->frames_left;
    r.pass_length = player->pass_length;
    return r;
}

int same_record(const hem_player *a, const ref_player *b)
{
    int same = a->stopped == b->stopped && a->frames_left == b->frames_left && a->pass_length == b->pass_length;
    for (int i = 0; i < HEM_CHANNELS; i++) {
        const hem_channel *x = &a->channels[i];
        const ref_channel *y = &b->channels[i];
        same = same && x->next == y->next && x->loop_start == y->loop_start && x->counter == y->counter
            && x->length == y->length && x->left == y->left && x->sounding == y->sounding;
    }
    return same;
}

static void report_numbers(library_call call)
{
    begin_part(calls[call].name, 0);
    printf("numbers returned by %s:", calls[call].name);
    for (unsigned long number = 0; number <= LAST_NUMBER; number++) {
        begin_round(number);
        EXPECT((hits[call][number] > 0) == ((calls[call].numbers & ONE(number)) != 0));
        if (hits[call][number] > 0)
            printf(" %lu:%lu", number, hits[call][number]);
    }
    printf("\n");
}

static unsigned long above_0(const char *text)
{
    char *end;
    unsigned long number = strtoul(text, &end, 10);
    if (number == 0 || *end != '\0') {
        fprintf(stderr, "host_test: %s is no number above 0\n", text);
        exit(2);
    }
    return number;
}

int main(int argc, char **argv)
{
    unsigned long rounds = argc > 1 ? above_0(argv[1]) : DEFAULT_ROUNDS;
    unsigned long seed = argc > 2 ? above_0(argv[2]) : 1;
    seed_random(seed);
    test_layout();
    test_samples();
    test_silent_keys();
    test_check(rounds);
    test_player(rounds);
    test_tables(rounds);
#ifndef WITHOUT_WORDS
    test_words(rounds);
    test_mend(rounds);
#endif
    test_mother(rounds);
    test_mother_check(rounds);
    for (library_call call = CHECK; call <= last_call; call++)
        report_numbers(call);
    printf("host test: %lu rounds, seed %lu: %lu expectations, %lu failed\n", rounds, seed, expected, failed);
    return failed == 0 ? EXIT_SUCCESS : EXIT_FAILURE;
}
