/* Start and frame against the independent player, from start and from any record. */
#include "host_test.h"

#include <string.h>

/* FRAMES_BEHIND: of a run behind its first stop, with restart behind the next one. */
enum {
    MOST_ROOM = HEM_ANSWER_WORDS + 3,
    LENT = MOST_ROOM + 2,
    FRAMES = 60,
    FORESEEN_LIMIT = 400,
    FRAMES_BEHIND = 3
};

/* Expectations of start, of a frame, and of a round: these two, two of what is foreseen, one of the bank. */
enum { EACH_START = 3, EACH_FRAME = 6, LEAST_EACH = EACH_START + EACH_FRAME + 3 };

/* How often each kind of answer, each state of a channel and an address further than the bank's end were seen; an end,
   a restart and a fault that the check foresaw; 16 by a number of frames alone, also of a stopped record; and events
   with no frames left. */
static unsigned long kinds[HEM_REFUSED + 1], states[HEM_NOTE + 1], past_bank_end;
static unsigned long ends, restarts, faults, too_many, too_many_stopped, none_left;

/* How often a silent key was told as a rest: one above 1, key 0, one whose word is not 0; and how often a note was of
   key 1, or of a word with high byte 0. */
static unsigned long silent_keys, silent_key_0, silent_not_0, notes_of_key_1, notes_high_0;

static void count_keys(const setup *s, const ref_player *next, const uint32_t *answer)
{
    for (int i = HEM_SQUARE_1; i <= HEM_TRIANGLE; i++) {
        uint32_t state = answer[HEM_ANSWER_PART(i) + HEM_PART_STATE];
        if (state == HEM_OFF)
            continue;
        uint32_t key = next->channels[i].sounding / 2u;
        const uint8_t *word = periods_of(s) + 2 * key;
        silent_keys += state == HEM_REST && key > 1;
        silent_key_0 += state == HEM_REST && key == 0;
        silent_not_0 += state == HEM_REST && word[0] != 0;
        notes_of_key_1 += state == HEM_NOTE && key == 1;
        notes_high_0 += state == HEM_NOTE && word[0] == 0;
    }
}

static void expect_keys_seen(unsigned long rounds)
{
    printf("silent keys: above 1 %lu, key 0 %lu, word not 0 %lu; notes: key 1 %lu, high byte 0 %lu\n", silent_keys,
           silent_key_0, silent_not_0, notes_of_key_1, notes_high_0);
    EXPECT(silent_keys > rounds && silent_key_0 > rounds / 20 && silent_not_0 > rounds);
    EXPECT(notes_of_key_1 > rounds / 4 && notes_high_0 > rounds);
}

static void count_frames(const hem_player *given, uint32_t number, const uint32_t *answer)
{
    int above = given->frames_left > MOST_FRAMES || given->pass_length > MOST_FRAMES;
    too_many += number == HEM_BAD_RECORD && above;
    too_many_stopped += number == HEM_BAD_RECORD && above && given->stopped != 0;
    none_left += answer[HEM_ANSWER_KIND] == HEM_EVENTS && given->frames_left == 0;
}

static void count_answer(const uint32_t *answer)
{
    kinds[answer[HEM_ANSWER_KIND]]++;
    past_bank_end += answer[HEM_ANSWER_ADDRESS] > AFTER_BANK;
    for (int i = 0; i < HEM_CHANNELS; i++)
        states[answer[HEM_ANSWER_PART(i) + HEM_PART_STATE]]++;
}

static void expect_all_seen(unsigned long rounds)
{
    printf("answers: events %lu, end %lu, stopped %lu, refused %lu; rests %lu, notes %lu\n", kinds[HEM_EVENTS],
           kinds[HEM_END], kinds[HEM_STOPPED], kinds[HEM_REFUSED], states[HEM_REST], states[HEM_NOTE]);
    for (int i = HEM_EVENTS; i <= HEM_REFUSED; i++)
        EXPECT(kinds[i] > 0);
    EXPECT(states[HEM_REST] > 0 && states[HEM_NOTE] > 0);
    printf("addresses further than the bank's end: %lu\n", past_bank_end);
    EXPECT(past_bank_end > rounds / 100);
    printf("foreseen and met: ends %lu, restarts %lu, faults %lu\n", ends, restarts, faults);
    EXPECT(ends > rounds / 10 && restarts > rounds / 20 && faults > rounds / 10);
    printf("too many frames: %lu, of them stopped %lu; events with no frames left: %lu\n", too_many, too_many_stopped,
           none_left);
    EXPECT(too_many > rounds / 20 && too_many_stopped > rounds / 500 && none_left > rounds / 20);
    expect_keys_seen(rounds);
}

static void compare_start(const setup *s, hem_player *player)
{
    ref_player wanted;
    fill_pattern(player, sizeof *player);
    uint32_t number = hem_start(player, SETUP(s));
    count_number(START, number);
    EXPECT(number == ref_start(&wanted, s->bank, s->bank_len, &s->places, s->track));
    EXPECT(same_record(player, &wanted));
}

/* One frame: number, answer as far as it fits, what lies behind it, and the record; and the address and the frames
   left, whatever the independent player tells. */
static uint32_t compare_frame(const setup *s, hem_player *player, size_t room)
{
    const hem_player given = *player;
    ref_player next = as_reference(player);
    uint32_t told[REF_ANSWER_WORDS];
    uint32_t found[LENT], wanted[LENT];
    size_t written = room < HEM_ANSWER_WORDS ? room : HEM_ANSWER_WORDS;
    uint32_t wanted_number = ref_frame(&next, s->bank, s->bank_len, &s->places, s->track, told);
    fill_pattern(found, sizeof found);
    fill_pattern(wanted, sizeof wanted);
    memcpy(wanted, told, written * sizeof told[0]);
    count_answer(told);
    count_frames(&given, wanted_number, told);
    count_keys(s, &next, told);
    uint32_t number = hem_frame(player, SETUP(s), found, room);
    count_number(FRAME, number);
    EXPECT(number == wanted_number);
    EXPECT(memcmp(found, wanted, sizeof found) == 0);
    EXPECT(same_record(player, &next));
    EXPECT(room <= HEM_ANSWER_ADDRESS
           || right_address(s, wanted_number, found[HEM_ANSWER_CHANNEL], found[HEM_ANSWER_OFFSET],
                            found[HEM_ANSWER_ADDRESS]));
    EXPECT(room <= HEM_ANSWER_LEFT || found[HEM_ANSWER_LEFT] == given.frames_left);
    return number;
}

/* Frames from start or from a random record, which may be swapped for another on the way. */
static void compare_run(const setup *s)
{
    hem_player player;
    uint32_t frames = 1 + below(FRAMES);
    compare_start(s, &player);
    if (one_in(2))
        random_record(&player);
    for (uint32_t i = 0; i < frames; i++) {
        uint32_t number = compare_frame(s, &player, answer_room(HEM_ANSWER_WORDS, MOST_ROOM));
        if (number != HEM_OK && one_in(2))
            random_record(&player);
    }
}

/* The channel read, and none after it. */
static int met_by(const uint32_t *counts, uint32_t channel)
{
    int met = channel < HEM_CHANNELS && counts[channel] > 0;
    for (uint32_t later = channel + 1; later < HEM_CHANNELS; later++)
        met = met && counts[later] == 0;
    return met;
}

/* What a frame answers: its number, its kind and the frames left. */
typedef struct { uint32_t number, kind, left; } foreseen;

/* Of frame n of a run from start, by the verdict's number and frame. */
static foreseen foresee(uint32_t number, uint32_t last, int again, uint32_t n)
{
    uint32_t in_pass = again ? n % (last + 1) : n;
    if (in_pass < last)
        return (foreseen){ HEM_OK, HEM_EVENTS, last - in_pass };
    if (number != HEM_OK)
        return (foreseen){ number, HEM_REFUSED, 0 };
    return (foreseen){ HEM_OK, in_pass == last ? HEM_END : HEM_STOPPED, 0 };
}

static void expect_stop(uint32_t kind, const uint32_t *answer, const uint32_t *verdict)
{
    if (kind == HEM_END)
        EXPECT(met_by(answer + HEM_ANSWER_COUNTS, verdict[HEM_PASS_CHANNEL]));
    if (kind == HEM_REFUSED) {
        EXPECT(answer[HEM_ANSWER_CHANNEL] == verdict[HEM_FAULT_CHANNEL]);
        EXPECT(answer[HEM_ANSWER_OFFSET] == verdict[HEM_FAULT_OFFSET]);
        EXPECT(answer[HEM_ANSWER_ADDRESS] == verdict[HEM_FAULT_ADDRESS]);
    }
}

/* What the check foresees is what a run from start shows, before the stop, there and behind it. A refusal 1 to 9 writes
   no verdict: its frame and place are zeros. */
static void compare_foreseen(const setup *s)
{
    hem_player player;
    uint32_t verdict[HEM_VERDICT_WORDS] = { 0 };
    uint32_t number = hem_check(SETUP(s), verdict, HEM_VERDICT_WORDS);
    uint32_t last = verdict[number == HEM_OK ? HEM_PASS_FRAME : HEM_FAULT_FRAME];
    int again = number == HEM_OK && header_of(s)[RESTART] != 0;
    EXPECT(hem_start(&player, SETUP(s)) == (number < HEM_NO_COMMAND ? number : HEM_OK));
    EXPECT(player.frames_left == last && player.pass_length == last);
    if (last > FORESEEN_LIMIT)
        return;
    for (uint32_t n = 0; n < (again ? 2 : 1) * (last + 1) + FRAMES_BEHIND; n++) {
        uint32_t answer[HEM_ANSWER_WORDS] = { 0 };
        foreseen wanted = foresee(number, last, again, n);
        EXPECT(hem_frame(&player, SETUP(s), answer, HEM_ANSWER_WORDS) == wanted.number);
        EXPECT(answer[HEM_ANSWER_KIND] == wanted.kind && answer[HEM_ANSWER_LEFT] == wanted.left);
        expect_stop(wanted.kind, answer, verdict);
    }
    ends += number == HEM_OK;
    restarts += again != 0;
    faults += number >= HEM_NO_COMMAND;
}

/* Six frames with events and then a fault, into every room. */
static void compare_every_room(void)
{
    static uint8_t bank[HEM_BANK_SIZE];
    const int frames = 7;
    setup s;
    begin_part("rooms", (MOST_ROOM + 1) * (EACH_START + frames * EACH_FRAME));
    plain_setup(&s, bank);
    use_channel(&s, HEM_TRIANGLE, BYTES(0xB0, 0x2A, 0xA0));
    for (size_t room = 0; room <= MOST_ROOM; room++) {
        hem_player player;
        begin_round(room);
        compare_start(&s, &player);
        for (int i = 0; i < frames; i++)
            compare_frame(&s, &player, room);
    }
}

void test_player(unsigned long rounds)
{
    static uint8_t before[LONGEST_BANK];
    uint8_t *memory = fenced_memory();
    begin_part("player", rounds * LEAST_EACH);
    for (unsigned long i = 0; i < rounds; i++) {
        setup s;
        begin_round(i);
        random_setup(&s, memory);
        memcpy(before, memory, sizeof before);
        compare_run(&s);
        compare_foreseen(&s);
        EXPECT(memcmp(before, memory, sizeof before) == 0);
    }
    expect_all_seen(rounds);
    compare_every_room();
}
