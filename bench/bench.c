/* Metroid's calls against the independent player of its format, then Mother's. */
#include "measure.h"
#include "setup.h"

#include <stdio.h>

/* A track, and the records that its starts have made. */
typedef struct {
    const setup *s;
    hem_player player;
    ref_player reference;
} metroid_started;

static void check_library(const void *started)
{
    const metroid_started *t = started;
    uint32_t verdict[HEM_VERDICT_WORDS];
    sink = hem_check(SETUP(t->s), verdict, HEM_VERDICT_WORDS);
}

static void check_reference(const void *started)
{
    const metroid_started *t = started;
    sink = ref_check_by_channels(t->s->bank, t->s->bank_len, &t->s->places, t->s->track).number;
}

static void start_library(const void *started)
{
    const metroid_started *t = started;
    hem_player player;
    sink = hem_start(&player, SETUP(t->s));
}

static void start_reference(const void *started)
{
    const metroid_started *t = started;
    ref_player player;
    sink = ref_start(&player, t->s->bank, t->s->bank_len, &t->s->places, t->s->track);
}

static void frames_library(const void *started)
{
    const metroid_started *t = started;
    hem_player player = t->player;
    uint32_t answer[HEM_ANSWER_WORDS];
    uint32_t number = HEM_OK;
    for (int i = 0; i < FRAMES && number == HEM_OK; i++) {
        number = hem_frame(&player, SETUP(t->s), answer, HEM_ANSWER_WORDS);
        sink = answer[HEM_ANSWER_PARTS];
    }
}

static void frames_reference(const void *started)
{
    const metroid_started *t = started;
    ref_player player = t->reference;
    uint32_t answer[REF_ANSWER_WORDS];
    uint32_t number = 0;
    for (int i = 0; i < FRAMES && number == 0; i++) {
        number = ref_frame(&player, t->s->bank, t->s->bank_len, &t->s->places, t->s->track, answer);
        sink = answer[REF_ANSWER_PARTS];
    }
}

/* The target is that of the check and of the start, which both judge the channels. */
static void compare_all(const char *track, const setup *s, double target)
{
    metroid_started t = { .s = s };
    hem_start(&t.player, SETUP(s));
    ref_start(&t.reference, s->bank, s->bank_len, &s->places, s->track);
    compare("check", track, check_library, check_reference, &t, target);
    compare("start", track, start_library, start_reference, &t, target);
    compare("frames", track, frames_library, frames_reference, &t, 1.0);
}

int main(void)
{
    static uint8_t bank[HEM_BANK_SIZE];
    setup s;
    printf("                                 library      reference     ratio   (median of %d; frames: %d)\n", MEASURES,
           FRAMES);
    plain_setup(&s, bank);
    typical_track(&s);
    compare_all("typical track", &s, 1.0);
    plain_setup(&s, bank);
    latest_end(&s, HEM_SQUARE_1);
    compare_all("latest end", &s, 0.05);
    for (int i = HEM_SQUARE_2; i < HEM_CHANNELS; i++)
        latest_end(&s, i);
    compare_all("latest end, four", &s, 0);
    plain_setup(&s, bank);
    most_commands(&s, HEM_SQUARE_1);
    compare_all("128 times C0 FF", &s, 0);
    compare_mother();
    return 0;
}
