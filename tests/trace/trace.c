/* What program trace must print for the banks it is given by path: from the independent player. */
#include "reference.h"

#include <inttypes.h>
#include <string.h>

#define TRACKS 6u
#define FRAMES 10u

/* A bar before the counts, before the place, before the frames left, and before each channel's part. */
static int after_bar(unsigned i)
{
    return i == REF_ANSWER_COUNTS || i == REF_ANSWER_CHANNEL || i == REF_ANSWER_LEFT
        || (i >= REF_ANSWER_PARTS && (i - REF_ANSWER_PARTS) % REF_PART_WORDS == 0);
}

static void print_answer(uint32_t number, const uint32_t *answer)
{
    printf("%" PRIu32, number);
    for (unsigned i = 0; i < REF_ANSWER_WORDS; i++)
        printf("%s %" PRIu32, after_bar(i) ? " |" : "", answer[i]);
    printf("\n");
}

static void trace(const uint8_t *bank, size_t len, uint32_t track)
{
    ref_places places = ref_published_places();
    ref_player p;
    uint32_t answer[REF_ANSWER_WORDS];
    places.default1 = 0xB3;
    ref_verdict v = ref_check_by_frames(bank, len, &places, track);
    ref_print_verdict(stdout, track, &v);
    printf("start %" PRIu32 "\n", ref_start(&p, bank, len, &places, track));
    for (unsigned n = 0; n < FRAMES; n++) {
        uint32_t number = ref_frame(&p, bank, len, &places, track, answer);
        print_answer(number, answer);
    }
}

int main(int argc, char **argv)
{
    static uint8_t bank[REF_BANK_SIZE];
    for (int i = 1; i < argc; i++) {
        const char *slash = strrchr(argv[i], '/');
        FILE *file = fopen(argv[i], "rb");
        if (file == NULL)
            return 1;
        size_t len = fread(bank, 1, sizeof bank, file);
        fclose(file);
        printf("%s\n", slash == NULL ? argv[i] : slash + 1);
        for (uint32_t track = 0; track < TRACKS; track++)
            trace(bank, len, track);
    }
    return 0;
}
