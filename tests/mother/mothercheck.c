/* mothercheck: two banks from standard input, one after the other; a line a track on standard output, the low tracks
   first. */
#include "mother.h"

#include <inttypes.h>

static void print_verdict(const char *set, uint32_t track, uint32_t number, const uint32_t *verdict)
{
    printf("%s %" PRIu32, set, track);
    if (number == 0)
        printf(" pass");
    else
        printf(" refuse %" PRIu32, number);
    if (verdict[MOTHER_VERDICT_CHANNEL] < REF_CHANNELS)
        printf(" %" PRIu32 " %" PRIu32 " %" PRIu32, verdict[MOTHER_VERDICT_CHANNEL], verdict[MOTHER_VERDICT_OFFSET],
               verdict[MOTHER_VERDICT_PLACE]);
    if (number >= REF_NO_COMMAND && number <= REF_PAST_DATA)
        printf(" %04" PRIx32, verdict[MOTHER_VERDICT_ADDRESS]);
    printf("\n");
}

static void print_tracks(const char *set, const mother_banks *banks, const mother_places *places)
{
    for (uint32_t track = 0; track < places->track_count; track++) {
        /* no channel: it stays where no place is told */
        uint32_t verdict[MOTHER_VERDICT_WORDS] = { REF_CHANNELS };
        uint32_t number = mother_check(banks, places, track, verdict, MOTHER_VERDICT_WORDS);
        print_verdict(set, track, number, verdict);
    }
}

int main(void)
{
    static const mother_places low = MOTHER_LOW_PLACES;
    static const mother_places high = MOTHER_HIGH_PLACES;
    /* one byte more than two banks, to know that the input is too long */
    static uint8_t bytes[2 * MOTHER_BANK_SIZE + 1];
    const mother_banks banks = { bytes, MOTHER_BANK_SIZE, bytes + MOTHER_BANK_SIZE, MOTHER_BANK_SIZE };
    if (fread(bytes, 1, sizeof bytes, stdin) != 2 * MOTHER_BANK_SIZE) {
        printf("refuse %d\n", REF_BAD_BANK_SIZE);
        return 0;
    }
    print_tracks("low", &banks, &low);
    print_tracks("high", &banks, &high);
    return 0;
}
