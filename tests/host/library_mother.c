/* The library's Mother calls under the independent ones' names, so that their selftest tries the library. */
#include "hemgosling.h"
#include "mother.h"

#include <string.h>

/* Both records have the same fields in the same order. */
_Static_assert(sizeof(mother_player) == sizeof(hem_mother_player), "the independent record");

#define TRACK(banks, p)                                                                                                \
    (banks)->bank8, (banks)->bank8_len, (banks)->banka, (banks)->banka_len, (p)->header_offsets, (p)->header_block,    \
        (p)->note_lengths, (p)->key_periods, (p)->noise_presets, (p)->envelope_addresses, (p)->track_count

uint32_t mother_start(mother_player *player, const mother_banks *banks, const mother_places *places, uint32_t number)
{
    hem_mother_player started;
    uint32_t refusal = hem_mother_start(&started, TRACK(banks, places), number);
    memcpy(player, &started, sizeof started);
    return refusal;
}

uint32_t mother_frame(mother_player *player, const mother_banks *banks, const mother_places *places, uint32_t number,
                      uint32_t answer[MOTHER_ANSWER_WORDS])
{
    hem_mother_player stepped;
    memcpy(&stepped, player, sizeof stepped);
    uint32_t refusal = hem_mother_frame(&stepped, TRACK(banks, places), number, answer, MOTHER_ANSWER_WORDS);
    memcpy(player, &stepped, sizeof stepped);
    return refusal;
}

uint32_t mother_check(const mother_banks *banks, const mother_places *places, uint32_t number, uint32_t *verdict,
                      size_t verdict_len)
{
    return hem_mother_check(TRACK(banks, places), number, verdict, verdict_len);
}
