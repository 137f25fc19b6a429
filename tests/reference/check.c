/* The check, twice: by frames and by channels. */
#include "reference.h"

static ref_verdict refused(uint32_t number)
{
    ref_verdict v = { number, 0, 0, 0, 0 };
    return v;
}

/* The last channel in order with a count above 0. */
static uint32_t channel_of_end(const uint32_t *answer)
{
    uint32_t channel = 0;
    for (uint32_t i = 0; i < REF_CHANNELS; i++)
        if (answer[REF_ANSWER_COUNTS + i] > 0)
            channel = i;
    return channel;
}

ref_verdict ref_check_by_frames(const uint8_t *bank, size_t len, const ref_places *places, uint32_t track)
{
    ref_player p;
    uint32_t answer[REF_ANSWER_WORDS];
    uint32_t number = ref_start(&p, bank, len, places, track);
    if (number != 0)
        return refused(number);
    for (uint64_t frame = 0;; frame++) {
        number = ref_frame(&p, bank, len, places, track, answer);
        if (number != 0) {
            ref_verdict v = { number, answer[REF_ANSWER_CHANNEL], answer[REF_ANSWER_OFFSET], frame,
                              answer[REF_ANSWER_ADDRESS] };
            return v;
        }
        if (answer[0] == REF_END) {
            ref_verdict v = { 0, channel_of_end(answer), 0, frame, 0 };
            return v;
        }
    }
}

ref_verdict ref_check_by_channels(const uint8_t *bank, size_t len, const ref_places *places, uint32_t track)
{
    ref_track opened;
    ref_verdict best = {0};
    int found = 0;
    uint32_t number = ref_open(bank, len, places, track, &opened);
    if (number != 0)
        return refused(number);
    for (int i = 0; i < REF_CHANNELS; i++) {
        if (opened.data[i] == NULL)
            continue;
        ref_timeline line = ref_walk(ref_kind_of(i), opened.data[i], opened.data_len[i], opened.lengths,
                                     opened.t);
        if (found && line.frames >= best.frame)
            continue;
        found = 1;
        best = (ref_verdict){ .number = line.number, .channel = (uint32_t)i, .frame = line.frames };
        if (line.number != 0) {
            best.offset = line.offset;
            best.address = ref_address_of(&opened, i, line.offset);
        }
    }
    return best;
}
