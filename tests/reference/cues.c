/* The lines of cuecheck. */
#include "reference.h"

#include <inttypes.h>

void ref_print_verdict(FILE *out, uint32_t track, const ref_verdict *v)
{
    fprintf(out, "%" PRIu32, track);
    if (v->number == 0)
        fprintf(out, " pass %" PRIu64 " %" PRIu32 "\n", v->frame, v->channel);
    else if (v->number <= REF_NO_CHANNEL)
        fprintf(out, " refuse %" PRIu32 "\n", v->number);
    else
        fprintf(out, " refuse %" PRIu32 " %" PRIu32 " %" PRIu32 " %" PRIu64 " %04" PRIx32 "\n", v->number,
                v->channel, v->offset, v->frame, v->address);
}

void ref_print_cues(FILE *out, const uint8_t *bytes, size_t len)
{
    ref_places places = ref_published_places();
    if (len != REF_BANK_SIZE) {
        fprintf(out, "refuse %d\n", REF_BAD_BANK_SIZE);
        return;
    }
    for (uint32_t track = 0; track < places.track_count; track++) {
        ref_verdict v = ref_check_by_frames(bytes, len, &places, track);
        ref_print_verdict(out, track, &v);
    }
}
