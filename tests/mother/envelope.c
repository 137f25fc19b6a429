/* Volume envelopes: two frames a byte, up to F0 or FF. */
#include "mother.h"

#define MOST_BYTES 64u
#define SILENCES 0xF0
#define RESTORES 0xFF
#define CTRL_SILENT 0x10u

/* The byte at this place of the envelope, or -1 outside of its 64 bytes or of the banks. */
static int byte_of(const mother_track *track, uint32_t envelope, uint32_t at)
{
    uint32_t start = mother_word(&track->banks, track->places.envelope_addresses + 2 * (envelope - 1));
    if (at >= MOST_BYTES || !mother_within(start, 1) || !mother_within(start + at, 1))
        return -1;
    return mother_byte(&track->banks, start + at);
}

uint32_t mother_envelope_fault(const mother_track *track, uint32_t envelope)
{
    if (envelope > MOTHER_LAST_ENVELOPE)
        return REF_BAD_ENVELOPE_NUMBER;
    if (envelope == 0)
        return 0;
    for (uint32_t at = 0; at < MOST_BYTES; at++) {
        int byte = byte_of(track, envelope, at);
        if (byte == SILENCES || byte == RESTORES)
            return 0;
    }
    return REF_BAD_ENVELOPE;
}

uint32_t mother_ctrl1(const mother_track *track, uint32_t envelope, uint8_t ctrl, uint32_t index)
{
    uint32_t base = ctrl != 0 ? ctrl : CTRL_SILENT;
    int byte = RESTORES;
    if (envelope == 0)
        return base;
    for (uint32_t at = 0; at <= index / 2; at++) {
        byte = byte_of(track, envelope, at);
        if (byte == SILENCES)
            return CTRL_SILENT;
        if (byte == RESTORES || byte < 0)
            return base;
    }
    uint32_t volume = index % 2 == 0 ? (uint32_t)byte >> 4 : (uint32_t)byte & 0x0F;
    return volume | (ctrl & 0xF0u);
}
