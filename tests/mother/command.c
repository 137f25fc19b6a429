/* The bytes of a block. */
#include "mother.h"

#define NOISE_REST 1

/* Rules for both kinds of channel; MOTHER_SOUND where none of them fits. */
static mother_kind common_kind(uint8_t byte)
{
    switch (byte) {
    case 0x00: return MOTHER_BLOCK_END;
    case 0x9C: return MOTHER_TRANSPOSE;
    case 0x9E: return MOTHER_WINDOW;
    case 0xFF: return MOTHER_LOOP_END;
    default: break;
    }
    if ((byte & 0xF0) == 0xB0)
        return MOTHER_LENGTH;
    if ((byte & 0xC0) == 0xC0)
        return MOTHER_LOOP_BEGIN;
    return MOTHER_SOUND;
}

mother_kind mother_kind_of(int channel, uint8_t byte)
{
    mother_kind kind = common_kind(byte);
    if (kind != MOTHER_SOUND)
        return kind;
    if (channel == REF_NOISE_CHANNEL) {
        if (byte == 0x9F)
            return MOTHER_NOTHING;
        return mother_is_preset(byte) ? MOTHER_SOUND : MOTHER_NO_SOUND;
    }
    if (byte == 0x9F)
        return MOTHER_TIMBRE;
    if (byte % 2 == 0)
        return MOTHER_SOUND;
    return byte < 0x80 ? MOTHER_NO_SOUND : MOTHER_NOTHING;
}

int mother_is_preset(uint8_t byte)
{
    switch (byte & 0x3F) {
    case NOISE_REST:
    case 0x02:
    case 0x04:
    case 0x07:
    case 0x0A:
    case 0x0D:
    case 0x10:
    case 0x13:
    case 0x16:
    case 0x19:
    case 0x1C:
        return 1;
    default:
        return 0;
    }
}

int mother_sounding(int channel, uint8_t byte, uint8_t transpose)
{
    if (channel == REF_NOISE_CHANNEL)
        return mother_is_preset(byte) ? byte : -1;
    if (byte % 2 != 0)
        return -1;
    if (byte == MOTHER_MELODIC_REST)
        return byte;
    int sum = byte + mother_amount(transpose);
    return sum >= 0 && sum <= MOTHER_LAST_KEY ? sum : -1;
}

int mother_is_rest(int channel, uint8_t sounding)
{
    if (channel == REF_NOISE_CHANNEL)
        return (sounding & 0x3F) == NOISE_REST;
    return sounding == MOTHER_MELODIC_REST;
}
