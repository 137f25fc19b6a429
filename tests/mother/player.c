/* Start and frame. */
#include "mother.h"

#include <string.h>

#define CTRL_SILENT 0x10u

/* A channel's six words. */
enum { STATE, BEGAN, FIRST, SECOND, THIRD, LAST };

uint32_t mother_start(mother_player *player, const mother_banks *banks, const mother_places *places, uint32_t number)
{
    mother_track track;
    uint32_t fault = mother_open(banks, places, number, &track);
    memset(player, 0, sizeof *player);
    if (fault != 0)
        return fault;
    player->transpose = track.transpose;
    player->window = track.window;
    return 0;
}

static int can_sound(int channel, uint8_t sounding)
{
    if (channel == REF_NOISE_CHANNEL)
        return mother_is_preset(sounding);
    return sounding % 2 == 0 && sounding <= MOTHER_LAST_KEY;
}

static int channel_is_good(int index, const mother_channel *ch)
{
    if (ch->next > MOTHER_BLOCK_LIMIT || ch->loop_start > MOTHER_BLOCK_LIMIT)
        return 0;
    if (ch->left > 0 && (ch->length < ch->left || !can_sound(index, ch->sounding)))
        return 0;
    if (ch->block != 0 && !mother_within(ch->block, 1))
        return 0;
    return index >= REF_SQUARES || (ch->timbre & 0x1F) <= MOTHER_LAST_ENVELOPE;
}

static int record_is_good(const mother_track *track, const mother_player *player)
{
    if (mother_is_odd(player->transpose))
        return 0;
    for (int i = 0; i < REF_CHANNELS; i++)
        if (mother_is_used(track, i) && !channel_is_good(i, &player->channels[i]))
            return 0;
    return 1;
}

static void tell_noise(const mother_track *track, const mother_channel *ch, uint32_t *part)
{
    uint32_t preset = track->places.noise_presets + (ch->sounding & 0x3Fu);
    uint32_t drum = ch->sounding >> 6;
    part[LAST] = drum == 1 || drum == 2 ? drum : 0;
    if (part[STATE] == REF_REST)
        return;
    part[FIRST] = mother_byte(&track->banks, preset);
    part[SECOND] = mother_byte(&track->banks, preset + 1);
    part[THIRD] = mother_byte(&track->banks, preset + 2);
}

/* Fnnn nnnn: quarter-frames, or never. */
static uint32_t note_release(uint8_t ctrl)
{
    uint32_t n = ctrl & 0x7Fu;
    return (ctrl & 0x80) != 0 && n != 0 ? REF_RELEASE_NEVER : n;
}

static void tell_melodic(const mother_track *track, int index, const mother_channel *ch, uint32_t *part)
{
    int square = index < REF_SQUARES;
    part[LAST] = ch->timbre >> 5;
    if (part[STATE] == REF_REST) {
        part[THIRD] = square ? CTRL_SILENT : 0;
        return;
    }
    uint32_t period = track->places.key_periods + ch->sounding;
    part[FIRST] = ch->sounding / 2u;
    part[SECOND] = 256u * mother_byte(&track->banks, period) + mother_byte(&track->banks, period + 1);
    if (square)
        part[THIRD] = mother_ctrl1(track, ch->timbre & 0x1F, ch->ctrl, (uint32_t)ch->length - ch->left);
    else
        part[THIRD] = note_release(ch->ctrl);
}

/* Before the frame is taken off. */
static void tell(const mother_track *track, int index, const mother_channel *ch, int began, uint32_t *part)
{
    part[STATE] = mother_is_rest(index, ch->sounding) ? REF_REST : REF_NOTE;
    part[BEGAN] = began ? 1 : 0;
    if (index == REF_NOISE_CHANNEL)
        tell_noise(track, ch, part);
    else
        tell_melodic(track, index, ch, part);
}

static uint32_t refuse(uint32_t *answer, uint32_t number)
{
    answer[0] = REF_REFUSED;
    return number;
}

static uint32_t refuse_at(uint32_t *answer, uint32_t number, int index, uint32_t block, uint32_t offset)
{
    answer[REF_ANSWER_CHANNEL] = (uint32_t)index;
    answer[REF_ANSWER_OFFSET] = offset;
    if (number >= REF_NO_COMMAND && number <= REF_PAST_DATA)
        answer[REF_ANSWER_ADDRESS] = block + offset;
    return refuse(answer, number);
}

/* One used channel: reads if nothing sounds, tells its part, takes a frame off. *ended: it met the track's end. */
static uint32_t turn(const mother_track *track, int index, mother_player *player, uint32_t *answer, uint32_t *part,
                     int *ended)
{
    mother_channel *ch = &player->channels[index];
    int began = ch->left == 0;
    if (began) {
        mother_reading reading;
        uint32_t number = mother_read(track, index, player, &reading);
        answer[REF_ANSWER_COUNTS + index] = reading.count;
        if (number != 0)
            return refuse_at(answer, number, index, ch->block, reading.offset);
        *ended = reading.ended;
        if (reading.ended)
            return 0;
        ch->left = ch->length;
    }
    tell(track, index, ch, began, part);
    ch->left--;
    return 0;
}

/* The reading part of a frame. The record is stored only with events or an end. */
static uint32_t run_frame(mother_player *player, const mother_track *track, uint32_t *answer)
{
    const mother_player after_end = { .stopped = 1 };
    mother_player next = *player;
    uint32_t parts[REF_CHANNELS][MOTHER_PART_WORDS] = { { 0 } };
    int ended = 0;
    for (int i = 0; i < REF_CHANNELS && !ended; i++) {
        if (!mother_is_used(track, i))
            continue;
        uint32_t number = turn(track, i, &next, answer, parts[i], &ended);
        if (number != 0)
            return number;
    }
    *player = ended ? after_end : next;
    answer[0] = ended ? REF_END : REF_EVENTS;
    if (!ended)
        memcpy(&answer[MOTHER_ANSWER_PARTS], parts, sizeof parts);
    return 0;
}

uint32_t mother_frame(mother_player *player, const mother_banks *banks, const mother_places *places, uint32_t number,
                      uint32_t answer[MOTHER_ANSWER_WORDS])
{
    mother_track track;
    uint32_t fault = mother_open(banks, places, number, &track);
    memset(answer, 0, MOTHER_ANSWER_WORDS * sizeof answer[0]);
    if (fault == 0 && !record_is_good(&track, player))
        fault = REF_BAD_RECORD;
    if (fault != 0)
        return refuse(answer, fault);
    if (player->stopped == 0)
        return run_frame(player, &track, answer);
    answer[0] = REF_STOPPED;
    return 0;
}
