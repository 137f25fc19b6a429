/* Start and frame. */
#include "reference.h"

#include <string.h>

#define CTRL_SILENT 0x10u
#define DYNAMIC_LIMIT 60u
#define QUARTERS_A_FRAME 4u

ref_kind ref_kind_of(int channel)
{
    return channel == REF_NOISE_CHANNEL ? REF_NOISE : REF_MELODIC;
}

static ref_player fresh(uint32_t frames)
{
    ref_player p;
    memset(&p, 0, sizeof p);
    p.frames_left = frames;
    p.pass_length = frames;
    return p;
}

uint32_t ref_start(ref_player *p, const uint8_t *bank, size_t len, const ref_places *places, uint32_t track)
{
    ref_verdict first_stop = ref_check_by_channels(bank, len, places, track);
    *p = fresh((uint32_t)first_stop.frame);
    return first_stop.number <= REF_NO_CHANNEL ? first_stop.number : 0;
}

static int channel_is_good(ref_kind kind, const ref_channel *ch)
{
    if (ch->next > REF_DATA_LIMIT || ch->loop_start > REF_DATA_LIMIT)
        return 0;
    if (ch->left == 0)
        return 1;
    return ch->length >= ch->left && ref_is_sound(kind, ch->sounding);
}

static int record_is_good(const ref_track *track, const ref_player *p)
{
    if (p->frames_left > REF_MOST_FRAMES || p->pass_length > REF_MOST_FRAMES)
        return 0;
    for (int i = 0; i < REF_CHANNELS; i++)
        if (track->data[i] != NULL && !channel_is_good(ref_kind_of(i), &p->channels[i]))
            return 0;
    return 1;
}

static uint32_t default_or_silent(uint8_t ctrl)
{
    return ctrl != 0 ? ctrl : CTRL_SILENT;
}

/* The ctrl 1 byte of a square's note. The first F0 or FF up to the index holds from there on. */
static uint32_t note_ctrl(const ref_track *track, int square, const ref_channel *ch)
{
    const uint8_t *envelope = track->envelope[square];
    uint8_t ctrl = track->default_ctrl[square];
    unsigned index = (unsigned)ch->length - ch->left;
    if (envelope == NULL)
        return default_or_silent(ctrl);
    for (unsigned i = 0; i <= index; i++) {
        if (envelope[i] == 0xF0)
            return CTRL_SILENT;
        if (envelope[i] == 0xFF)
            return default_or_silent(ctrl);
    }
    return envelope[index] | (ctrl & 0xF0u);
}

static uint32_t note_release(uint8_t control, uint8_t length)
{
    uint32_t low = control & 0x0Fu;
    uint32_t high = control >> 4;
    uint32_t dynamic = QUARTERS_A_FRAME * (length - 1u);
    if (low != 0)
        return low;
    if (high != 0)
        return REF_RELEASE_NEVER;
    return dynamic < DYNAMIC_LIMIT ? dynamic : DYNAMIC_LIMIT;
}

static void tell_note(const ref_track *track, int channel, const ref_channel *ch, uint32_t *part)
{
    if (channel == REF_NOISE_CHANNEL) {
        for (int i = 0; i < 3; i++)
            part[2 + i] = track->presets[ch->sounding + i];
        return;
    }
    uint32_t key = ch->sounding / 2u;
    part[2] = key;
    part[3] = 256u * track->periods[2 * key] + track->periods[2 * key + 1];
    if (channel == REF_TRIANGLE)
        part[4] = note_release(track->release, ch->length);
    else
        part[4] = note_ctrl(track, channel, ch);
}

/* The channel's five words, before the frame is taken off. */
static void tell(const ref_track *track, int channel, const ref_channel *ch, int began, uint32_t *part)
{
    part[1] = began ? 1 : 0;
    if (!ref_is_rest(ref_kind_of(channel), ch->sounding, track->periods)) {
        part[0] = REF_NOTE;
        tell_note(track, channel, ch, part);
        return;
    }
    part[0] = REF_REST;
    if (channel < REF_SQUARES)
        part[4] = CTRL_SILENT;
}

static uint32_t refuse(uint32_t *answer, uint32_t number)
{
    answer[0] = REF_REFUSED;
    return number;
}

static uint32_t refuse_at(uint32_t *answer, uint32_t number, const ref_track *track, int channel, uint32_t offset)
{
    answer[REF_ANSWER_CHANNEL] = (uint32_t)channel;
    answer[REF_ANSWER_OFFSET] = offset;
    answer[REF_ANSWER_ADDRESS] = ref_address_of(track, channel, offset);
    return refuse(answer, number);
}

static ref_player after_end(const ref_track *track, uint32_t pass_length)
{
    ref_player p = fresh(track->restart != 0 ? pass_length : 0);
    p.stopped = track->restart == 0;
    return p;
}

/* The reading part of a frame. The record is stored only with events or an end. */
static uint32_t run_frame(ref_player *p, const ref_track *track, uint32_t *answer)
{
    ref_player next = *p;
    uint32_t parts[REF_CHANNELS * REF_PART_WORDS] = {0};
    for (int i = 0; i < REF_CHANNELS; i++) {
        ref_channel *ch = &next.channels[i];
        if (track->data[i] == NULL)
            continue;
        int began = ch->left == 0;
        if (began) {
            int ended;
            uint32_t offset;
            uint32_t number = ref_read_until(ref_kind_of(i), track->data[i], track->data_len[i], track->lengths,
                                             track->t, ch, &ended, &offset, &answer[REF_ANSWER_COUNTS + i]);
            if (number != 0)
                return refuse_at(answer, number, track, i, offset);
            if (ended) {
                *p = after_end(track, p->pass_length);
                answer[0] = REF_END;
                return 0;
            }
            ch->left = ch->length;
        }
        tell(track, i, ch, began, &parts[REF_PART_WORDS * i]);
        ch->left = (uint8_t)(ch->left - 1);
    }
    if (next.frames_left > 0)
        next.frames_left -= 1;
    *p = next;
    answer[0] = REF_EVENTS;
    memcpy(&answer[REF_ANSWER_PARTS], parts, sizeof parts);
    return 0;
}

uint32_t ref_frame(ref_player *p, const uint8_t *bank, size_t len, const ref_places *places, uint32_t track,
                   uint32_t answer[REF_ANSWER_WORDS])
{
    ref_track opened;
    memset(answer, 0, REF_ANSWER_WORDS * sizeof answer[0]);
    answer[REF_ANSWER_LEFT] = p->frames_left;
    uint32_t number = ref_open(bank, len, places, track, &opened);
    if (number != 0)
        return refuse(answer, number);
    if (!record_is_good(&opened, p))
        return refuse(answer, REF_BAD_RECORD);
    if (p->stopped != 0) {
        answer[0] = REF_STOPPED;
        return 0;
    }
    return run_frame(p, &opened, answer);
}
