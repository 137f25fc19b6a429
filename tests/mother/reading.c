/* One channel's commands: playlist words and the bytes of blocks, until something sounds. */
#include "mother.h"

#define DYNAMIC_LIMIT 60u
#define QUARTERS_A_FRAME 4u
#define RELEASE_NEVER 0xFF

/* `where`: the next command is a byte of the block, a playlist word, or the one that a goto leads to. */
typedef struct {
    const mother_track *track;
    int index;
    mother_player *player;
    mother_channel *channel;
    enum { IN_BLOCK, IN_PLAYLIST, AFTER_GOTO } where;
    enum { GOES_ON, SOUNDS, ENDS } state;
    uint32_t offset; /* of a refusal */
} reader;

static uint32_t refuse(reader *r, uint32_t number, uint32_t offset)
{
    r->offset = offset;
    return number;
}

/* The block's byte at the offset, or -1 past its end. */
static int block_byte(const reader *r, uint32_t offset)
{
    if (offset >= mother_block_size(r->channel->block))
        return -1;
    return mother_byte(&r->track->banks, r->channel->block + offset);
}

static void enter_block(reader *r, uint16_t block)
{
    mother_channel *ch = r->channel;
    ch->block = block;
    ch->list = (uint16_t)(ch->list + 2);
    ch->row = (uint16_t)(ch->row + 1);
    ch->next = 0;
    ch->loop_start = 0;
    ch->counter = 0;
    r->where = IN_BLOCK;
}

static uint32_t run_word(reader *r)
{
    mother_entry entry = mother_entry_at(&r->track->banks, r->channel->list);
    switch (entry.kind) {
    case MOTHER_TRACK_END:
        r->state = ENDS;
        return 0;
    case MOTHER_GOTO:
        if (r->where == AFTER_GOTO)
            break;
        r->channel->list = entry.address;
        r->channel->row = 0;
        r->where = AFTER_GOTO;
        return 0;
    case MOTHER_BLOCK:
        if (r->channel->row >= MOTHER_MOST_BLOCK_WORDS)
            break;
        enter_block(r, entry.address);
        return 0;
    case MOTHER_BAD_WORD:
        break;
    }
    return refuse(r, MOTHER_BAD_PLAYLIST, 0);
}

/* Of the triangle, from its release settings pppx xxxx. */
static uint8_t ctrl_by_length(uint8_t timbre, uint8_t length)
{
    uint32_t x = timbre & 0x1Fu;
    uint32_t p = timbre >> 5;
    uint32_t dynamic = QUARTERS_A_FRAME * (length - 1u);
    if (x != 0)
        return (uint8_t)x;
    if (p >= 2 && p <= 5)
        return RELEASE_NEVER;
    return (uint8_t)(dynamic < DYNAMIC_LIMIT ? dynamic : DYNAMIC_LIMIT);
}

static void begin_sound(reader *r, int sounding, uint32_t size)
{
    r->channel->sounding = (uint8_t)sounding;
    r->channel->next = (uint16_t)(r->channel->next + size);
    r->state = SOUNDS;
}

/* bL: 12, 13, then its next byte 15, 11. */
static uint32_t run_length(reader *r, uint8_t byte)
{
    mother_channel *ch = r->channel;
    uint32_t at = ch->next;
    uint32_t entry = r->player->window + (byte & 0x0Fu);
    if (entry >= MOTHER_LENGTH_COUNT)
        return refuse(r, REF_LENGTH_OUTSIDE, at);
    uint8_t length = mother_byte(&r->track->banks, r->track->places.note_lengths + entry);
    if (length == 0)
        return refuse(r, REF_LENGTH_ZERO, at);
    int second = block_byte(r, at + 1);
    if (second < 0)
        return refuse(r, REF_PAST_DATA, at + 1);
    int sounding = mother_sounding(r->index, (uint8_t)second, r->player->transpose);
    if (sounding < 0)
        return refuse(r, REF_NO_SUCH_KEY, at + 1);
    ch->length = length;
    if (r->index == REF_TRIANGLE)
        ch->ctrl = ctrl_by_length(ch->timbre, length);
    begin_sound(r, sounding, 2);
    return 0;
}

/* A lone key, rest or preset: 11, then 14. */
static uint32_t run_sound(reader *r, uint8_t byte)
{
    int sounding = mother_sounding(r->index, byte, r->player->transpose);
    if (sounding < 0)
        return refuse(r, REF_NO_SUCH_KEY, r->channel->next);
    if (r->channel->length == 0)
        return refuse(r, REF_NO_LENGTH_YET, r->channel->next);
    begin_sound(r, sounding, 1);
    return 0;
}

/* 9f: 15 of its second byte, on a square 6 and 7, then 15 of its third. */
static uint32_t run_timbre(reader *r)
{
    mother_channel *ch = r->channel;
    uint32_t at = ch->next;
    int timbre = block_byte(r, at + 1);
    if (timbre < 0)
        return refuse(r, REF_PAST_DATA, at + 1);
    uint32_t fault = r->index < REF_SQUARES ? mother_envelope_fault(r->track, timbre & 0x1F) : 0;
    if (fault != 0)
        return refuse(r, fault, at);
    int ctrl = block_byte(r, at + 2);
    if (ctrl < 0)
        return refuse(r, REF_PAST_DATA, at + 2);
    ch->timbre = (uint8_t)timbre;
    ch->ctrl = (uint8_t)ctrl;
    ch->next = (uint16_t)(at + 3);
    return 0;
}

/* 9c and 9e: 15, then of a transpose 19. */
static uint32_t run_global(reader *r, uint8_t *global, int is_transpose)
{
    uint32_t at = r->channel->next;
    int operand = block_byte(r, at + 1);
    if (operand < 0)
        return refuse(r, REF_PAST_DATA, at + 1);
    if (is_transpose && mother_is_odd((uint8_t)operand))
        return refuse(r, MOTHER_ODD_TRANSPOSE, at);
    *global = (uint8_t)operand;
    r->channel->next = (uint16_t)(at + 2);
    return 0;
}

static uint32_t run_loop_begin(reader *r, uint8_t byte)
{
    uint32_t plays = (byte & 0x3F) != 0 ? byte & 0x3F : 256;
    r->channel->counter = (uint8_t)(plays - 1);
    r->channel->next++;
    r->channel->loop_start = r->channel->next;
    return 0;
}

static uint32_t run_loop_end(reader *r)
{
    if (r->channel->counter == 0) {
        r->channel->next++;
        return 0;
    }
    r->channel->counter--;
    r->channel->next = r->channel->loop_start;
    return 0;
}

static uint32_t run_command(reader *r)
{
    uint32_t at = r->channel->next;
    int byte = block_byte(r, at);
    if (byte < 0)
        return refuse(r, REF_PAST_DATA, at);
    switch (mother_kind_of(r->index, (uint8_t)byte)) {
    case MOTHER_BLOCK_END:
        r->where = IN_PLAYLIST;
        return 0;
    case MOTHER_TRANSPOSE:
        return run_global(r, &r->player->transpose, 1);
    case MOTHER_WINDOW:
        return run_global(r, &r->player->window, 0);
    case MOTHER_LOOP_END:
        return run_loop_end(r);
    case MOTHER_LENGTH:
        return run_length(r, (uint8_t)byte);
    case MOTHER_LOOP_BEGIN:
        return run_loop_begin(r, (uint8_t)byte);
    case MOTHER_TIMBRE:
        return run_timbre(r);
    case MOTHER_SOUND:
        return run_sound(r, (uint8_t)byte);
    case MOTHER_NO_SOUND:
        return refuse(r, REF_NO_SUCH_KEY, at);
    case MOTHER_NOTHING:
        break;
    }
    return refuse(r, REF_NO_COMMAND, at);
}

/* A channel that has no block yet begins its playlist. */
static reader begin_reading(const mother_track *track, int channel, mother_player *player)
{
    reader r = { .track = track, .index = channel, .player = player, .channel = &player->channels[channel] };
    if (r.channel->block == 0) {
        r.channel->list = track->playlists[channel];
        r.channel->row = 0;
        r.where = IN_PLAYLIST;
    }
    return r;
}

uint32_t mother_read(const mother_track *track, int channel, mother_player *player, mother_reading *told)
{
    reader r = begin_reading(track, channel, player);
    uint32_t number = 0;
    uint32_t count = 0;
    while (number == 0 && r.state == GOES_ON) {
        if (count == MOTHER_MOST_COMMANDS)
            number = refuse(&r, MOTHER_TOO_MANY_COMMANDS, r.where == IN_BLOCK ? r.channel->next : 0);
        else
            number = r.where == IN_BLOCK ? run_command(&r) : run_word(&r);
        count += number == 0;
    }
    *told = (mother_reading){ r.state == ENDS, count, r.offset };
    return number;
}
