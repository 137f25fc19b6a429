/* One channel's commands, run through its loops. */
#include "reference.h"

typedef enum { GO_ON, NOTE, END, FAULT } outcome;

typedef struct {
    ref_kind kind;
    const uint8_t *data;
    size_t len;
    const uint8_t *lengths;
    uint8_t t;
} source;

typedef struct { outcome what; uint32_t number; uint32_t offset; } step;

static step make_step(outcome what, uint32_t number, uint32_t offset)
{
    step s = { what, number, offset };
    return s;
}

static source make_source(ref_kind kind, const uint8_t *data, size_t len, const uint8_t *lengths, uint8_t t)
{
    source s = { kind, data, len, lengths, t };
    if (s.len > REF_DATA_LIMIT)
        s.len = REF_DATA_LIMIT;
    return s;
}

/* BL and the byte after it: tests 12, 13, then 15, 11. */
static step run_length(const source *s, ref_channel *ch)
{
    uint32_t at = ch->next;
    uint32_t index = s->t + (s->data[at] & 0x0Fu);
    if (index >= REF_LENGTH_COUNT)
        return make_step(FAULT, REF_LENGTH_OUTSIDE, at);
    uint8_t length = s->lengths[index];
    if (length == 0)
        return make_step(FAULT, REF_LENGTH_ZERO, at);
    if (at + 1 >= s->len)
        return make_step(FAULT, REF_PAST_DATA, at + 1);
    uint8_t sound = s->data[at + 1];
    if (!ref_is_sound(s->kind, sound))
        return make_step(FAULT, REF_NO_SUCH_KEY, at + 1);
    ch->length = length;
    ch->sounding = sound;
    ch->next = (uint16_t)(at + 2);
    return make_step(NOTE, 0, 0);
}

/* A key, rest or preset without BL: tests 11, then 14. */
static step run_lone_sound(const source *s, ref_channel *ch)
{
    uint32_t at = ch->next;
    if (!ref_is_sound(s->kind, s->data[at]))
        return make_step(FAULT, REF_NO_SUCH_KEY, at);
    if (ch->length == 0)
        return make_step(FAULT, REF_NO_LENGTH_YET, at);
    ch->sounding = s->data[at];
    ch->next = (uint16_t)(at + 1);
    return make_step(NOTE, 0, 0);
}

static step run_loop_begin(const source *s, ref_channel *ch)
{
    uint8_t plays = s->data[ch->next] & 0x3F;
    ch->counter = plays == 0 ? 255 : (uint8_t)(plays - 1);
    ch->next = (uint16_t)(ch->next + 1);
    ch->loop_start = ch->next;
    return make_step(GO_ON, 0, 0);
}

static step run_loop_end(ref_channel *ch)
{
    if (ch->counter > 0) {
        ch->counter = (uint8_t)(ch->counter - 1);
        ch->next = ch->loop_start;
    } else {
        ch->next = (uint16_t)(ch->next + 1);
    }
    return make_step(GO_ON, 0, 0);
}

static step run_command(const source *s, ref_channel *ch)
{
    uint32_t at = ch->next;
    if (at >= s->len)
        return make_step(FAULT, REF_PAST_DATA, at);
    switch (ref_byte_class(s->data[at])) {
    case REF_BYTE_END:
        return make_step(END, 0, at);
    case REF_BYTE_LOOP_END:
        return run_loop_end(ch);
    case REF_BYTE_LOOP_BEGIN:
        return run_loop_begin(s, ch);
    case REF_BYTE_LENGTH:
        return run_length(s, ch);
    case REF_BYTE_NOTHING:
        return make_step(FAULT, REF_NO_COMMAND, at);
    case REF_BYTE_SOUND:
        break;
    }
    return run_lone_sound(s, ch);
}

uint32_t ref_read_until(ref_kind kind, const uint8_t *data, size_t len, const uint8_t lengths[40], uint8_t t,
                        ref_channel *ch, int *ended, uint32_t *offset, uint32_t *count)
{
    source s = make_source(kind, data, len, lengths, t);
    step now;
    *count = 0;
    do {
        now = run_command(&s, ch);
        if (now.what != FAULT)
            *count += 1;
    } while (now.what == GO_ON);
    *ended = now.what == END;
    *offset = now.offset;
    return now.number;
}

ref_timeline ref_walk(ref_kind kind, const uint8_t *data, size_t len, const uint8_t lengths[40], uint8_t t)
{
    source s = make_source(kind, data, len, lengths, t);
    ref_channel ch = {0};
    ref_timeline line = {0};
    for (;;) {
        step now = run_command(&s, &ch);
        if (now.what != FAULT)
            line.commands += 1;
        if (now.what == NOTE)
            line.frames += ch.length;
        if (now.what == END || now.what == FAULT) {
            line.number = now.number;
            line.offset = now.offset;
            return line;
        }
    }
}
