/* The check: every fault of a track is listed, and the least is told. */
#include "mother.h"

#include <stdlib.h>
#include <string.h>

#define ADDRESSES (REF_BANK_END - REF_BANK_FIRST)

typedef struct { uint32_t number, channel, place, offset, address; } fault;
typedef struct { fault *faults; size_t count; } fault_list;

/* A word of a playlist that names a block. */
typedef struct { uint32_t block, place; } naming;
/* A used channel's playlist: its block words in playing order, and the word that is refused, if there is one. */
typedef struct {
    naming *namings;
    size_t count;
    int is_bad;
    uint32_t bad_place;
} playlist;

/* Bytes, each once. */
typedef struct { uint8_t bytes[256]; size_t count; } byte_set;
/* What the header and the commands of all named blocks set. */
typedef struct { byte_set transposes, windows; } settings;

/* A command of a block. Straight reading stops at a 00 and at what can't be read: 10, 11 or 15. */
typedef struct {
    mother_kind kind;
    uint8_t byte;
    int second; /* the byte behind it, or -1 past the block's end */
    uint32_t offset, size;
    uint32_t stop, stop_offset; /* 0 if it can be read */
} command;

/* Reads one block of a channel, whose first length may have come in a block before. */
typedef struct {
    const mother_track *track;
    const settings *set;
    fault_list *list;
    uint32_t channel, place, block;
    int *has_length;
    int has_sound;
} block_reader;

/* Room for one item more. It is doubled when it is full, which is at each power of two. */
static void *with_room(void *items, size_t count, size_t size)
{
    if ((count & (count - 1)) != 0)
        return items;
    items = realloc(items, (count == 0 ? 1 : 2 * count) * size);
    if (items == NULL)
        abort();
    return items;
}

static void add_fault(fault_list *list, fault f)
{
    list->faults = with_room(list->faults, list->count, sizeof f);
    list->faults[list->count++] = f;
}

static void add_naming(playlist *p, naming n)
{
    p->namings = with_room(p->namings, p->count, sizeof n);
    p->namings[p->count++] = n;
}

static void add_byte(byte_set *set, uint8_t byte)
{
    if (memchr(set->bytes, byte, set->count) == NULL)
        set->bytes[set->count++] = byte;
}

/* `row`: block words since the start or the last goto. */
static int is_bad_word(mother_word_kind kind, uint32_t row, int after_goto)
{
    return kind == MOTHER_BAD_WORD || (kind == MOTHER_GOTO && after_goto)
        || (kind == MOTHER_BLOCK && row == MOTHER_MOST_BLOCK_WORDS);
}

/* Up to an end, a refused word, or a goto to where a goto has led before: from there all comes again. */
static playlist walk_playlist(const mother_track *track, int channel)
{
    uint8_t reached[ADDRESSES] = { 0 };
    playlist p = { 0 };
    uint32_t at = track->playlists[channel];
    uint32_t row = 0;
    int after_goto = 0;
    for (uint32_t place = 0;; place++) {
        mother_entry entry = mother_entry_at(&track->banks, at);
        p.is_bad = is_bad_word(entry.kind, row, after_goto);
        p.bad_place = place;
        if (p.is_bad || entry.kind == MOTHER_TRACK_END)
            return p;
        after_goto = entry.kind == MOTHER_GOTO;
        if (after_goto) {
            if (reached[entry.address - REF_BANK_FIRST])
                return p;
            reached[entry.address - REF_BANK_FIRST] = 1;
            at = entry.address;
            row = 0;
        } else {
            add_naming(&p, (naming){ entry.address, place });
            at += 2;
            row++;
        }
    }
}

static uint32_t size_of(mother_kind kind)
{
    switch (kind) {
    case MOTHER_TIMBRE:
        return 3;
    case MOTHER_TRANSPOSE:
    case MOTHER_WINDOW:
    case MOTHER_LENGTH:
        return 2;
    default:
        return 1;
    }
}

/* Under some even transpose. */
static int can_sound(int channel, uint8_t byte)
{
    return channel == REF_NOISE_CHANNEL ? mother_is_preset(byte) : byte % 2 == 0;
}

static void stop(command *c, uint32_t number, uint32_t offset)
{
    c->stop = number;
    c->stop_offset = offset;
}

static command command_at(const mother_track *track, int channel, uint32_t block, uint32_t offset)
{
    uint32_t end = mother_block_size(block);
    command c = { .kind = MOTHER_NOTHING, .offset = offset, .second = -1 };
    if (offset == end) {
        stop(&c, REF_PAST_DATA, end);
        return c;
    }
    c.byte = mother_byte(&track->banks, block + offset);
    c.kind = mother_kind_of(channel, c.byte);
    c.size = size_of(c.kind);
    if (offset + 1 < end)
        c.second = mother_byte(&track->banks, block + offset + 1);
    if (c.kind == MOTHER_NOTHING)
        stop(&c, REF_NO_COMMAND, offset);
    else if (c.kind == MOTHER_NO_SOUND)
        stop(&c, REF_NO_SUCH_KEY, offset);
    else if (offset + c.size > end)
        stop(&c, REF_PAST_DATA, end);
    else if (c.kind == MOTHER_LENGTH && !can_sound(channel, (uint8_t)c.second))
        stop(&c, REF_NO_SUCH_KEY, offset + 1);
    return c;
}

static int is_last(const command *c)
{
    return c->stop != 0 || c->kind == MOTHER_BLOCK_END;
}

/* An odd transpose sets nothing. */
static void take_setting(settings *set, const command *c)
{
    if (c->second < 0)
        return;
    if (c->kind == MOTHER_WINDOW)
        add_byte(&set->windows, (uint8_t)c->second);
    if (c->kind == MOTHER_TRANSPOSE && !mother_is_odd((uint8_t)c->second))
        add_byte(&set->transposes, (uint8_t)c->second);
}

static void take_settings(settings *set, const mother_track *track, int channel, uint32_t block)
{
    command c = { 0 };
    do {
        c = command_at(track, channel, block, c.offset + c.size);
        take_setting(set, &c);
    } while (!is_last(&c));
}

static settings settings_of(const mother_track *track, const playlist lists[REF_CHANNELS])
{
    settings set = { 0 };
    add_byte(&set.transposes, track->transpose);
    add_byte(&set.windows, track->window);
    for (int i = 0; i < REF_CHANNELS; i++)
        for (size_t j = 0; j < lists[i].count; j++)
            take_settings(&set, track, i, lists[i].namings[j].block);
    return set;
}

static void add(const block_reader *r, uint32_t number, uint32_t offset)
{
    int has_address = number >= REF_NO_COMMAND && number <= REF_PAST_DATA;
    add_fault(r->list, (fault){ number, r->channel, r->place, offset, has_address ? r->block + offset : 0 });
}

static void list_key(const block_reader *r, uint8_t byte, uint32_t offset)
{
    for (size_t i = 0; i < r->set->transposes.count; i++)
        if (mother_sounding((int)r->channel, byte, r->set->transposes.bytes[i]) < 0)
            add(r, REF_NO_SUCH_KEY, offset);
}

static void list_length(const block_reader *r, const command *c)
{
    for (size_t i = 0; i < r->set->windows.count; i++) {
        uint32_t entry = r->set->windows.bytes[i] + (c->byte & 0x0Fu);
        if (entry >= MOTHER_LENGTH_COUNT)
            add(r, REF_LENGTH_OUTSIDE, c->offset);
        else if (mother_byte(&r->track->banks, r->track->places.note_lengths + entry) == 0)
            add(r, REF_LENGTH_ZERO, c->offset);
    }
    if (c->second >= 0)
        list_key(r, (uint8_t)c->second, c->offset + 1);
}

static void list_timbre(const block_reader *r, const command *c)
{
    uint32_t number = 0;
    if (r->channel < REF_SQUARES && c->second >= 0)
        number = mother_envelope_fault(r->track, c->second & 0x1F);
    if (number != 0)
        add(r, number, c->offset);
}

static void list_command(block_reader *r, const command *c)
{
    switch (c->kind) {
    case MOTHER_TRANSPOSE:
        if (c->second >= 0 && mother_is_odd((uint8_t)c->second))
            add(r, MOTHER_ODD_TRANSPOSE, c->offset);
        break;
    case MOTHER_TIMBRE:
        list_timbre(r, c);
        break;
    case MOTHER_LENGTH:
        list_length(r, c);
        *r->has_length = 1;
        r->has_sound = 1;
        break;
    case MOTHER_SOUND:
        list_key(r, c->byte, c->offset);
        if (!*r->has_length)
            add(r, REF_NO_LENGTH_YET, c->offset);
        r->has_sound = 1;
        break;
    case MOTHER_BLOCK_END:
        if (!r->has_sound)
            add(r, MOTHER_NO_NOTE, c->offset);
        break;
    default:
        break;
    }
    if (c->stop != 0)
        add(r, c->stop, c->stop_offset);
}

static void list_block(block_reader r)
{
    command c = { 0 };
    do {
        c = command_at(r.track, (int)r.channel, r.block, c.offset + c.size);
        list_command(&r, &c);
    } while (!is_last(&c));
}

static void list_channel(fault_list *list, const mother_track *track, const settings *set, uint32_t channel,
                         const playlist *p)
{
    int has_length = 0;
    for (size_t i = 0; i < p->count; i++)
        list_block((block_reader){ .track = track, .set = set, .list = list, .channel = channel,
                                   .place = p->namings[i].place, .block = p->namings[i].block,
                                   .has_length = &has_length });
    if (p->is_bad)
        add_fault(list, (fault){ MOTHER_BAD_PLAYLIST, channel, p->bad_place, 0, 0 });
}

static fault_list list_faults(const mother_track *track)
{
    fault_list list = { 0 };
    playlist lists[REF_CHANNELS] = { 0 };
    for (int i = 0; i < REF_CHANNELS; i++)
        if (mother_is_used(track, i))
            lists[i] = walk_playlist(track, i);
    settings set = settings_of(track, lists);
    for (uint32_t i = 0; i < REF_CHANNELS; i++) {
        list_channel(&list, track, &set, i, &lists[i]);
        free(lists[i].namings);
    }
    return list;
}

static uint32_t rank_of(uint32_t number)
{
    static const uint8_t order[] = { 19, 20, 22, 21, 6, 7, 10, 11, 12, 13, 14, 15 };
    uint32_t rank = 0;
    while (order[rank] != number)
        rank++;
    return rank;
}

static int comes_before(const fault *a, const fault *b)
{
    if (a->channel != b->channel)
        return a->channel < b->channel;
    if (a->place != b->place)
        return a->place < b->place;
    if (a->offset != b->offset)
        return a->offset < b->offset;
    return rank_of(a->number) < rank_of(b->number);
}

/* Number 0 if there is none. */
static fault least_fault(const fault_list *list)
{
    fault least = { 0 };
    for (size_t i = 0; i < list->count; i++)
        if (i == 0 || comes_before(&list->faults[i], &least))
            least = list->faults[i];
    return least;
}

uint32_t mother_check(const mother_banks *banks, const mother_places *places, uint32_t number, uint32_t *verdict,
                      size_t verdict_len)
{
    mother_track track;
    uint32_t refusal = mother_open(banks, places, number, &track);
    if (refusal != 0)
        return refusal;
    fault_list list = list_faults(&track);
    fault first = least_fault(&list);
    free(list.faults);
    const uint32_t words[MOTHER_VERDICT_WORDS] = { first.channel, first.offset, first.place, first.address };
    for (size_t i = 0; first.number != 0 && i < verdict_len && i < MOTHER_VERDICT_WORDS; i++)
        verdict[i] = words[i];
    return first.number;
}
