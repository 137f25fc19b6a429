/* Mending, case by case, worked out by hand from request No. 5. */
#include "mend_cases.h"
#include "hex.h"

#include <string.h>

/* Bytes before and after in hex, and so the words of the list: offset, old and new byte of each change. */
typedef struct { const char *data, *mended, *list; } piece;

static const piece melodic_cases[] = {
    /* data that reads */
    { "00", "00", "" },
    { "00 00", "00 00", "" },
    { "02 00", "02 00", "" },
    { "7E 00", "7E 00", "" },
    { "FF 00", "FF 00", "" },
    { "B0 2A 00", "B0 2A 00", "" },
    { "B0 00 00", "B0 00 00", "" },
    { "B0 00 BF 00 00", "B0 00 BF 00 00", "" },
    { "C3 B0 2A 02 FF 00", "C3 B0 2A 02 FF 00", "" },
    { "C0 FE FF FF 2A 00", "C0 FE FF FF 2A 00", "" },
    /* nothing behind the end */
    { "00 80", "00 80", "" },
    { "00 B0", "00 B0", "" },
    { "00 B0 81", "00 B0 81", "" },
    { "2A 00 81 2A 00 B0 01", "2A 00 81 2A 00 B0 01", "" },
    { "2A A0 81 00 99", "2A 02 02 00 99", "1 A0 02  2 81 02" },
    { "B0 00 81 00 B0", "B0 00 02 00 B0", "2 81 02" },
    /* a refused byte where a command stands */
    { "80 00", "02 00", "0 80 02" },
    { "AF 00", "02 00", "0 AF 02" },
    { "01 00", "02 00", "0 01 02" },
    { "03 00", "02 00", "0 03 02" },
    { "7F 00", "02 00", "0 7F 02" },
    { "C2 80 FF 00", "C2 02 FF 00", "1 80 02" },
    { "B0 2A A0 00", "B0 2A 02 00", "2 A0 02" },
    { "81 B4 83 C2 85 FF 87 00 89", "02 B4 02 C2 02 FF 02 00 89", "0 81 02  2 83 02  4 85 02  6 87 02" },
    /* directly after BL, where what would be a command is no key */
    { "B0 81 00", "B0 02 00", "1 81 02" },
    { "B0 7F 00", "B0 02 00", "1 7F 02" },
    { "B0 B0 00", "B0 02 00", "1 B0 02" },
    { "B0 C0 00", "B0 02 00", "1 C0 02" },
    { "B0 FF 00", "B0 02 00", "1 FF 02" },
    { "B0 B1 B2 B3 00", "B0 02 B2 02 00", "1 B1 02  3 B3 02" },
    { "B0 80 81 B1 00 00", "B0 02 02 B1 00 00", "1 80 02  2 81 02" },
    /* no end: the last byte is a command, or is refused first */
    { "02", "00", "0 02 00" },
    { "2A", "00", "0 2A 00" },
    { "FF", "00", "0 FF 00" },
    { "C0", "00", "0 C0 00" },
    { "80", "00", "0 80 00" },
    { "AF", "00", "0 AF 00" },
    { "01", "00", "0 01 00" },
    { "7F", "00", "0 7F 00" },
    { "C3 FF", "C3 00", "1 FF 00" },
    { "80 81", "02 00", "0 80 02  1 81 00" },
    { "B0 00 80", "B0 00 00", "2 80 00" },
    { "B0 2A A0", "B0 2A 00", "2 A0 00" },
    { "B0 B1 2A", "B0 02 00", "1 B1 02  2 2A 00" },
    { "C3 B0 2A 02 FF", "C3 B0 2A 02 00", "4 FF 00" },
    /* no end: a BL is the last byte */
    { "B0", "00", "0 B0 00" },
    { "BF", "00", "0 BF 00" },
    { "2A B0", "2A 00", "1 B0 00" },
    { "80 B0", "02 00", "0 80 02  1 B0 00" },
    { "B0 2A B0", "B0 2A 00", "2 B0 00" },
    { "B0 B1 B2", "B0 02 00", "1 B1 02  2 B2 00" },
    /* no end: the last byte is the second of a BL */
    { "B0 00", "02 00", "0 B0 02" },
    { "B0 02", "02 00", "0 B0 02  1 02 00" },
    { "B0 2A", "02 00", "0 B0 02  1 2A 00" },
    { "B0 81", "02 00", "0 B0 02  1 81 00" },
    { "B0 FF", "02 00", "0 B0 02  1 FF 00" },
    { "BF BF", "02 00", "0 BF 02  1 BF 00" },
    { "B0 00 B0 00", "B0 00 02 00", "2 B0 02" },
    { "2A 80 B0 00", "2A 02 02 00", "1 80 02  2 B0 02" },
    { "01 B0 2A", "02 02 00", "0 01 02  1 B0 02  2 2A 00" },
    { "B0 B1 B2 B3", "B0 02 02 00", "1 B1 02  2 B2 02  3 B3 00" },
};

/* In the same order. */
static const piece noise_cases[] = {
    { "00", "00", "" },
    { "01 00", "01 00", "" },
    { "B0 04 01 07 0A C0 FE FF 00", "B0 04 01 07 0A C0 FE FF 00", "" },
    { "00 02", "00 02", "" },
    { "00 B0 00", "00 B0 00", "" },
    { "04 02 07 2A 0A 00 02", "04 01 07 01 0A 00 02", "1 02 01  3 2A 01" },
    { "02 00", "01 00", "0 02 01" },
    { "03 00", "01 00", "0 03 01" },
    { "05 00", "01 00", "0 05 01" },
    { "0D 00", "01 00", "0 0D 01" },
    { "7F 00", "01 00", "0 7F 01" },
    { "80 00", "01 00", "0 80 01" },
    { "AF 00", "01 00", "0 AF 01" },
    { "B0 00 00", "B0 01 00", "1 00 01" },
    { "B0 2A 00", "B0 01 00", "1 2A 01" },
    { "B0 B0 00", "B0 01 00", "1 B0 01" },
    { "B0 00 B0 00 00", "B0 01 B0 01 00", "1 00 01  3 00 01" },
    { "B0 00 04 B0 02 00 00", "B0 01 04 B0 01 00 00", "1 00 01  4 02 01" },
    { "01", "00", "0 01 00" },
    { "02", "00", "0 02 00" },
    { "0A", "00", "0 0A 00" },
    { "AF", "00", "0 AF 00" },
    { "B0 00 80", "B0 01 00", "1 00 01  2 80 00" },
    { "B5", "00", "0 B5 00" },
    { "04 B5", "04 00", "1 B5 00" },
    { "B0 00", "01 00", "0 B0 01" },
    { "B0 01", "01 00", "0 B0 01  1 01 00" },
    { "B0 02", "01 00", "0 B0 01  1 02 00" },
    { "B0 04", "01 00", "0 B0 01  1 04 00" },
    { "B0 00 B0 00", "B0 01 01 00", "1 00 01  2 B0 01" },
};

/* A row so many times, and what stands behind it. Offsets count from the piece's start. */
typedef struct { ref_kind kind; size_t times; piece row, tail; } long_case;

static const long_case long_cases[] = {
    { REF_MELODIC, 255, { "2A", "2A", "" }, { "00", "00", "" } },
    { REF_MELODIC, 128, { "00 80", "00 80", "" }, { "", "", "" } },
    { REF_MELODIC, 255, { "2A", "2A", "" }, { "2A", "00", "0 2A 00" } },
    { REF_MELODIC, 254, { "2A", "2A", "" }, { "81", "00", "0 81 00" } },
    { REF_MELODIC, 255, { "FF", "FF", "" }, { "FF", "00", "0 FF 00" } },
    { REF_MELODIC, 255, { "2A", "2A", "" }, { "B7", "00", "0 B7 00" } },
    { REF_MELODIC, 254, { "2A", "2A", "" }, { "B7 00", "02 00", "0 B7 02" } },
    { REF_MELODIC, 127, { "B0 00", "B0 00", "" }, { "2A B0", "2A 00", "1 B0 00" } },
    { REF_MELODIC, 127, { "B0 2A", "B0 2A", "" }, { "B0 2A", "02 00", "0 B0 02  1 2A 00" } },
    { REF_MELODIC, 127, { "B0 81", "B0 02", "1 81 02" }, { "00 99", "00 99", "" } },
    { REF_MELODIC, 127, { "B0 B0", "B0 02", "1 B0 02" }, { "B0 B0", "02 00", "0 B0 02  1 B0 00" } },
    { REF_MELODIC, 255, { "81", "02", "0 81 02" }, { "00", "00", "" } },
    { REF_MELODIC, 255, { "81", "02", "0 81 02" }, { "81", "00", "0 81 00" } },
    { REF_NOISE, 255, { "04", "04", "" }, { "00", "00", "" } },
    { REF_NOISE, 127, { "B0 00", "B0 01", "1 00 01" }, { "00 02", "00 02", "" } },
    { REF_NOISE, 127, { "B0 00", "B0 01", "1 00 01" }, { "B0 00", "01 00", "0 B0 01" } },
    { REF_NOISE, 85, { "02 03 05", "01 01 01", "0 02 01  1 03 01  2 05 01" }, { "04", "00", "0 04 00" } },
};

/* Sizes that are refused, whatever the room. */
static const size_t wrong_sizes[] = { 0, 257, 258, 300, 511, 512 };

#define COUNT_OF(list) (sizeof(list) / sizeof(list)[0])

/* Lent buffers are longer than what is lent. */
#define LENT_BYTES 520u
#define LENT_WORDS (REF_MEND_WORDS + 8u)
#define PATTERN 0x5Au

typedef struct { uint8_t bytes[LENT_BYTES]; uint16_t list[LENT_WORDS]; } lent;

/* What is lent before and after, and how much of it the data and the list are. The name is for the messages. */
typedef struct {
    ref_kind kind;
    const char *name;
    lent before, after;
    size_t size, words;
} example;

static void empty_example(example *e, ref_kind kind, const char *name)
{
    memset(e, PATTERN, sizeof *e);
    e->kind = kind;
    e->name = name;
    e->size = e->words = 0;
}

/* Behind what the example has. */
static void add_piece(example *e, const piece *p)
{
    uint16_t *list = e->after.list + e->words;
    size_t words = hex_words(p->list, list);
    for (size_t i = 0; i < words; i += REF_CHANGE_WORDS)
        list[i] = (uint16_t)(list[i] + e->size);
    hex_bytes(p->mended, e->after.bytes + e->size);
    e->size += hex_bytes(p->data, e->before.bytes + e->size);
    e->words += words;
}

static void judge_part(mend_judge *judge, const example *e, size_t room, const char *part, int holds)
{
    char what[120];
    const char *kind = e->kind == REF_NOISE ? "noise" : "melodic";
    snprintf(what, sizeof what, "%s of mending %s %s, %zu bytes, room %zu", part, kind, e->name, e->size, room);
    judge(holds, what);
}

static void judge_call(mender *mend, mend_judge *judge, const example *e, size_t room, uint32_t number)
{
    static lent found;
    const lent *wanted = number == 0 ? &e->after : &e->before;
    size_t changes = number == 0 ? e->words / REF_CHANGE_WORDS : 0;
    size_t count = SIZE_MAX;
    found = e->before;
    uint32_t answer = mend(e->kind, found.bytes, e->size, found.list, room, &count);
    judge_part(judge, e, room, "number", answer == number);
    judge_part(judge, e, room, "count", count == changes);
    judge_part(judge, e, room, "data", memcmp(found.bytes, wanted->bytes, sizeof found.bytes) == 0);
    judge_part(judge, e, room, "list", memcmp(found.list, wanted->list, sizeof found.list) == 0);
}

/* In every room up to a little more than is needed. */
static void judge_example(mender *mend, mend_judge *judge, const example *e)
{
    for (size_t room = 0; room <= e->words + 2; room++)
        judge_call(mend, judge, e, room, room < e->words ? REF_NO_ROOM : 0);
}

static void run_cases(mender *mend, mend_judge *judge, ref_kind kind, const piece *cases, size_t count)
{
    static example e;
    for (size_t i = 0; i < count; i++) {
        empty_example(&e, kind, cases[i].data);
        add_piece(&e, &cases[i]);
        judge_example(mend, judge, &e);
    }
}

static void run_long_case(mender *mend, mend_judge *judge, const long_case *c)
{
    static example e;
    empty_example(&e, c->kind, c->row.data);
    for (size_t i = 0; i < c->times; i++)
        add_piece(&e, &c->row);
    add_piece(&e, &c->tail);
    judge_example(mend, judge, &e);
}

static void run_wrong_size(mender *mend, mend_judge *judge, ref_kind kind, size_t size)
{
    static example e;
    empty_example(&e, kind, "80");
    memset(e.before.bytes, 0x80, size);
    e.size = size;
    for (size_t room = 0; room <= LENT_WORDS; room++)
        judge_call(mend, judge, &e, room, REF_BAD_DATA_SIZE);
}

void run_mend_cases(mender *mend, mend_judge *judge)
{
    run_cases(mend, judge, REF_MELODIC, melodic_cases, COUNT_OF(melodic_cases));
    run_cases(mend, judge, REF_NOISE, noise_cases, COUNT_OF(noise_cases));
    for (size_t i = 0; i < COUNT_OF(long_cases); i++)
        run_long_case(mend, judge, &long_cases[i]);
    for (size_t i = 0; i < COUNT_OF(wrong_sizes); i++) {
        run_wrong_size(mend, judge, REF_MELODIC, wrong_sizes[i]);
        run_wrong_size(mend, judge, REF_NOISE, wrong_sizes[i]);
    }
}
