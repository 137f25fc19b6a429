/* cuemend FILE TRACK CHANNEL OUTPUT: mends the data of one channel of a track in a Metroid bank.

   Writes the mended bank to OUTPUT and prints a line for each changed byte: offset in the channel's data, address, old
   byte, new byte, and what else the byte belongs to. Exits with 0 if OUTPUT was written, 1 if bank, track or channel is
   refused, 2 if called wrongly or if a file can't be read or written. */
#define _POSIX_C_SOURCE 200809L
#include "hemgosling.h"

#include <errno.h>
#include <stdarg.h>
#include <stdio.h>
#include <string.h>
#include <sys/stat.h>
#include <unistd.h>

enum { WRITTEN = 0, REFUSED = 1, FAILED = 2 };
enum { BANK_START = 0x8000, BANK_END = 0xC000 };
enum { TRACKS = HEM_PUBLISHED_TRACK_COUNT, HEADER_SIZE = 13, HEADER_ADDRESSES = 5 };
enum { LENGTHS_SIZE = 40, PERIODS_SIZE = 128, PRESETS_SIZE = 13, TABLES = 5 };
enum { ENVELOPES = 5, ENVELOPE_LIMIT = 64, ENVELOPE_SILENT = 0xF0, ENVELOPE_DEFAULT = 0xFF };
enum { PARTS_LIMIT = TABLES + ENVELOPES + TRACKS + TRACKS * HEM_CHANNELS, NAME_SIZE = 40, MOST_NAMED = 3 };

static const char *const channel_names[HEM_CHANNELS] = { "square 1", "square 2", "triangle", "noise" };

static const char *const reasons[] = {
    "", "the bank is not 16,384 bytes", "a table is not in the bank", "there is no such track, only 0 to 11",
    "the header is not in the bank", "the header's tempo byte is above 31", "the header names an envelope above 5",
    "the envelope of a square is not in the bank or has no end", "a channel's data is not in the bank",
    "the track uses no channel", "no command", "no key, rest or preset of this channel", "no such length",
    "a length of 0", "a note or rest before any length", "the data has no end"
};

/* The channel to be mended, and what the check says of its track. */
typedef struct {
    const uint8_t *bank;
    uint32_t track, channel;
    uint32_t number, verdict[HEM_VERDICT_WORDS];
} target;

/* What else stands in the bank. */
typedef struct {
    uint32_t address, size;
    char name[NAME_SIZE];
} part;

typedef struct {
    part parts[PARTS_LIMIT];
    size_t count;
} bank_map;

static uint32_t byte_at(const uint8_t *bank, uint32_t address)
{
    return bank[address - BANK_START];
}

static uint32_t word_at(const uint8_t *bank, uint32_t address)
{
    return byte_at(bank, address) + 256 * byte_at(bank, address + 1);
}

static uint32_t header_address(const uint8_t *bank, uint32_t track)
{
    return HEM_PUBLISHED_HEADER_BLOCK + byte_at(bank, HEM_PUBLISHED_HEADER_OFFSETS + track);
}

/* 0: the track doesn't use the channel. */
static uint32_t channel_address(const uint8_t *bank, uint32_t track, uint32_t channel)
{
    return word_at(bank, header_address(bank, track) + HEADER_ADDRESSES + 2 * channel);
}

static uint32_t size_in_bank(uint32_t address, uint32_t limit)
{
    uint32_t left = BANK_END - address;
    return left < limit ? left : limit;
}

static uint32_t check(const uint8_t *bank, size_t bank_len, uint32_t track, uint32_t *verdict)
{
    return hem_check(bank, bank_len, HEM_PUBLISHED_PLACES, track, 0, 0, verdict, HEM_VERDICT_WORDS);
}

/* Of the check's number: neither the bank nor the track's header is refused. */
static int header_passes(uint32_t number)
{
    return number == HEM_OK || number >= HEM_NO_COMMAND;
}

/* Returns how many bytes were changed. Size and room are right, so it is never refused. */
static uint32_t mend(uint32_t channel, uint8_t *data, size_t size, uint16_t changes[HEM_MEND_WORDS])
{
    uint32_t count = 0;
    hem_mend(channel == HEM_NOISE, data, size, changes, HEM_MEND_WORDS, &count, 1);
    return count;
}

/* The bytes of a channel's data up to its first end. A mended copy is read, so that no bad byte stops the reading. */
static uint32_t used_size(const uint8_t *bank, uint32_t address, uint32_t channel)
{
    uint8_t copy[HEM_DATA_LIMIT];
    uint16_t changes[HEM_MEND_WORDS], words[HEM_DATA_LIMIT];
    uint32_t size = size_in_bank(address, HEM_DATA_LIMIT), count = 0, used = 0;
    memcpy(copy, bank + (address - BANK_START), size);
    mend(channel, copy, size, changes);
    hem_read_words(channel == HEM_NOISE, copy, size, words, HEM_DATA_LIMIT, &count, 1);
    for (uint32_t i = 0; i < count; i++)
        used += (words[i] & 0xF0) == 0xB0 ? 2 : 1; /* set length alone has a second byte */
    return used;
}

static void add_part(bank_map *map, uint32_t address, uint32_t size, const char *name, ...)
{
    part *added = &map->parts[map->count++];
    va_list values;
    added->address = address;
    added->size = size;
    va_start(values, name);
    vsnprintf(added->name, sizeof added->name, name, values);
    va_end(values);
}

static void add_tables(bank_map *map)
{
    add_part(map, HEM_PUBLISHED_HEADER_OFFSETS, TRACKS, "the header offsets");
    add_part(map, HEM_PUBLISHED_NOTE_LENGTHS, LENGTHS_SIZE, "the note lengths");
    add_part(map, HEM_PUBLISHED_KEY_PERIODS, PERIODS_SIZE, "the key periods");
    add_part(map, HEM_PUBLISHED_NOISE_PRESETS, PRESETS_SIZE, "the noise presets");
    add_part(map, HEM_PUBLISHED_ENVELOPE_ADDRESSES, 2 * ENVELOPES, "the envelope addresses");
}

/* 0: it stands outside of the bank or has no end. */
static uint32_t envelope_size(const uint8_t *bank, uint32_t address)
{
    if (address < BANK_START || address >= BANK_END)
        return 0;
    for (uint32_t i = 0; i < size_in_bank(address, ENVELOPE_LIMIT); i++) {
        uint32_t byte = byte_at(bank, address + i);
        if (byte == ENVELOPE_SILENT || byte == ENVELOPE_DEFAULT)
            return i + 1;
    }
    return 0;
}

static void add_envelopes(bank_map *map, const uint8_t *bank)
{
    for (uint32_t i = 0; i < ENVELOPES; i++) {
        uint32_t address = word_at(bank, HEM_PUBLISHED_ENVELOPE_ADDRESSES + 2 * i);
        add_part(map, address, envelope_size(bank, address), "envelope %u", i + 1);
    }
}

/* At the published place all of them stand in the bank: an offset is a byte, and the bank ends 719 bytes behind it. */
static void add_headers(bank_map *map, const uint8_t *bank)
{
    for (uint32_t track = 0; track < TRACKS; track++)
        add_part(map, header_address(bank, track), HEADER_SIZE, "the header of track %u", track);
}

static void add_other_channels(bank_map *map, const target *t)
{
    uint32_t verdict[HEM_VERDICT_WORDS];
    for (uint32_t i = 0; i < TRACKS * HEM_CHANNELS; i++) {
        uint32_t track = i / HEM_CHANNELS, channel = i % HEM_CHANNELS;
        uint32_t address = channel_address(t->bank, track, channel);
        int other = track != t->track || channel != t->channel;
        if (other && address != 0 && header_passes(check(t->bank, HEM_BANK_SIZE, track, verdict)))
            add_part(map, address, used_size(t->bank, address, channel), "the data of track %u, %s", track,
                     channel_names[channel]);
    }
}

static void print_marks(const bank_map *map, uint32_t address)
{
    uint32_t marks = 0;
    for (size_t i = 0; i < map->count; i++) {
        const part *p = &map->parts[i];
        if (address < p->address || address - p->address >= p->size)
            continue;
        if (marks < MOST_NAMED)
            printf("%s in %s", marks == 0 ? "" : ",", p->name);
        marks++;
    }
    if (marks > MOST_NAMED)
        printf(", and in %u more", marks - MOST_NAMED);
}

static void print_changes(const target *t, const uint16_t *changes, uint32_t count)
{
    bank_map map = { .count = 0 };
    add_tables(&map);
    add_envelopes(&map, t->bank);
    add_headers(&map, t->bank);
    add_other_channels(&map, t);
    for (uint32_t i = 0; i < count; i++) {
        const uint16_t *change = changes + HEM_CHANGE(i);
        uint32_t offset = change[HEM_CHANGE_OFFSET];
        uint32_t address = channel_address(t->bank, t->track, t->channel) + offset;
        printf("%u %04x %02x %02x", offset, address, change[HEM_CHANGE_OLD], change[HEM_CHANGE_NEW]);
        print_marks(&map, address);
        printf("\n");
    }
}

static void print_nothing_changed(const target *t)
{
    if (t->number == HEM_OK) {
        printf("nothing is changed: the track passes, %s ends it in frame %u\n",
               channel_names[t->verdict[HEM_PASS_CHANNEL]], t->verdict[HEM_PASS_FRAME]);
        return;
    }
    printf("nothing is changed: %s can be read up to its end\n", channel_names[t->channel]);
    printf("the track is refused, number %u, in %s at offset %u, address %04x: %s\n", t->number,
           channel_names[t->verdict[HEM_FAULT_CHANNEL]], t->verdict[HEM_FAULT_OFFSET], t->verdict[HEM_FAULT_ADDRESS],
           reasons[t->number]);
}

static int cannot(const char *what, const char *path, const char *why)
{
    fprintf(stderr, "cuemend: can't %s %s: %s\n", what, path, why);
    return 0;
}

/* Up to one byte more than a bank, so that a longer file is refused too. */
static int read_bank(const char *path, uint8_t bank[HEM_BANK_SIZE + 1], size_t *bank_len)
{
    FILE *file = fopen(path, "rb");
    if (file == NULL)
        return cannot("read", path, strerror(errno));
    *bank_len = fread(bank, 1, HEM_BANK_SIZE + 1, file);
    int failed = ferror(file);
    if (failed)
        cannot("read", path, strerror(errno));
    fclose(file);
    return !failed;
}

/* Written beside its place and then moved there, so that a failed write leaves what stood there. A move would replace a
   device, a link or a write-protected file as well: those are left alone. */
static int write_bank(const char *path, const uint8_t *bank)
{
    char beside[FILENAME_MAX];
    struct stat there;
    if (lstat(path, &there) == 0 && !S_ISREG(there.st_mode))
        return cannot("write", path, "it is not a plain file");
    if (access(path, W_OK) != 0 && errno != ENOENT)
        return cannot("write", path, strerror(errno));
    if (snprintf(beside, sizeof beside, "%s.tmp", path) >= (int)sizeof beside)
        return cannot("write", path, strerror(ENAMETOOLONG));
    FILE *file = fopen(beside, "wbx");
    if (file == NULL)
        return cannot("write", beside, strerror(errno));
    size_t written = fwrite(bank, 1, HEM_BANK_SIZE, file);
    if (fclose(file) == 0 && written == HEM_BANK_SIZE && rename(beside, path) == 0)
        return 1;
    cannot("write", path, strerror(errno));
    remove(beside);
    return 0;
}

/* A track that passes is left as it is: its channel may rightly have no end, because another one ends the track. */
static int mend_target(const target *t, const char *output)
{
    static uint8_t mended[HEM_BANK_SIZE];
    uint16_t changes[HEM_MEND_WORDS];
    uint32_t address = channel_address(t->bank, t->track, t->channel), count = 0;
    memcpy(mended, t->bank, HEM_BANK_SIZE);
    if (t->number != HEM_OK)
        count = mend(t->channel, mended + (address - BANK_START), size_in_bank(address, HEM_DATA_LIMIT), changes);
    if (!write_bank(output, mended))
        return FAILED;
    if (count == 0)
        print_nothing_changed(t);
    else
        print_changes(t, changes, count);
    return WRITTEN;
}

/* Anything but digits, and a number too large, becomes one that is no track and no channel. */
static uint32_t plain_number(const char *text)
{
    uint32_t number = 0;
    if (*text == '\0')
        return UINT32_MAX;
    for (; *text != '\0'; text++) {
        if (*text < '0' || *text > '9' || number >= UINT32_MAX / 10)
            return UINT32_MAX;
        number = 10 * number + (uint32_t)(*text - '0');
    }
    return number;
}

static int run(char **arguments)
{
    static uint8_t bank[HEM_BANK_SIZE + 1];
    size_t bank_len;
    target t = { .bank = bank, .track = plain_number(arguments[1]), .channel = plain_number(arguments[2]) };
    if (!read_bank(arguments[0], bank, &bank_len))
        return FAILED;
    t.number = check(bank, bank_len, t.track, t.verdict);
    if (!header_passes(t.number))
        printf("refused, number %u: %s\n", t.number, reasons[t.number]);
    else if (t.channel >= HEM_CHANNELS)
        printf("refused: there is no such channel, only 0 (square 1), 1 (square 2), 2 (triangle) and 3 (noise)\n");
    else if (channel_address(bank, t.track, t.channel) == 0)
        printf("refused: the track doesn't use %s\n", channel_names[t.channel]);
    else
        return mend_target(&t, arguments[3]);
    return REFUSED;
}

int main(int argc, char **argv)
{
    if (argc != 5) {
        fprintf(stderr, "usage: cuemend FILE TRACK CHANNEL OUTPUT\n");
        return FAILED;
    }
    int status = run(argv + 1);
    int printed = !ferror(stdout);
    if (fclose(stdout) == 0 && printed)
        return status;
    fprintf(stderr, "cuemend: can't write standard output%s\n", status == WRITTEN ? ", but OUTPUT is written" : "");
    return FAILED;
}
