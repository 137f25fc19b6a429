/* A plain reading of the papers, kept apart from the proved library so that the two can be compared.
   Document 01 is the contract, document 02 what was asked for after it, document 001 the published format. */
#ifndef REFERENCE_H
#define REFERENCE_H

#include <stddef.h>
#include <stdint.h>
#include <stdio.h>

/* The bank stands for addresses $8000 to $bfff. */
#define REF_BANK_SIZE 16384u
#define REF_BANK_FIRST 0x8000u
#define REF_BANK_END 0xC000u

#define REF_CHANNELS 4
#define REF_SQUARES 2
#define REF_TRIANGLE 2
#define REF_NOISE_CHANNEL 3

#define REF_DATA_LIMIT 256u
#define REF_LENGTH_COUNT 40u
#define REF_MOST_FRAMES 16777216u /* that a record may name */
#define REF_ANSWER_WORDS 29

/* Numbers of refusal. */
enum {
    REF_BAD_BANK_SIZE = 1,
    REF_BAD_PLACES = 2,
    REF_BAD_TRACK = 3,
    REF_BAD_HEADER = 4,
    REF_BAD_WINDOW = 5,
    REF_BAD_ENVELOPE_NUMBER = 6,
    REF_BAD_ENVELOPE = 7,
    REF_BAD_ADDRESS = 8,
    REF_NO_CHANNEL = 9,
    REF_NO_COMMAND = 10,
    REF_NO_SUCH_KEY = 11,
    REF_LENGTH_OUTSIDE = 12,
    REF_LENGTH_ZERO = 13,
    REF_NO_LENGTH_YET = 14,
    REF_PAST_DATA = 15,
    REF_BAD_RECORD = 16,
    REF_BAD_WORD = 17,
    REF_NO_ROOM = 18,
    REF_BAD_DATA_SIZE = 23
};

typedef enum { REF_MELODIC, REF_NOISE } ref_kind;

/* What a byte is where a command stands. The first rule that fits decides. */
typedef enum {
    REF_BYTE_END,        /* 00 */
    REF_BYTE_LOOP_END,   /* FF */
    REF_BYTE_LOOP_BEGIN, /* C0 to FE */
    REF_BYTE_LENGTH,     /* B0 to BF */
    REF_BYTE_NOTHING,    /* 80 to AF */
    REF_BYTE_SOUND       /* 01 to 7F: a key, rest or preset, or no such one */
} ref_byte;

ref_byte ref_byte_class(uint8_t byte);
/* A key, rest or preset directly after BL, or sounding. For a melodic channel 00 is one: key 0. */
int ref_is_sound(ref_kind kind, uint8_t byte);
/* Of such a byte. A key is a rest if its word in the period table, high byte first, has low byte 0; of noise 01 is. */
int ref_is_rest(ref_kind kind, uint8_t byte, const uint8_t periods[128]);

/* Straight reading: 0 or the refusal. *count: words written (after a refusal, those of the commands before it).
   *offset: of the byte, for 10, 11 and 15; else 0. */
uint32_t ref_read_words(ref_kind kind, const uint8_t *bytes, size_t len, uint16_t *words, size_t room,
                        size_t *count, size_t *offset);
/* Writing: 0, 17 or 18. *count: bytes written; a refusal writes none. */
uint32_t ref_write_words(ref_kind kind, const uint16_t *words, size_t n, uint8_t *bytes, size_t room,
                         size_t *count);

/* Mending: 0, 23 or 18. The list gets three words for each changed byte, in rising order: offset, old and new byte.
   *count: changes. A refusal changes nothing and has none. */
#define REF_CHANGE_WORDS 3
#define REF_MEND_WORDS (REF_CHANGE_WORDS * REF_DATA_LIMIT)
uint32_t ref_mend(ref_kind kind, uint8_t *bytes, size_t len, uint16_t *list, size_t room, size_t *count);

typedef struct {
    uint32_t header_offsets, header_block, note_lengths, key_periods, noise_presets, envelope_addresses;
    uint32_t track_count;
    uint8_t default1, default2;
} ref_places;

/* An opened track. The pointers look into the bank. */
typedef struct {
    uint8_t t;                           /* +0 */
    uint8_t restart;                     /* +1 */
    uint8_t release;                     /* +2: FFFF LLLL */
    uint8_t envelope_number[REF_SQUARES];
    uint16_t address[REF_CHANNELS];      /* 0: unused */
    uint8_t default_ctrl[REF_SQUARES];
    const uint8_t *envelope[REF_SQUARES]; /* NULL: none, or an unused square */
    const uint8_t *data[REF_CHANNELS];   /* NULL: unused */
    size_t data_len[REF_CHANNELS];
    const uint8_t *lengths, *periods, *presets;
} ref_track;

/* The places as published, with 12 tracks and default ctrl 1 bytes 0. */
ref_places ref_published_places(void);
/* Numbers 1 to 9, or 0. *out is filled on 0 only. */
uint32_t ref_open(const uint8_t *bank, size_t len, const ref_places *places, uint32_t track, ref_track *out);
/* The address of the byte at the offset from the channel's start, also where the data or the bank ends before it. */
uint32_t ref_address_of(const ref_track *track, int channel, uint32_t offset);

typedef struct { uint16_t next, loop_start; uint8_t counter, length, left, sounding; } ref_channel;
typedef struct {
    uint8_t stopped;
    ref_channel channels[REF_CHANNELS];
    uint32_t frames_left, pass_length; /* until the first stop: the end, or the refusal of a track that doesn't pass */
} ref_player;

ref_kind ref_kind_of(int channel);

/* One channel alone from a fresh cursor, to its end (number 0) or first fault. */
typedef struct { uint64_t frames; uint32_t number; uint32_t offset; uint64_t commands; } ref_timeline;
ref_timeline ref_walk(ref_kind kind, const uint8_t *data, size_t len, const uint8_t lengths[40], uint8_t t);

/* Reads commands until a note, the end or a fault. *offset: of the refused byte or of the end's 00, else 0.
   A refused command and the end leave the channel as the commands before them left it. */
uint32_t ref_read_until(ref_kind kind, const uint8_t *data, size_t len, const uint8_t lengths[40], uint8_t t,
                        ref_channel *ch, int *ended, uint32_t *offset, uint32_t *count);

/* Returns 0 or 1 to 9. Both numbers of the record are the first stop's frame by each channel's walk. */
uint32_t ref_start(ref_player *p, const uint8_t *bank, size_t len, const ref_places *places, uint32_t track);

/* answer[0] */
enum { REF_EVENTS = 0, REF_END = 1, REF_STOPPED = 2, REF_REFUSED = 3 };
/* first of a channel's five words */
enum { REF_OFF = 0, REF_REST = 1, REF_NOTE = 2 };
#define REF_ANSWER_COUNTS 1
#define REF_ANSWER_CHANNEL 5
#define REF_ANSWER_OFFSET 6
#define REF_ANSWER_ADDRESS 7
#define REF_ANSWER_LEFT 8
#define REF_ANSWER_PARTS 9
#define REF_PART_WORDS 5
#define REF_RELEASE_NEVER 255u

uint32_t ref_frame(ref_player *p, const uint8_t *bank, size_t len, const ref_places *places, uint32_t track,
                   uint32_t answer[REF_ANSWER_WORDS]);

/* number 0: pass, with frame and channel of the first end, and offset and address 0 */
typedef struct { uint32_t number; uint32_t channel, offset; uint64_t frame; uint32_t address; } ref_verdict;
/* By running start and the frames one by one. */
ref_verdict ref_check_by_frames(const uint8_t *bank, size_t len, const ref_places *places, uint32_t track);
/* By each used channel's walk: the least frame, then the first channel. */
ref_verdict ref_check_by_channels(const uint8_t *bank, size_t len, const ref_places *places, uint32_t track);

/* The line of a track. */
void ref_print_verdict(FILE *out, uint32_t track, const ref_verdict *v);
/* What cuecheck prints for this input. */
void ref_print_cues(FILE *out, const uint8_t *bytes, size_t len);

#endif
