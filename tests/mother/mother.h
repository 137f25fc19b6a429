/* A plain reading of the papers on the later engine, kept apart from the proved library so that the two can be
   compared. Request No. 3 of document 02 is the contract, document 003 the published format. Channels, numbers of
   refusal and the first words of an answer are those of the old engine's reading. */
#ifndef MOTHER_H
#define MOTHER_H

#include "reference.h"

/* Two banks stand for the addresses of the old engine's one: $8000 to $9fff and $a000 to $bfff. */
#define MOTHER_BANK_SIZE 8192u
#define MOTHER_BANK_A 0xA000u

#define MOTHER_BLOCK_LIMIT 256u
#define MOTHER_LENGTH_COUNT 104u
#define MOTHER_LAST_KEY 0x84 /* as a byte */
#define MOTHER_MELODIC_REST 0x02
#define MOTHER_LAST_ENVELOPE 0x1B
#define MOTHER_MOST_BLOCK_WORDS 256u /* in a row */
#define MOTHER_MOST_COMMANDS 100000u /* of a channel in a frame */

enum { MOTHER_ODD_TRANSPOSE = 19, MOTHER_BAD_PLAYLIST = 20, MOTHER_TOO_MANY_COMMANDS = 21, MOTHER_NO_NOTE = 22 };

typedef struct {
    const uint8_t *bank8;
    size_t bank8_len;
    const uint8_t *banka;
    size_t banka_len;
} mother_banks;

typedef struct {
    uint32_t header_offsets, header_block, note_lengths, key_periods, noise_presets, envelope_addresses;
    uint32_t track_count;
} mother_places;
#define MOTHER_LOW_PLACES { 0x903E, 0x906F, 0x8FD6, 0x8F4C, 0x8928, 0x8DED, 24 }
#define MOTHER_HIGH_PLACES { 0x9056, 0x915F, 0x8FD6, 0x8F4C, 0x8928, 0x8DED, 25 }

/* An opened track: what start and frame read from. */
typedef struct {
    mother_banks banks;
    mother_places places;
    uint8_t transpose, window;
    uint16_t playlists[REF_CHANNELS];
} mother_track;

/* banks.c */
int mother_within(uint64_t address, uint64_t size);
/* The address must be in the banks. */
uint8_t mother_byte(const mother_banks *banks, uint32_t address);
/* Low byte first; both bytes must be in the banks. */
uint32_t mother_word(const mother_banks *banks, uint32_t address);
/* Bytes of the block at an address in the banks: 256, or to the end of its bank. */
uint32_t mother_block_size(uint32_t block);
/* nmmm mmmm: +m, or -1 - m */
int mother_amount(uint8_t transpose);
int mother_is_odd(uint8_t transpose);
/* 1 to 4, 8, 9, 19, or 0. *out is filled on 0 only. */
uint32_t mother_open(const mother_banks *banks, const mother_places *places, uint32_t number, mother_track *out);
int mother_is_used(const mother_track *track, int channel);

/* envelope.c: volume envelopes by their number, 0 for none. */
/* 6, 7 or 0 */
uint32_t mother_envelope_fault(const mother_track *track, uint32_t envelope);
/* Ctrl 1 in the note's frame of this index. The envelope's number is at most $1b. */
uint32_t mother_ctrl1(const mother_track *track, uint32_t envelope, uint8_t ctrl, uint32_t index);

/* command.c: what a byte is where a command stands. The first rule that fits decides. */
typedef enum {
    MOTHER_BLOCK_END,  /* 00 */
    MOTHER_TRANSPOSE,  /* 9c mm */
    MOTHER_WINDOW,     /* 9e tt */
    MOTHER_LOOP_END,   /* ff */
    MOTHER_LENGTH,     /* bL and what sounds then */
    MOTHER_LOOP_BEGIN, /* 11nn nnnn */
    MOTHER_TIMBRE,     /* 9f pppx xxxx CC, squares and triangle */
    MOTHER_SOUND,      /* a key, rest or preset */
    MOTHER_NO_SOUND,   /* refused: 11 */
    MOTHER_NOTHING     /* refused: 10 */
} mother_kind;

mother_kind mother_kind_of(int channel, uint8_t byte);
/* Noise: the low six bits are the rest or a preset. */
int mother_is_preset(uint8_t byte);
/* Of a key, rest or preset under the transpose: the byte that sounds, or -1 if there is none (11). */
int mother_sounding(int channel, uint8_t byte, uint8_t transpose);
int mother_is_rest(int channel, uint8_t sounding);

/* playlist.c: a playlist's word. */
typedef enum { MOTHER_TRACK_END, MOTHER_GOTO, MOTHER_BLOCK, MOTHER_BAD_WORD } mother_word_kind;
/* address: where the playlist goes on after a goto, or the block's; else 0 */
typedef struct { mother_word_kind kind; uint16_t address; } mother_entry;
mother_entry mother_entry_at(const mother_banks *banks, uint32_t list);

typedef struct {
    uint16_t list, row, block, next, loop_start;
    uint8_t counter, length, left, sounding, timbre, ctrl;
} mother_channel;
typedef struct {
    uint8_t stopped, transpose, window;
    mother_channel channels[REF_CHANNELS];
} mother_player;

/* reading.c: one channel's commands until a note, the track's end or a refusal. */
typedef struct { int ended; uint32_t count, offset; } mother_reading;
/* 0 or the number; steps the channel and the player's transpose and window. */
uint32_t mother_read(const mother_track *track, int channel, mother_player *player, mother_reading *told);

/* player.c */
#define MOTHER_ANSWER_WORDS 32
#define MOTHER_ANSWER_PARTS 8
#define MOTHER_PART_WORDS 6

uint32_t mother_start(mother_player *player, const mother_banks *banks, const mother_places *places, uint32_t number);
uint32_t mother_frame(mother_player *player, const mother_banks *banks, const mother_places *places, uint32_t number,
                      uint32_t answer[MOTHER_ANSWER_WORDS]);

/* check.c */
enum { MOTHER_VERDICT_CHANNEL, MOTHER_VERDICT_OFFSET, MOTHER_VERDICT_PLACE, MOTHER_VERDICT_ADDRESS,
       MOTHER_VERDICT_WORDS };

/* 0 for a pass, or the number. Of a fault the verdict's words are written as far as they fit; nothing of a pass or of
   what mother_open refuses. */
uint32_t mother_check(const mother_banks *banks, const mother_places *places, uint32_t number, uint32_t *verdict,
                      size_t verdict_len);

#endif
