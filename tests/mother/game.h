/* Shared by the parts of the selftest. */
#ifndef GAME_H
#define GAME_H

#include "mother.h"
#include "selftest.h" /* of the old engine's reading: CHECK, hex_bytes, place_is, bytes for periods and presets */

/* The published low tracks' tables and places, and the header of track 0 to fill in. */
typedef struct {
    uint8_t *bank8, *banka;
    size_t bank8_len, banka_len;
    mother_places places;
    uint32_t track;
} game;

/* Where the tests put a channel's playlist and block. */
#define LIST_OF(channel) (0xA400u + 0x40u * (unsigned)(channel))
#define BLOCK_OF(channel) (0x9400u + 0x200u * (unsigned)(channel))
/* Room for playlists of some hundreds of words. */
#define LONG_LIST 0xA800u
#define OTHER_LIST 0xB000u
#define HEADER 0x906Fu
#define GOTO_WORD 0xFFFFu
#define END_WORD 0x0000u

enum { ENVELOPES = 27 };
/* Volumes of the published envelope of this number, 1 to 27, then its last byte. */
typedef struct { uint16_t address; const char *volumes; uint8_t last; } published_envelope;
extern const published_envelope published_envelopes[ENVELOPES];

/* Tempo 150 BPM, no transpose, no channel used. */
game *new_game(void);
void free_game(game *g);
uint8_t *game_at(game *g, uint32_t address);
void game_word(game *g, uint32_t address, uint32_t word);
uint32_t hex_size(const char *hex);
void game_hex(game *g, uint32_t address, const char *hex);
typedef struct { uint32_t address; const char *hex; } piece;
void put_pieces(game *g, const piece *pieces, size_t count);
#define PUT(g, ...)                                                                                                    \
    put_pieces(g, (const piece[]){ __VA_ARGS__ }, sizeof((const piece[]){ __VA_ARGS__ }) / sizeof(piece))
void set_header(game *g, uint8_t transpose, uint8_t window);
void name_playlist(game *g, int channel, uint32_t address);
/* Names the channel's own playlist and puts words there, up to and including an end or a goto's address. */
void put_playlist(game *g, int channel, const uint16_t *words, size_t count);
#define PLAYLIST(g, channel, ...)                                                                                      \
    put_playlist(g, channel, (const uint16_t[]){ __VA_ARGS__ },                                                        \
                 sizeof((const uint16_t[]){ __VA_ARGS__ }) / sizeof(uint16_t))
/* The channel plays this block and ends the track then. */
void play_block(game *g, int channel, const char *hex);
/* So many words that name the block. Returns the address after them. */
uint32_t put_words(game *g, uint32_t address, uint32_t count, uint32_t block);
/* The same of a goto. */
uint32_t put_goto(game *g, uint32_t address, uint32_t to);
/* Of a volume envelope, 1 to 27. */
void set_envelope(game *g, uint32_t number, uint32_t address);
/* Its 64 bytes have no end, and stand across the border of the banks up to this one; the byte behind them is one. */
#define LAST_OF_ENDLESS 0xA01Fu
void put_endless_envelope(game *g, uint32_t number);

uint32_t start_game(game *g, mother_player *player);
uint32_t step_game(game *g, mother_player *player, uint32_t *answer);
uint32_t check_game(game *g, uint32_t *verdict, size_t verdict_len);

int same_player(const mother_player *a, const mother_player *b);
/* A channel's six words. */
int part_is(const uint32_t *answer, int channel, const uint32_t wanted[MOTHER_PART_WORDS]);
#define PART(...) ((const uint32_t[MOTHER_PART_WORDS]){ __VA_ARGS__ })
/* All words from the first to the last but one are 0. */
int are_zeros(const uint32_t *answer, int first, int after);

/* So many frames with events from start. */
void play_frames(game *g, uint32_t frames, mother_player *player);
/* The frame is refused there, after so many commands of the channel, and again if it is asked again. */
void expect_refused(game *g, uint32_t frame, uint32_t number, int channel, uint32_t offset, uint32_t address,
                    uint32_t count);
/* The frame ends the track, after so many commands of the channel, and the next ones are stopped. */
void expect_ended(game *g, uint32_t frame, int channel, uint32_t count);

void test_examples(void);
void test_headers(void);
void test_commands(void);
void test_playlists(void);
void test_records(void);
void test_check(void);

#endif
