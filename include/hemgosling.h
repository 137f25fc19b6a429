/* Hemgosling: tracks in the music formats of the NES games Metroid and Mother.

   The library judges a track of a music bank (where it ends, or where and why it cannot be played) and plays it frame
   by frame, 60 frames a second. It reads the bank that you lend it, writes only into the record and buffers that you
   lend it, allocates nothing, keeps nothing between calls and makes no sound itself: you get keys, periods and register
   bytes. Every call answers every input, damaged banks and records too, and is proved to do what is said here; it
   never crashes, never runs forever, and never reads or writes outside of what was lent.

   What comes first is for Metroid's format. The calls for Mother's, the later engine's, stand at the end, under
   hem_mother_, with two banks, a verdict, a record and an answer of their own.

   Link with crates/hemgosling/out/libhemgosling.a (x86-64 Linux). A complete program stands in README.md. */
#ifndef HEMGOSLING_H
#define HEMGOSLING_H

#include <stddef.h>
#include <stdint.h>

#ifdef __cplusplus
extern "C" {
#endif

/* What you owe

   - A pointer points to as many elements as the length after it says (a player pointer: to one record), is aligned for
     its type and is not NULL, even where the length is 0.
   - What is written (record, verdict, answer, told, the output of the words calls, the data and the list of hem_mend)
     overlaps nothing else that is lent in the same call: not the bank, not another buffer. What is only read may
     overlap, as Mother's two banks may.
   - During a call nobody else reads or writes what the call writes, or writes what it reads (the bank, the input of the
     words calls). Any number of calls with records and buffers of their own may run at the same time on one bank.
   - For a verdict of hem_check and the frames left to hold of playing: bank bytes and all arguments from bank to
     default2 are the same in the check, in hem_start and in every hem_frame, and only hem_start and hem_frame write the
     record. So for a pass of hem_mother_check: banks and arguments from bank8 to track are the same in the check, in
     hem_mother_start and in every hem_mother_frame, and only these two write the record.

   Nothing else is asked. Every value of a size_t or uint32_t argument is tested, and none is cut to a smaller one. But
   default1 and default2 are bytes: C itself cuts a larger number to its low 8 bits, and no call can see that. */

/* The bank and the places in it

   A bank is 16,384 bytes and stands for the addresses 0x8000 to 0xbfff. Bank b of an iNES file starts at its byte
   16 + 16384 * b. All calls on a track of Metroid's format take the same arguments, in this order:

     bank, bank_len       the bank's bytes; only read
     header_offsets       address of a byte a track: where in the header block the track's header stands
     header_block         address that these bytes are added to
     note_lengths         address of 40 bytes: lengths in frames
     key_periods          address of 64 words, high byte first: periods of the keys; a key whose word has low byte 0 is
                          a rest
     noise_presets        address of 13 bytes: from offset 1 the rest and three presets, three bytes each
     envelope_addresses   address of 5 words, low byte first: where the envelopes stand
     track_count          how many tracks the bank has, 1 to 255
     track                the track's number, from 0
     default1, default2   ctrl 1 bytes (duty and volume, for $4000 and $4004) of squares 1 and 2 that the game keeps in
                          code; 0 if you don't know them */
#define HEM_BANK_SIZE 16384u

#define HEM_PUBLISHED_HEADER_OFFSETS 0xBBFAu
#define HEM_PUBLISHED_HEADER_BLOCK 0xBD31u
#define HEM_PUBLISHED_NOTE_LENGTHS 0xBEF7u
#define HEM_PUBLISHED_KEY_PERIODS 0xBE77u
#define HEM_PUBLISHED_NOISE_PRESETS 0xB200u
#define HEM_PUBLISHED_ENVELOPE_ADDRESSES 0xBCB0u
#define HEM_PUBLISHED_TRACK_COUNT 12u
/* Metroid's own, as seven arguments: header_offsets to track_count. */
#define HEM_PUBLISHED_PLACES                                                                                           \
    HEM_PUBLISHED_HEADER_OFFSETS, HEM_PUBLISHED_HEADER_BLOCK, HEM_PUBLISHED_NOTE_LENGTHS, HEM_PUBLISHED_KEY_PERIODS,   \
        HEM_PUBLISHED_NOISE_PRESETS, HEM_PUBLISHED_ENVELOPE_ADDRESSES, HEM_PUBLISHED_TRACK_COUNT

/* Channels, in the order in which they are played. */
enum { HEM_SQUARE_1 = 0, HEM_SQUARE_2 = 1, HEM_TRIANGLE = 2, HEM_NOISE = 3, HEM_CHANNELS = 4 };

/* A channel's data: this many bytes from its address, or to the bank's end if that is sooner. */
#define HEM_DATA_LIMIT 256u

/* Numbers of refusal

   Every call returns 0 or one of these. 1 to 9 are about the arguments and the track's header, and are tested in this
   order; 10 to 15 are faults at a byte of a channel's data, named by channel, offset from the start of its data, and
   address, which is the channel's address in the track's header plus the offset. For 12 and 13 the byte is the
   set-length command's first one; for 15 it is the one that is needed, and its address may pass 0xbfff. The words calls
   have no bank and tell the offset alone. For the Mother calls some of these numbers say something else, and 19 to 22
   are theirs alone: see there. */
typedef enum {
    HEM_OK = 0,
    HEM_BAD_BANK_SIZE = 1,       /* bank_len is not 16,384 */
    HEM_BAD_PLACES = 2,          /* track_count outside 1 to 255, or a table (of the header block: its address) not
                                    wholly within 0x8000 to 0xbfff */
    HEM_BAD_TRACK = 3,           /* track is not below track_count */
    HEM_BAD_HEADER = 4,          /* the track's 13-byte header is not wholly in the bank */
    HEM_BAD_WINDOW = 5,          /* the header's tempo byte is above 31 */
    HEM_BAD_ENVELOPE_NUMBER = 6, /* the header names an envelope above 5 */
    HEM_BAD_ENVELOPE = 7,        /* a used square's envelope is outside the bank, or has no end in its 64 bytes */
    HEM_BAD_ADDRESS = 8,         /* a channel's data is outside the bank */
    HEM_NO_CHANNEL = 9,          /* the track uses no channel; also what an empty entry of a bank gives */
    HEM_NO_COMMAND = 10,         /* a byte 0x80 to 0xaf where a command stands */
    HEM_NO_SUCH_KEY = 11,        /* a byte that is no key, rest or preset of its channel */
    HEM_LENGTH_OUTSIDE = 12,     /* a set-length command picks an entry outside the table of 40 */
    HEM_LENGTH_ZERO = 13,        /* a set-length command picks a length of 0 frames */
    HEM_NO_LENGTH_YET = 14,      /* a note or rest before any set-length command */
    HEM_PAST_DATA = 15,          /* a byte is needed past the channel's data */
    HEM_BAD_RECORD = 16,         /* hem_frame: the record given cannot be played on from (see hem_player) */
    HEM_BAD_WORD = 17,           /* hem_write_words: a word that is no command, or no end or a second one */
    HEM_NO_ROOM = 18,            /* the words calls: the buffer is too small, or more than 256 bytes to write; hem_mend:
                                    the list is too small */
    HEM_ODD_TRANSPOSE = 19,      /* Mother: a transpose byte of odd amount, in the header or in a command */
    HEM_BAD_PLAYLIST = 20,       /* Mother: a playlist's word can't be followed */
    HEM_TOO_MANY_COMMANDS = 21,  /* Mother: a channel would read a 100,001st command in one frame */
    HEM_NO_NOTE = 22,            /* hem_mother_check: a block without a note or rest */
    HEM_BAD_DATA_SIZE = 23       /* hem_mend: no byte of data, or more than 256 */
} hem_refusal;

/* The player's record

   44 bytes that hem_start fills and hem_frame steps. You may keep it, copy it and save it. hem_frame refuses one whose
   frames_left or pass_length is above 16,777,216, and one that, in a channel that the track uses, has an offset above
   256, or left above 0 with a length below it or with a sounding byte that is no key, rest or preset of that channel;
   from any other record it plays on. The byte before channels and the two after it have no meaning. */
typedef struct {
    uint16_t next;       /* offset of the next command in the channel's data */
    uint16_t loop_start; /* offset after the last begin-loop command */
    uint8_t counter;     /* plays of the loop still to come */
    uint8_t length;      /* current note length in frames; 0: none yet */
    uint8_t left;        /* frames left of the sounding note or rest */
    uint8_t sounding;    /* byte of the sounding note or rest */
} hem_channel;

typedef struct {
    uint8_t stopped; /* any value but 0: the track has ended and does not restart */
    hem_channel channels[HEM_CHANNELS];
    uint32_t frames_left; /* frames until the end that hem_check tells, or until the fault */
    uint32_t pass_length; /* what frames_left is at the start, and again after a restart */
} hem_player;

#ifdef __cplusplus
static_assert(sizeof(hem_channel) == 8 && sizeof(hem_player) == 44, "the library's records have these sizes");
#else
_Static_assert(sizeof(hem_channel) == 8 && sizeof(hem_player) == 44, "the library's records have these sizes");
#endif

/* The verdict: what hem_check writes. Frames count from 0. */
#define HEM_VERDICT_WORDS 4
/* of a pass (0) */
#define HEM_PASS_FRAME 0   /* frame of the first end: as many frames sound before it */
#define HEM_PASS_CHANNEL 1 /* channel that meets it */
/* of a fault (10 to 15) */
#define HEM_FAULT_CHANNEL 0
#define HEM_FAULT_OFFSET 1
#define HEM_FAULT_FRAME 2
#define HEM_FAULT_ADDRESS 3 /* at most 0xc000, where the bank ends */

/* The answer: what hem_frame writes. Words that have nothing to tell are 0. */
#define HEM_ANSWER_WORDS 29
#define HEM_ANSWER_KIND 0    /* HEM_EVENTS, HEM_END, HEM_STOPPED or HEM_REFUSED */
#define HEM_ANSWER_COUNTS 1  /* four words, one a channel: commands it read in this frame, an end counted, a refused
                                command not */
#define HEM_ANSWER_CHANNEL 5 /* of a refusal 10 to 15: the channel, */
#define HEM_ANSWER_OFFSET 6  /* the byte's offset in its data */
#define HEM_ANSWER_ADDRESS 7 /* and its address, at most 0xc0ff: a record may name an offset behind the data */
#define HEM_ANSWER_LEFT 8    /* frames_left of the record given, whatever the kind */
#define HEM_ANSWER_PARTS 9   /* with HEM_EVENTS: five words a channel */
enum { HEM_EVENTS = 0, HEM_END = 1, HEM_STOPPED = 2, HEM_REFUSED = 3 };

/* A channel's part of the answer: its words are answer[HEM_ANSWER_PART(channel) + one of these]. */
#define HEM_PART_WORDS 5
#define HEM_PART_STATE 0   /* HEM_OFF (unused by the track), HEM_REST or HEM_NOTE */
#define HEM_PART_BEGAN 1   /* 1: the note or rest begins in this frame */
#define HEM_PART_KEY 2     /* squares and triangle, a note: key 0 to 63 */
#define HEM_PART_PERIOD 3  /* squares and triangle, a note: the key's word of the period table */
#define HEM_PART_CTRL1 4   /* squares: ctrl 1 byte for this frame; of a rest 0x10 */
#define HEM_PART_RELEASE 4 /* triangle: quarter-frames until a note is silenced, or HEM_RELEASE_NEVER; of a rest 0 */
#define HEM_PART_PRESET 2  /* noise, a note: three words, the preset's bytes for $400C, $400E and $400F */
enum { HEM_OFF = 0, HEM_REST = 1, HEM_NOTE = 2 };
#define HEM_RELEASE_NEVER 255
#define HEM_ANSWER_PART(channel) (HEM_ANSWER_PARTS + HEM_PART_WORDS * (channel))

/* Judges a track without playing it; the cost grows with the bytes of its channels, not with its frames.

   Returns 0 if the track plays from hem_start to its first end without a refusal, and writes to verdict the frame and
   the channel of that end. Else returns the refusal that playing meets first: 1 to 9, and verdict stays as it is; or 10
   to 15, and it writes channel, offset, frame and address to verdict. Where several channels stop in one frame the
   first of them decides. A fault that stands behind the track's end is never met and is no refusal.

   The returned number never depends on verdict_len. As many of the values as fit are written; the rest of the buffer
   stays. HEM_VERDICT_WORDS words are always enough. */
uint32_t hem_check(const uint8_t *bank, size_t bank_len, uint32_t header_offsets, uint32_t header_block,
                   uint32_t note_lengths, uint32_t key_periods, uint32_t noise_presets, uint32_t envelope_addresses,
                   uint32_t track_count, uint32_t track, uint8_t default1, uint8_t default2, uint32_t *verdict,
                   size_t verdict_len);

/* Makes a fresh record, whatever it held. Returns 0 or the refusal, 1 to 9.

   If it returns 0, frames_left and pass_length are both the frame that hem_check tells: that of the track's first end
   or, if a fault (10 to 15) is met before it, that of the fault. All else of the record is 0, and after a refusal all
   of it. The cost grows with the bytes of the channels, not with the frames. */
uint32_t hem_start(hem_player *player, const uint8_t *bank, size_t bank_len, uint32_t header_offsets,
                   uint32_t header_block, uint32_t note_lengths, uint32_t key_periods, uint32_t noise_presets,
                   uint32_t envelope_addresses, uint32_t track_count, uint32_t track, uint8_t default1,
                   uint8_t default2);

/* Plays one frame and steps the record. Tests 1 to 9, then 16, then whether the record is stopped, then plays.

   Returns 0 with one of
     HEM_EVENTS   what each channel sounds in this frame; the record is stepped: frames_left is one less, or stays 0
     HEM_END      the track ends here and no channel sounds. If the header says to restart, frames_left and pass_length
                  are both the pass_length given and all else of the record is 0, so that the next frame is the track's
                  first one again; else it is marked as stopped and all else is 0. The channel that met the end is the
                  last with a count above 0; channels after it were not read
     HEM_STOPPED  the record is marked as stopped, and stays
   or the refusal's number, 1 to 16, with HEM_REFUSED: the record stays, so asking again refuses again. For 10 to 15
   channel, offset and address are told, and the commands read before the fault are counted.

   Every answer tells the frames_left of the record given. In a run, one hem_start and then frames, let E be the frame
   that hem_check tells of the end or fault: frame k shows E - k, up to frame E. If the track ends there and restarts,
   frame E + 1 shows E again, and so on; else all later frames show 0, as all do after a refused start. So a frame of a
   run shows 0 exactly if it has no events.

   The answer has HEM_ANSWER_WORDS words. The returned number and the record never depend on answer_len: as many words
   as fit are written, and what lies behind them stays. */
uint32_t hem_frame(hem_player *player, const uint8_t *bank, size_t bank_len, uint32_t header_offsets,
                   uint32_t header_block, uint32_t note_lengths, uint32_t key_periods, uint32_t noise_presets,
                   uint32_t envelope_addresses, uint32_t track_count, uint32_t track, uint8_t default1,
                   uint8_t default2, uint32_t *answer, size_t answer_len);

/* Metroid's commands as words, for tools that edit tracks: a word a command, its first byte low, the second byte of a
   set-length command high (else 0). The commands are

     00            end of the track
     FF            end of a loop
     C0 to FE      begin of a loop, played byte - C0 times; C0: 256 times
     B0 to BF      set length, entry byte - B0 of the track's window; the next byte, its second, is what then sounds
     02 to 7E      even bytes, square and triangle: key byte / 2; 00 is key 0 after set length alone. Which keys are
                   rests, the bank's period table says; the game's own rest is 02
     01 04 07 0A   noise: the rest, and the three presets

   noise: 0 for the data of a square or triangle, anything else for that of the noise channel. `told` takes one value,
   if told_len is at least 1; the rest of it stays. */

/* Reads one channel's data (its first 256 bytes at most) straight through, running no loops, up to and including the
   first end command.

   Returns 0: the words are written, told = how many, and the rest of words stays. Else words stays as it is, and the
   first command that cannot be taken decides: 10, 11 or 15, told = offset of the byte; or 18, told stays, if it is a
   command but words_len words came before it. HEM_DATA_LIMIT words are always enough. */
uint32_t hem_read_words(uint32_t noise, const uint8_t *bytes, size_t bytes_len, uint16_t *words, size_t words_len,
                        uint32_t *told, size_t told_len);

/* Writes a list of commands as one channel's data: the opposite of reading.

   Returns 0: the bytes are written, told = how many, and the rest of bytes stays. Else bytes and told stay as they are:
   17 if some word is none that reading gives for that kind of channel, or the end command (0) is missing, not the last
   word or there twice; then 18 if the bytes are more than bytes_len or more than 256. */
uint32_t hem_write_words(uint32_t noise, const uint16_t *words, size_t words_len, uint8_t *bytes, size_t bytes_len,
                         uint32_t *told, size_t told_len);

/* Mends one channel's data so that it can be read: hem_read_words then returns 0, given room. What else a frame or the
   check may refuse in it is not looked at (12 to 14 need the bank's tables), so a track may still be refused.

   It reads straight through, running no loops, up to the first end command, and changes what stands in the way:

     - a byte that is refused 10 or 11 becomes the rest byte (0x02, of noise 0x01), also as the second of a set-length
       command, and reading goes on behind it
     - if no end is met, the last byte becomes 0x00, the end, whatever it was; and if it was the second of a set-length
       command, where 0x00 would be no end, that command's first byte becomes the rest byte as well

   Nothing behind the first end is touched, and data that can be read stays as it is.

   Returns 0: the data is mended, told = how many of its bytes are others than before, and list has three words for each
   of them, in rising order of offset; the rest of list stays. Putting the old bytes back at their offsets gives the data
   as it was. Else bytes, list and told stay as they are: 23 if bytes_len is 0 or above 256; then 18 if list_len is less
   than three times the changes. HEM_MEND_WORDS words are always enough.

   A channel's data in a bank ends after HEM_DATA_LIMIT bytes or where the bank ends: lend no more than that. Behind a
   channel that rightly has no end, because another one ends the track, other things stand in the bank: mend only what
   hem_check refuses. */
#define HEM_MEND_WORDS (HEM_CHANGE_WORDS * HEM_DATA_LIMIT)
/* The words of a change: list[HEM_CHANGE(i) + one of these]. */
#define HEM_CHANGE_WORDS 3
#define HEM_CHANGE_OFFSET 0
#define HEM_CHANGE_OLD 1 /* the byte that stood there */
#define HEM_CHANGE_NEW 2 /* the byte that stands there now */
#define HEM_CHANGE(i) (HEM_CHANGE_WORDS * (i))

uint32_t hem_mend(uint32_t noise, uint8_t *bytes, size_t bytes_len, uint16_t *list, size_t list_len, uint32_t *told,
                  size_t told_len);

/* Mother: the banks and the places in them

   In the later engine's format each channel has a playlist, whose words name blocks of commands, lead elsewhere (goto)
   or end the track, for all channels at once. A track that comes round does so by gotos: an end is never followed by a
   restart.

   Two banks are lent, of 8,192 bytes each, for the addresses 0x8000 to 0x9fff and 0xa000 to 0xbfff: of Mother itself
   the banks 0x1c and 0x1d, where bank b of an iNES file starts at its byte 16 + 8192 * b. Tables, headers, playlists
   and envelopes may stand across 0x9fff and 0xa000; a block ends where its bank ends, or before. All three calls take
   the same arguments, in this order:

     bank8, bank8_len     the bytes of 0x8000 to 0x9fff; only read
     banka, banka_len     the bytes of 0xa000 to 0xbfff; only read
     header_offsets       address of a byte a track: where in the header block the track's header stands
     header_block         address that these bytes are added to
     note_lengths         address of 104 bytes: lengths in frames
     key_periods          address of 67 words, high byte first: periods of the keys
     noise_presets        address of 31 bytes: the rest at offset 1, from offset 2 on presets, three bytes each
     envelope_addresses   address of 27 words, low byte first: where the volume envelopes 1 to 27 stand
     track_count          how many tracks these headers are of, 1 to 255
     track                the track's number among them, from 0

   Mother has two sets of headers: "low" for the game's tracks 0x01 to 0x18, "high" for 0x19 to 0x31; track is the
   game's number less 0x01, or less 0x19. The game keeps the playlist of its track 0x01 in RAM, so that it is refused
   (8) here. */
#define HEM_MOTHER_BANK_SIZE 8192u

#define HEM_MOTHER_PUBLISHED_LOW_HEADER_OFFSETS 0x903Eu
#define HEM_MOTHER_PUBLISHED_LOW_HEADER_BLOCK 0x906Fu
#define HEM_MOTHER_PUBLISHED_LOW_TRACK_COUNT 24u
#define HEM_MOTHER_PUBLISHED_HIGH_HEADER_OFFSETS 0x9056u
#define HEM_MOTHER_PUBLISHED_HIGH_HEADER_BLOCK 0x915Fu
#define HEM_MOTHER_PUBLISHED_HIGH_TRACK_COUNT 25u
#define HEM_MOTHER_PUBLISHED_NOTE_LENGTHS 0x8FD6u
#define HEM_MOTHER_PUBLISHED_KEY_PERIODS 0x8F4Cu
#define HEM_MOTHER_PUBLISHED_NOISE_PRESETS 0x8928u
#define HEM_MOTHER_PUBLISHED_ENVELOPE_ADDRESSES 0x8DEDu
#define HEM_MOTHER_PUBLISHED_TABLES                                                                                    \
    HEM_MOTHER_PUBLISHED_NOTE_LENGTHS, HEM_MOTHER_PUBLISHED_KEY_PERIODS, HEM_MOTHER_PUBLISHED_NOISE_PRESETS,           \
        HEM_MOTHER_PUBLISHED_ENVELOPE_ADDRESSES
/* Mother's own, as seven arguments: header_offsets to track_count. */
#define HEM_MOTHER_PUBLISHED_LOW_PLACES                                                                                \
    HEM_MOTHER_PUBLISHED_LOW_HEADER_OFFSETS, HEM_MOTHER_PUBLISHED_LOW_HEADER_BLOCK, HEM_MOTHER_PUBLISHED_TABLES,       \
        HEM_MOTHER_PUBLISHED_LOW_TRACK_COUNT
#define HEM_MOTHER_PUBLISHED_HIGH_PLACES                                                                               \
    HEM_MOTHER_PUBLISHED_HIGH_HEADER_OFFSETS, HEM_MOTHER_PUBLISHED_HIGH_HEADER_BLOCK, HEM_MOTHER_PUBLISHED_TABLES,     \
        HEM_MOTHER_PUBLISHED_HIGH_TRACK_COUNT

/* A block: this many bytes from its address, or to its bank's end if that is sooner. */
#define HEM_MOTHER_BLOCK_LIMIT 256u

/* The numbers, as the Mother calls give them; 5, 17, 18 and 23 never come.

   Of the arguments and the track's header, tested in this order:
     1    bank8_len or banka_len is not 8,192
     2    track_count outside 1 to 255, or a table (of the header block: its address) not wholly within 0x8000 to 0xbfff
     3    track is not below track_count
     4    the track's 10-byte header is not wholly in the banks
     8    a playlist's address is outside the banks; a high byte of 0xff says that the channel is unused
     9    the track uses no channel
     19   the header's transpose byte is of odd amount (see transpose in the record)
   Of the record, then: 16 (see there). While a channel reads its commands:
     6    a set-timbre command of a square names a volume envelope above 0x1b
     7    the envelope that it names is outside the banks, or has no end in its 64 bytes
     10   a byte that is no command: on squares and triangle an odd one above 0x80, on noise 0x9f
     11   a byte that is no key, rest or preset of its channel, or a key that the transpose takes outside 0 to 66
     12   a set-length command picks an entry outside the table of 104
     13   it picks a length of 0 frames
     14   a note or rest before any set-length command
     15   a byte is needed past the block's end
     19   a set-transpose command's byte is of odd amount
     20   a playlist's word or the address in it is outside the banks, a goto leads to a goto, or a 257th block is named
          without a goto in between
     21   a channel would read its 100,001st command in this frame, whatever that is
   Of a block, by hem_mother_check alone:
     22   it ends without a note or rest
   A refusal while reading is told with its channel and an offset in the block: of 11 that of the key's byte, of 15 that
   of the byte that is needed, of all others that of the command's first byte; at the playlist it is 0. */

/* The player's record of a Mother track

   68 bytes that hem_mother_start fills and hem_mother_frame steps. You may keep it, copy it and save it.
   hem_mother_frame refuses (16) one whose transpose is of odd amount, and one that has, in a channel that the track
   uses,
     next or loop_start above 256
     block not 0 and outside 0x8000 to 0xbfff
     left above 0 with a length below it
     left above 0 with a sounding byte that is none of the channel: squares and triangle have the even bytes 0 to 0x84;
       on noise the low six bits are 1, the rest, or a preset: 2, 4, 7, 0xa, 0xd, 0x10, 0x13, 0x16, 0x19 or 0x1c
     on a square, a volume envelope above 0x1b in timbre
   From any other record it plays on. The byte before channels has no meaning. */
typedef struct {
    uint16_t list;       /* address of the playlist's next word */
    uint16_t row;        /* blocks that the playlist has named since its start or its last goto */
    uint16_t block;      /* address of the block; 0: the playlist begins, whatever list and row are */
    uint16_t next;       /* offset of the next command in the block */
    uint16_t loop_start; /* offset after the block's last begin-loop command */
    uint8_t counter;     /* plays of the loop still to come */
    uint8_t length;      /* current note length in frames; 0: none yet */
    uint8_t left;        /* frames left of the sounding note or rest */
    uint8_t sounding;    /* byte of the sounding note or rest, transposed; on noise as it was read */
    uint8_t timbre;      /* squares and triangle: pitch envelope in the top three bits; below them, of a square, the
                            volume envelope, of the triangle the release that set-length sets, 0 for none */
    uint8_t ctrl;        /* squares: base ctrl 1 byte; triangle: its release byte */
} hem_mother_channel;

typedef struct {
    uint8_t stopped;   /* any value but 0: the track has ended */
    uint8_t transpose; /* for all channels: m is added to a key's byte, 2 a semitone; with the top bit set -1 - m, where
                          m is the other seven bits. So 0x81 is -2 */
    uint8_t window;    /* for all channels: entry of note_lengths that set-length counts from */
    hem_mother_channel channels[HEM_CHANNELS];
} hem_mother_player;

#ifdef __cplusplus
static_assert(sizeof(hem_mother_channel) == 16 && sizeof(hem_mother_player) == 68,
              "the library's records have these sizes");
#else
_Static_assert(sizeof(hem_mother_channel) == 16 && sizeof(hem_mother_player) == 68,
               "the library's records have these sizes");
#endif

/* The answer: what hem_mother_frame writes. Words that have nothing to tell are 0. The first eight stand where
   hem_frame has them, and no frames left follow:

     HEM_ANSWER_KIND      HEM_EVENTS, HEM_END, HEM_STOPPED or HEM_REFUSED
     HEM_ANSWER_COUNTS    four words, one a channel: commands it read in this frame; a block's end, a block's word, a
                          goto and the track's end count, a refused command doesn't
     HEM_ANSWER_CHANNEL   of a refusal while reading (6, 7, 10 to 15, 19, 20, 21): the channel
     HEM_ANSWER_OFFSET    and the offset in its block, 0 at the playlist
     HEM_ANSWER_ADDRESS   of 10 to 15: the block's address plus the offset, at most 0xc0ff: a record may name an offset
                          behind the block */
#define HEM_MOTHER_ANSWER_WORDS 32
#define HEM_MOTHER_ANSWER_PARTS 8 /* with HEM_EVENTS: six words a channel */

/* A channel's part of the answer: its words are answer[HEM_MOTHER_ANSWER_PART(channel) + one of these].

     HEM_PART_STATE     HEM_OFF (unused by the track; then all six are 0), HEM_REST or HEM_NOTE
     HEM_PART_BEGAN     1: the note or rest begins in this frame
     HEM_PART_KEY       squares and triangle, a note: key 0 to 66, transposed
     HEM_PART_PERIOD    squares and triangle, a note: the key's word of the period table
     HEM_PART_CTRL1     squares: ctrl 1 byte for this frame, the volume envelope applied; of a rest 0x10
     HEM_PART_RELEASE   triangle: a note is silenced after so many quarter-frames, or HEM_RELEASE_NEVER; of a rest 0
     HEM_PART_PRESET    noise, a note: three words, the preset's bytes for $400C, $400E and $400F */
#define HEM_MOTHER_PART_WORDS 6
#define HEM_MOTHER_PART_PITCH 5 /* squares and triangle, also of a rest: pitch envelope 1 to 7, or 0 for none. It is
                                   named alone: the period is the key's, unchanged */
#define HEM_MOTHER_PART_DMC 5   /* noise, also of a rest: DMC preset 1 or 2, or 0 for none */
#define HEM_MOTHER_ANSWER_PART(channel) (HEM_MOTHER_ANSWER_PARTS + HEM_MOTHER_PART_WORDS * (channel))

/* The verdict of a fault: HEM_FAULT_CHANNEL, HEM_FAULT_OFFSET and HEM_FAULT_ADDRESS stand where hem_check has them, and
   instead of the frame */
#define HEM_MOTHER_FAULT_PLACE 2 /* the place in the channel's playlist */

/* Judges a track without playing it.

   Returns 0 if nothing in the track can be refused, and verdict stays as it is: then hem_mother_start and every
   hem_mother_frame after it return 0, however many frames you ask for. Else returns the number of the first fault:

     1 to 4, 8, 9, 19         of the arguments and the header: verdict stays as it is
     20                       a playlist can't be followed
     19, 22, 6, 7, 10 to 15   of a block that a used channel's playlist names, read straight through to its 00, no loops
                              run. 14 is a note or rest before the channel's first set-length command in playing order;
                              11, 12 and 13 are a key or length that fails under some transpose or window set anywhere
                              in the track: by its header, or by a command in a block that any used channel names

   and writes to verdict the channel, the offset in the block (as told above; of 22 that of the 00, of 20 it is 0), the
   place and, of 10 to 15, the byte's address, else 0. A place is the number of block words and gotos before the word in
   playing order; what a goto leads to is looked at once. The first fault is the one in the first channel, there at the
   first place, there at the lowest offset, and at one offset the first of 19, 20, 22, 6, 7, 10 to 15. The header's 19
   and a command's are told apart by the verdict: the header's leaves it as it was.

   What passes is never refused. But what is refused here may still play: an end may come before the fault, or the
   transpose that a key fails under may be gone when it is met.

   The cost grows with the words of the playlists and the bytes of the blocks that they name, not with loops or frames.
   The call takes some 17 KB of stack. The returned number never depends on verdict_len. As many of the values as fit
   are written; the rest of the buffer stays. HEM_VERDICT_WORDS words are always enough. */
uint32_t hem_mother_check(const uint8_t *bank8, size_t bank8_len, const uint8_t *banka, size_t banka_len,
                          uint32_t header_offsets, uint32_t header_block, uint32_t note_lengths, uint32_t key_periods,
                          uint32_t noise_presets, uint32_t envelope_addresses, uint32_t track_count, uint32_t track,
                          uint32_t *verdict, size_t verdict_len);

/* Makes a fresh record, whatever it held: transpose and window are the header's, all else is 0. Returns 0 or the
   refusal, 1 to 4, 8, 9 or 19; all of the record is 0 then. */
uint32_t hem_mother_start(hem_mother_player *player, const uint8_t *bank8, size_t bank8_len, const uint8_t *banka,
                          size_t banka_len, uint32_t header_offsets, uint32_t header_block, uint32_t note_lengths,
                          uint32_t key_periods, uint32_t noise_presets, uint32_t envelope_addresses,
                          uint32_t track_count, uint32_t track);

/* Plays one frame and steps the record. Tests what hem_mother_start tests, then 16, then whether the record is stopped,
   then plays: the used channels in order, and one with no frames left reads commands until it has a note or rest.

   Returns 0 with one of
     HEM_EVENTS   what each channel sounds in this frame; the record is stepped. A transpose or window that a channel
                  sets holds from there on for all channels, for those after it in this frame already. What the record
                  holds of a channel that the track doesn't use stays
     HEM_END      a playlist ends the track here and no channel sounds. The record is marked as stopped (1) and all else
                  of it is 0. The channel that met the end is the last with a count above 0; channels after it were not
                  read
     HEM_STOPPED  the record is marked as stopped, and stays
   or the refusal's number, with HEM_REFUSED: all of the record stays, transpose and window too, so asking again refuses
   again. The commands read before a refusal while reading are counted; all counts are 0 for the other refusals, which
   tell no place. The header's 19 is one of these, and hem_mother_start gives it too.

   A channel reads at most 100,000 commands in a frame.

   The answer has HEM_MOTHER_ANSWER_WORDS words. The returned number and the record never depend on answer_len: as many
   words as fit are written, and what lies behind them stays. */
uint32_t hem_mother_frame(hem_mother_player *player, const uint8_t *bank8, size_t bank8_len, const uint8_t *banka,
                          size_t banka_len, uint32_t header_offsets, uint32_t header_block, uint32_t note_lengths,
                          uint32_t key_periods, uint32_t noise_presets, uint32_t envelope_addresses,
                          uint32_t track_count, uint32_t track, uint32_t *answer, size_t answer_len);

#ifdef __cplusplus
}
#endif

#endif
