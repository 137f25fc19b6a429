/* Shared by the parts of the selftest. */
#ifndef SELFTEST_H
#define SELFTEST_H

#include "hex.h"
#include "periods.h"
#include "reference.h"

/* A bank with the published tables and one track's header to fill in. */
typedef struct {
    uint8_t bytes[REF_BANK_SIZE];
    ref_places places;
} cart;

/* Where the tests put channel data, and the header fields they change. */
#define DATA_ADDRESS(channel) (0x9000u + 0x200u * (unsigned)(channel))
#define LAST_ADDRESS 0xBFFFu
#define HEADER_WINDOW 0
#define HEADER_RESTART 1
#define HEADER_RELEASE 2
#define HEADER_ENVELOPES 3
#define HEADER_ADDRESSES 5

extern const uint8_t published_lengths[REF_LENGTH_COUNT];
extern unsigned checks_run, checks_failed;

void check_that(int holds, const char *file, int line, const char *what);
#define CHECK(holds) check_that((holds) ? 1 : 0, __FILE__, __LINE__, #holds)

cart *new_cart(void);
uint8_t *cart_at(cart *c, uint32_t address);
uint8_t *cart_header(cart *c);
void put_word(cart *c, uint32_t address, uint16_t word);
size_t put_hex(cart *c, uint32_t address, const char *hex);
void set_address(cart *c, int channel, uint16_t address);
/* Puts the data at the channel's place and names it in the header. */
void use_channel(cart *c, int channel, const char *hex);
uint8_t *cart_periods(cart *c);

uint8_t preset_byte(unsigned offset);

int same_record(const ref_player *a, const ref_player *b);
int same_verdict(const ref_verdict *a, const ref_verdict *b);
void expect_pass(cart *c, uint64_t frame, uint32_t channel);
void expect_fault(cart *c, uint32_t number, uint32_t channel, uint32_t offset, uint64_t frame, uint32_t address);
/* Runs the track past its first stop, with restart past the next one: the frames left that start and each frame tell
   are those of the first stop that ref_check_by_frames meets. */
void expect_countdown(cart *c, size_t len, uint32_t track);
/* Runs start and frames 0 to n; the answer is frame n's. */
uint32_t frame_after(cart *c, uint64_t n, ref_player *p, uint32_t *answer);
/* A channel's five words, and whether they are these. */
const uint32_t *part_of(const uint32_t *answer, int channel);
int tells_part(const uint32_t *answer, int channel, uint32_t state, uint32_t began, uint32_t third, uint32_t fourth,
               uint32_t fifth);
/* What the answer says of a fault's place; three zeros of no fault. */
int place_is(const uint32_t *answer, uint32_t channel, uint32_t offset, uint32_t address);
/* Behind the kind all words are 0 but the frames left. */
int tells_only_left(const uint32_t *answer, uint32_t left);

uint32_t random_below(uint32_t limit);

void test_samples(void);
void test_silent_keys(void);
void test_published(void);
void test_refusals(void);
void test_addresses(void);
void test_mend(void);
void test_random(void);

#endif
