/* Shared by the parts of the host test. */
#ifndef HOST_TEST_H
#define HOST_TEST_H

#include "generator.h"

/* Says where and in which round something does not hold. The test then fails. */
#define EXPECT(holds) expect((holds) != 0, #holds, __FILE__, __LINE__)
void expect(int holds, const char *text, const char *file, int line);

/* The part and round that runs now, for the messages. A part that makes fewer expectations than `least` fails. */
void begin_part(const char *name, unsigned long least);
void begin_round(unsigned long round);

/* Counts a number that one of the library's calls returned. Each that it can return must come, and no other. */
typedef enum {
    CHECK,
    START,
    FRAME,
    MOTHER_START,
    MOTHER_FRAME,
    MOTHER_CHECK,
    READ_WORDS,
    WRITE_WORDS,
    MEND,
    CALLS
} library_call;
void count_number(library_call call, uint32_t number);

/* Lent buffers are longer than what is lent; what is not to be written keeps its bytes. */
void fill_pattern(void *buffer, size_t size);

/* The address told of a number: for 10 to 15 the header's word of the channel plus the offset, else 0. */
int right_address(const setup *s, uint32_t number, uint32_t channel, uint32_t offset, uint32_t address);

int same_record(const hem_player *a, const ref_player *b);
ref_player as_reference(const hem_player *player);

/* The check gives the number and writes this to a verdict of zeros. */
void expect_verdict(const setup *s, uint32_t number, const uint32_t wanted[HEM_VERDICT_WORDS]);
/* The track starts, and stops in this frame. */
void start_track(const setup *s, uint32_t frame, hem_player *player);
/* From the check and from start. */
void expect_pass(const setup *s, uint32_t frame, uint32_t channel);
/* A frame's number, kind and frames left, and the place it tells: three zeros where there is none. */
void expect_frame(const setup *s, hem_player *player, uint32_t number, uint32_t kind, uint32_t left, uint32_t channel,
                  uint32_t offset, uint32_t address);
/* So many up to the track's stop. */
void expect_events(const setup *s, hem_player *player, uint32_t frames);
/* From the check, from start, from the frame that meets it and from the next one. */
void expect_fault(const setup *s, uint32_t number, uint32_t channel, uint32_t offset, uint32_t frame, uint32_t address);

void test_layout(void);
void test_samples(void);
void test_silent_keys(void);
void test_check(unsigned long rounds);
void test_player(unsigned long rounds);
void test_tables(unsigned long rounds);
void test_words(unsigned long rounds);
void test_mend(unsigned long rounds);
void test_mother(unsigned long rounds);
void test_mother_check(unsigned long rounds);

#endif
