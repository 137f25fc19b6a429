/* The reference against the papers' own samples. */
#include "selftest.h"

#include <stdlib.h>
#include <string.h>

/* Fewer would say that some of the tests did not run. */
#define LEAST_CHECKS 3110000u

static const char zero_bank_lines[] =
    "0 refuse 9\n1 refuse 9\n2 refuse 9\n3 refuse 9\n4 refuse 9\n5 refuse 9\n"
    "6 refuse 9\n7 refuse 9\n8 refuse 9\n9 refuse 9\n10 refuse 9\n11 refuse 9\n";

static void expect_cues(const uint8_t *bytes, size_t len, const char *wanted)
{
    char got[1024];
    FILE *file = tmpfile();
    CHECK(file != NULL);
    if (file == NULL)
        return;
    ref_print_cues(file, bytes, len);
    rewind(file);
    size_t n = fread(got, 1, sizeof got - 1, file);
    got[n] = '\0';
    fclose(file);
    CHECK(strcmp(got, wanted) == 0);
}

static void test_cues(void)
{
    static const uint8_t zeros[REF_BANK_SIZE + 1];
    expect_cues(zeros, REF_BANK_SIZE, zero_bank_lines);
    expect_cues(zeros, 0, "refuse 1\n");
    expect_cues(zeros, REF_BANK_SIZE - 1, "refuse 1\n");
    expect_cues(zeros, REF_BANK_SIZE + 1, "refuse 1\n");
}

/* All twelve offsets are 0, so each line tells the same track. */
static void expect_cue(const cart *c, const char *tail)
{
    char wanted[1024];
    size_t n = 0;
    for (int track = 0; track < 12; track++)
        n += (size_t)snprintf(wanted + n, sizeof wanted - n, "%d %s\n", track, tail);
    expect_cues(c->bytes, REF_BANK_SIZE, wanted);
}

static void test_cue_lines(void)
{
    cart *c = new_cart();
    use_channel(c, REF_TRIANGLE, "B0 2A 00");
    expect_cue(c, "pass 6 2");
    use_channel(c, REF_TRIANGLE, "B0 2A A0");
    expect_cue(c, "refuse 10 2 2 6 9402");
    set_address(c, REF_TRIANGLE, LAST_ADDRESS);
    *cart_at(c, LAST_ADDRESS) = 0xB0;
    expect_cue(c, "refuse 15 2 1 0 c000");
    free(c);
}

/* 256 bytes up to the bank's last: notes of 64 and 32 frames by window 0, whose lengths stand before the data. */
static void test_cue_of_full_data(void)
{
    cart *c = new_cart();
    memset(cart_at(c, 0xBF00), 0xFF, REF_DATA_LIMIT);
    put_hex(c, 0xBF00, "B4 2A B3 2C");
    set_address(c, REF_TRIANGLE, 0xBF00);
    cart_header(c)[HEADER_WINDOW] = 0;
    expect_cue(c, "refuse 15 2 256 96 c000");
    free(c);
}

int main(void)
{
    test_samples();
    test_silent_keys();
    test_published();
    test_refusals();
    test_addresses();
    test_cues();
    test_cue_lines();
    test_cue_of_full_data();
    test_mend();
    test_random();
    CHECK(checks_run >= LEAST_CHECKS);
    printf("selftest: %u checks, %u failed\n", checks_run, checks_failed);
    return checks_failed == 0 ? 0 : 1;
}
