/* The later engine's reading against the papers' own examples and rules. */
#include "game.h"

/* Fewer would say that some of the tests did not run. */
#define LEAST_CHECKS 50000u

static void (*const tests[])(void) = { test_examples,  test_headers, test_commands,
                                       test_playlists, test_records, test_check };

int main(void)
{
    for (size_t i = 0; i < sizeof tests / sizeof tests[0]; i++)
        tests[i]();
    CHECK(checks_run >= LEAST_CHECKS);
    printf("selftest: %u checks, %u failed\n", checks_run, checks_failed);
    return checks_failed == 0 ? 0 : 1;
}
