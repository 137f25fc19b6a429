/* Writes the bank that the README's example is run on: sample_bank FILE */
#include "setup.h"

#include <stdio.h>

static uint8_t bank[HEM_BANK_SIZE];

/* Track 0 passes, track 1 meets a byte that is no command, track 2 restarts in frame 36, track 3 stops in frame 12, the
   others are empty. */
static void build(void)
{
    setup s;
    plain_setup(&s, bank);
    typical_track(&s);
    s.track = 1;
    put_channel(&s, HEM_TRIANGLE, DATA_OF(4), BYTES(0xB0, 0x2A, 0xA0));
    s.track = 2;
    header_of(&s)[RESTART] = 0xFF;
    put_channel(&s, HEM_TRIANGLE, DATA_OF(5), BYTES(0xB1, 0x2A, 0xB2, 0x34, 0x00));
    s.track = 3;
    put_channel(&s, HEM_TRIANGLE, DATA_OF(6), BYTES(0xB1, 0x2A, 0x00));
}

int main(int argc, char **argv)
{
    FILE *file = argc == 2 ? fopen(argv[1], "wb") : NULL;
    if (file == NULL) {
        fprintf(stderr, "sample_bank: no file to write to\n");
        return 1;
    }
    build();
    size_t written = fwrite(bank, 1, sizeof bank, file);
    return fclose(file) == 0 && written == sizeof bank ? 0 : 1;
}
