/* cuecheck: a bank from standard input, a line a track on standard output. */
#include "reference.h"

int main(void)
{
    /* one byte more than a bank, to know that the input is too long */
    static uint8_t bytes[REF_BANK_SIZE + 1];
    size_t len = fread(bytes, 1, sizeof bytes, stdin);
    ref_print_cues(stdout, bytes, len);
    return 0;
}
