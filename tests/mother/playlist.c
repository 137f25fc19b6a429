/* The words of a playlist. */
#include "mother.h"

/* A word that names an address: of the playlist or of a block. */
static mother_entry naming(mother_word_kind kind, uint32_t address)
{
    mother_entry entry = { mother_within(address, 1) ? kind : MOTHER_BAD_WORD, (uint16_t)address };
    return entry;
}

mother_entry mother_entry_at(const mother_banks *banks, uint32_t list)
{
    const mother_entry bad = { MOTHER_BAD_WORD, 0 };
    const mother_entry end = { MOTHER_TRACK_END, 0 };
    if (!mother_within(list, 2))
        return bad;
    uint32_t word = mother_word(banks, list);
    switch (word >> 8) {
    case 0x00:
        return end;
    case 0xFF:
        return mother_within(list + 2, 2) ? naming(MOTHER_GOTO, mother_word(banks, list + 2)) : bad;
    default:
        return naming(MOTHER_BLOCK, word);
    }
}
