/* Mending: document 02, request No. 5. */
#include "reference.h"

#include <string.h>

static uint8_t rest_byte(ref_kind kind)
{
    return kind == REF_NOISE ? 0x01 : 0x02;
}

/* The refusal of reading straight with ample room, or 0, and its byte's offset. */
static uint32_t refusal_of(ref_kind kind, const uint8_t *bytes, size_t len, size_t *offset)
{
    uint16_t words[REF_DATA_LIMIT];
    size_t count;
    return ref_read_words(kind, bytes, len, words, REF_DATA_LIMIT, &count, offset);
}

/* Each byte refused 10 or 11 becomes a rest, and reading goes on behind it. Whether an end is met. */
static int rest_refused_bytes(ref_kind kind, uint8_t *bytes, size_t len)
{
    size_t from = 0, offset;
    for (;;) {
        uint32_t number = refusal_of(kind, bytes + from, len - from, &offset);
        if (number != REF_NO_COMMAND && number != REF_NO_SUCH_KEY)
            return number == 0;
        bytes[from + offset] = rest_byte(kind);
        from += offset + 1;
    }
}

/* The last byte becomes 00. Where that is not read as the end, it stands directly after a BL. */
static void put_end(ref_kind kind, uint8_t *bytes, size_t len)
{
    size_t offset;
    bytes[len - 1] = 0x00;
    if (refusal_of(kind, bytes, len, &offset) != 0)
        bytes[len - 2] = rest_byte(kind);
}

/* Three words for each byte that is another one now. Returns how many words. */
static size_t list_changes(const uint8_t *old, const uint8_t *new, size_t len, uint16_t list[REF_MEND_WORDS])
{
    size_t words = 0;
    for (size_t i = 0; i < len; i++)
        if (old[i] != new[i]) {
            list[words++] = (uint16_t)i;
            list[words++] = old[i];
            list[words++] = new[i];
        }
    return words;
}

uint32_t ref_mend(ref_kind kind, uint8_t *bytes, size_t len, uint16_t *list, size_t room, size_t *count)
{
    uint8_t mended[REF_DATA_LIMIT];
    uint16_t changes[REF_MEND_WORDS];
    *count = 0;
    if (len == 0 || len > REF_DATA_LIMIT)
        return REF_BAD_DATA_SIZE;
    memcpy(mended, bytes, len);
    if (!rest_refused_bytes(kind, mended, len))
        put_end(kind, mended, len);
    size_t words = list_changes(bytes, mended, len, changes);
    if (words > room)
        return REF_NO_ROOM;
    memcpy(bytes, mended, len);
    memcpy(list, changes, words * sizeof list[0]);
    *count = words / REF_CHANGE_WORDS;
    return 0;
}
