/* Bytes of a channel, and commands as words. */
#include "reference.h"

#define REST_NOISE 0x01
#define LAST_KEY_BYTE 0x7E

ref_byte ref_byte_class(uint8_t byte)
{
    if (byte == 0x00)
        return REF_BYTE_END;
    if (byte == 0xFF)
        return REF_BYTE_LOOP_END;
    if ((byte & 0xC0) == 0xC0)
        return REF_BYTE_LOOP_BEGIN;
    if ((byte & 0xF0) == 0xB0)
        return REF_BYTE_LENGTH;
    if (byte >= 0x80)
        return REF_BYTE_NOTHING;
    return REF_BYTE_SOUND;
}

int ref_is_sound(ref_kind kind, uint8_t byte)
{
    if (kind == REF_NOISE)
        return byte == REST_NOISE || byte == 0x04 || byte == 0x07 || byte == 0x0A;
    return byte <= LAST_KEY_BYTE && byte % 2 == 0;
}

int ref_is_rest(ref_kind kind, uint8_t byte, const uint8_t periods[128])
{
    if (kind == REF_NOISE)
        return byte == REST_NOISE;
    /* a key's byte is twice the key, and so the offset of its word */
    return periods[byte + 1] == 0;
}

/* The refusal of the command at `at`, or 0 with its size in bytes. */
static uint32_t command_at(ref_kind kind, const uint8_t *bytes, size_t len, size_t at, size_t *size,
                           size_t *offset)
{
    *size = 1;
    *offset = at;
    if (at >= len)
        return REF_PAST_DATA;
    switch (ref_byte_class(bytes[at])) {
    case REF_BYTE_END:
    case REF_BYTE_LOOP_END:
    case REF_BYTE_LOOP_BEGIN:
        return 0;
    case REF_BYTE_NOTHING:
        return REF_NO_COMMAND;
    case REF_BYTE_SOUND:
        return ref_is_sound(kind, bytes[at]) ? 0 : REF_NO_SUCH_KEY;
    case REF_BYTE_LENGTH:
        break;
    }
    *size = 2;
    *offset = at + 1;
    if (at + 1 >= len)
        return REF_PAST_DATA;
    return ref_is_sound(kind, bytes[at + 1]) ? 0 : REF_NO_SUCH_KEY;
}

/* The words of the data, up to and including the first end, in a list of their own. */
static uint32_t read_list(ref_kind kind, const uint8_t *bytes, size_t len, uint16_t list[REF_DATA_LIMIT],
                          size_t room, size_t *count, size_t *offset)
{
    size_t at = 0;
    for (;;) {
        size_t size;
        uint32_t number = command_at(kind, bytes, len, at, &size, offset);
        if (number != 0)
            return number;
        *offset = 0;
        if (*count >= room)
            return REF_NO_ROOM;
        uint16_t word = bytes[at];
        if (size == 2)
            word = (uint16_t)(bytes[at] + 256 * bytes[at + 1]);
        list[*count] = word;
        *count += 1;
        if (word == 0)
            return 0;
        at += size;
    }
}

uint32_t ref_read_words(ref_kind kind, const uint8_t *bytes, size_t len, uint16_t *words, size_t room,
                        size_t *count, size_t *offset)
{
    uint16_t list[REF_DATA_LIMIT];
    *count = 0;
    if (len > REF_DATA_LIMIT)
        len = REF_DATA_LIMIT;
    uint32_t number = read_list(kind, bytes, len, list, room, count, offset);
    if (number != 0) {
        /* a refused reading changes nothing in the lent buffer */
        *count = 0;
        return number;
    }
    for (size_t i = 0; i < *count; i++)
        words[i] = list[i];
    return 0;
}

/* How many bytes the word's command has; 0 for a word that is no command. */
static size_t word_size(ref_kind kind, uint16_t word)
{
    uint8_t low = (uint8_t)(word & 0xFF);
    uint8_t high = (uint8_t)(word >> 8);
    ref_byte class = ref_byte_class(low);
    if (class == REF_BYTE_LENGTH)
        return ref_is_sound(kind, high) ? 2 : 0;
    if (high != 0 || class == REF_BYTE_NOTHING)
        return 0;
    if (class == REF_BYTE_SOUND)
        return ref_is_sound(kind, low) ? 1 : 0;
    return 1;
}

/* Every word a command, the last one the end and no other. */
static int is_command_list(ref_kind kind, const uint16_t *words, size_t n)
{
    if (n == 0)
        return 0;
    for (size_t i = 0; i < n; i++) {
        int is_last = i + 1 == n;
        if (word_size(kind, words[i]) == 0)
            return 0;
        if ((words[i] == 0) != is_last)
            return 0;
    }
    return 1;
}

uint32_t ref_write_words(ref_kind kind, const uint16_t *words, size_t n, uint8_t *bytes, size_t room,
                         size_t *count)
{
    size_t total = 0;
    *count = 0;
    if (!is_command_list(kind, words, n))
        return REF_BAD_WORD;
    for (size_t i = 0; i < n; i++)
        total += word_size(kind, words[i]);
    if (total > room || total > REF_DATA_LIMIT)
        return REF_NO_ROOM;
    for (size_t i = 0; i < n; i++) {
        bytes[(*count)++] = (uint8_t)(words[i] & 0xFF);
        if (word_size(kind, words[i]) == 2)
            bytes[(*count)++] = (uint8_t)(words[i] >> 8);
    }
    return 0;
}
