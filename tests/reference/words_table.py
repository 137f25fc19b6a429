"""Tables of commands as words, made from document 01 alone.

For melodic channels (letter m) and then the noise channel (letter n) this prints, one entry a line:

    mw 2ab0 b02a         word 2ab0 is a command; its bytes in order (first byte low, second byte of BL high)
    mw 0001 !17          word 0001 is no command
    mr 2a00 002a,0000    straight reading of the data 2a 00, with ample room, gives these words
    mr b081 !11@1        straight reading of b0 81 is refused 11, the byte at offset 1

First come all 65,536 words in order, then all data of one byte, then all data of two bytes. All numbers but
refusals and offsets are hexadecimal.
"""

import sys

LONE = {"m": list(range(0x02, 0x7F, 2)), "n": [0x01, 0x04, 0x07, 0x0A]}
ONLY_AFTER_LENGTH = {"m": [0x00], "n": []}


def all_commands(letter):
    """Every command of the kind, as its bytes."""
    after_length = ONLY_AFTER_LENGTH[letter] + LONE[letter]
    commands = [bytes([0x00]), bytes([0xFF])]
    commands += [bytes([0b11000000 + plays]) for plays in range(63)]
    commands += [bytes([0xB0 + index, sound]) for index in range(16) for sound in after_length]
    commands += [bytes([sound]) for sound in LONE[letter]]
    return commands


def fault(data):
    """Number and offset, within the data, for data that begins with no command."""
    if len(data) == 0:
        return 15, 0
    if 0xB0 <= data[0] <= 0xBF:
        return (15, 1) if len(data) == 1 else (11, 1)
    return (10, 0) if 0x80 <= data[0] <= 0xAF else (11, 0)


def straight(commands, data, start=0):
    """The commands up to the first end, or the refusal."""
    rest = data[start:]
    found = [command for command in (rest[:1], rest[:2]) if command in commands]
    if not found:
        number, offset = fault(rest)
        return f"!{number}@{start + offset}"
    word = f"{commands[found[0]]:04x}"
    if word == "0000":
        return word
    more = straight(commands, data, start + len(found[0]))
    return more if more.startswith("!") else word + "," + more


def table(letter):
    commands = {command: int.from_bytes(command, "little") for command in all_commands(letter)}
    by_word = {word: command for command, word in commands.items()}
    assert len(by_word) == len(commands)
    for word in range(0x10000):
        shown = by_word[word].hex() if word in by_word else "!17"
        yield f"{letter}w {word:04x} {shown}"
    for size in (1, 2):
        for value in range(0x100 ** size):
            data = value.to_bytes(size, "big")
            yield f"{letter}r {data.hex()} {straight(commands, data)}"


def main():
    for letter in "mn":
        sys.stdout.writelines(line + "\n" for line in table(letter))


if __name__ == "__main__":
    main()
