#!/usr/bin/env python3
"""Mother's 49 tracks as document 003 prints them, and what mothercheck must print of them, by the independent program.

    make -C tests/mother && tests/mothercheck/tracks.py     stores them in crates/mothercheck
    tests/mothercheck/tracks.py check                       compares them with what is stored

003.txt has the document's lines: the note lengths, each track's header and playlists, the envelopes. The document does
not print periods, presets and blocks: periods and presets are 0, and at each block that a playlist names stands a
short one in for it, of bytes that squares, triangle and noise take alike.
"""
import os
import re
import sys

from places import ENVELOPES, GOTO, INDEPENDENT, LENGTHS, SETS
import programs

HERE = os.path.dirname(os.path.abspath(__file__))
STORED = os.path.join(programs.ROOT, "crates/mothercheck")
LENGTH_LINE = re.compile(r"[0-9a-f]+ ?: ([\d ]+)")
TRACK_LINE = re.compile(r"([0-9a-f]+) .* @([0-9a-f]{4}): ([+-]\d+) \+([0-9a-f]+) (\w+) (\w+) (\w+) (\w+)")
PLAYLIST_LINE = re.compile(r"(?:Square 1|Square 2|Triangle|Noise) @ ?([0-9a-f]+): (.*)")
ENVELOPE_LINE = re.compile(r"Envelope ([0-9a-f]+) @([0-9a-f]{4}): (\w+) (\w\w)")
# a length of L 2 and a sound, key 8 or preset $10, which is a key under every transpose of the headers
STAND_IN = bytes.fromhex("B2 10 00")


class Banks(programs.Bank):
    """Nothing is put over something else."""

    def __init__(self):
        super().__init__()
        self.taken = {}

    def put(self, address, data):
        for at, byte in enumerate(data, address):
            if self.taken.setdefault(at, byte) != byte:
                sys.exit(f"{at:04x} is {self.taken[at]:02x} and {byte:02x}")
        super().put(address, data)


def transpose_byte(amount):
    return amount if amount >= 0 else 0x80 - 1 - amount


def put_track(banks, number, address, transpose, window, *playlists):
    """The game counts from 1 through both sets."""
    number, address = int(number, 16), int(address, 16)
    is_high = number > SETS[0][3]
    _, offsets, block, _ = SETS[is_high]
    banks.put(offsets + number - 1 - is_high * SETS[0][3], [address - block])
    banks.put(address, [transpose_byte(int(transpose)), int(window, 16)])
    for channel, playlist in enumerate(playlists):
        banks.put_word(address + 2 + 2 * channel, int(playlist, 16))


def words_of(address, text):
    """The words that stand there: a bar is where the goto leads that the document hides."""
    words, loop = [], None
    for word in text.split():
        if word == "|":
            loop = address + 2 * len(words)
        else:
            words.append(int(word, 16))
    return words + ([GOTO, loop] if loop is not None else [])


def blocks_of(words):
    while words:
        word, *words = words
        if word == GOTO:
            words = words[1:]
        elif word != 0:
            yield word


def put_playlist(banks, address, text):
    """Track 1's is in RAM, and only its blocks are put."""
    address = int(address, 16)
    words = words_of(address, text)
    if address >= programs.START:
        for i, word in enumerate(words):
            banks.put_word(address + 2 * i, word)
    for block in blocks_of(words):
        banks.put(block, STAND_IN)


def put_envelope(banks, number, address, volumes, last):
    banks.put_word(ENVELOPES + 2 * (int(number, 16) - 1), int(address, 16))
    banks.put(int(address, 16), bytes.fromhex(volumes + last))


def published():
    banks = Banks()
    lengths = []
    makers = ((TRACK_LINE, put_track), (PLAYLIST_LINE, put_playlist), (ENVELOPE_LINE, put_envelope),
              (LENGTH_LINE, lambda _, row: lengths.extend(int(length) for length in row.split())))
    with open(os.path.join(HERE, "003.txt"), encoding="ascii") as file:
        for line in file.read().splitlines():
            for pattern, make in makers:
                match = pattern.fullmatch(line)
                if match:
                    make(banks, *match.groups())
    banks.put(LENGTHS, lengths)
    return bytes(banks.bytes)


def store(name, data):
    with open(os.path.join(STORED, name), "wb") as file:
        file.write(data)


def check(name, data):
    with open(os.path.join(STORED, name), "rb") as file:
        if file.read() != data:
            sys.exit(f"crates/mothercheck/{name} is not what tests/mothercheck/tracks.py makes")


def main():
    banks = published()
    lines = programs.printed(programs.built(INDEPENDENT), banks)
    keep = check if sys.argv[1:] == ["check"] else store
    keep("stdin", banks)
    keep("stdout", lines)
    print(f"mothercheck: {lines.count(b'pass')} of the {lines.count(bytes([10]))} published tracks pass")


main()
