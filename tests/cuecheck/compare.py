#!/usr/bin/env python3
"""cuecheck against the independent program, which runs every frame: both must print the same.

    make -C tests/reference && ./cuecheck /dev/null && tests/cuecheck/compare.py [BANKS] [SEED]

Fails too if one of the lines that a bank or another input can give did not come.
"""
import os
import re
import sys

sys.path.insert(0, os.path.dirname(os.path.dirname(os.path.abspath(__file__))))
import programs
from programs import END, SIZE, START

OFFSETS, BLOCK, LENGTHS, PERIODS, PRESETS, ENVELOPES = 0xBBFA, 0xBD31, 0xBEF7, 0xBE77, 0xB200, 0xBCB0
TRACKS, HEADER_SIZE = 12, 13
NOISE = 3
# an address in the bank, or the one behind it
BEHIND_BANK = f"{END:04x}"
ADDRESS = f"(?:[89ab][0-9a-f]{{3}}|{BEHIND_BANK})"
# what a track's line says after its number; a bank at the published places can't show 2 to 4
LINE = re.compile(r"(pass) \d+ [0-3]|(refuse [5-9])|(refuse 1[0-5]) [0-3] \d+ \d+ " + ADDRESS)


def note(rnd, channel, after_length):
    if channel == NOISE:
        return rnd.choice((0x01, 0x04, 0x07, 0x0A))
    return 2 * rnd.randrange(0 if after_length else 1, 64)


def channel_data(rnd, channel, size, damaged):
    """Commands, most often beginning with a BL; some channels have no end, some a byte out of place."""
    data = []
    if rnd.random() < 0.95:
        data += [0xB0 + rnd.randrange(8), note(rnd, channel, True)]
    while len(data) < size:
        kind = rnd.random()
        if kind < 0.45:
            data.append(note(rnd, channel, False))
        elif kind < 0.65:
            data += [0xB0 + rnd.randrange(16 if rnd.random() < 0.2 else 8), note(rnd, channel, True)]
        elif kind < 0.77:
            data.append(0xC0 + (rnd.randrange(63) if rnd.random() < 0.1 else rnd.randrange(4)))
        elif kind < 0.95:
            data.append(0xFF)
        elif kind < 0.97:
            data.append(0x00)
        elif damaged:
            data.append(rnd.choice((rnd.randrange(256), 0x80 + rnd.randrange(0x30))))
    if rnd.random() < 0.8:
        data.append(0x00)
    return data


class Bank(programs.RandomBank):
    def __init__(self, rnd, i):
        super().__init__(rnd, i, START, (END,))
        self.put_random(PERIODS, 128)
        self.put_random(PRESETS, 13)
        self.put_lengths(LENGTHS, 40)
        self.put_envelopes(ENVELOPES, 5)
        for track in range(TRACKS):
            self.bytes[OFFSETS - START + track] = HEADER_SIZE * track
            self.put(BLOCK + HEADER_SIZE * track, self.header())
        if self.damaged:
            self.damage()

    def header(self):
        rnd = self.rnd
        used = [rnd.random() < 0.6 for _ in range(4)]
        addresses = []
        for channel in range(4):
            if not used[channel]:
                addresses.append(0)
                continue
            size = rnd.randrange(2, 260) if rnd.random() < 0.1 else rnd.randrange(2, 40)
            addresses.append(self.put_room(channel_data(rnd, channel, size, self.damaged)))
        window = rnd.randrange(32) if rnd.random() < 0.2 else rnd.choice((0x00, 0x0B, 0x17))
        header = [window, rnd.choice((0, 0xFF)), rnd.choice((0x00, 0xF0, 0x05)), rnd.randrange(6), rnd.randrange(6)]
        for address in addresses:
            header += [address % 256, address // 256]
        return header

    def damage(self):
        rnd = self.rnd
        for _ in range(rnd.randrange(1, 12)):
            place = rnd.random()
            if place < 0.5:
                at = BLOCK - START + rnd.randrange(TRACKS * HEADER_SIZE)
            elif place < 0.6:
                at = OFFSETS - START + rnd.randrange(TRACKS)
            elif place < 0.7:
                at = ENVELOPES - START + rnd.randrange(10)
            elif place < 0.8:
                at = LENGTHS - START + rnd.randrange(40)
            else:
                at = rnd.randrange(self.free - START)
            self.bytes[at] = rnd.choice((0, rnd.randrange(256)))


def told(text):
    match = LINE.fullmatch(text)
    return match and match[match.lastindex]


programs.Program(
    name="cuecheck",
    independent="tests/reference/build/cuecheck",
    wrong_sizes=(0, 1, SIZE - 1, SIZE + 1, 2 * SIZE, 100000),
    tracks=[str(n) for n in range(TRACKS)],
    told=told,
    must_come=["refuse 1", "pass"] + [f"refuse {number}" for number in range(5, 16)] + [BEHIND_BANK],
).compare(Bank)
