#!/usr/bin/env python3
"""Writes the banks that program trace plays: banks.py FOLDER"""
import os
import sys

START = 0x8000
OFFSETS, BLOCK, LENGTHS, PERIODS, PRESETS, ENVELOPES = 0xBBFA, 0xBD31, 0xBEF7, 0xBE77, 0xB200, 0xBCB0
PUBLISHED_LENGTHS = [
    4, 8, 16, 32, 64, 24, 48, 12, 11, 5, 2, 6, 12, 24, 48, 96, 36, 72, 18, 16,
    8, 3, 16, 7, 14, 28, 56, 112, 42, 84, 21, 18, 2, 3, 32, 252, 179, 173, 77, 6,
]
# key 1 is the rest, and no other word has low byte 0
PLAIN_PERIODS = [0 if key == 1 else 0x7F1 - 29 * key for key in range(64)]
# window $1f: L 1 is 2 frames, L 2 is 3 frames
WINDOW = 0x1F


def track(window=WINDOW, restart=0, release=0, envelopes=(0, 0), square1=None, square2=None, triangle=None, noise=None):
    return window, restart, release, envelopes, (square1, square2, triangle, noise)


class Bank:
    def __init__(self, lengths, periods):
        self.bytes = bytearray(16384)
        self.free = 0x9000
        self.headers = 0
        self.put(LENGTHS, bytes(lengths))
        self.put(PERIODS, b"".join(word.to_bytes(2, "big") for word in periods))
        self.put(PRESETS, bytes(range(0x30, 0x30 + 13)))
        self.put(ENVELOPES, b"".join((0xA000 + 0x10 * i).to_bytes(2, "little") for i in range(4)) + b"\x00\x10")
        self.put(0xA000, bytes.fromhex("04 02 FF"))
        self.put(0xA010, bytes.fromhex("0F 0A 05 F0"))
        self.put(0xA020, bytes.fromhex("FF"))
        self.put(0xA030, bytes(0x100))

    def put(self, address, data):
        self.bytes[address - START : address - START + len(data)] = data

    def channel(self, data):
        """Hex data in free space, hex data and its address, an address alone, or None."""
        if data is None:
            return 0
        if isinstance(data, int):
            return data
        if isinstance(data, tuple):
            self.put(data[1], bytes.fromhex(data[0]))
            return data[1]
        address = self.free
        self.put(address, bytes.fromhex(data))
        self.free += 0x100
        return address

    def add(self, described):
        window, restart, release, envelopes, channels = described
        addresses = b"".join(self.channel(c).to_bytes(2, "little") for c in channels)
        offset = 13 * self.headers
        self.bytes[OFFSETS - START + self.headers] = offset
        self.put(BLOCK + offset, bytes([window, restart, release, *envelopes]) + addresses)
        self.headers += 1


def bank(tracks, lengths=PUBLISHED_LENGTHS, periods=PLAIN_PERIODS):
    made = Bank(lengths, periods)
    for described in tracks:
        made.add(described)
    return made.bytes


def plays():
    return bank([
        # all four, restarting
        track(restart=0xFF, envelopes=(1, 1), square1="B1 2A 02 2E 00", square2="B2 18 02 30", triangle="B2 34 B1 02 36",
              noise="C0 B1 04 07 FF"),
        # a loop of one note, never released, then stopped
        track(release=0xF0, triangle="C3 B1 2A FF 00"),
        # key 0, a rest and the last key, released after 5 quarter-frames
        track(release=0xF5, triangle="B1 00 02 B2 7E 00"),
        track(noise="B1 04 07 0A 01 00"),
        # an envelope that ends in silence, one that is a lone FF; neither channel ends in time
        track(envelopes=(2, 3), square1="B8 20 22 00", square2="B0 20"),
        # an end in every frame
        track(restart=1, square2="FF C2 FF 00"),
    ])


def faults():
    return bank([
        # the triangle's fault in the frame of square 1's end, then in that of noise's end
        track(square1="B1 2A 00", triangle="B1 2A A0"),
        track(triangle="B1 2A A0", noise="B1 04 00"),
        track(restart=1, square1="B2 2A 00", triangle="C2 2A 00"),
        track(triangle=("B1 2A", 0xBFFE)),
        track(square2="B2 2A B9 2A 00", noise="B1 01 0A 0A"),
        track(square1="B1 2A B1 81", noise="B2 04 B8 07 00"),
    ])


def headers():
    lengths = list(PUBLISHED_LENGTHS)
    lengths[WINDOW + 2] = 0
    return bank([
        track(window=0x20, triangle="00"),
        track(envelopes=(0, 6), triangle="00"),
        # envelope 4 has no end, and 5's address is outside: only a used square is asked
        track(envelopes=(5, 4), square2="00"),
        track(triangle="00", noise=0x7FFF),
        track(restart=1),
        track(envelopes=(5, 4), triangle="B1 2A B2 2A 00"),
    ], lengths)


def silent():
    """Keys 0, 2, 4, 5 and $3f are silent, keys 1 and 3 sound."""
    periods = list(PLAIN_PERIODS)
    periods[:6] = 0x0700, 0x06AE, 0x0000, 0x00FB, 0x0700, 0x0500
    periods[0x3F] = 0x0100
    return bank([
        # all four, restarting; noise has bytes 4 and $0a too
        track(restart=0xFF, envelopes=(1, 2), square1="B2 2A 08 02 00", square2="B2 0A B1 06 04 2A",
              triangle="B2 08 B1 02 2A 06", noise="C0 B1 04 01 0A FF"),
        # never released
        track(release=0xF0, triangle="B1 08 2A 02 00"),
        # as in plays: key 0, key 1 and the last key, released after 5 quarter-frames
        track(release=0xF5, triangle="B1 00 02 B2 7E 00"),
        # no envelopes
        track(square1="B1 00 2A 0A 02 00", square2="B1 02 08 2A 04"),
        # a fault behind silent keys
        track(restart=1, square1="B1 08 0A A0", triangle="B2 2A 04"),
        # an envelope that ends in silence, one that is a lone FF; neither channel ends in time
        track(envelopes=(2, 3), square1="B8 08 2A 00", square2="B0 04"),
    ], periods=periods)


def main():
    for make in (plays, faults, headers, silent):
        with open(os.path.join(sys.argv[1], make.__name__), "wb") as file:
            file.write(make())


main()
