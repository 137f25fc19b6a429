#!/usr/bin/env python3
"""mothercheck against the independent program, which lists every fault: both must print the same.

    make -C tests/mother && ./mothercheck /dev/null && tests/mothercheck/compare.py [BANKS] [SEED]

Fails too if one of the lines that the banks or another input can give did not come.
"""
import re

from places import BORDER, ENVELOPES, GOTO, INDEPENDENT, LENGTHS, NOISE, PERIODS, PRESETS, SETS, UNUSED
import programs
from programs import END, SIZE

HEADER_SIZE = 10
MELODIC_BLOCKS, NOISE_BLOCKS = 40, 20
# behind the published headers
FREE = 0x9300
EVEN = (0x00, 0x02, 0x04, 0x08, 0x81, 0x83, 0x87)
PLACE = r" [0-3] \d+ \d+"
# an address in the banks, or the one behind them
ADDRESS = f"(?:[89ab][0-9a-f]{{3}}|{END:04x})"
# what a track's line says after its number; banks at the published places can't show 2 to 4
LINE = re.compile(rf"(pass)|(refuse (?:8|9|19))|(refuse (?:6|7|19|20|22)){PLACE}|(refuse 1[0-5]){PLACE} {ADDRESS}")
FIRST_PLACED = 3
PLACED = (6, 7, *range(10, 16), 19, 20, 22)


class Bank(programs.RandomBank):
    def __init__(self, rnd, i):
        super().__init__(rnd, i, FREE, (BORDER, END))
        self.put_random(PERIODS, 134)
        self.put_random(PRESETS, 31)
        self.put_lengths(LENGTHS, 104)
        self.put_envelopes(ENVELOPES, 27)
        self.melodic = [self.put_room(self.block(False)) for _ in range(MELODIC_BLOCKS)]
        self.noise = [self.put_room(self.block(True)) for _ in range(NOISE_BLOCKS)]
        for _, offsets, block, tracks in SETS:
            for track in range(tracks):
                self.put(offsets + track, [HEADER_SIZE * track])
                self.put(block + HEADER_SIZE * track, self.header())
        if self.damaged:
            self.damage()

    def now_and_then(self, chance):
        """Something that is refused, in damaged banks alone."""
        return self.damaged and self.rnd.random() < chance

    def note(self, noise):
        if self.now_and_then(0.01):
            return self.rnd.randrange(256)
        if noise:
            return self.rnd.choice((1, 2, 4, 7, 0x0A, 0x0D, 0x10, 0x13, 0x16, 0x19, 0x1C)) + self.rnd.choice((0, 0x40))
        return 2 * self.rnd.choice((1, self.rnd.randrange(8, 50)))

    def transpose(self):
        return self.rnd.randrange(256) if self.now_and_then(0.05) else self.rnd.choice(EVEN)

    def window(self):
        return self.rnd.randrange(256) if self.now_and_then(0.02) else self.rnd.randrange(88)

    def command(self, noise):
        rnd = self.rnd
        kind = rnd.random()
        if kind < 0.5:
            return [self.note(noise)]
        if kind < 0.7:
            return [0xB0 + rnd.randrange(16), self.note(noise)]
        if kind < 0.8:
            return [rnd.choice((0xC0, 0xC2, 0xC5, 0xFF, 0xFF, 0xFF))]
        if kind < 0.85:
            return [0x9C, self.transpose()]
        if kind < 0.9:
            return [0x9E, self.window()]
        if noise:
            return [0x9F] if self.now_and_then(0.05) else []
        return [0x9F, 32 * rnd.randrange(8) + rnd.randrange(32 if self.now_and_then(0.2) else 28), rnd.randrange(256)]

    def block(self, noise):
        """Mostly a length, some commands and the end."""
        data = [] if self.now_and_then(0.1) else [0xB0 + self.rnd.randrange(16), self.note(noise)]
        for _ in range(self.rnd.randrange(12)):
            data += self.command(noise)
        return data if self.now_and_then(0.05) else data + [0x00]

    def words(self, channel, address):
        """Blocks, then an end or a goto to one of them; sometimes a goto first, and in damaged banks one anywhere."""
        rnd = self.rnd
        blocks = self.noise if channel == NOISE else self.melodic
        words = [GOTO, address + 4] if rnd.random() < 0.2 else []
        first = len(words)
        words += [rnd.choice(blocks) for _ in range(rnd.randrange(1, 6))]
        if self.now_and_then(0.05):
            words.append(rnd.choice((0x0100, 0x7FFF, 0xC000, GOTO, address + 2 * first)))
        if rnd.random() < 0.4:
            return words + [rnd.randrange(256)]
        return words + [0xFF00 + rnd.randrange(256), address + 2 * rnd.randrange(first, len(words))]

    def playlist(self, channel):
        address = self.free
        words = self.words(channel, address)
        self.free += 2 * len(words)
        for i, word in enumerate(words):
            self.put_word(address + 2 * i, word)
        return address

    def header(self):
        lists = [self.playlist(channel) if self.rnd.random() < 0.6 else UNUSED for channel in range(4)]
        header = [self.transpose() if self.rnd.random() < 0.2 else 0, self.window()]
        for address in lists:
            header += [address % 256, address // 256]
        return header

    def damage(self):
        rnd = self.rnd
        for _, offsets, block, tracks in SETS:
            for at in (offsets + rnd.randrange(tracks), block + rnd.randrange(HEADER_SIZE * tracks), ENVELOPES + 1):
                self.put(at, [rnd.choice((0, rnd.randrange(256)))])


def told(text):
    match = LINE.fullmatch(text)
    return match and match[match.lastindex] + (" at a place" if match.lastindex >= FIRST_PLACED else "")


programs.Program(
    name="mothercheck",
    independent=INDEPENDENT,
    wrong_sizes=(0, 1, SIZE // 2, SIZE - 1, SIZE + 1, 2 * SIZE, 100000),
    tracks=[f"{name} {track}" for name, _, _, tracks in SETS for track in range(tracks)],
    told=told,
    must_come=["refuse 1", "pass", "refuse 8", "refuse 9", "refuse 19"]
    + [f"refuse {number} at a place" for number in PLACED]
    + [f"{BORDER:04x}", f"{END:04x}"],
).compare(Bank)
