"""Banks for cuemend: made by hand, and random ones."""
from expected import BLOCK, ENVELOPES, HEADER_SIZE, LENGTHS, NOISE, OFFSETS, PERIODS, PRESETS, TRACKS
import programs
from programs import END, START

WINDOW, ENVELOPE_1, ADDRESSES = 0, 3, 5


class Bank(programs.Bank):
    """Headers in a row, lengths of 6 frames, envelopes that end at once; no channel is used yet."""

    def __init__(self):
        super().__init__()
        self.put(LENGTHS, [6] * 40)
        for i in range(5):
            self.put_word(ENVELOPES + 2 * i, 0xA000 + 16 * i)
            self.put(0xA000 + 16 * i, [0xFF])
        for track in range(TRACKS):
            self.put(OFFSETS + track, [HEADER_SIZE * track])
            self.header(track, WINDOW, 0x0B)

    def header(self, track, at, byte):
        self.put(BLOCK + HEADER_SIZE * track + at, [byte])
        return self

    def use(self, track, channel, address, data=""):
        self.put_word(BLOCK + HEADER_SIZE * track + ADDRESSES + 2 * channel, address)
        return self.at(address, data)

    def at(self, address, data):
        self.put(address, bytes.fromhex(data))
        return self


class RandomBank(programs.RandomBank):
    """Channels in free space, at the bank's end, and on tables, envelopes, headers and each other."""

    def __init__(self, rnd, i):
        super().__init__(rnd, i, START, (END,))
        self.rotten = 0.05 * (i % 3 > 0)
        self.put_lengths(LENGTHS, 40)
        for table, size in (PERIODS, 128), (PRESETS, 13):
            self.put_random(table, size)
        self.taken = [PERIODS, PRESETS, LENGTHS, ENVELOPES, BLOCK, OFFSETS, START, END - 20]
        self.put_envelopes(ENVELOPES, 5)
        for track in range(TRACKS):
            header = track if rnd.random() < 0.9 else rnd.randrange(TRACKS)
            self.put(OFFSETS + track, [HEADER_SIZE * header])
            self.put(BLOCK + HEADER_SIZE * track, self.settings())
            for channel in range(4):
                if rnd.random() < 0.6:
                    self.put_word(BLOCK + HEADER_SIZE * track + ADDRESSES + 2 * channel, self.channel(channel))

    def settings(self):
        rnd = self.rnd
        window = rnd.randrange(0x60) if rnd.random() < self.rotten else rnd.choice((0, 0x0B, 0x17))
        return [window, 0, 0, rnd.randrange(6 + self.damaged), rnd.randrange(6)]

    def channel(self, channel):
        rnd = self.rnd
        if rnd.random() < self.rotten / 2:
            return rnd.choice((START - 1, END))
        if rnd.random() < 0.05 + 4 * self.rotten:
            return min(rnd.choice(self.taken) + rnd.choice((0, rnd.randrange(20))), END - 1)
        self.taken.append(self.put_room(self.data(channel)))
        return self.taken[-1]

    def data(self, channel):
        rnd = self.rnd
        notes = (1, 4, 7, 10) if channel == NOISE else range(2, 0x80, 2)
        data = [] if rnd.random() < self.rotten else [0xB0, rnd.choice(notes)]
        for _ in range(rnd.randrange(280 if rnd.random() < 0.1 else 30)):
            command = rnd.choice(([0xB0 + rnd.randrange(8), rnd.choice(notes)], [0xC0 + rnd.randrange(1, 4)], [0xFF]))
            data += rnd.choice((command, [rnd.choice(notes)]))
            if rnd.random() < self.rotten:
                data.append(rnd.randrange(256))
        return data + [0] * (rnd.random() < 0.8)
