"""What cuemend must print and write, from document 01 and request No. 5. Verdicts are taken as cuecheck prints them."""
import collections
import dataclasses
import re
import typing

from programs import END, START

OFFSETS, BLOCK, LENGTHS, PERIODS, PRESETS, ENVELOPES = 0xBBFA, 0xBD31, 0xBEF7, 0xBE77, 0xB200, 0xBCB0
TRACKS, HEADER_SIZE = 12, 13
CHANNELS = ("square 1", "square 2", "triangle", "noise")
NOISE = 3
TABLES = (
    ("the header offsets", OFFSETS, TRACKS),
    ("the note lengths", LENGTHS, 40),
    ("the key periods", PERIODS, 128),
    ("the noise presets", PRESETS, 13),
    ("the envelope addresses", ENVELOPES, 10),
)
NAMED = 3
REASONS = {
    1: "the bank is not 16,384 bytes",
    3: "there is no such track, only 0 to 11",
    5: "the header's tempo byte is above 31",
    6: "the header names an envelope above 5",
    7: "the envelope of a square is not in the bank or has no end",
    8: "a channel's data is not in the bank",
    9: "the track uses no channel",
    10: "no command",
    11: "no key, rest or preset of this channel",
    12: "no such length",
    13: "a length of 0",
    14: "a note or rest before any length",
    15: "the data has no end",
}
NO_CHANNEL = "refused: there is no such channel, only 0 (square 1), 1 (square 2), 2 (triangle) and 3 (noise)\n"
SOUNDS = {False: bytes(range(0, 0x80, 2)), True: b"\x01\x04\x07\x0a"}
REST = {False: b"\x02", True: b"\x01"}
COMMAND = re.compile(rb"[\xb0-\xbf].?|.", re.DOTALL)
ENVELOPE = re.compile(rb"[^\xf0\xff]{0,63}[\xf0\xff]")


@dataclasses.dataclass
class Outcome:
    status: int
    printed: str
    written: typing.Optional[bytes] = None


def commands(data):
    """The data in pieces, up to and including the first end."""
    pieces = COMMAND.findall(data)
    return pieces[: pieces.index(b"\0") + 1] if b"\0" in pieces else pieces


def mended_command(piece, noise):
    if piece == b"\0" or piece[0] >= 0xC0:
        return piece
    kept, sound = piece[:-1], piece[-1:]
    if piece[0] >= 0xB0 and not kept:
        return piece
    return kept + (sound if sound in SOUNDS[noise] else REST[noise])


def mended(data, noise):
    pieces = commands(data)
    if pieces[-1] == b"\0":
        result = b"".join(mended_command(piece, noise) for piece in pieces)
    else:
        begin = b"".join(mended_command(piece, noise) for piece in pieces[:-1])
        result = begin + REST[noise] * (len(pieces[-1]) - 1) + b"\0"
    return result + data[len(result) :]


class Reader:
    """A bank and the lines that cuecheck prints of it."""

    def __init__(self, bank, lines):
        self.bank = bank
        self.verdicts = [line.split(" ")[1:] for line in lines]

    def part(self, address, size):
        return self.bank[address - START :][:size]

    def word(self, address):
        return int.from_bytes(self.part(address, 2), "little")

    def header(self, track):
        return BLOCK + self.bank[OFFSETS - START + track]

    def address(self, track, channel):
        return self.word(self.header(track) + 5 + 2 * channel)

    def data(self, track, channel):
        return self.part(self.address(track, channel), 256)

    def refused_before_data(self, track):
        verdict = self.verdicts[track]
        return int(verdict[1]) if verdict[0] == "refuse" and len(verdict) == 2 else None

    def owners(self, track, channel):
        """Of each address, what stands there but the data of this channel."""
        found = collections.defaultdict(list)

        def add(name, address, size):
            for at in range(address, address + size):
                found[at].append(name)

        for table in TABLES:
            add(*table)
        for number in range(1, 6):
            address = self.word(ENVELOPES + 2 * (number - 1))
            match = START <= address < END and ENVELOPE.match(self.part(address, 64))
            if match:
                add(f"envelope {number}", address, len(match[0]))
        for other in range(TRACKS):
            add(f"the header of track {other}", self.header(other), HEADER_SIZE)
        for other in range(TRACKS):
            for i, name in enumerate(CHANNELS):
                used = self.address(other, i) and not self.refused_before_data(other)
                if used and (other, i) != (track, channel):
                    size = sum(len(piece) for piece in commands(self.data(other, i)))
                    add(f"the data of track {other}, {name}", self.address(other, i), size)
        return found

    def change(self, track, channel):
        """Lines and bank of a track that is refused 10 to 15."""
        address, old = self.address(track, channel), self.data(track, channel)
        new = mended(old, channel == NOISE)
        owners = self.owners(track, channel)
        lines = ""
        for i, (before, after) in enumerate(zip(old, new)):
            if before != after:
                marks = [f"in {name}" for name in owners[address + i]]
                if len(marks) > NAMED:
                    marks[NAMED:] = [f"and in {len(marks) - NAMED} more"]
                lines += f"{i} {address + i:04x} {before:02x} {after:02x} {', '.join(marks)}".rstrip() + "\n"
        at = address - START
        return lines, self.bank[:at] + new + self.bank[at + len(new) :]

    def outcome(self, track, channel):
        verdict = self.verdicts[track]
        if verdict[0] == "pass":
            text = f"nothing is changed: the track passes, {CHANNELS[int(verdict[2])]} ends it in frame {verdict[1]}\n"
            return Outcome(0, text, self.bank)
        lines, bank = self.change(track, channel)
        if not lines:
            _, number, faulty, offset, _, address = verdict
            lines = f"nothing is changed: {CHANNELS[channel]} can be read up to its end\n"
            lines += f"the track is refused, number {number}, in {CHANNELS[int(faulty)]} at offset {offset}, "
            lines += f"address {address}: {REASONS[int(number)]}\n"
        return Outcome(0, lines, bank)


def refused(number):
    return Outcome(1, f"refused, number {number}: {REASONS[number]}\n")


def is_one_of(text, count):
    return re.fullmatch("[0-9]+", text) and int(text) < count


def expected(bank, lines, track, channel):
    """Track and channel are the texts given."""
    if lines == ["refuse 1"]:
        return refused(1)
    if not is_one_of(track, TRACKS):
        return refused(3)
    reader, track = Reader(bank, lines), int(track)
    if reader.refused_before_data(track):
        return refused(reader.refused_before_data(track))
    if not is_one_of(channel, len(CHANNELS)):
        return Outcome(1, NO_CHANNEL)
    channel = int(channel)
    if not reader.address(track, channel):
        return Outcome(1, f"refused: the track doesn't use {CHANNELS[channel]}\n")
    return reader.outcome(track, channel)
