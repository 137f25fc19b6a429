"""A proved program against an independent one: both must print the same for every input. For the compare.py below."""
import collections
import dataclasses
import os
import random
import subprocess
import sys
import tempfile
import typing

ROOT = os.path.dirname(os.path.dirname(os.path.abspath(__file__)))
SIZE = 16384
START, END = 0x8000, 0xC000


class Bank:
    """The bytes of $8000 to $bfff. What is put behind is cut."""

    def __init__(self):
        self.bytes = bytearray(SIZE)

    def put(self, address, data):
        at = address - START
        part = bytes(data)[: SIZE - at]
        self.bytes[at : at + len(part)] = part

    def put_word(self, address, word):
        self.put(address, [word % 256, word // 256])


class RandomBank(Bank):
    """Legal, damaged, or with some of what is made cut at one of the ends, in turn; else it stands in free space."""

    def __init__(self, rnd, i, free, ends):
        super().__init__()
        self.rnd = rnd
        self.damaged = i % 3 == 1
        self.ends = ends if i % 3 == 2 else ()
        self.free = free

    def put_room(self, data):
        address = self.free
        if self.ends and self.rnd.random() < 0.4:
            address = self.rnd.choice(self.ends) - 1 - self.rnd.randrange(20)
        else:
            self.free += len(data)
        self.put(address, data)
        return address

    def put_random(self, address, count):
        self.put(address, [self.rnd.randrange(256) for _ in range(count)])

    def put_lengths(self, address, count):
        self.put(address, [self.length() for _ in range(count)])

    def length(self):
        if self.damaged and self.rnd.random() < 0.05:
            return 0
        return 1 + self.rnd.randrange(40 if self.rnd.random() < 0.1 else 6)

    def put_envelopes(self, table, count):
        for i in range(count):
            self.put_word(table + 2 * i, self.put_room(self.envelope()))

    def envelope(self):
        body = [self.rnd.randrange(0xF0) for _ in range(self.rnd.randrange(12))]
        if self.damaged and self.rnd.random() < 0.1:
            body = [1] * 64
        return body + [self.rnd.choice((0xF0, 0xFF))]


def built(path):
    path = os.path.join(ROOT, path)
    if not os.access(path, os.X_OK):
        sys.exit(f"{path} is not built")
    return path


def printed(program, data):
    with tempfile.TemporaryFile() as file:
        file.write(data)
        file.seek(0)
        return subprocess.run([program], stdin=file, stdout=subprocess.PIPE, check=True, timeout=60).stdout


@dataclasses.dataclass
class Program:
    name: str
    independent: str  # path from the root
    wrong_sizes: typing.Sequence[int]
    tracks: typing.Sequence[str]  # how the lines of a bank begin
    told: typing.Callable  # what is counted of the rest of a line, or None if it can't be one
    must_come: typing.Sequence[str]  # of what is told, and of the addresses that end a line

    def same(self, what, data):
        proved = printed(built(f"crates/{self.name}/out/{self.name}"), data)
        independent = printed(built(self.independent), data)
        if proved != independent:
            path = os.path.join(tempfile.gettempdir(), self.name + "-differs.bin")
            with open(path, "wb") as file:
                file.write(data)
            sys.exit(f"{what}: the programs differ on {path}\n{proved.decode()}---\n{independent.decode()}")
        return proved.decode()

    def told_of_bank(self, what, bank):
        lines = self.same(what, bank).splitlines()
        told = [self.told(line[len(track) + 1 :]) for track, line in zip(self.tracks, lines)]
        begin = [line.startswith(track + " ") for track, line in zip(self.tracks, lines)]
        if len(lines) != len(self.tracks) or not all(begin) or None in told:
            sys.exit(f"{what}: not a line a track\n" + "\n".join(lines))
        return told + [line.split(" ")[-1] for line in lines]

    def compare(self, make_bank):
        """[BANKS] [SEED]; make_bank is given the random numbers and the number of the bank."""
        count = int(sys.argv[1]) if len(sys.argv) > 1 else 2100
        rnd = random.Random(int(sys.argv[2]) if len(sys.argv) > 2 else 1)
        came = collections.Counter()
        for size in self.wrong_sizes:
            for data in (bytes(size), rnd.randbytes(size)):
                if self.same(f"{size} bytes", data) != "refuse 1\n":
                    sys.exit(f"{size} bytes are taken")
                came["refuse 1"] += 1
        for i in range(count):
            came.update(self.told_of_bank(f"bank {i}", bytes(make_bank(rnd, i).bytes)))
        print(", ".join(f"{told}: {came[told]}" for told in self.must_come))
        missing = [told for told in self.must_come if not came[told]]
        if missing:
            sys.exit(f"no input shows {missing}")
        print(f"{count} banks of {len(self.tracks)} tracks, {2 * len(self.wrong_sizes)} other inputs: the same")
