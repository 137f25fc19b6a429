#!/usr/bin/env python3
"""cuemend against cases worked out by hand, and against independent rules on random banks.

    make -C tests/reference && (cd crates/hemgosling && rt lib) && tests/cuemend/compare.py [BANKS] [SEED]

LIB=FILE takes another archive, by its full path. Verdicts are the independent cuecheck's; the proved one, where it is
built, must print the same. Fails too if one of the lines that cuemend can print did not come.
"""
import contextlib
import os
import random
import re
import resource
import subprocess
import sys
import tempfile

sys.path.insert(0, os.path.dirname(os.path.dirname(os.path.abspath(__file__))))
import programs
from programs import ROOT, START
from banks import Bank, RandomBank
from cases import TRIANGLE, cases
from expected import TRACKS, Outcome, expected

PROGRAM = os.path.join(ROOT, "tests/cuemend/build/cuemend")
SCRIPT = os.path.join(ROOT, "cuemend")
BUILT_BY_SCRIPT = os.path.join(ROOT, "target/cuemend")
PROVED_CUECHECK = "crates/cuecheck/out/cuecheck"
# OUTPUT and what it holds before: it is new, it is there, it is FILE
NEW, THERE, SAME = ("mended", None), ("mended", b"something else"), ("bank", None)
# 2 and 4 can't come with the published places
MUST_COME = [f"refused, number {number}:" for number in (1, 3, 5, 6, 7, 8, 9)]
MUST_COME += ["no such channel", "doesn't use", "the track passes", "can be read"]
MUST_COME += [f"the track is refused, number {number}," for number in range(10, 16)]
MUST_COME += ["[0-9a-f]{4} .. ..$", "bfff .. 00", "the header offsets", "the note lengths", "the key periods"]
MUST_COME += ["the noise presets", "the envelope addresses", r"envelope \d", "the header of", "the data of"]
MUST_COME += ["in .*, in ", r"and in \d+ more"]


def verdicts(bank):
    told = programs.printed(programs.built("tests/reference/build/cuecheck"), bank)
    if os.path.exists(os.path.join(ROOT, PROVED_CUECHECK)):
        if programs.printed(programs.built(PROVED_CUECHECK), bank) != told:
            sys.exit("the proved cuecheck prints something else than the independent one")
    return told.decode().splitlines()


def put_file(folder, name, data):
    with open(os.path.join(folder, name), "wb") as file:
        file.write(data)


@contextlib.contextmanager
def folder_with(bank):
    with tempfile.TemporaryDirectory() as folder:
        put_file(folder, "bank", bank)
        yield folder


def content(folder):
    found = {}
    for entry in os.scandir(folder):
        if entry.is_file():
            with open(entry.path, "rb") as file:
                found[entry.name] = file.read()
    return found


def run(folder, arguments, program=PROGRAM, stdout=subprocess.PIPE, **options):
    command = [program, *arguments]
    return subprocess.run(command, cwd=folder, stdout=stdout, stderr=subprocess.PIPE, text=True, timeout=60, **options)


def compare(what, bank, track, channel, wanted, outputs=(NEW, THERE, SAME), program=PROGRAM):
    for output, before in outputs:
        with folder_with(bank) as folder:
            if before is not None:
                put_file(folder, output, before)
            files = content(folder)
            if wanted.written is not None:
                files[output] = wanted.written
            told = run(folder, ["bank", track, channel, output], program)
            if (told.returncode, told.stdout, told.stderr) != (wanted.status, wanted.printed, ""):
                put_file(tempfile.gettempdir(), "cuemend-differs.bin", bank)
                told_text = f"status {told.returncode}\n{told.stderr}{told.stdout}"
                wanted_text = f"status {wanted.status}\n{wanted.printed}"
                sys.exit(f"{what}: {told.args}, bank in cuemend-differs.bin\n{told_text}---\n{wanted_text}")
            if content(folder) != files:
                sys.exit(f"{what}: {told.args} leaves other files than it should")


def outcome_of(bank, printed):
    """Of a case made by hand: the bytes that its lines list are those changed."""
    if printed.startswith("refused"):
        return Outcome(1, printed)
    written = bytearray(bank)
    for address, byte in re.findall(r"(?m)^\d+ ([0-9a-f]{4}) .. (..)", printed):
        written[int(address, 16) - START] = int(byte, 16)
    return Outcome(0, printed, bytes(written))


def compare_by_hand(came):
    count = 0
    for what, bank, track, channel, printed in cases():
        bank = bytes(bank.bytes) if isinstance(bank, Bank) else bank
        wanted = outcome_of(bank, printed)
        ruled = expected(bank, verdicts(bank), track, channel)
        if ruled != wanted:
            sys.exit(f"{what}: the independent rules say something else\n{ruled.printed}---\n{wanted.printed}")
        compare(what, bank, track, channel, wanted)
        came.extend(printed.splitlines())
        count += 1
    return count


def compare_as_new_user(program):
    """cuecheck finds the fault, cuemend mends it, cuecheck passes the track."""
    bank = bytes(Bank().use(0, TRIANGLE, 0xB000, "C2 B0 2A A0 B1 8F FF 00").bytes)
    mended = bytes(Bank().use(0, TRIANGLE, 0xB000, "C2 B0 2A 02 B1 02 FF 00").bytes)
    if verdicts(bank)[0] != "0 refuse 10 2 3 6 b003" or verdicts(mended)[0] != "0 pass 36 2":
        sys.exit("the new user's bank is not judged as worked out by hand")
    wanted = Outcome(0, "3 b003 a0 02\n5 b005 8f 02\n", mended)
    compare("as a new user", bank, "0", "2", wanted, program=program)


def compare_random(count, rnd, came):
    for i in range(count):
        bank = bytes(RandomBank(rnd, i).bytes)
        lines = verdicts(bank)
        faulty = [line.split(" ")[0] for line in lines if " refuse 1" in line]
        track = rnd.choice(faulty if faulty and rnd.random() < 0.6 else [str(n) for n in range(TRACKS)])
        for channel in "0123":
            wanted = expected(bank, lines, track, channel)
            output = rnd.choice((NEW, THERE, SAME))
            compare(f"bank {i}, track {track}, channel {channel}", bank, track, channel, wanted, [output])
            came.extend(wanted.printed.splitlines())


def compare_failure(words, folder, arguments, **options):
    """Status 2, these words on standard error, and no file is changed or left."""
    files = content(folder)
    told = run(folder, arguments, **options)
    if told.returncode != 2 or told.stdout or words not in told.stderr or content(folder) != files:
        sys.exit(f"not '{words}' alone: {told}")


def limit_files():
    """What is written behind the first 8 KB fails, as on a full disk."""
    resource.setrlimit(resource.RLIMIT_FSIZE, (8192, 8192))


def compare_failures(bank):
    with folder_with(bank) as folder:
        for arguments in [], ["bank"], ["bank", "0", "2"], ["bank", "0", "2", "mended", "more"]:
            for program in PROGRAM, SCRIPT:
                compare_failure("usage: ", folder, arguments, program=program)
        compare_failure("can't read none: No such file", folder, ["none", "x", "x", "mended"])
        compare_failure("can't read .: Is a directory", folder, [".", "x", "x", "mended"])

        def unwritable(output, why, **options):
            compare_failure(f"can't write {output}{why}", folder, ["bank", "0", "2", output], **options)

        os.mkdir(os.path.join(folder, "folder"))
        os.symlink("bank", os.path.join(folder, "link"))
        put_file(folder, "there.tmp", b"something else")
        for output in "folder", "link", "/dev/null":
            unwritable(output, ": it is not a plain file")
        unwritable("there", ".tmp: File exists")
        unwritable("none/mended", ".tmp: No such file")
        unwritable("", ": No such file")
        unwritable(2043 * "./" + "mended", ": File name too long")
        for output in "mended", "bank":
            unwritable(output, ": File too large", preexec_fn=limit_files, restore_signals=False)
        if os.geteuid() != 0:
            os.chmod(os.path.join(folder, "bank"), 0o444)
            unwritable("bank", ": Permission denied")


def compare_full_output(bank):
    with folder_with(bank) as folder, open("/dev/full", "wb") as full:
        for channel, words in ("2", "standard output, but OUTPUT is written\n"), ("0", "standard output\n"):
            told = run(folder, ["bank", "0", channel, "mended"], stdout=full)
            if told.returncode != 2 or words not in told.stderr:
                sys.exit(f"standard output is full: {told}")


def main():
    count = int(sys.argv[1]) if len(sys.argv) > 1 else 200
    rnd = random.Random(int(sys.argv[2]) if len(sys.argv) > 2 else 1)
    subprocess.run(["make", "-s", "-C", os.path.join(ROOT, "tests/cuemend")], check=True)
    compare_as_new_user(PROGRAM)
    if "LIB" not in os.environ:
        if os.path.exists(BUILT_BY_SCRIPT):
            os.remove(BUILT_BY_SCRIPT)
        compare_as_new_user(SCRIPT)
    faulty = bytes(Bank().use(0, TRIANGLE, 0x9000, "A0 00").bytes)
    compare_failures(faulty)
    compare_full_output(faulty)
    came = []
    by_hand = compare_by_hand(came)
    compare_random(count, rnd, came)
    numbers = {kind: sum(bool(re.search(kind, line)) for line in came) for kind in MUST_COME}
    print("; ".join(f"{kind} {number}" for kind, number in numbers.items()))
    if not all(numbers.values()):
        sys.exit(f"no bank shows {[kind for kind in MUST_COME if not numbers[kind]]}")
    changes = sum(line[0].isdigit() for line in came)
    print(f"cuemend: {by_hand + count} banks, {changes} changes, all as expected")


main()
