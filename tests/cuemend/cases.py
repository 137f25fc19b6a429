"""Cases worked out by hand: what it is, bank, track and channel as they are given, what cuemend must print."""
from banks import ENVELOPE_1, WINDOW, Bank
from expected import BLOCK, ENVELOPES, HEADER_SIZE, LENGTHS, NO_CHANNEL, OFFSETS, PERIODS, PRESETS
from programs import SIZE

SQUARE_1, SQUARE_2, TRIANGLE, NOISE = range(4)
NO_NUMBERS = ("", "x", "-1", "+0", " 0", "0 ", "0x0", "0.0", "4294967296", "18446744073709551616")
NO_TRACK = "refused, number 3: there is no such track, only 0 to 11\n"
NO_ENVELOPE = "refused, number 7: the envelope of a square is not in the bank or has no end\n"
PASSES = "nothing is changed: the track passes, triangle ends it in frame 6\n"


def triangle(data, address=0x9000):
    return Bank().use(0, TRIANGLE, address, data)


def refusals():
    good = triangle("B0 2A A0 00")
    for size in (0, 1, SIZE - 1, SIZE + 1, 2 * SIZE):
        data = (bytes(good.bytes) * 2)[:size]
        yield f"{size} bytes", data, "x", "x", "refused, number 1: the bank is not 16,384 bytes\n"
    for text in NO_NUMBERS + ("12", "255"):
        yield f"track '{text}'", good, text, "2", NO_TRACK
        yield f"track '{text}', no channel", good, text, "x", NO_TRACK
    for text in NO_NUMBERS + ("4", "256"):
        yield f"channel '{text}'", good, "0", text, NO_CHANNEL
    fast = triangle("A0").header(0, WINDOW, 0x20)
    yield "tempo", fast, "0", "x", "refused, number 5: the header's tempo byte is above 31\n"
    sixth = triangle("A0").header(0, ENVELOPE_1, 6)
    yield "envelope 6", sixth, "0", "2", "refused, number 6: the header names an envelope above 5\n"
    for address in ("FF 7F", "00 C0", "00 91"):
        square = Bank().use(0, SQUARE_1, 0x9000, "A0").header(0, ENVELOPE_1, 5).at(ENVELOPES + 8, address)
        yield f"envelope at {address}", square, "0", "0", NO_ENVELOPE
    for address in (0x0001, 0x7FFF, 0xC000):
        outside = Bank().use(0, NOISE, address)
        yield f"data at {address:04x}", outside, "0", "3", "refused, number 8: a channel's data is not in the bank\n"
    yield "no channel is used", Bank(), "0", "2", "refused, number 9: the track uses no channel\n"
    for channel, name in enumerate(("square 1", "square 2", "triangle", "noise")):
        other = Bank().use(0, (channel + 1) % 4, 0x9000, "A0")
        yield f"{name} not used", other, "0", str(channel), f"refused: the track doesn't use {name}\n"


def reads(channel, number, fault):
    line = f"nothing is changed: {channel} can be read up to its end\n"
    return line + f"the track is refused, number {number}, in {fault}\n"


def unchanged():
    yield "passes", triangle("B0 2A 00"), "0", "2", PASSES
    no_end = triangle("B0 2A 00").use(0, SQUARE_1, 0x9100, "B0 2A 2A A0" + 252 * "81")
    yield "passes without an end", no_end, "0", "0", PASSES
    other = triangle("B0 2A A0").use(0, SQUARE_1, 0x9100, "B0 2A 2A 00")
    fault = "triangle at offset 2, address 9002: no command"
    yield "another's 10", other, "0", "0", reads("square 1", 10, fault)
    other = triangle("B0 2A 2A 00").use(0, SQUARE_2, 0x9100, "B0 03 00")
    fault = "square 2 at offset 1, address 9101: no key, rest or preset of this channel"
    yield "another's 11", other, "0", "2", reads("triangle", 11, fault)
    other = triangle("B0 2A 00").use(0, NOISE, 0xBFFF, "B0")
    fault = "noise at offset 1, address c000: the data has no end"
    yield "another's 15", other, "0", "2", reads("triangle", 15, fault)
    fault = "triangle at offset 0, address 9000: "
    window = triangle("B9 2A 00").header(0, WINDOW, 0x1F)
    yield "12", window, "0", "2", reads("triangle", 12, fault + "no such length")
    zero = triangle("B1 2A 00").at(LENGTHS + 0x0C, "00")
    yield "13", zero, "0", "2", reads("triangle", 13, fault + "a length of 0")
    yield "14", triangle("2A 00"), "0", "2", reads("triangle", 14, fault + "a note or rest before any length")


def changes():
    yield "10 and 11", triangle("B0 2A A0 03 B1 FE 00 A0"), "00", "02", "2 9002 a0 02\n3 9003 03 02\n5 9005 fe 02\n"
    noise = Bank().use(11, NOISE, 0x8000, "B0 00 02 0A 7E C4 FF 00 02")
    yield "noise", noise, "11", "3", "1 8001 00 01\n2 8002 02 01\n4 8004 7e 01\n"
    yield "no end", triangle("B0" + 300 * "2A"), "0", "2", "255 90ff 2a 00\n"
    yield "no end, BL last", triangle("B0 2A" + 127 * "B1 2A" + "2A"), "0", "2", "254 90fe b1 02\n255 90ff 2a 00\n"
    yield "no end, half a BL last", triangle(127 * "B1 2A" + "2A B1 00"), "0", "2", "255 90ff b1 00\n"
    yield "cut at the bank's end", triangle("B0 2A", 0xBFFE), "0", "2", "0 bffe b0 02\n1 bfff 2a 00\n"
    yield "cut, BL 00 last", triangle("B0 00", 0xBFFE), "0", "2", "0 bffe b0 02\n"
    yield "cut, half a BL last", triangle("B0", 0xBFFF), "0", "2", "0 bfff b0 00\n"
    yield "cut, one byte", triangle("A0", 0xBFFF), "0", "2", "0 bfff a0 00\n"


def marks_of_tables():
    yield "header offsets", triangle("", OFFSETS + 11), "0", "2", "0 bc05 8f 02 in the header offsets\n"
    yield "note lengths", triangle("07", LENGTHS + 39), "0", "2", "0 bf1e 07 02 in the note lengths\n"
    periods = "0 bef5 a0 02 in the key periods\n1 bef6 a1 02 in the key periods\n2 bef7 03 02 in the note lengths\n"
    yield "key periods", triangle("A0 A1 03 00", PERIODS + 126), "0", "2", periods
    presets = "0 b1ff 93 02\n1 b200 93 02 in the noise presets\n"
    yield "begin of the noise presets", triangle("93 93 00", PRESETS - 1), "0", "2", presets
    presets = "0 b20c 93 02 in the noise presets\n1 b20d 93 02\n"
    yield "end of the noise presets", triangle("93 93 00", PRESETS + 12), "0", "2", presets
    fifth = "0 bcb8 01 02 in the envelope addresses\n1 bcb9 a0 02 in the envelope addresses\n2 bcba 01 02\n"
    yield "envelope addresses", triangle("01 A0 01 00", ENVELOPES + 8), "0", "2", fifth
    yield "header", triangle("", BLOCK + 11 * HEADER_SIZE), "0", "2", "0 bdc0 0b 02 in the header of track 11\n"
    headers = "0 bd64 90 02 in the header of track 3\n1 bd65 0b 02 in the header of track 4\n"
    yield "end of a header", triangle("90", BLOCK + 4 * HEADER_SIZE - 1), "0", "2", headers
    yield "own header", triangle("", BLOCK), "0", "2", "0 bd31 0b 02 in the header of track 0\n"


def marks_of_envelopes():
    second = "0 a010 0f 02 in envelope 2\n1 a011 0d 02 in envelope 2\n3 a013 81 02\n"
    for end in ("F0", "FF"):
        yield "envelope that ends with " + end, triangle("0F 0D " + end + " 81 00", 0xA010), "0", "2", second
    last = "1 a011 ff 02 in envelope 2\n2 a012 81 02\n"
    yield "last byte of an envelope", triangle("B0 FF 81 00", 0xA010), "0", "2", last
    outside = triangle("81 00").at(ENVELOPES, "FF 7F 00 C0 00 00 FF FF FF 00")
    yield "envelopes outside", outside, "0", "2", "0 9000 81 02\n"
    unmarked = [f"{i} {0x9000 + i:04x} 81 02" for i in range(64)]
    marked = unmarked[:1] + [line + " in envelope 1" for line in unmarked[1:]]
    bytes_65 = 64 * "81" + "FF"
    yield "envelope of 64", triangle(bytes_65).at(ENVELOPES, "01 90"), "0", "2", "\n".join(marked) + "\n"
    yield "envelope of 65", triangle(bytes_65).at(ENVELOPES, "00 90"), "0", "2", "\n".join(unmarked) + "\n"
    yield "cut envelope", triangle("81 81", 0xBFFE).at(ENVELOPES, "FF BF"), "0", "2", "0 bffe 81 02\n1 bfff 81 00\n"


def marks_of_channels():
    for begin in ("B0 2A", "B0 00", "A0 81", "B0 FF"):
        other = triangle("A0 00", 0x9002).use(0, SQUARE_2, 0x9000, begin)
        yield f"behind {begin}", other, "0", "2", "0 9002 a0 02 in the data of track 0, square 2\n"
    ended = triangle("A0 00", 0x9003).use(0, SQUARE_2, 0x9000, "B0 00 00")
    yield "behind another's end", ended, "0", "2", "0 9003 a0 02\n"
    end = Bank().use(0, NOISE, 0x9001, "B0 00 00").use(1, TRIANGLE, 0x9002)
    yield "another's end", end, "0", "3", "1 9002 00 01 in the data of track 1, triangle\n"
    endless = triangle("A0 A0 00").use(7, NOISE, 0x8F01, "B0" + 254 * "04")
    yield "another without an end", endless, "0", "2", "0 9000 a0 02 in the data of track 7, noise\n1 9001 a0 02\n"
    shared = triangle("A0 00").use(2, SQUARE_1, 0x9000)
    yield "same data", shared, "0", "2", "0 9000 a0 02 in the data of track 2, square 1\n"
    refused = triangle("A0 00").use(5, TRIANGLE, 0x9000).header(5, WINDOW, 0x20)
    yield "same data, header refused", refused, "0", "2", "0 9000 a0 02\n"
    twice = triangle("A0 00").at(OFFSETS + 9, "00")
    yield "same header", twice, "9", "2", "0 9000 a0 02 in the data of track 0, triangle\n"


def several_marks():
    several = triangle("81 00", PRESETS).use(0, SQUARE_1, PRESETS).use(1, NOISE, PRESETS)
    line = "0 b200 81 02 in the noise presets, in the data of track 0, square 1, in the data of track 1, noise\n"
    yield "three marks", several, "0", "2", line
    line = "0 b200 81 01 in the noise presets, in the data of track 0, square 1, in the data of track 0, triangle"
    four = triangle("81 00", PRESETS).use(0, SQUARE_1, PRESETS).use(1, NOISE, PRESETS).use(11, NOISE, PRESETS)
    yield "four marks", four, "1", "3", line + ", and in 1 more\n"


def cases():
    for group in (refusals, unchanged, changes, marks_of_tables, marks_of_envelopes, marks_of_channels, several_marks):
        yield from group()
