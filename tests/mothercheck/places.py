"""Where Mother's tables stand, as published."""
import os
import sys

sys.path.insert(0, os.path.dirname(os.path.dirname(os.path.abspath(__file__))))

INDEPENDENT = "tests/mother/build/mothercheck"
LENGTHS, PERIODS, PRESETS, ENVELOPES = 0x8FD6, 0x8F4C, 0x8928, 0x8DED
# name, header offsets, header block, tracks
SETS = (("low", 0x903E, 0x906F, 24), ("high", 0x9056, 0x915F, 25))
# the other bank begins
BORDER = 0xA000
GOTO = 0xFFFF
UNUSED = 0xFFFF
NOISE = 3
