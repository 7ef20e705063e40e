"""A region's life as threads may read it that fetch each byte by itself: with every serialization each mixture of bytes is right, and with
one of them left out some mixture isn't.
"""
import unittest

from following import Life, begun_again
from reading import filled
from views import Views, mixtures

# The code that is created first, at 00010000.
FIRST = bytes.fromhex(
    "90"           # 00010000
    "eb05"         # 00010001: a jump to 00010008
    "b8c3909090"   # 00010003: an operand of which the first byte is that of a return
    + "90" * 14 +  # 00010008
    "b007"         # 00010016
    "ffc7"         # 00010018: inc edi
    "e901000000"   # 0001001A: a jump to 00010020
    "40"           # 0001001F
    "83e0e0"       # 00010020: a pair on register 0
    "ffe0"         # 00010023
    "eb05"         # 00010025: a jump to 0001002C
    "b801020304"   # 00010027
    + "90" * 9 +   # 0001002C
    "b008"         # 00010035
    + "90" * 9     # 00010037
)

# In the first bundle: an instruction that keeps its bytes, a jump to 00010001 for `inc edi`, a call of 00001000 for the jump, and a single
# byte.
ONE_BUNDLE = "b007 ebe7 e8e10fffff 48"

# In the second bundle: a mask that keeps its bytes, a masked call for the masked jump, and `xor ecx, ecx` for a jump.
NEXT_BUNDLE = "83e0e0 ffd0 31c9"

# Two chunks are created, the second one with a jump to 00010000. The first one is patched in both of its bundles, a masked call becomes a
# masked jump again, the chunk is deleted and reclaimed, and its span used again: instructions begin where operands stood.
LIFE = [
    ("create", 0x10000, FIRST),
    ("create", 0x10040, filled("ebbe")),
    ("patch", 0x10016, ONE_BUNDLE),
    ("patch", 0x10020, NEXT_BUNDLE),
    ("patch", 0x10023, "ffe0"),
    ("delete", 0x10000, 1),
    ("check_in",),
    ("reclaim", (0x10000, 64)),
    ("create", 0x10000, filled("90b007", 2)),
]

# After how many acts mixtures are read: 65 of the first creation, 33 of the second, 10, 6 and 3 of the patches, 64 puts of the deletion,
# one span unmarked, and 65 of the last creation.
LOOKS = 247

# Serializations, if the acts of each change are begun again after each of them: one that comes after i of n acts is made n - i + 1 times. 5
# and 4 of the first two creations, 39, 26 and 8 of the patches, 22 of the deletion, whose chunk has 44 marks, and 5 of the last creation.
AGAIN = 109

# What is read first that isn't right, if one serialization is left out: its address and its bytes. Each serialization has a row, in their
# order. A byte that was put since the serialization before may be read, and so may those that it took the place of.
WRONG = [
    # The creation at 00010000. At 00010001 and 00010002 stops stood, and EB and 05 were put. Marked, the jump is read with the stop as its
    # operand: to 00010003 - 12 = 0000FFF7, which is no bundle start.
    (0x10001, "ebf4"),
    # The creation at 00010040. Its other marked places but the first have nops of one byte. When EB is put at the bundle start, the stop
    # behind it is read as its operand: to 00010042 - 12 = 00010036, the second byte of B0 08.
    (0x10040, "ebf4"),
    # The first one of EB E7 for FF C7. FF may still be read when E7 is put behind it: a jump to edi without its mask.
    (0x10018, "ffe7"),
    # The second one. When EB is put, C7 may still be read: a jump to 0001001A - 57 = 0000FFE1, which is no bundle start.
    (0x10018, "ebc7"),
    # The first one of E8 E1 0F FF FF for E9 01 00 00 00. E9 may still be read when E1 is put: to 0001001F + E1 = 00010100, above the limit.
    (0x1001A, "e9e1000000"),
    # The second one. When E8 is put, all four bytes of the operand may be old or new. All of them old, it is a call of 00010020; with the
    # last one new, of FF010020.
    (0x1001A, "e8010000ff"),
    # Both of FF D0 for FF E0: only the stop, FF E0 and FF D0 can be read, and behind the mask each of them is right.
    None,
    None,
    # The first one of 31 C9 for EB 05. EB may still be read when C9 is put: to 00010027 - 55 = 0000FFF0, no bundle start.
    (0x10025, "ebc9"),
    # The second one. When 31 is put, 05 may still be read: `xor` with an operand of four bytes, those of the next instruction. It ends at
    # 0001002B, the last byte of B8 01 02 03 04.
    (0x10025, "3105b8010203"),
    # Both of FF E0 for FF D0.
    None,
    None,
    # The deletion. The first unmarked place is 00010002. When the stop is put there, EB may still be read before it.
    (0x10001, "ebf4"),
    # The creation where code stood before. The deletion put stops at the unmarked places and did not serialize after them. So C3 may still
    # be read at 00010004 when that is marked: a return. At 00010001 B0 may be read with 05, F4 or 07 as its operand, and at 00010003 a stop
    # or a nop.
    (0x10004, "c3"),
]


# Bytes that may be read at each of the last places of a bundle, and every mixture of them: its bytes, and whether they are an instruction.
MIXTURES = [
    ([[0x90, 0xC3, 0xF4]], [("90", True), ("c3", False), ("f4", True)]),
    ([[0xEB, 0x40], [0x00, 0x01]], [("eb00", True), ("eb01", True), ("40", True)]),
    # the front of an instruction that crosses the end of its bundle
    ([[0xEB, 0xB8], [0x00]], [("eb00", True), ("b800", False)]),
]


class Mixtures(unittest.TestCase):
    def test_mixtures(self):
        for places, found in MIXTURES:
            with self.subTest(places):
                self.assertEqual([(code.hex(), instruction is not None) for code, instruction in mixtures(places)], found)

    def viewed(self, left_out):
        """What is found in this life. For what may be read one serialization is left out, or none for 0."""
        life = Life(self, 4)
        views = Views(life.text, left_out)
        for act in life.live(LIFE):
            views.follow(act)
        self.assertEqual((views.looks, views.serializations), (LOOKS, len(WRONG)))
        return views

    def test_every_mixture(self):
        views = self.viewed(0)
        self.assertEqual(views.wrong, [])
        # once at each marked place of the bundle after each put, and of the text after each marking, that would be 2369 readings
        self.assertGreater(views.readings, 2369)

    def test_acts_begun_again(self):
        """The acts of each change are begun again after each of them."""
        life = Life(self, 4)
        views = Views(life.text, 0)
        for act in life.live(LIFE, begun_again):
            views.follow(act)
        self.assertEqual(views.wrong, [])
        self.assertEqual(views.serializations, AGAIN)

    def test_each_serialization_left_out(self):
        for left_out, wrong in enumerate(WRONG, 1):
            with self.subTest(left_out):
                first = [(at, code.hex()) for at, code in self.viewed(left_out).wrong[:1]]
                self.assertEqual(first, [wrong] if wrong else [])
