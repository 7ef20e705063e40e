"""Chunks with the verdicts and the marks that the rules give for them, by nc_host_vet and nc_host_marks."""
import unittest

import memory
import nc_host as nc
from reading import filled, replaced

# Where the chunks of the first two tables stand, in a region of four bundles.
BASE, LIMIT = 0x10000, 0x10080

# Valid chunks: the number of bundles, the bytes at some places of nops, and some marks.
VALID = [
    # Pairs.
    (1, {27: "83e0e0ffe0"}, {26: nc.PLAIN, 27: nc.PLAIN, 28: nc.UNMARKED, 30: nc.MASKED, 31: nc.UNMARKED}),
    (1, {0: "83e0e083e0e0ffe0"}, {0: nc.PLAIN, 3: nc.PLAIN, 6: nc.MASKED}),
    (1, {0: "83e7e0ffd7"}, {3: nc.MASKED + 7}),
    (1, {0: "83e3e0ffe3"}, {3: nc.MASKED + 3}),
    (2, {32: "83e1e0ffe1"}, {32: nc.PLAIN, 35: nc.MASKED + 1}),
    # A mask by itself is an instruction like any other.
    (2, {29: "83e0e0"}, {29: nc.PLAIN, 32: nc.PLAIN}),
    # After CPUID, UD2 and a locked CMPXCHG8B another instruction begins.
    (1, {0: "0fa20f0b", 28: "f00fc70e"}, {2: nc.PLAIN, 3: nc.UNMARKED, 4: nc.PLAIN, 28: nc.PLAIN, 31: nc.UNMARKED}),
    # A jump over CMPXCHG8B with SIB and displacement.
    (1, {0: "eb080fc70c2500000200"}, {2: nc.PLAIN, 9: nc.UNMARKED, 10: nc.PLAIN}),
    # Targets in the chunk: the mask of a pair, a mask before it, the last instruction, the instruction itself.
    (1, {0: "eb0083e0e0ffe0"}, {2: nc.PLAIN, 5: nc.MASKED}),
    (1, {0: "eb0383e0e083e0e0ffe0"}, {5: nc.PLAIN, 8: nc.MASKED}),
    (2, {0: "eb3c", 62: "ebc0"}, {62: nc.PLAIN, 63: nc.UNMARKED}),
    (1, {0: "ebfe"}, {0: nc.PLAIN, 1: nc.UNMARKED}),
    (1, {0: "740a"}, {0: nc.PLAIN, 1: nc.UNMARKED, 2: nc.PLAIN}),
    # Targets outside: the next bundle, the guard, the last bundle of the zone, its first, all by several forms.
    (1, {0: "741e"}, {2: nc.PLAIN}),
    (1, {0: "eb1e"}, {2: nc.PLAIN}),
    (1, {0: "e85b000000"}, {4: nc.UNMARKED, 5: nc.PLAIN}),
    (1, {0: "e9dbffffff"}, {5: nc.PLAIN}),
    (1, {0: "e9fbfffeff"}, {5: nc.PLAIN}),
    (1, {0: "0f841a000000"}, {6: nc.PLAIN}),
    (1, {0: "e33e"}, {2: nc.PLAIN}),
    # The longest chunk of this region.
    (3, {0: "eb5e", 94: "eba0"}, {94: nc.PLAIN, 95: nc.UNMARKED}),
]

# Refused chunks: the number of bundles, the bytes at some places of nops, and the fault with its address.
FAULTY = [
    # A pair over the end of a bundle.
    (2, {29: "83e0e0ffe0"}, nc.BARE, 0x10020),
    (1, {28: "83e0e0ff"}, nc.CROSSES, 0x1001F),
    # No mask, the mask of another register, a mask with a prefix, one too far ahead, and of register 4, which none masks.
    (1, {0: "ffe0"}, nc.BARE, 0x10000),
    (1, {0: "83e0e0ffe1"}, nc.BARE, 0x10003),
    (1, {0: "6683e0e0ffe0"}, nc.BARE, 0x10004),
    (1, {0: "81e0e0ffffffffe0"}, nc.BARE, 0x10006),
    (1, {0: "83e0e090ffe0"}, nc.BARE, 0x10004),
    (1, {0: "83e4e0ffe4"}, nc.BARE, 0x10003),
    (1, {0: "83e0e0ffe0ffe0"}, nc.BARE, 0x10005),
    (2, {0: "eb3c", 62: "ffe0"}, nc.BARE, 0x1003E),
    # Instructions over the end of a bundle.
    (1, {28: "e9000000"}, nc.CROSSES, 0x1001C),
    (1, {31: "ff"}, nc.CROSSES, 0x1001F),
    (2, {31: "b800000000"}, nc.CROSSES, 0x1001F),
    (1, {30: "8b05"}, nc.CROSSES, 0x1001E),
    (1, {30: "0fc7"}, nc.CROSSES, 0x1001E),
    # What isn't permitted.
    (1, {0: "c3"}, nc.NOT_PERMITTED, 0x10000),
    (1, {30: "cd80"}, nc.NOT_PERMITTED, 0x1001E),
    (1, {28: "f08338"}, nc.NOT_PERMITTED, 0x1001C),
    (1, {29: "0fc7c8"}, nc.NOT_PERMITTED, 0x1001D),
    (3, {64: "ff20"}, nc.NOT_PERMITTED, 0x10040),
    # The first of several, and bad targets only after a reading without a fault.
    (1, {0: "ffe0c3", 31: "ff"}, nc.BARE, 0x10000),
    (1, {0: "c3ffe0", 31: "ff"}, nc.NOT_PERMITTED, 0x10000),
    (2, {31: "ffc3"}, nc.CROSSES, 0x1001F),
    (1, {0: "eb01b800000000c3"}, nc.NOT_PERMITTED, 0x10007),
    (1, {0: "eb01b80000000090"}, nc.BAD_TARGET, 0x10000),
    (1, {2: "ebffebff"}, nc.BAD_TARGET, 0x10002),
    # Second halves, and places inside an instruction.
    (1, {0: "eb0383e0e0ffe0"}, nc.BAD_TARGET, 0x10000),
    (1, {0: "eb0183e0e0ffe0"}, nc.BAD_TARGET, 0x10000),
    (2, {0: "eb3d", 62: "ebc0"}, nc.BAD_TARGET, 0x10000),
    (2, {0: "eb3c", 62: "ebc1"}, nc.BAD_TARGET, 0x1003E),
    # Outside the chunk: inside another bundle, the limit, and an address after the end of all addresses.
    (1, {0: "eb1f"}, nc.BAD_TARGET, 0x10000),
    (1, {0: "e97b000000"}, nc.BAD_TARGET, 0x10000),
    (1, {5: "e9d6fffeff"}, nc.BAD_TARGET, 0x10005),
]

# Base, limit and length of a chunk of nops, and the fault that these show by themselves.
SPANS = [
    (0x10000, LIMIT, 32, nc.OK),
    (0x10040, LIMIT, 32, nc.OK),
    (0x10060, LIMIT, 32, nc.OUT_OF_RANGE),
    (0x10060, 0x100A0, 32, nc.OK),
    (0x10000, LIMIT, 96, nc.OK),
    (0x10000, LIMIT, 128, nc.OUT_OF_RANGE),
    (0xFFFFFFE0, LIMIT, 32, nc.OUT_OF_RANGE),
    (0x10010, LIMIT, 32, nc.BAD_BASE),
    (0x10001, LIMIT, 0, nc.BAD_BASE),
    (0xFFE0, LIMIT, 32, nc.BAD_BASE),
    (0, 0, 0, nc.BAD_BASE),
    (0x10000, LIMIT, 0, nc.BAD_LENGTH),
    (0x10000, 0, 0, nc.BAD_LENGTH),
    (0x10000, LIMIT, 31, nc.BAD_LENGTH),
    (0xFFFFFFE0, LIMIT, 33, nc.BAD_LENGTH),
    (0x10000, 0x10040, 32, nc.OK),
    (0x10000, 0x10020, 32, nc.OUT_OF_RANGE),
    (0x10000, 0x10090, 32, nc.OUT_OF_RANGE),
    (0x100FFC0, 0x1010000, 32, nc.OK),
    (0x10000, 0x1010020, 32, nc.OK),
    (0x400FFC0, 0x4010000, 32, nc.OK),
    (0x400FFE0, 0x4010000, 32, nc.OUT_OF_RANGE),
    (0x10000, 0x4010020, 32, nc.OUT_OF_RANGE),
]

# The limit of a region of 524,288 bundles.
FAR = 0x1010000

# Bytes at the end of a bundle, their place there, and their fault.
AT_THE_END = [
    (31, "c3", nc.NOT_PERMITTED),
    (31, "e8", nc.CROSSES),
    (30, "ffe0", nc.BARE),
    (30, "ebff", nc.BAD_TARGET),
]

# How many bundles a chunk has of which the memory is measured: the library reads eight side by side, and then the rest.
MANY = 129

# A bundle with a pair and a jump over it, and its marks.
LARGE = filled("83e1e0ffd1ebf9")
LARGE_MARKS = [nc.PLAIN, nc.UNMARKED, nc.UNMARKED, nc.MASKED + 1, nc.UNMARKED, nc.PLAIN, nc.UNMARKED] + [nc.PLAIN] * 25


def with_parts(bundles, parts):
    """Nops, in which these bytes stand at these places."""
    code = filled("", bundles)
    for place, digits in parts.items():
        code = replaced(code, place, bytes.fromhex(digits))
    assert len(code) == nc.BUNDLE * bundles, "a part has no room"
    return code


def memory_of(code):
    """The number of bytes of memory that a vetted chunk keeps, or None where it isn't valid."""
    vetted = nc.Handle()
    before = memory.used()
    verdict = nc.LIBRARY.nc_vetted_new(BASE, FAR, code, len(code), vetted)
    after = memory.used()
    nc.LIBRARY.nc_vetted_free(vetted)
    return after - before if verdict.fault == nc.OK else None


class Chunks(unittest.TestCase):
    def test_valid_chunks(self):
        for bundles, parts, some_marks in VALID:
            with self.subTest(parts):
                verdict, marks = nc.marks(BASE, LIMIT, with_parts(bundles, parts))
                self.assertEqual(verdict, (nc.OK, 0))
                self.assertEqual({place: marks[place] for place in some_marks}, some_marks)

    def test_faulty_chunks(self):
        for bundles, parts, fault, at in FAULTY:
            with self.subTest(parts):
                self.assertEqual(nc.vet(BASE, LIMIT, with_parts(bundles, parts)), (fault, at))

    def test_spans(self):
        for base, limit, length, fault in SPANS:
            with self.subTest(base=hex(base), limit=hex(limit), length=length):
                self.assertEqual(nc.vet(base, limit, b"\x90" * length), (fault, 0))

    def test_each_bundle(self):
        """Each bundle of a chunk is read and judged, however many there are: bytes at its end are refused."""
        for bundles in range(1, 21):
            for number in range(bundles):
                for place, digits, fault in AT_THE_END:
                    with self.subTest(digits, bundles=bundles, number=number):
                        start = nc.BUNDLE * number + place
                        self.assertEqual(nc.vet(BASE, FAR, with_parts(bundles, {start: digits})), (fault, BASE + start))

    def test_large_chunks(self):
        """Large chunks are accepted whole, with a mark for each byte."""
        for bundles in (129, 130, 1000, 4095, 32768):
            with self.subTest(bundles=bundles):
                verdict, marks = nc.marks(BASE, FAR, LARGE * bundles)
                self.assertEqual(verdict, (nc.OK, 0))
                self.assertTrue(marks == LARGE_MARKS * bundles)


class QuickReading(unittest.TestCase):
    """What is valid is read by whole bundles, and then its marks take half as much memory as its code. Where the library reads one
    instruction after the other, they take at least as much as the code."""

    def assert_quick(self, code):
        found = memory_of(code)
        self.assertIsNotNone(found)
        self.assertLess(found, len(code) * 7 // 4)

    def test_valid_chunks(self):
        for bundles, parts, _ in VALID:
            with self.subTest(parts):
                self.assert_quick(with_parts(bundles, parts) * -(-MANY // bundles))

    def test_large_chunks(self):
        for bundles in (129, 130, 1000, 4095, 32768):
            with self.subTest(bundles=bundles):
                self.assert_quick(LARGE * bundles)

    def test_each_byte(self):
        """A pair and nops, with each byte set to each value, as far as it is valid then."""
        bundle = filled("83e3e0ffe3")
        for place in range(nc.BUNDLE):
            for value in range(256):
                code = replaced(bundle, place, bytes([value])) * MANY
                if nc.vet(BASE, FAR, code).fault == nc.OK:
                    with self.subTest(place=place, value=value):
                        self.assert_quick(code)
