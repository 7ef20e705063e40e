"""A region's bytes and marks: what stands at unused places, what a chunk's creation, patch and deletion leave, and pages."""
import unittest

import memory
import nc_host as nc
from reading import filled, replaced

STOPS = bytes([nc.STOP]) * nc.BUNDLE
UNUSED = [nc.PLAIN] + [nc.UNMARKED] * 31

# A bundle, and the places at which its instructions begin.
PARTED = bytes.fromhex("6690" "90" "b800000000" "f08184880000000178563412" "c784240001000000000000" "90"), (0, 2, 3, 8, 20, 31)

# A bundle with six pairs, each on another register, and one with a pair at its end; for each the register of the jump at a place.
PAIRS = [
    ("83e0e0ffe0" "83e1e0ffe1" "83e2e0ffe2" "83e3e0ffe3" "83e5e0ffe5" "83e7e0ffe7" "9090", {3: 0, 8: 1, 13: 2, 18: 3, 23: 5, 28: 7}),
    ("90" * 27 + "83e6e0ffe6", {30: 6}),
]

# Bytes of memory for a page of text: 4,096 bytes, and five words of marks for each bundle.
PAGE = 4096 + 4096 // nc.BUNDLE * 5 * 4


def memory_for(region, base, code):
    """The number of bytes of memory that a creation keeps."""
    before = memory.used()
    change = nc.LIBRARY.nc_region_create(region.handle, base, code, len(code), None, 0)
    after = memory.used()
    assert change.fault == nc.OK, change.plain()
    return after - before


def stops_at(places):
    return [(nc.PUT, nc.START + place, nc.STOP) for place in places]


class Texts(unittest.TestCase):
    def test_changes(self):
        """A region of two bundles: new, with a chunk, with one byte of it patched, with the chunk deleted, and once that is reclaimed."""
        code = filled("83e3e0ffe3")
        marks = [nc.PLAIN, nc.UNMARKED, nc.UNMARKED, nc.MASKED + 3, nc.UNMARKED] + [nc.PLAIN] * 27
        region = nc.Region(2)
        self.assertEqual((region.bytes(), region.marks()), (STOPS * 2, UNUSED * 2))
        self.assertEqual(region.create(nc.START, code).fault, nc.OK)
        self.assertEqual((region.bytes(), region.marks()), (code + STOPS, marks + UNUSED))
        self.assertEqual(region.patch(nc.START + 9, b"\x40").fault, nc.OK)
        self.assertEqual((region.bytes(), region.marks()), (replaced(code, 9, b"\x40") + STOPS, marks + UNUSED))
        self.assertEqual(region.delete(nc.START)[1], 1)
        self.assertEqual((region.bytes(), region.marks()), (STOPS * 2, marks + UNUSED))
        self.assertEqual(region.reclaim(), 1)
        self.assertEqual((region.bytes(), region.marks()), (STOPS * 2, UNUSED * 2))

    def test_marks_of_pairs(self):
        for digits, jumps in PAIRS:
            with self.subTest(digits):
                region = nc.Region(2)
                self.assertEqual(region.create(nc.START, bytes.fromhex(digits)).fault, nc.OK)
                marks = region.marks(end=nc.START + nc.BUNDLE)
                self.assertEqual({place: mark - nc.MASKED for place, mark in enumerate(marks) if mark >= nc.MASKED}, jumps)

    def test_order_of_a_deletion(self):
        """Stops at the marked places of each bundle, the lowest first, and then at the others."""
        code, starts = PARTED
        marked = [*starts, *range(32, 64)]
        region = nc.Region(3)
        self.assertEqual(region.create(nc.START, code + filled("")).fault, nc.OK)
        begun = region.begin_delete(nc.START, room=66)
        others = [place for place in range(64) if place not in marked]
        self.assertEqual(begun.acts, stops_at(marked) + [(nc.SERIALIZE, 0, 0)] + stops_at(others) + [(nc.BUMP, 0, 0)])

    def test_pages(self):
        """A chunk has the pages made in which it lies, and no others; no byte or mark changes beside it."""
        region = nc.Region(524288)
        taken = [memory_for(region, base, filled("", bundles)) for base, bundles in ((0x10FE0, 2), (0x10F80, 1), (0x12000, 1))]
        self.assertEqual([count // PAGE for count in taken], [2, 0, 1])
        found = [region.place(at)[1:] for at in (0x10FDF, 0x10FE0, 0x1101F, 0x11020, 0x12FE0, 0x12FE1, 0x13000, 0x100FFFF)]
        stop, start, nop = (nc.STOP, nc.UNMARKED), (nc.STOP, nc.PLAIN), (0x90, nc.PLAIN)
        self.assertEqual(found, [stop, nop, nop, start, start, stop, start, stop])
