"""Regions made, and chunks created in them."""
import unittest

import nc_host as nc
from reading import filled

# Numbers of bundles for which there is no region.
BAD_SIZES = [0, 1, 2_097_153, 2**32 - 1]

# Numbers of bundles, and the limits of their regions.
SIZES = [(2, 0x10040), (4, 0x10080), (2048, 0x20000), (524_288, 0x1010000), (524_289, 0x1010020), (2_097_152, 0x4010000)]

# A chunk, and then others: vetted for another limit, where a chunk stands and where none does, and in its place.
CHUNKS = [
    (0x10000, 0x10080, nc.OK),
    (0x10000, 0x100A0, nc.WRONG_LIMIT),
    (0x10020, 0x100A0, nc.WRONG_LIMIT),
    (0x10000, 0x10080, nc.OCCUPIED),
]

# Which places of a bundle are marked, a bit for each of them and the lowest for the bundle start: of one that no chunk uses the start
# alone; of one that begins with a pair places 0 and 3, and nops from 5 on.
UNUSED, PAIR = 0x00000001, 0xFFFFFFE9


def marked_places(region):
    """Which places are marked, for each bundle."""
    marks = region.marks()
    bundles = [marks[start : start + nc.BUNDLE] for start in range(0, len(marks), nc.BUNDLE)]
    return [sum(1 << place for place, mark in enumerate(bundle) if mark != nc.UNMARKED) for bundle in bundles]


class Creating(unittest.TestCase):
    def test_bad_sizes(self):
        for bundles in BAD_SIZES:
            with self.subTest(bundles):
                region = nc.Region(bundles)
                self.assertEqual((region.fault, region.handle.at), (nc.BAD_SIZE, None))

    def test_sizes(self):
        for bundles, end in SIZES:
            with self.subTest(bundles):
                region = nc.Region(bundles)
                self.assertEqual(region.fault, nc.OK)
                faults = [region.place(at).fault for at in (nc.START - 1, nc.START, end - 1, end)]
                self.assertEqual(faults, [nc.NO_PLACE, nc.OK, nc.OK, nc.NO_PLACE])

    def test_another_limit(self):
        """A chunk that is refused comes back as it was: a region of its limit takes it."""
        region, code = nc.Region(4), filled("40")
        for base, end, fault in CHUNKS:
            with self.subTest(base=hex(base), limit=hex(end)):
                vetted = nc.Vetted(base, end, code)
                self.assertEqual((vetted.verdict.fault, region.load(vetted).fault), (nc.OK, fault))
                if fault != nc.OK:
                    other = nc.Region((end - nc.START) // nc.BUNDLE)
                    self.assertEqual(other.load(vetted).fault, nc.OK)
                    self.assertEqual(other.bytes(base, base + nc.BUNDLE), code)

    def test_marked_places(self):
        """A deleted chunk keeps its marks, and the runs of its deletion name them."""
        region = nc.Region(4)
        self.assertEqual(region.create(0x10020, filled("83e0e0ffe0")).fault, nc.OK)
        self.assertEqual(marked_places(region), [UNUSED, PAIR, UNUSED, UNUSED])
        self.assertEqual(region.begin_delete(0x10020, room=34).fault, nc.OK)
        runs = [(nc.STOP_RUN, 0x10020, PAIR), (nc.SERIALIZE, 0, 0), (nc.STOP_RUN, 0x10020, 0x00000016), (nc.BUMP, 0, 0)]
        self.assertEqual(region.deletion_runs(room=4).acts, runs)
        self.assertEqual(region.end_delete().stamp, 1)
        self.assertEqual(marked_places(region), [UNUSED, PAIR, UNUSED, UNUSED])
