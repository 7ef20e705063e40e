"""The chunk that has an address, or else the first one above it, by nc_region_chunk_at: rows, and random addresses beside a plain list of
more than a thousand chunks; and the free spans that a host finds by it.
"""
import random
import unittest

import nc_host as nc
from model import Model
from reading import filled

NONE = nc.Chunk.made((0, nc.NO_CHUNK, 0, 0, 0))
TOP = 2**32 - 1

# A region of 16 bundles, of which the last is the guard: where its chunks begin, how many bundles they have, and their stamps, 0 for a
# live one. The second and the third adjoin, and nothing is between the last one and the guard.
BUNDLES = 16
LOW, MIDDLE, NEXT, HIGH = (nc.START + nc.BUNDLE * bundle for bundle in (2, 5, 7, 12))
CHUNKS = {LOW: (1, 0), MIDDLE: (2, 1), NEXT: (3, 0), HIGH: (3, 2)}
GUARD = HIGH + 3 * nc.BUNDLE

# Addresses, and the base of the chunk that is at each or above it, or None.
ROWS = [
    # Below all chunks.
    (0, LOW), (nc.START - 1, LOW), (nc.START, LOW), (LOW - 1, LOW),
    # The base, the inside and the last byte of a live chunk, and of a retired one of two bundles.
    (LOW, LOW), (LOW + 1, LOW), (LOW + 31, LOW), (MIDDLE, MIDDLE), (MIDDLE + 31, MIDDLE), (MIDDLE + 32, MIDDLE), (MIDDLE + 63, MIDDLE),
    # Gaps.
    (LOW + 32, MIDDLE), (LOW + 33, MIDDLE), (MIDDLE - 1, MIDDLE), (NEXT + 96, HIGH), (HIGH - 1, HIGH),
    # The end of one chunk and the base of the next.
    (NEXT, NEXT), (NEXT + 95, NEXT), (HIGH, HIGH), (GUARD - 1, HIGH),
    # Above all chunks: in the guard, at the limit, beyond it.
    (GUARD, None), (GUARD + 31, None), (GUARD + 32, None), (2**31, None), (TOP, None),
]


def shown(base, length, stamp):
    """A chunk as the call returns it."""
    return nc.Chunk.made((stamp, nc.OK, base, length, int(stamp > 0)))


def free_spans(region, end):
    """The free spans of a region up to an address, as a host finds them: from the end of each chunk to the one at or above it."""
    found, at = [], nc.START
    while (chunk := region.chunk_at(at)).fault == nc.OK:
        found.append((at, chunk.base))
        at = chunk.base + chunk.length
    return [(low, high) for low, high in [*found, (at, end)] if low < high]


class Rows(unittest.TestCase):
    def setUp(self):
        self.region = nc.Region(BUNDLES, 1)
        self.seat = self.region.seat()
        self.assertEqual(self.region.limit, GUARD + nc.BUNDLE)

    def fill(self):
        """Creates the chunks, by descending base, and deletes some, in the order of their stamps."""
        for base, (bundles, _) in sorted(CHUNKS.items(), reverse=True):
            self.assertEqual(self.region.create(base, filled("", bundles)).fault, nc.OK)
        for stamp, base in sorted((stamp, base) for base, (_, stamp) in CHUNKS.items() if stamp):
            self.assertEqual(self.region.delete(base)[1], stamp)

    def compare(self, at, base):
        with self.subTest(hex(at)):
            wanted = NONE if base is None else shown(base, nc.BUNDLE * CHUNKS[base][0], CHUNKS[base][1])
            self.assertEqual(self.region.chunk_at(at), wanted)

    def test_rows(self):
        self.fill()
        for at, base in ROWS:
            self.compare(at, base)

    def test_no_chunk(self):
        for at in (0, nc.START, GUARD, TOP):
            self.compare(at, None)

    def test_reclaimed(self):
        """Retired chunks are found until they are reclaimed. The spans that they had then belong to the free ones."""
        self.fill()
        self.assertEqual(free_spans(self.region, GUARD), [(nc.START, LOW), (LOW + 32, MIDDLE), (NEXT + 96, HIGH)])
        self.seat.check_in()
        self.assertEqual(self.region.reclaim(), 2)
        for at, base in (LOW, LOW), (LOW + 32, NEXT), (MIDDLE, NEXT), (NEXT + 95, NEXT), (NEXT + 96, None), (HIGH, None):
            self.compare(at, base)
        self.assertEqual(free_spans(self.region, GUARD), [(nc.START, LOW), (LOW + 32, NEXT), (NEXT + 96, GUARD)])

    def test_deletion_under_way(self):
        """Between the steps of a deletion the chunk is live."""
        self.fill()
        self.assertEqual(self.region.begin_delete(LOW, 0).fault, nc.OK)
        self.compare(LOW, LOW)
        self.assertEqual(self.region.end_delete().stamp, 3)
        self.assertEqual(self.region.chunk_at(LOW), shown(LOW, 32, 3))

    def test_empty_handle(self):
        self.assertEqual(nc.LIBRARY.nc_region_chunk_at(nc.Handle(), nc.START).plain(), (0, nc.NO_HANDLE, 0, 0, 0))


class Random(unittest.TestCase):
    SLOTS, SLOT = 1500, 4

    def setUp(self):
        """Chunks of one to four bundles, each somewhere in a slot of its own, in two of three slots; every fifth one is retired."""
        self.rng = random.Random(1)
        self.region = nc.Region(self.SLOTS * self.SLOT + 1, 1)
        self.guard = self.region.limit - nc.BUNDLE
        self.model = Model(self.region.limit, 1)
        for slot in self.rng.sample(range(self.SLOTS), self.SLOTS * 2 // 3):
            bundles = self.rng.randint(1, self.SLOT)
            self.create(nc.START + nc.BUNDLE * (self.SLOT * slot + self.rng.randint(0, self.SLOT - bundles)), bundles)
        self.retire(self.rng.sample(sorted(self.model.live), len(self.model.live) // 5))

    def create(self, base, bundles):
        code = filled("", bundles)
        self.assertEqual((self.region.create(base, code).fault, self.model.create(base, code)), (nc.OK, nc.OK), hex(base))

    def retire(self, bases):
        for base in bases:
            self.assertEqual(self.region.begin_delete(base, 0).fault, nc.OK)
            self.assertEqual((nc.OK, self.region.end_delete().stamp), self.model.delete(base))

    def addresses(self):
        """Each end of a chunk, and addresses all over the region."""
        ends = [at + step for base, length, _ in self.model.chunks() for at in (base, base + length) for step in (-1, 0, 1)]
        return ends + [self.rng.randrange(nc.START - 64, self.region.limit + 64) for _ in range(5000)]

    def compare(self):
        chunks = self.model.chunks()
        for at in self.addresses():
            wanted = next((shown(*chunk) for chunk in chunks if at < chunk[0] + chunk[1]), NONE)
            self.assertEqual(self.region.chunk_at(at), wanted, hex(at))
        ends = [nc.START] + [base + length for base, length, _ in chunks]
        gaps = zip(ends, [base for base, _, _ in chunks] + [self.guard])
        self.assertEqual(free_spans(self.region, self.guard), [(low, high) for low, high in gaps if low < high])

    def test_long_list(self):
        self.assertGreaterEqual(len(self.model.chunks()), 1000)
        self.compare()

    def test_filled_spans(self):
        """Each free span takes a chunk, and then none is left."""
        for low, high in free_spans(self.region, self.guard):
            self.create(low, (high - low) // nc.BUNDLE)
        self.assertEqual(free_spans(self.region, self.guard), [])
        self.compare()
