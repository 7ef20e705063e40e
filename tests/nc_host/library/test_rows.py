"""Lists of so many chunks that the library keeps their leaves in several rows, beside a sorted list: made in several orders, with one
chunk of each leaf freed, every other one, all but one of each leaf, the lowest, the highest, and all; filled again between. After each
reclaim the whole list is compared, and between the chunks at random indices and addresses.
"""
import bisect
import random
import unittest

import nc_host as nc
from reading import filled

# Each chunk has one bundle; one bundle in each slot of two.
CHUNKS = 9_000

ORDERS = {
    "ascending": lambda rng, bases: bases,
    "descending": lambda rng, bases: bases[::-1],
    "from both ends": lambda rng, bases: [base for pair in zip(bases[: CHUNKS // 2], bases[: CHUNKS // 2 - 1 : -1]) for base in pair],
    "scattered": lambda rng, bases: rng.sample(bases, len(bases)),
}

FREED = {
    "one of each leaf": lambda bases: bases[10::63],
    "every other one": lambda bases: bases[::2],
    "all but one of each leaf": lambda bases: [base for i, base in enumerate(bases) if i % 60],
    "the lowest": lambda bases: bases[:4000],
    "the highest": lambda bases: bases[-4000:],
    "all but one": lambda bases: bases[: len(bases) // 2] + bases[len(bases) // 2 + 1 :],
    "all": lambda bases: bases,
}


class Rows(unittest.TestCase):
    def setUp(self):
        self.rng = random.Random(7)
        self.region = nc.Region(2 * CHUNKS + 2, 1)
        self.seat = self.region.seat()
        self.code = filled("", 1)
        self.slots = [nc.START + 2 * nc.BUNDLE * slot for slot in range(CHUNKS)]
        self.live = []

    def fill(self, order):
        missing = sorted(set(self.slots) - set(self.live))
        for base in order(self.rng, missing) if len(missing) == CHUNKS else self.rng.sample(missing, len(missing)):
            self.assertEqual(self.region.create(base, self.code).fault, nc.OK)
        self.live = list(self.slots)
        self.compare(whole=False)

    def free(self, bases):
        """Deletes chunks in no order, and reclaims them: half of them at once, the others once the seat has checked in again."""
        stamps = {}
        for base in self.rng.sample(bases, len(bases)):
            self.assertEqual(self.region.begin_delete(base, 0).fault, nc.OK)
            stamps[base] = self.region.end_delete().stamp
            if len(stamps) == len(bases) // 2:
                self.seat.check_in()
        early = {base for base, stamp in stamps.items() if stamp <= min(stamps.values()) + len(bases) // 2 - 1 and len(bases) > 1}
        self.assertEqual(self.region.reclaim(), len(early))
        self.live = [base for base in self.live if base not in early]
        self.compare(stamps, whole=False)
        self.seat.check_in()
        self.assertEqual(self.region.reclaim(), len(bases) - len(early))
        self.live = [base for base in self.live if base not in stamps]
        self.compare()

    def shown(self, base, stamps):
        stamp = stamps.get(base, 0)
        return nc.Chunk.made((stamp, nc.OK, base, nc.BUNDLE, int(stamp > 0)))

    def compare(self, stamps=None, whole=True):
        wanted = [self.shown(base, stamps or {}) for base in self.live]
        indices = range(len(wanted)) if whole else self.rng.sample(range(len(wanted)), min(500, len(wanted)))
        self.assertEqual([self.region.chunk(i) for i in indices], [wanted[i] for i in indices])
        self.assertEqual(self.region.chunk(len(wanted)).fault, nc.NO_CHUNK)
        for _ in range(500):
            at = self.rng.randrange(nc.START, self.region.limit)
            index = bisect.bisect_right(self.live, at - nc.BUNDLE)
            found = self.region.chunk_at(at)
            if index == len(wanted):
                self.assertEqual(found.fault, nc.NO_CHUNK, hex(at))
            else:
                self.assertEqual(found, wanted[index], hex(at))

    def test_rows(self):
        for name, order in ORDERS.items():
            self.fill(order)
            for what, freed in FREED.items() if name in ("ascending", "scattered") else [("all", FREED["all"])]:
                with self.subTest(name, freed=what):
                    self.free(freed(self.live))
                    if name == "scattered" and what != "all":
                        self.fill(order)
