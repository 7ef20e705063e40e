"""Chunks created, patched, deleted and reclaimed at random on both sides of the ends of pages. After each call every place is compared
with a plain model to which the same calls were made, and with a memory in which the acts that the calls wrote were made one by one.
"""
import collections
import random
import unittest

import nc_host as nc
from drawing import draw_chunk, draw_patch
from following import differences
from model import Model

# Three pages of 128 bundles, and three bundles of a fourth one.
BUNDLES = 387
SEATS, STEPS = 2, 5000

# The bundles at which chunks begin: those around the ends of pages.
AT = [*range(16), *range(112, 144), *range(240, 272), *range(368, 384)]


class RandomTexts(unittest.TestCase):
    def setUp(self):
        self.rng, self.done = random.Random(4096), collections.Counter()
        self.region = nc.Region(BUNDLES, SEATS)
        self.seats = [self.region.seat() for _ in range(SEATS)]
        self.model = Model(self.region.limit, SEATS)
        self.memory = bytearray(self.model.bytes)

    def draw_base(self):
        return nc.START + nc.BUNDLE * self.rng.choice(AT)

    def make(self, acts):
        """Makes the puts among some acts in the memory, one by one."""
        for kind, at, value in acts:
            if kind == nc.PUT:
                self.memory[at - nc.START] = value

    def create(self):
        """A chunk of one to three bundles."""
        base = self.draw_base()
        code = draw_chunk(self.rng, base, self.region.limit, self.rng.randint(1, 3))
        changed = self.region.create(base, code)
        self.assertEqual(changed.fault, self.model.create(base, code), hex(base))
        self.make(changed.acts)
        return changed.fault

    def patch(self):
        """A patch of a live chunk, or of something beside it."""
        at, new = draw_patch(self.rng, self.model.live, self.region.limit)
        changed = self.region.patch(at, new)
        self.assertEqual(changed.fault, self.model.patch(at, new), (hex(at), new.hex()))
        self.make(changed.acts)
        return changed.fault

    def delete(self):
        """A chunk, live or retired, or what begins at some bundle."""
        base = self.rng.choice([base for base, _, _ in self.model.chunks()] + [self.draw_base()])
        begun, stamp = self.region.delete(base)
        self.assertEqual((begun.fault, stamp), self.model.delete(base), hex(base))
        self.make(begun.acts)
        return begun.fault

    def check_in(self):
        seat = self.rng.randrange(SEATS)
        self.model.check_in(seat)
        return self.seats[seat].check_in()

    def reclaim(self):
        freed = self.model.reclaim()
        self.assertEqual(self.region.reclaim(), freed)
        return "freed" if freed else "none freed"

    def compare(self, step):
        chunks = [(chunk.base, chunk.length, chunk.stamp) for chunk in self.region.chunks()]
        self.assertEqual(chunks, self.model.chunks(), step)
        self.assertEqual(differences(self.region, self.model), [], step)
        self.assertTrue(self.memory == self.model.bytes, step)

    def test_random_texts(self):
        calls = [self.create, self.patch, self.delete, self.check_in, self.reclaim]
        for step in range(STEPS):
            call = self.rng.choices(calls, [8, 8, 3, 2, 1])[0] if self.model.live else self.create
            self.done[call.__name__, call()] += 1
            self.compare((step, call.__name__))
        # each call did something, and was refused, often enough
        for kind in [("create", nc.OK), ("create", nc.OCCUPIED), ("patch", nc.OK), ("patch", nc.PATCH_PAIR_TOUCHED), ("delete", nc.OK),
                     ("delete", nc.NO_CHUNK), ("check_in", nc.OK), ("reclaim", "freed"), ("reclaim", "none freed")]:
            self.assertGreaterEqual(self.done[kind], 50, kind)
