"""Lists of more than a thousand scattered chunks, which the library keeps in leaves of up to 64: created in several orders, deleted and
reclaimed by few and by many, with a seat that holds back, and their spans used again. Where leaves are full and after each round the whole
list, every place, and a memory in which all acts were made are compared with a plain model.
"""
import random
import unittest

import nc_host as nc
from following import differences
from model import Model

# Each chunk stands in a slot of its own, of some bundles, and takes one bundle or more of it.
SLOTS, SLOT, SEATS = 1500, 3, 3

# What follows in a chunk's bundles behind their first instruction, which has the chunk's number.
MOVE, ADD, NUMBER = "c7450801000000", "81c001000000", "b801000000"
RESTS = [
    MOVE + MOVE + MOVE + ADD,
    "83e3e0" "ffe3" + MOVE + MOVE + ADD + "6690",
    "f4" + MOVE + MOVE + MOVE + NUMBER,
    "83c001" "83e1e0" "ffd1" + MOVE + MOVE + NUMBER,
    "eb00" + ADD + MOVE + MOVE + NUMBER,
]

# Numbers of chunks around those at which an ascending list gets one more leaf.
BORDERS = {63 * leaf + offset for leaf in (1, 2, 4, 8, 23) for offset in (0, 1, 2, 3)}


# The order in which a list is made of some slots, which ascend.
ORDERS = {
    "ascending": lambda rng, slots: slots,
    "descending": lambda rng, slots: slots[::-1],
    "scattered": lambda rng, slots: rng.sample(slots, len(slots)),
}


def in_a_row(count):
    """A plan for so many neighbours, the first of which stands within a leaf of an ascending list."""
    return lambda rng, bases: bases[20 : 20 + count]


# Which chunks of a list are deleted, one plan after the other. The bases ascend.
PLANS = {
    "a few": lambda rng, bases: rng.sample(bases, 5),
    "one in each leaf": lambda rng, bases: bases[20::63],
    "the ends of leaves": lambda rng, bases: [base for i, base in enumerate(bases) if (i + 3) % 63 < 6],
    "every other one": lambda rng, bases: bases[::2],
    "the lowest": lambda rng, bases: bases[:300],
    "the highest": lambda rng, bases: bases[-300:],
    "whole leaves and more": lambda rng, bases: bases[200:600],
    "half of them": lambda rng, bases: rng.sample(bases, len(bases) // 2),
    "all but the ends": lambda rng, bases: bases[1:-1],
    "all": lambda rng, bases: bases,
    # The numbers around those that a reclaim takes out at once.
    **{f"{count} in a row": in_a_row(count) for count in (15, 16, 17, 63, 64, 65)},
}


class LongLists(unittest.TestCase):
    def start(self):
        self.rng, self.number = random.Random(256), 0
        self.region = nc.Region(SLOT * SLOTS + 1, SEATS)
        self.seats = [self.region.seat() for _ in range(SEATS)]
        self.model = Model(self.region.limit, SEATS)
        self.memory = bytearray(self.model.bytes)

    def make(self, acts):
        """Makes the puts among some acts in the memory, one by one."""
        for kind, at, value in acts:
            if kind == nc.PUT:
                self.memory[at - nc.START] = value

    def create(self, slot):
        """Creates a chunk of one or two bundles somewhere in a slot, or is refused where one stands there."""
        self.number += 1
        bundles = self.rng.randint(1, SLOT - 1)
        base = nc.START + nc.BUNDLE * (SLOT * slot + self.rng.randint(0, SLOT - bundles))
        code = (b"\xb8" + self.number.to_bytes(4, "little") + bytes.fromhex(self.rng.choice(RESTS))) * bundles
        changed = self.region.create(base, code)
        self.assertEqual(changed.fault, self.model.create(base, code), hex(base))
        self.make(changed.acts)

    def delete(self, base):
        """Deletes a live chunk. The list is the same until the second step."""
        begun = self.region.begin_delete(base, len(self.model.live[base]) + 2)
        self.assertEqual(begun.fault, nc.OK, hex(base))
        self.make(begun.acts)
        self.assertEqual((nc.OK, self.region.end_delete().stamp), self.model.delete(base), hex(base))

    def check_in(self, *seats):
        for seat in seats:
            self.model.check_in(seat)
            self.assertEqual(self.seats[seat].check_in(), nc.OK)

    def reclaim(self):
        freed = self.model.reclaim()
        self.assertEqual(self.region.reclaim(), freed)
        return freed

    def compare(self, where):
        """The list, and behind it no chunk; all bytes and marks; and what the acts have made."""
        found, wanted = self.region.chunks(), self.model.chunks()
        self.assertEqual([(chunk.base, chunk.length, chunk.stamp) for chunk in found], wanted, where)
        self.assertEqual([chunk.retired for chunk in found], [int(stamp > 0) for _, _, stamp in wanted], where)
        for index in (len(wanted), len(wanted) + 256, 2**64 - 1):
            self.assertEqual(self.region.chunk(index), (0, nc.NO_CHUNK, 0, 0, 0), where)
        self.compare_by_address(found, where)
        self.assertEqual(differences(self.region, self.model), [], where)
        self.assertTrue(self.memory == self.model.bytes, where)

    def compare_by_address(self, chunks, where):
        """The chunk at or above each end of some chunks, and at or above the limit none."""
        ends = [chunk.base + chunk.length for chunk in chunks]
        for index in random.Random(len(chunks)).sample(range(len(chunks)), min(len(chunks), 50)):
            for at, number in (chunks[index].base, index), (ends[index] - 1, index), (ends[index], index + 1):
                wanted = chunks[number] if number < len(chunks) else (0, nc.NO_CHUNK, 0, 0, 0)
                self.assertEqual(self.region.chunk_at(at), wanted, (where, hex(at)))
        self.assertEqual(self.region.chunk_at(self.region.limit), (0, nc.NO_CHUNK, 0, 0, 0), where)

    def retire(self, bases, where):
        """Deletes some chunks. The first seat checks in after half of them, and so holds the others back."""
        half = len(bases) // 2
        for base in bases[:half]:
            self.delete(base)
        self.check_in(0, 1, 2)
        for base in bases[half:]:
            self.delete(base)
            self.assertEqual(self.region.begin_delete(base, nc.BUNDLE * SLOT + 2).fault, nc.NO_CHUNK)
        self.check_in(1, 2)
        self.compare(where)
        self.assertEqual(self.reclaim(), half, where)
        self.compare(where)
        self.assertEqual(self.reclaim(), 0, where)
        self.check_in(0)
        self.assertEqual(self.reclaim(), len(bases) - half, where)
        self.compare(where)

    def refill(self, order, where):
        """Creates chunks in seven of eight free slots, and tries to in some others."""
        taken = {(base - nc.START) // nc.BUNDLE // SLOT for base, _, _ in self.model.chunks()}
        slots = [slot for slot in range(SLOTS) if (self.rng.randrange(8) if slot not in taken else not self.rng.randrange(64))]
        for slot in order(self.rng, slots):
            self.create(slot)
        self.compare(where)

    def live(self, order):
        """A list is made in an order, and goes through each plan."""
        for count, slot in enumerate(order(self.rng, [*range(SLOTS)]), 1):
            self.create(slot)
            if count in BORDERS:
                self.compare(count)
        for plan, picked in PLANS.items():
            bases = picked(self.rng, sorted(self.model.live))
            self.retire(self.rng.sample(bases, len(bases)), plan)
            self.refill(order, plan)

    def test_long_lists(self):
        for name, order in ORDERS.items():
            with self.subTest(order=name):
                self.start()
                self.live(order)
