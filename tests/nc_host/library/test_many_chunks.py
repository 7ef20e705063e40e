"""A hundred thousand chunks of one bundle each, beside a plain list: created in two orders, found, walked through, patched, deleted and
reclaimed. Seats are asked for while the list grows.

Each chunk puts its number into EAX and jumps wherever that then leads, so control is after it at a bundle that the walk's choice names.
"""
import random
import unittest

import nc_host as nc
from reading import filled, marks_of

LIBRARY = nc.LIBRARY
CHUNKS, SEATS = 100_000, 256
REGION = 2 * CHUNKS + 1  # bundles; a chunk has the first of two, and the last is the guard
STOPS = bytes([nc.STOP]) * nc.BUNDLE
UNUSED = bytes([nc.PLAIN]).ljust(nc.BUNDLE, bytes([nc.UNMARKED]))
MARKS = marks_of(filled("b800000000 83e0e0 ffe0"))
STEPS = (0, 5, 8)  # where the instructions are through which control goes
NO_CHUNK = (0, nc.NO_CHUNK, 0, 0, 0)


def base(number):
    return nc.START + 2 * nc.BUNDLE * number


def number_in(value):
    """The instruction that puts a value into EAX."""
    return b"\xb8" + value.to_bytes(4, "little")


def code(number):
    return number_in(number) + filled("83e0e0 ffe0")[: nc.BUNDLE - 5]


def created(region, number):
    """Creates a chunk, those of odd numbers vetted beforehand. The answer."""
    if number % 2:
        vetted = nc.Vetted(base(number), region.limit, code(number))
        return LIBRARY.nc_region_load(region.handle, vetted.handle, None, 0).plain()
    return LIBRARY.nc_region_create(region.handle, base(number), code(number), nc.BUNDLE, None, 0).plain()


class ManyChunks(unittest.TestCase):
    def setUp(self):
        self.rng = random.Random(100)
        self.region, self.seats = nc.Region(REGION, SEATS), []
        self.stamps = {}  # of each chunk in the list, by its number; 0 for a live one

    def shuffled(self, numbers):
        return self.rng.sample(numbers, len(numbers))

    def create(self, numbers):
        for number in numbers:
            self.assertEqual(created(self.region, number), (nc.OK, 0, 0), number)
            self.stamps[number] = 0

    def delete(self, numbers):
        """Deletes chunks, whose stamps go on from the highest there is."""
        stamp = self.region.generation()
        for stamp, number in enumerate(numbers, stamp + 1):
            self.assertEqual(LIBRARY.nc_region_begin_delete(self.region.handle, base(number), None, 0).plain(), (nc.OK, 0, 0), number)
            self.assertEqual(self.region.end_delete(), (stamp, nc.OK), number)
            self.stamps[number] = stamp

    def reclaim(self, count):
        """So many chunks are freed, those that are retired, once all seats have checked in."""
        retired = [number for number, stamp in self.stamps.items() if stamp]
        self.assertEqual(len(retired), count)
        self.assertEqual([seat.check_in() for seat in self.seats], [nc.OK] * len(self.seats))
        self.assertEqual((self.region.reclaim(), self.region.reclaim()), (count, 0))
        for number in retired:
            del self.stamps[number]

    def shown(self, number):
        """A chunk as it is listed."""
        stamp = self.stamps[number]
        return stamp, nc.OK, base(number), nc.BUNDLE, int(stamp > 0)

    def compare(self):
        """The list by index, and by the first address of each slot and the one past its chunk."""
        wanted = [self.shown(number) for number in sorted(self.stamps)]
        self.assertTrue(self.region.chunks() == wanted)
        self.assertEqual(self.region.chunk(len(wanted)), NO_CHUNK)
        after = NO_CHUNK
        for number in reversed(range(CHUNKS)):
            self.assertEqual(self.region.chunk_at(base(number) + nc.BUNDLE), after, number)
            after = self.shown(number) if number in self.stamps else after
            self.assertEqual(self.region.chunk_at(base(number)), after, number)

    def compare_text(self, codes):
        """All bytes and marks, where these are the codes of the live chunks, and the second bundle of each slot is free."""
        found, marks = self.region.places()
        self.assertTrue(found == b"".join(codes.get(number, STOPS) + STOPS for number in range(CHUNKS)) + STOPS)
        self.assertTrue(marks == b"".join((MARKS if number in self.stamps else UNUSED) + UNUSED for number in range(CHUNKS)) + UNUSED)

    def walk(self, numbers):
        """A walk through these chunks, and to the stops behind the last one. Without its last choice it ends at a jump."""
        places = [base(number) + step for number in numbers for step in STEPS] + [base(numbers[-1]) + nc.BUNDLE]
        inside = [base(number) + self.rng.randrange(nc.BUNDLE) for number in numbers[1:]] + [places[-1]]
        choices = [choice for at in inside for choice in (0, self.rng.randrange(2**32), at)]
        self.assertTrue(self.region.walk(places[0], choices) == (nc.OK, places, nc.END_STOP))
        self.assertTrue(self.region.walk(places[0], choices[:-1]) == (nc.OK, places[:-1], nc.END_MORE))

    def test_life(self):
        """Seats are asked for from the empty list to the full one, and then none is left."""
        order = self.shuffled(range(CHUNKS))
        for seat in range(SEATS):
            self.seats.append(self.region.seat())
            self.assertIsNotNone(self.seats[-1], len(self.stamps))
            self.create(order[CHUNKS * seat // (SEATS - 1) : CHUNKS * (seat + 1) // (SEATS - 1)])
        self.assertEqual((len(self.stamps), self.region.seat()), (CHUNKS, None))
        self.assertEqual(created(self.region, 0).fault, nc.OCCUPIED)
        self.compare()
        self.compare_text({number: code(number) for number in self.stamps})
        self.walk(order)
        self.patch_and_delete(self.shuffled(range(CHUNKS)))

    def patch_and_delete(self, order):
        """One chunk in a hundred is patched. All but ten are deleted in two halves, and created again by ascending base."""
        patched = {*order[::100]}
        for number in patched:
            new = number_in(number + CHUNKS)
            self.assertEqual(self.region.patch(base(number), new).fault, nc.OK, number)
        half, few = CHUNKS // 2, CHUNKS - 10
        self.delete(order[:half])
        self.assertEqual(self.region.reclaim(), 0)
        self.compare()
        self.compare_text({number: code(number) if number not in patched else number_in(number + CHUNKS) + code(number)[5:]
                           for number in order[half:]})
        self.reclaim(half)
        self.delete(order[half:few])
        self.reclaim(few - half)
        self.compare()
        self.create(sorted(order[:few]))
        self.compare()
