"""Which calls allocate, what is given back, how much stack the calls take, and that a check-in waits for no other call."""
import contextlib
import itertools
import random
import threading
import time
import unittest

import nc_host as nc
from memory import used
from reading import filled

LIBRARY = nc.LIBRARY
CODE = filled("eb1e b801000000 83e0e0ffe0")
OTHER = bytes.fromhex("b802000000")
PLACE = nc.START + 2  # of the number that OTHER replaces
SECONDS = 10  # after which a thread counts as stuck


def base(number):
    """Where the chunk of this number begins: every other bundle is free."""
    return nc.START + 2 * nc.BUNDLE * number


def filled_region(chunks):
    """A region with this many chunks, and its two seats."""
    region = nc.Region(2 * chunks + 1, 2)
    assert all(region.create(base(number), CODE).fault == nc.OK for number in range(chunks))
    return region, [region.seat(), region.seat()]


def retired(region, numbers):
    """The stamps of these chunks, which are deleted."""
    found = []
    for number in numbers:
        assert region.begin_delete(base(number), 0).fault == nc.OK
        found.append(region.end_delete().stamp)
    return found


class TakesNone(unittest.TestCase):
    """Calls that answer as always where each allocation would be refused, and ask for none."""

    @contextlib.contextmanager
    def no_memory(self):
        asked = LIBRARY.allocations_asked()
        LIBRARY.refuse_allocations(True)
        try:
            yield
        finally:
            LIBRARY.refuse_allocations(False)
        self.assertEqual(LIBRARY.allocations_asked(), asked)

    def test_looks(self):
        region, _ = filled_region(600)
        with self.no_memory():
            self.assertEqual(nc.decode(CODE).length, 2)
            self.assertEqual(nc.segments(CODE, 2)[0].fault, nc.ELF_NOT_ELF)
            self.assertGreater(LIBRARY.nc_host_version(), 0)
            self.assertEqual([region.chunk(index).fault for index in (0, 599, 600, 2**40)], [nc.OK, nc.OK, nc.NO_CHUNK, nc.NO_CHUNK])
            self.assertEqual([region.chunk_at(at).fault for at in (0, base(300), base(600))], [nc.OK, nc.OK, nc.NO_CHUNK])
            self.assertEqual([region.place(at).fault for at in (0, nc.START, region.limit)], [nc.NO_PLACE, nc.OK, nc.NO_PLACE])
            self.assertEqual(region.generation(), 0)

    def test_patches(self):
        region, _ = filled_region(600)
        with self.no_memory():
            self.assertEqual(len(region.patch(PLACE, OTHER).acts), 8)
            self.assertEqual(region.patch(PLACE, OTHER).acts, [])
            self.assertEqual(region.patch(PLACE, b"\xc3" * 5).fault, nc.PATCH_NOT_PERMITTED)
            self.assertEqual(region.patch(region.limit, OTHER).fault, nc.PATCH_NOT_LIVE)
            self.assertEqual(LIBRARY.nc_region_patch(region.handle, base(599) + 2, OTHER, 5, None, 0).plain(), (nc.NO_ROOM, 0, 15))

    def test_a_small_load(self):
        """A vetted chunk of 16 bundles comes into pages that are made, beside a chunk in the list."""
        region, seats = filled_region(20)
        chunk = nc.Vetted(base(1), region.limit, filled("eb1e") * 16)
        retired(region, range(1, 20))
        self.assertEqual([seat.check_in() for seat in seats], [nc.OK] * 2)
        self.assertEqual(region.reclaim(), 19)
        with self.no_memory():
            self.assertEqual(LIBRARY.nc_region_load(region.handle, chunk.handle, None, 0).plain(), (nc.OK, 0, 0))

    def test_runs(self):
        region, _ = filled_region(600)
        with self.no_memory():
            self.assertEqual(len(region.creation_runs(base(300), 4).acts), 4)
            self.assertEqual(region.creation_runs(base(300), 3).fault, nc.NO_ROOM)
            self.assertEqual(region.begin_delete(base(300), 0).fault, nc.OK)
            self.assertEqual(len(region.deletion_runs(4).acts), 4)
            self.assertEqual(region.end_delete().stamp, 1)

    def test_deletions_and_reclaims(self):
        """Of 1,200 chunks, in many leaves, each third one is deleted, then each."""
        region, seats = filled_region(1200)
        with self.no_memory():
            self.assertEqual(retired(region, range(0, 1200, 3)), [*range(1, 401)])
            self.assertEqual(region.reclaim(), 0)
            self.assertEqual([seat.check_in() for seat in seats], [nc.OK, nc.OK])
            self.assertEqual(region.reclaim(), 400)
            left = [number for number in range(1200) if number % 3]
            self.assertEqual([chunk.base for chunk in region.chunks()], [base(number) for number in left])
            self.assertEqual(retired(region, left), [*range(401, 1201)])
            for seat in seats:
                seat.leave()
            self.assertEqual(region.reclaim(), 800)
            self.assertEqual(region.chunks(), [])

    def test_frees(self):
        region, seats = filled_region(600)
        vetted = nc.Vetted(nc.START, region.limit, CODE)
        with self.no_memory():
            for give_back in (seats[0].leave, lambda: free(region), seats[1].leave, lambda: free_vetted(vetted)):
                give_back()
                give_back()


def free(region):
    LIBRARY.nc_region_free(region.handle)


def free_vetted(vetted):
    LIBRARY.nc_vetted_free(vetted.handle)


def empty(region):
    pass


def under_way(region):
    assert region.create(nc.START, CODE).fault == region.begin_delete(nc.START, 0).fault == nc.OK


class GivenBack(unittest.TestCase):
    """What is in use afterwards is what was in use before."""

    def setUp(self):
        kept = LIBRARY.blocks_kept()
        self.addCleanup(lambda: self.assertEqual(LIBRARY.blocks_kept(), kept))

    def give_back(self, change, order):
        """Leaves two seats of a region, frees the region, and frees a vetted chunk, in an order of these four, and each twice."""
        region = nc.Region(4, 2)
        change(region)
        seats, vetted = [region.seat(), region.seat()], nc.Vetted(nc.START, region.limit, CODE)
        calls = [seats[0].leave, seats[1].leave, lambda: free(region), lambda: free_vetted(vetted)]
        stands = [nc.OK, nc.OK]
        for number in order:
            calls[number]()
            calls[number]()
            if number < 2:
                stands[number] = nc.NO_HANDLE
            self.assertEqual([seat.check_in() for seat in seats], stands)

    def test_in_each_order(self):
        for change in (empty, under_way):
            for order in itertools.permutations(range(4)):
                with self.subTest(change.__name__, order=order):
                    kept = LIBRARY.blocks_kept()
                    self.give_back(change, order)
                    self.assertEqual(LIBRARY.blocks_kept(), kept)

    def test_many_chunks(self):
        region, seats = filled_region(600)
        retired(region, range(0, 600, 2))
        free(region)
        self.assertEqual([seat.check_in() for seat in seats], [nc.OK] * 2)
        for seat in seats:
            seat.leave()

    def test_loaded_and_refused(self):
        region, vetted = nc.Region(4, 1), nc.Vetted(nc.START, nc.limit(4), CODE)
        self.assertEqual(region.load(vetted).fault, nc.OK)
        again = nc.Vetted(nc.START, nc.limit(4), CODE)
        self.assertEqual(region.load(again).fault, nc.OCCUPIED)
        self.assertEqual(region.create(nc.START, CODE).fault, nc.OCCUPIED)
        self.assertEqual(nc.Vetted(nc.START, nc.limit(4), filled("c3")).verdict.fault, nc.NOT_PERMITTED)
        free(region)
        free_vetted(vetted)
        free_vetted(again)

    def test_verdicts(self):
        region, end = nc.Region(4, 1), nc.limit(4)
        for code, wanted in (filled("c3"), nc.NOT_PERMITTED), (filled("eb7e"), nc.BAD_TARGET), (CODE, nc.OK):
            self.assertEqual(nc.vet(nc.START, end, code).fault, wanted)
            self.assertEqual(nc.marks(nc.START, end, code)[0].fault, wanted)
            self.assertEqual(nc.image(nc.START, code, end - nc.START)[0].fault, wanted)
            self.assertEqual(nc.Vetted(nc.START, end, code).verdict.fault, wanted)
            self.assertEqual(region.create(nc.START, code).fault, wanted)
        free(region)

    def test_walks(self):
        region = nc.Region(4, 1)
        self.assertEqual(region.create(nc.START, filled("ebfe")).fault, nc.OK)
        self.assertEqual(region.walk(nc.START, [0] * 1000)[0], nc.OK)
        self.assertEqual(region.walk(nc.START + 1, [0])[0], nc.NO_START)
        free(region)


class BytesOfAList(unittest.TestCase):
    """How much more memory a region takes with chunks than without, once all its pages are made."""
    CHUNKS = 9_000
    SLACK = 8 << 10

    def setUp(self):
        self.region = nc.Region(2 * self.CHUNKS + 1, 1)
        self.seat = self.region.seat()
        whole = CODE * (2 * self.CHUNKS)
        self.assertEqual(self.region.create(nc.START, whole).fault, nc.OK)
        self.reclaim([0])
        self.before = used()

    def reclaim(self, numbers):
        retired(self.region, numbers)
        self.seat.check_in()
        self.assertEqual(self.region.reclaim(), len(numbers))

    def most(self, chunks):
        self.assertLess(used() - self.before, 48 * chunks + self.SLACK)

    def test_at_most_48_a_chunk(self):
        shuffled = random.Random(5).sample(range(self.CHUNKS), self.CHUNKS)
        for order in range(self.CHUNKS), range(self.CHUNKS)[::-1], shuffled:
            for number in order:
                self.assertEqual(self.region.create(base(number), CODE).fault, nc.OK)
            self.most(self.CHUNKS)
            self.reclaim(range(0, self.CHUNKS, 2))
            self.most(self.CHUNKS // 2)
            left = range(1, self.CHUNKS, 2)
            self.reclaim([number for number in left if number % 50 != 1])
            self.most(self.CHUNKS // 50)
            self.reclaim([number for number in left if number % 50 == 1])
            self.most(0)


class OfAWalk(unittest.TestCase):
    """A walk of n places takes at most 8 n bytes in one block, however many choices it leaves over."""
    CHOICES = [0] * 100_000

    def assert_walk(self, code, count, end):
        """A walk through a chunk of this code has so many places."""
        region = nc.Region(4, 1)
        self.assertEqual(region.create(nc.START, filled(code)).fault, nc.OK)
        LIBRARY.largest_allocation()
        fault, places, ended = region.walk(nc.START, self.CHOICES)
        largest = LIBRARY.largest_allocation()
        self.assertEqual((fault, len(places), ended), (nc.OK, count, end))
        self.assertLessEqual(4 * count, largest)
        self.assertLessEqual(largest, 8 * count + 64)

    def test_places_alone(self):
        self.assert_walk("f4", 1, nc.END_STOP)
        self.assert_walk("eb1e", 2, nc.END_STOP)
        self.assert_walk("", 33, nc.END_STOP)
        self.assert_walk("ebfe", 100_001, nc.END_MORE)


class Stack(unittest.TestCase):
    def test_64_kib_are_enough(self):
        """A chunk of so many bundles, and as many chunks of one. Marks of up to 16 bundles are kept on the stack."""
        for bundles in (1, 2, 16, 17, 700, 20000):
            with self.subTest(bundles=bundles):
                self.assertLess(LIBRARY.most_stack(bundles), 64 * 1024)


class WaitsForNobody(unittest.TestCase):
    def started(self, call):
        """A thread that makes a call."""
        thread = threading.Thread(target=call, daemon=True)
        thread.start()
        return thread

    def test_a_check_in_beside_a_stuck_call(self):
        """While a creation is stuck in its nth allocation a seat of its region checks in."""
        for nth in itertools.count(1):
            region = nc.Region(4, 1)
            seat = region.seat()
            LIBRARY.hold_allocation(nth)
            creation = self.started(lambda: region.create(nc.START, CODE))
            while creation.is_alive() and not LIBRARY.allocation_is_held():
                time.sleep(0.001)
            was_held = LIBRARY.allocation_is_held()
            check_in = self.started(seat.check_in)
            check_in.join(SECONDS)
            is_stuck = check_in.is_alive()
            LIBRARY.hold_allocation(0)
            LIBRARY.let_go()
            creation.join()
            self.assertFalse(is_stuck)
            if not was_held:
                break
        self.assertGreater(nth, 1)
