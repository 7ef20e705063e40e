"""Seats of a region: how many there may be, and which of them hold a deleted chunk back."""
import sys
import threading
import unittest

import nc_host as nc
from reading import filled


def deleted(region, base=nc.START):
    """The stamp of a chunk that is created and deleted."""
    created = region.create(base, filled(""))
    assert created.fault == nc.OK, created
    return region.delete(base)[1]


def check_in_until(done, seat):
    while not done.is_set():
        seat.check_in()


class Seats(unittest.TestCase):
    def test_bad_seats(self):
        for seats in (0, 257, 2**32 - 1):
            with self.subTest(seats=seats):
                self.assertEqual(nc.Region(2, seats).fault, nc.BAD_SEATS)

    def test_each_seat_is_waited_for(self):
        for count in (1, 2, 64, 256):
            with self.subTest(count=count):
                region = nc.Region(2, count)
                seats = [region.seat() for _ in range(count)]
                self.assertIsNone(region.seat())
                self.assertEqual(deleted(region), 1)
                for seat in seats:
                    self.assertEqual(region.reclaim(), 0)
                    self.assertEqual(seat.check_in(), nc.OK)
                self.assertEqual(region.reclaim(), 1)

    def test_a_seat_that_leaves_is_not_waited_for(self):
        region = nc.Region(2, 2)
        first, second = region.seat(), region.seat()
        self.assertEqual(deleted(region), 1)
        first.check_in()
        self.assertEqual(region.reclaim(), 0)
        second.leave()
        self.assertEqual(region.reclaim(), 1)

        # Once all have left, nothing is held back.
        self.assertEqual(deleted(region), 2)
        self.assertEqual(region.reclaim(), 0)
        first.leave()
        self.assertEqual(region.reclaim(), 1)

    def test_a_seat_that_is_forgotten_holds_back(self):
        region = nc.Region(2, 1)
        region.seat()
        self.assertEqual(deleted(region), 1)
        self.assertEqual(region.reclaim(), 0)

    def test_check_ins_beside_changes(self):
        """While four threads check in, chunks are deleted and reclaimed: the oldest first, and all once each seat has checked in."""
        region = nc.Region(128, 4)
        seats, done = [region.seat() for _ in range(4)], threading.Event()
        threads = [threading.Thread(target=check_in_until, args=(done, seat)) for seat in seats]
        self.addCleanup(sys.setswitchinterval, sys.getswitchinterval())
        sys.setswitchinterval(1e-5)  # in seconds; the usual one lets threads take turns only now and then
        self.addCleanup(done.set)
        for thread in threads:
            thread.start()
        freed = 0
        for number in range(100):
            self.assertEqual(deleted(region, nc.START + nc.BUNDLE * number), number + 1)
            freed += region.reclaim()
            self.assertEqual([chunk.stamp for chunk in region.chunks()], [*range(freed + 1, number + 2)])
        done.set()
        for thread in threads:
            thread.join()
        for seat in seats:
            seat.check_in()
        region.reclaim()
        self.assertEqual(region.chunks(), [])
