"""A pointer with a length of 0 may be null or any other address: for each such argument of each call the answers are the same."""
import ctypes
import unittest

import nc_host as nc
from reading import filled

LIBRARY = nc.LIBRARY
CODE = filled("b801000000")
END = nc.limit(4)
NUMBER = bytes.fromhex("b802000000")


def as_bytes(address):
    return ctypes.c_char_p(address)


def as_list(kind, address):
    return ctypes.cast(address, nc.to(kind))


def lent(address):
    """The faults of the calls on code alone, and on files."""
    none, segments = as_bytes(address), as_list(nc.Segment, address)
    return [
        LIBRARY.nc_host_decode(none, 0).fault,
        LIBRARY.nc_host_vet(nc.START, END, none, 0).fault,
        LIBRARY.nc_host_marks(nc.START, END, none, 0, none, 0).fault,
        LIBRARY.nc_host_marks(nc.START, END, CODE, len(CODE), none, 0).fault,
        LIBRARY.nc_host_image(nc.START, none, 0, none, 0).fault,
        LIBRARY.nc_host_image(nc.START, CODE, len(CODE), none, 0).fault,
        LIBRARY.nc_host_elf(none, 0, segments, 0).fault,
        LIBRARY.nc_host_elf(CODE, len(CODE), segments, 0).fault,
    ]


LENT = [nc.CUT_SHORT, nc.BAD_LENGTH, nc.BAD_LENGTH, nc.NO_ROOM, nc.BAD_LENGTH, nc.OUT_OF_RANGE, nc.ELF_NOT_ELF, nc.ELF_NOT_ELF]


def held(address):
    """The faults of the calls on handles. A creation and a deletion are made without a buffer, and a patch isn't."""
    none, acts, numbers = as_bytes(address), as_list(nc.Act, address), as_list(nc.u32, address)
    region, vetted = nc.Region(4), nc.Vetted(nc.START + nc.BUNDLE, END, CODE)
    return [
        LIBRARY.nc_region_create(region.handle, nc.START, none, 0, acts, 0).fault,
        LIBRARY.nc_region_create(region.handle, nc.START, CODE, len(CODE), acts, 0).fault,
        LIBRARY.nc_vetted_new(nc.START, END, none, 0, nc.Handle()).fault,
        LIBRARY.nc_region_load(region.handle, vetted.handle, acts, 0).fault,
        LIBRARY.nc_region_patch(region.handle, nc.START, none, 0, acts, 0).fault,
        LIBRARY.nc_region_patch(region.handle, nc.START, NUMBER, len(NUMBER), acts, 0).fault,
        LIBRARY.nc_region_creation_runs(region.handle, nc.START, acts, 0).fault,
        LIBRARY.nc_region_walk(region.handle, nc.START, numbers, 0, numbers, 0).fault,
        LIBRARY.nc_region_begin_delete(region.handle, nc.START, acts, 0).fault,
        LIBRARY.nc_region_deletion_runs(region.handle, acts, 0).fault,
    ]


HELD = [nc.BAD_LENGTH, nc.OK, nc.BAD_LENGTH, nc.OK, nc.PATCH_BAD_SPAN, nc.NO_ROOM, nc.NO_ROOM, nc.NO_ROOM, nc.OK, nc.NO_ROOM]


class Lending(unittest.TestCase):
    def test_no_address_is_read(self):
        for address in (None, 1, 2**64 - 1):
            with self.subTest(address=address):
                self.assertEqual(lent(address), LENT)
                self.assertEqual(held(address), HELD)
