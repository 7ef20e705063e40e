"""Patches: each answer with the puts that it owes."""
import unittest

import nc_host as nc
from lawful import judge
from reading import filled, replaced

STOPS = bytes([nc.STOP]) * nc.BUNDLE

# The front of a chunk at 00010000 in a region of four bundles, filled with nops; a patch of it, its fault, and the puts that it owes.
PATCHES = [
    # a stop at the first byte, the further bytes rising, the first byte
    ("b801000000", 0x10000, "b802000000", nc.OK,
     [(0x10000, 0xF4), (0x10001, 0x02), (0x10002, 0x00), (0x10003, 0x00), (0x10004, 0x00), (0x10000, 0xB8)]),
    ("909090", 0x10000, "904090", nc.OK, [(0x10001, 0x40)]),
    ("ebfe", 0x10000, "eb1e", nc.OK, [(0x10000, 0xF4), (0x10001, 0x1E), (0x10000, 0xEB)]),
    ("90", 0x10000, "f4", nc.OK, [(0x10000, 0xF4)]),
    # a mask that no indirect transfer follows is no half of a pair, and a new one makes no pair
    ("83e0e083e0e0ffe0", 0x10000, "83c001", nc.OK, [(0x10000, 0xF4), (0x10001, 0xC0), (0x10002, 0x01), (0x10000, 0x83)]),
    ("83c001", 0x10000, "83e0e0", nc.OK, [(0x10000, 0xF4), (0x10001, 0xE0), (0x10002, 0xE0), (0x10000, 0x83)]),
    # nothing changes
    ("ebfe90", 0x10000, "ebfe90", nc.OK, []),
    ("90", 0x10000, 32 * "90", nc.OK, []),
    # spans
    ("90", 0x10000, "", nc.PATCH_BAD_SPAN, []),
    ("90", 0xFFFFFFFF, "", nc.PATCH_BAD_SPAN, []),
    ("90", 0xFFFFFFFF, "9090", nc.PATCH_BAD_SPAN, []),
    ("ebfe", 0x1001F, "9090", nc.PATCH_BAD_SPAN, []),
    ("90", 0xFFFFFFE0, 33 * "90", nc.PATCH_BAD_SPAN, []),
    ("90", 0xFFFFFFE0, 32 * "90", nc.PATCH_NOT_LIVE, []),
    ("90", 0xFFFFFFE0, "90", nc.PATCH_NOT_LIVE, []),
    ("ebfe", 0x10020, "90", nc.PATCH_NOT_LIVE, []),
    ("90", 0xFFE0, "90", nc.PATCH_NOT_LIVE, []),
    ("90", 0x10080, "c3", nc.PATCH_NOT_LIVE, []),
    # bytes
    ("90", 0x10000, "c3", nc.PATCH_NOT_PERMITTED, []),
    ("90", 0x10000, "90b8", nc.PATCH_NOT_PERMITTED, []),
    ("ebfe", 0x10001, "c3", nc.PATCH_NOT_PERMITTED, []),
    ("ebfe", 0x10002, "c3", nc.PATCH_NOT_PERMITTED, []),
    # instructions of other lengths, or not at their places
    ("9090", 0x10000, "6690", nc.PATCH_BOUNDARIES, []),
    ("b801000000", 0x10000, "ebfe909090", nc.PATCH_BOUNDARIES, []),
    ("ebfe", 0x10001, "90", nc.PATCH_BOUNDARIES, []),
    ("ebfe", 0x10000, "9090", nc.PATCH_BOUNDARIES, []),
    ("ebfe", 0x10001, "ffe0", nc.PATCH_BOUNDARIES, []),
    # a masked jump becomes a masked call on its register, and the other way round
    ("83e0e0ffe0", 0x10003, "ffd0", nc.OK, [(0x10003, 0xF4), (0x10004, 0xD0), (0x10003, 0xFF)]),
    ("83e0e0ffd0", 0x10000, "83e0e0ffe0", nc.OK, [(0x10003, 0xF4), (0x10004, 0xE0), (0x10003, 0xFF)]),
    ("9083e7e0ffe790", 0x10000, "4083e7e0ffd747", nc.OK,
     [(0x10000, 0x40), (0x10004, 0xF4), (0x10005, 0xD7), (0x10004, 0xFF), (0x10006, 0x47)]),
    # halves stay as they are
    ("83e0e0ffe0", 0x10000, "83e0e0", nc.OK, []),
    ("83e0e0ffe0", 0x10000, "83e0e0ffe0", nc.OK, []),
    ("83e0e0ffe0", 0x10003, "ffe040", nc.OK, [(0x10005, 0x40)]),
    # no other change of a pair
    ("83e0e083e0e0ffe0", 0x10003, "83c001", nc.PATCH_PAIR_TOUCHED, []),
    ("83e0e0ffe0", 0x10003, "ffd1", nc.PATCH_PAIR_TOUCHED, []),
    ("83e0e0ffe0", 0x10003, "ffe1", nc.PATCH_PAIR_TOUCHED, []),
    ("83e0e0ffe0", 0x10003, "eb00", nc.PATCH_PAIR_TOUCHED, []),
    ("83e0e0ffe0", 0x10000, "83e1e0ffd1", nc.PATCH_PAIR_TOUCHED, []),
    ("83e0e0ffe0", 0x10000, "83e1e0ffe1", nc.PATCH_PAIR_TOUCHED, []),
    ("83e0e0ffe0", 0x10003, "9090", nc.PATCH_BOUNDARIES, []),
    ("ebfe", 0x10000, "ffe0", nc.PATCH_PAIR_TOUCHED, []),
    ("ebfe", 0x10000, "ffd0", nc.PATCH_PAIR_TOUCHED, []),
    ("83e0e0ebfe", 0x10003, "ffe0", nc.PATCH_PAIR_TOUCHED, []),
    # targets: into itself, to a bundle start, to a place that is none, to the limit, to a second half, to a mask
    ("ebfe", 0x10000, "ebff", nc.PATCH_BAD_TARGET, []),
    ("ebfe", 0x10000, "eb5e", nc.OK, [(0x10000, 0xF4), (0x10001, 0x5E), (0x10000, 0xEB)]),
    ("ebfe", 0x10000, "eb3f", nc.PATCH_BAD_TARGET, []),
    ("ebfe", 0x10000, "eb7e", nc.PATCH_BAD_TARGET, []),
    ("83e0e0ffe0ebfe", 0x10005, "ebfc", nc.PATCH_BAD_TARGET, []),
    ("83e0e0ffe0ebfe", 0x10005, "ebf9", nc.OK, [(0x10005, 0xF4), (0x10006, 0xF9), (0x10005, 0xEB)]),
]


def puts(acts):
    """The puts among some acts."""
    return [(act.at, act.value) for act in acts if act.kind == nc.PUT]


class Patches(unittest.TestCase):
    def patch(self, front, at, new, fault, owed):
        """A chunk is created and patched. The patch has its fault, makes its puts, and leaves the bytes that are due. A plain reading of
        the rules says the same, and where it serializes.
        """
        region, code = nc.Region(4), filled(front)
        self.assertEqual(region.create(nc.START, code).fault, nc.OK)
        changed = region.patch(at, new)
        self.assertEqual((changed.fault, puts(changed.acts)), (fault, owed))
        self.assertEqual((changed.fault, changed.acts), judge({nc.START: code}, region.limit, at, new))
        due = replaced(code, at - nc.START, new) if fault == nc.OK else code
        self.assertEqual(region.bytes(), due + STOPS * 3)

    def test_patches(self):
        for front, at, new, fault, owed in PATCHES:
            with self.subTest(front=front, at=hex(at), new=new):
                self.patch(front, at, bytes.fromhex(new), fault, owed)

    def test_patch_beside_a_retired_chunk(self):
        """Of two chunks the second one, at 00010020, is deleted, and the first one is made to jump there."""
        region = nc.Region(4)
        self.assertEqual(region.create(0x10000, filled("ebfe")).fault, nc.OK)
        self.assertEqual(region.create(0x10020, filled("")).fault, nc.OK)
        self.assertEqual(region.delete(0x10020)[1], 1)
        changed = region.patch(0x10000, bytes.fromhex("eb1e"))
        self.assertEqual((changed.fault, puts(changed.acts)), (nc.OK, [(0x10000, 0xF4), (0x10001, 0x1E), (0x10000, 0xEB)]))
        self.assertEqual(region.bytes(), filled("eb1e") + STOPS * 3)
