"""Thousands of patches drawn at random, lawful and unlawful ones, each judged by the library and by a plain reading of the rules: the
fault, the acts and the bytes are the same.
"""
import collections
import random
import unittest

import nc_host as nc
from drawing import draw_chunk, draw_patch
from lawful import chunk_at, judge
from reading import filled, replaced

REGIONS, PATCHES = 250, 60
STOPS = bytes([nc.STOP]) * nc.BUNDLE
ANSWERS = [nc.OK, nc.PATCH_BAD_SPAN, nc.PATCH_NOT_LIVE, nc.PATCH_NOT_PERMITTED, nc.PATCH_BOUNDARIES, nc.PATCH_PAIR_TOUCHED,
           nc.PATCH_BAD_TARGET]


class RandomPatches(unittest.TestCase):
    def laid_out(self, rng):
        """A region of eight bundles with two live chunks side by side, of two bundles and of one, and a retired one after them; and the
        code of the live ones by their bases.
        """
        region, live = nc.Region(8), {}
        for base, bundles in [(0x10020, 2), (0x10060, 1)]:
            live[base] = draw_chunk(rng, base, region.limit, bundles)
            self.assertEqual(region.create(base, live[base]).fault, nc.OK)
        self.assertEqual(region.create(0x10080, filled("")).fault, nc.OK)
        self.assertEqual(region.delete(0x10080)[1], 1)
        return region, live

    def patch(self, rng, region, live):
        """Draws a patch and has it judged both ways. Returns its fault."""
        at, new = draw_patch(rng, live, region.limit)
        wanted = judge(live, region.limit, at, new)
        changed = region.patch(at, new)
        self.assertEqual((changed.fault, changed.acts), wanted, (hex(at), new.hex(), live))
        if changed.fault == nc.OK:
            base = chunk_at(live, at)
            live[base] = replaced(live[base], at - base, new)
        self.assertEqual(region.bytes(), STOPS + live[0x10020] + live[0x10060] + STOPS * 4, (hex(at), new.hex()))
        return changed.fault

    def test_random_patches(self):
        rng, counts = random.Random(2009), collections.Counter()
        for _ in range(REGIONS):
            region, live = self.laid_out(rng)
            counts.update(self.patch(rng, region, live) for _ in range(PATCHES))
        # each answer came often
        for answer in ANSWERS:
            self.assertGreaterEqual(counts[answer], 100, answer)
