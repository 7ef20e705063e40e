"""The text of a region with one chunk, filled at once: its bytes, beside those of a region by its handle, and what is refused."""
import random
import unittest

import nc_host as nc
from reading import filled, replaced

STOPS = bytes([nc.STOP])
MOST = 32 * 2097152  # bytes of the largest text
BEFORE = b"\xa5"

# Code, its place in the text, and the number of the text's bundles.
PLACED = [
    ("the smallest text", filled("90"), 0, 2),
    ("at the start", filled("eb1e"), 0, 4),
    ("before the guard", filled("83e0e0ffe0"), 2, 4),
    ("between", filled("eb1e b801000000", 2), 1, 5),
    ("all but the guard", filled("e92b000000", 7), 0, 8),
    ("a jump to the guard", filled("eb3e"), 0, 3),
    ("across a page", filled("90", 3), 126, 300),
    ("larger than the caches of a core", filled("90", 60000), 5, 65536),
]

# What is wrong, the base, the code, the length of the text, and the verdict.
REFUSED = [
    ("below the region", 0xFFE0, filled(""), 128, (nc.BAD_BASE, 0)),
    ("inside a bundle", 0x10010, filled(""), 128, (nc.BAD_BASE, 0)),
    ("no code", nc.START, b"", 128, (nc.BAD_LENGTH, 0)),
    ("part of a bundle", nc.START, filled("")[1:], 128, (nc.BAD_LENGTH, 0)),
    ("no text", nc.START, filled(""), 0, (nc.OUT_OF_RANGE, 0)),
    ("a text of one bundle", nc.START, filled(""), 32, (nc.OUT_OF_RANGE, 0)),
    ("a text that ends inside a bundle", nc.START, filled(""), 127, (nc.OUT_OF_RANGE, 0)),
    ("a text larger than any region's", nc.START, filled(""), MOST + 32, (nc.OUT_OF_RANGE, 0)),
    ("into the guard", 0x10060, filled(""), 128, (nc.OUT_OF_RANGE, 0)),
    ("behind the limit", 0x10080, filled(""), 128, (nc.OUT_OF_RANGE, 0)),
    ("at the last address", 0xFFFFFFE0, filled(""), 128, (nc.OUT_OF_RANGE, 0)),
    ("a bad base before all else", 0x10010, b"", 1, (nc.BAD_BASE, 0)),
    ("a bad length before the text's", nc.START, b"", 1, (nc.BAD_LENGTH, 0)),
    ("a return", 0x10020, filled("90c3"), 128, (nc.NOT_PERMITTED, 0x10021)),
    ("across the end of a bundle", nc.START, replaced(filled(""), 31, b"\xb8"), 128, (nc.CROSSES, 0x1001F)),
    ("a jump that isn't masked", nc.START, filled("ffe0"), 128, (nc.BARE, 0x10000)),
    ("a jump to the limit", nc.START, filled("eb7e"), 128, (nc.BAD_TARGET, 0x10000)),
    ("a jump into an instruction", nc.START, filled("eb01b801000000"), 128, (nc.BAD_TARGET, 0x10000)),
]


class Images(unittest.TestCase):
    def test_bytes(self):
        for name, code, first, bundles in PLACED:
            with self.subTest(name):
                start, length = nc.BUNDLE * first, nc.BUNDLE * bundles
                verdict, image = nc.image(nc.START + start, code, length)
                self.assertEqual(verdict, (nc.OK, 0))
                self.assertEqual(image, STOPS * start + code + STOPS * (length - start - len(code)))

    def test_as_by_a_handle(self):
        """The text is that of a region in which the chunk was created."""
        for name, code, first, bundles in PLACED:
            with self.subTest(name):
                base, region = nc.START + nc.BUNDLE * first, nc.Region(bundles)
                self.assertEqual(region.create(base, code).fault, nc.OK)
                self.assertEqual(nc.image(base, code, nc.BUNDLE * bundles)[1], region.bytes())

    def test_the_largest(self):
        code = filled("83e3e0ffe3")
        verdict, image = nc.image(nc.START + MOST - 64, code, MOST)
        self.assertEqual(verdict, (nc.OK, 0))
        self.assertEqual(image, STOPS * (MOST - 64) + code + STOPS * 32)

    def test_refusals(self):
        for name, base, code, length, verdict in REFUSED:
            with self.subTest(name):
                self.assertEqual(nc.image(base, code, length), (verdict, BEFORE * length))

    def test_verdicts(self):
        """On random code the verdict is that of nc_host_vet."""
        rng = random.Random(3)
        parts = [bytes.fromhex(part) for part in ("90", "b805000000", "83e0e0ffe0", "eb10", "7402", "ffe3", "c3", "e81b000000", "6690")]
        for _ in range(2000):
            bundles = rng.randrange(2, 6)
            code = b"".join(rng.choices(parts, weights=[60, 9, 3, 3, 3, 1, 1, 1, 3], k=60))[: nc.BUNDLE * rng.randrange(1, 4)]
            base, length = nc.START + nc.BUNDLE * rng.randrange(3), nc.BUNDLE * bundles
            verdict, image = nc.image(base, code, length)
            self.assertEqual(verdict, nc.vet(base, nc.START + length, code))
            self.assertEqual(image == BEFORE * length, verdict.fault != nc.OK)
