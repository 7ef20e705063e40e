"""A region's life, act by act: after each act all marks are walked once. The judge of that is itself tried over broken texts."""
import unittest

import nc_host as nc
from following import LOOK, UNMARK, Life, Text
from judging import faults
from reading import filled

LIMIT = nc.limit(4)

# A byte in a text of stops, with its place and its mark, and how many places are wrong.
BROKEN = [
    (1, 0xF4, nc.PLAIN, 0),
    (1, 0xF4, nc.MASKED + 3, 0),
    # a return
    (1, 0xC3, nc.PLAIN, 1),
    (1, 0xC3, nc.UNMARKED, 0),
    # a nop before a place that isn't marked, and before a bundle start
    (1, 0x90, nc.PLAIN, 1),
    (31, 0x90, nc.PLAIN, 0),
    # a nop before the limit
    (127, 0x90, nc.PLAIN, 1),
    # a bundle start that isn't plain
    (32, 0xF4, nc.UNMARKED, 1),
    (32, 0xF4, nc.MASKED + 0, 1),
    # the front of an instruction that crosses the end of its bundle
    (31, 0xB8, nc.PLAIN, 1),
]

# What begins at 00010021 in a text of stops: its bytes, its marks, and how many places are wrong.
PAIRS = [
    ("83e0e0ffe0", [nc.PLAIN, nc.UNMARKED, nc.UNMARKED, nc.MASKED + 0, nc.UNMARKED], 0),
    # a bare transfer
    ("83e0e0ffe0", [nc.PLAIN, nc.UNMARKED, nc.UNMARKED, nc.PLAIN, nc.UNMARKED], 1),
    # on another register
    ("83e0e0ffe1", [nc.PLAIN, nc.UNMARKED, nc.UNMARKED, nc.MASKED + 0, nc.UNMARKED], 1),
    # reached without its mask
    ("909090ffe0", [nc.PLAIN, nc.PLAIN, nc.PLAIN, nc.MASKED + 0, nc.UNMARKED], 1),
    # a jump to a place that is marked for another state
    ("eb01f4f4f4", [nc.PLAIN, nc.UNMARKED, nc.UNMARKED, nc.MASKED + 0, nc.UNMARKED], 1),
    # a jump to a place that isn't marked
    ("eb00f4f4f4", [nc.PLAIN, nc.UNMARKED, nc.UNMARKED, nc.UNMARKED, nc.UNMARKED], 1),
]

# A chunk that begins with a pair is created, one beside it that jumps there, and the first is patched behind its pair ..
BEGIN = [
    ("create", 0x10000, filled("83e0e0ffe0")),
    ("create", 0x10020, filled("ebde")),
    ("patch", 0x10005, "40"),
]
# .. and the first is deleted, reclaimed, and created again.
END = [
    ("delete", 0x10000, 1),
    ("check_in",),
    ("reclaim", (0x10000, 32)),
    ("create", 0x10000, filled("83e0e0ffe0")),
]

# Lives, how many acts they have, and after how many of these the second half of the pair is marked: from its marking, the 32nd act, to the
# look, the 101st. Three acts more make the masked jump a masked call before the deletion.
LIVES = [
    ("jump", BEGIN + END, 135, 70),
    ("call", BEGIN + [("patch", 0x10003, "ffd0")] + END, 138, 73),
]


def broken(place, code, marks):
    """A text of stops, of which only bundle starts are marked, but for this code and its marks at a place."""
    text = Text(LIMIT)
    text.bytes[place : place + len(code)] = code
    text.marks[place : place + len(marks)] = marks
    return text


class Judge(unittest.TestCase):
    def test_broken_texts(self):
        for place, byte, mark, wrong in BROKEN:
            with self.subTest(place=place, byte=hex(byte), mark=mark):
                self.assertEqual(faults(broken(place, [byte], [mark])), wrong)

    def test_broken_pairs(self):
        for code, marks, wrong in PAIRS:
            with self.subTest(code=code, marks=marks):
                self.assertEqual(faults(broken(33, bytes.fromhex(code), marks)), wrong)


class ActByAct(unittest.TestCase):
    def looks(self, steps):
        """After each act of a life its kind, how many places are wrong, the mark at 00010003, and whether the bundle at 00010000 is all
        stops. A serialization is no act.
        """
        life = Life(self, 4)
        for kind, _, _ in life.live(steps):
            if kind != nc.SERIALIZE:
                stopped = life.text.rest_of_bundle(0x10000) == bytes([nc.STOP]) * nc.BUNDLE
                yield kind, faults(life.text), life.text.mark(0x10003), stopped

    def test_closed_after_each_act(self):
        for name, steps, acts, held in LIVES:
            with self.subTest(name):
                kinds, wrong, marks, stopped = zip(*self.looks(steps))
                self.assertEqual((len(kinds), sum(wrong)), (acts, 0))
                # until the span is unmarked the pair stays marked
                self.assertEqual(marks[: kinds.index(UNMARK)], (nc.UNMARKED,) * 31 + (nc.MASKED + 0,) * held)
                # from the stamp to the next put the span is all stops
                bump = kinds.index(nc.BUMP)
                self.assertEqual(kinds[bump : bump + 4], (nc.BUMP, LOOK, UNMARK, nc.PUT))
                self.assertEqual(stopped[bump : bump + 3], (True,) * 3)
