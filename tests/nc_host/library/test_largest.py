"""The largest region, and in it one chunk of all bundles but the guard: it is vetted, made an image, created without a buffer, told as
runs, walked, patched, deleted and reclaimed, and its span is used again.

The chunk repeats seven kinds of bundles, whose instructions stand below. What has to be found is worked out from these by their places.
"""
import array
import ctypes
import functools
import random
import unittest

import memory
import nc_host as nc
from reading import replaced

LIMIT = nc.limit(2_097_152)
BUNDLES = 2_097_151
LENGTH = nc.BUNDLE * BUNDLES
CHOICES = 100_000

# The kinds of bundles. The number of a move is that of the bundle, and the displacement of a jump leads to another bundle.
MOVE, JUMP, NOPS = "b800000000", "e900000000", ["90"] * 32
KINDS = [
    [MOVE, *NOPS[:27]],
    [MOVE, "8b442404", "c7450801000000", "81c001000000", "66b83412", "f0830001", "6690"],
    [MOVE, "83e3e0", "ffe3", *NOPS[:22]],
    [MOVE, *NOPS[:22], "83e1e0", "ffd1"],
    [MOVE, "7412", *NOPS[:25]],
    [MOVE, *NOPS[:22], JUMP],
    NOPS,
]

# The instructions after which control isn't always at the next one, and the marks of the indirect ones.
BRANCH, INDIRECT = "7412", {"ffe3": nc.MASKED + 3, "ffd1": nc.MASKED + 1}

# The chunk's text is compared in pieces of this many bytes, each of them whole turns of all kinds.
PIECE = LENGTH // 127

STOPS, UNUSED = bytes([nc.STOP]) * nc.BUNDLE, bytes([nc.PLAIN]).ljust(nc.BUNDLE, bytes([nc.UNMARKED]))


def placed(kind):
    """The instructions of a kind of bundle, by their places."""
    found, place = {}, 0
    for instruction in kind:
        found[place] = instruction
        place += len(instruction) // 2
    assert place == nc.BUNDLE, kind
    return found


PLACED = [*map(placed, KINDS)]


def marks_of(instructions):
    """The marks of a bundle, each as a byte."""
    return bytes(INDIRECT.get(instructions[place], nc.PLAIN) if place in instructions else nc.UNMARKED for place in range(nc.BUNDLE))


def goal_of(number):
    """The number of the bundle to which the jump of another one leads."""
    return (number * 48271 + 11) % BUNDLES


def put(code, kind, place, words):
    """Puts words of four bytes into the bundles of one kind, one after the other."""
    each = array.array("I", words).tobytes()
    for i in range(4):
        code[nc.BUNDLE * kind + place + i :: nc.BUNDLE * len(KINDS)] = each[i::4]


def whole_code():
    """The chunk's code."""
    code = bytearray(bytes.fromhex("".join(map("".join, KINDS))) * (BUNDLES // len(KINDS)))
    for kind, instructions in enumerate(PLACED):
        numbers = range(kind, BUNDLES, len(KINDS))
        for place, instruction in instructions.items():
            if instruction == MOVE:
                put(code, kind, place + 1, numbers)
            if instruction == JUMP:
                put(code, kind, place + 1, [(goal_of(number) - number - 1) * nc.BUNDLE % 2**32 for number in numbers])
    return bytes(code)


def act(kind, at=0, value=0):
    return array.array("I", [kind, at, value])


@functools.lru_cache(maxsize=None)
def addresses():
    """The addresses of the bundles."""
    return array.array("I", range(nc.START, nc.START + LENGTH, nc.BUNDLE))


def runs(kind, values):
    """A run for each bundle, with these values in turn."""
    found = array.array("I", [kind]) * (3 * BUNDLES)
    found[1::3] = addresses()
    found[2::3] = array.array("I", values) * (BUNDLES // len(values))
    return found


def creation_runs():
    return runs(nc.PUT_RUN, [0xFFFFFFFE]) + act(nc.SERIALIZE) + act(nc.MARK, nc.START, LENGTH) + runs(nc.PUT_RUN, [1])


def deletion_runs():
    marked = [sum(1 << place for place in instructions) for instructions in PLACED]
    return runs(nc.STOP_RUN, marked) + act(nc.SERIALIZE) + runs(nc.STOP_RUN, [value ^ 0xFFFFFFFF for value in marked]) + act(nc.BUMP)


def instruction_at(at):
    number, place = divmod(at - nc.START, nc.BUNDLE)
    return PLACED[number % len(KINDS)][place]


def step(at, choice):
    """Where control is after the instruction at an address of the chunk."""
    instruction = instruction_at(at)
    if instruction in INDIRECT:
        return choice - choice % nc.BUNDLE
    if instruction == JUMP:
        return nc.START + nc.BUNDLE * goal_of((at - nc.START) // nc.BUNDLE)
    behind = at + len(instruction) // 2
    return behind + 0x12 if instruction == BRANCH and choice else behind


def draw_walk(rng):
    """Choices, and the places of a walk from the first bundle with these. An indirect transfer leads to any bundle of the chunk."""
    choices, places = [], [nc.START]
    for _ in range(CHOICES):
        inside = rng.randrange(nc.START, nc.START + LENGTH)
        choices.append(inside if instruction_at(places[-1]) in INDIRECT or rng.randrange(2) else 0)
        places.append(step(places[-1], choices[-1]))
    return choices, places


class Largest(unittest.TestCase):
    @classmethod
    def setUpClass(cls):
        cls.code, cls.marks = whole_code(), b"".join(map(marks_of, PLACED))

    @classmethod
    def tearDownClass(cls):
        del cls.code

    def created(self, seats=1):
        """A region with the chunk, which is created without a buffer."""
        region = nc.Region(BUNDLES + 1, seats)
        self.assertEqual(region.fault, nc.OK)
        change = nc.LIBRARY.nc_region_create(region.handle, nc.START, self.code, LENGTH, None, 0).plain()
        self.assertEqual(change, (nc.OK, 0, 0))
        return region

    def assert_text(self, region, code, marks, every=1):
        """The bytes of the chunk's span in all pieces, or in some and the last; their marks, which repeat; and the guard."""
        marks *= PIECE // len(marks)
        for start in range(LENGTH - PIECE, -1, -PIECE * every):
            at = nc.START + start
            self.assertTrue(region.places(at, at + PIECE) == (code[start : start + PIECE], marks), hex(at))
        self.assertEqual(region.places(LIMIT - nc.BUNDLE), (STOPS, UNUSED))

    def assert_acts(self, call, *words, wanted):
        """The call writes these acts where the buffer has room for all. With room for one less, or for none, it tells their number."""
        count = len(wanted) // 3
        room = bytearray(b"\xff") * (12 * (count + 1))
        acts = (nc.Act * (count + 1)).from_buffer(room)
        for length in (0, count - 1):
            self.assertEqual(call(*words, acts, length).plain(), (nc.NO_ROOM, 0, count))
        self.assertTrue(room == b"\xff" * len(room))
        self.assertEqual(call(*words, acts, count).plain(), (nc.OK, 0, count))
        self.assertTrue(room == wanted + array.array("I", [0xFFFFFFFF] * 3))

    def assert_no_room(self, call, *words):
        """The call refuses a buffer for one act, and tells how many are enough."""
        acts = (nc.Act * 1)()
        self.assertEqual(call(*words, acts, 1).plain(), (nc.NO_ROOM, 0, LENGTH + 2))
        self.assertEqual(acts[0].plain(), (0, 0, 0))

    def test_vetting(self):
        """The chunk is valid, with a mark for each instruction."""
        marks = bytearray(LENGTH)
        room = (ctypes.c_char * LENGTH).from_buffer(marks)
        self.assertEqual(nc.vet(nc.START, LIMIT, self.code), (nc.OK, 0))
        self.assertEqual(nc.LIBRARY.nc_host_marks(nc.START, LIMIT, self.code, LENGTH, room, LENGTH).plain(), (nc.OK, 0))
        self.assertTrue(marks == self.marks * (BUNDLES // len(KINDS)))

    def test_faults(self):
        """The chunk is refused where its last bytes are others, and where it is a bundle longer."""
        for digits, fault in [("c3", nc.NOT_PERMITTED), ("b8", nc.CROSSES), ("ffe0", nc.BARE), ("ebff", nc.BAD_TARGET)]:
            place = LENGTH - len(digits) // 2
            code = replaced(self.code, place, bytes.fromhex(digits))
            self.assertEqual(nc.vet(nc.START, LIMIT, code), (fault, nc.START + place))
        self.assertEqual(nc.vet(nc.START, LIMIT, self.code + STOPS), (nc.OUT_OF_RANGE, 0))

    def test_image(self):
        """The chunk fills a text but for the guard. With a return as its last byte it is refused, and the text is as it was."""
        verdict, image = nc.image(nc.START, self.code, LENGTH + nc.BUNDLE)
        self.assertEqual(verdict, (nc.OK, 0))
        self.assertTrue(image == self.code + STOPS)
        verdict, image = nc.image(nc.START, replaced(self.code, LENGTH - 1, b"\xc3"), LENGTH + nc.BUNDLE, 0x5A)
        self.assertEqual(verdict, (nc.NOT_PERMITTED, nc.START + LENGTH - 1))
        self.assertTrue(image == b"\x5a" * len(image))

    def test_no_room(self):
        """A buffer for all acts of this chunk would have 800 MB; one for a single act is refused."""
        host, region, vetted = nc.LIBRARY, nc.Region(BUNDLES + 1), nc.Vetted(nc.START, LIMIT, self.code)
        self.assert_no_room(host.nc_region_create, region.handle, nc.START, self.code, LENGTH)
        self.assert_no_room(host.nc_region_load, region.handle, vetted.handle)
        self.assertEqual(region.chunks(), [])
        self.assertEqual(host.nc_region_load(region.handle, vetted.handle, None, 0).plain(), (nc.OK, 0, 0))
        self.assert_no_room(host.nc_region_begin_delete, region.handle, nc.START)
        self.assertEqual(region.chunks(), [(0, nc.OK, nc.START, LENGTH, 0)])

    def test_life(self):
        """The chunk is created, deleted and reclaimed, and its span is used again by the same chunk, vetted beforehand."""
        host, region = nc.LIBRARY, self.created(2)
        seats = [region.seat(), region.seat()]
        self.assert_text(region, self.code, self.marks)
        self.assert_acts(host.nc_region_creation_runs, region.handle, nc.START, wanted=creation_runs())
        self.assertEqual(host.nc_region_begin_delete(region.handle, nc.START, None, 0).plain(), (nc.OK, 0, 0))
        self.assert_acts(host.nc_region_deletion_runs, region.handle, wanted=deletion_runs())
        self.assertEqual(region.end_delete(), (1, nc.OK))
        self.assertEqual(region.chunks(), [(1, nc.OK, nc.START, LENGTH, 1)])
        self.assert_text(region, STOPS * BUNDLES, self.marks)
        for seat in seats:
            self.assertEqual(region.reclaim(), 0)
            self.assertEqual(seat.check_in(), nc.OK)
        self.assertEqual((region.reclaim(), region.chunks()), (1, []))
        self.assert_text(region, STOPS * BUNDLES, UNUSED * len(KINDS), every=9)
        vetted = nc.Vetted(nc.START, LIMIT, self.code)
        self.assertEqual(host.nc_region_load(region.handle, vetted.handle, None, 0).plain(), (nc.OK, 0, 0))
        self.assertEqual(region.chunks(), [(0, nc.OK, nc.START, LENGTH, 0)])
        self.assert_text(region, self.code, self.marks, every=9)

    def test_patches(self):
        """The last jump is made to lead to the first bundle."""
        at, new = nc.START + LENGTH - 2 * nc.BUNDLE + 27, b"\xe9" + (nc.BUNDLE - LENGTH).to_bytes(4, "little", signed=True)
        puts = [(nc.PUT, at + i, byte) for i, byte in enumerate(new)]
        acts = [(nc.PUT, at, nc.STOP), (nc.SERIALIZE, 0, 0), *puts[1:], (nc.SERIALIZE, 0, 0), puts[0]]
        region = self.created()
        self.assertEqual(region.patch(at, new), (nc.OK, 0, acts))
        self.assert_text(region, replaced(self.code, at - nc.START, new), self.marks, every=9)

    def test_walk(self):
        """A walk of many choices. With room for one place less than it has, or for none, it tells their number."""
        choices, places = draw_walk(random.Random(64))
        region, count = self.created(), len(places)
        given, room, none = (nc.u32 * CHOICES)(*choices), (nc.u32 * (count + 1))(*[0xFFFFFFFF] * (count + 1)), [0xFFFFFFFF]
        for length in (0, CHOICES):
            walk = nc.LIBRARY.nc_region_walk(region.handle, nc.START, given, CHOICES, room, length).plain()
            self.assertEqual(walk, (count, nc.NO_ROOM, 0))
        self.assertTrue([*room] == none * (count + 1))
        walk = nc.LIBRARY.nc_region_walk(region.handle, nc.START, given, CHOICES, room, count).plain()
        self.assertEqual(walk, (count, nc.OK, nc.END_MORE))
        self.assertTrue([*room] == places + none)
        self.assertGreater(len({*places}), CHOICES // 4)

    def test_memory(self):
        """The chunk is read by whole bundles, so a vetted chunk takes its length and half of it."""
        before = memory.used()
        vetted = nc.Vetted(nc.START, LIMIT, self.code)
        self.assertEqual(vetted.verdict, (nc.OK, 0))
        self.assertLess(memory.used() - before, LENGTH * 7 // 4)
