"""The library nc_host for tests in Python: the calls of include/nc_host.h by ctypes, with their names and numbers.

The environment variable NC_HOST names the shared library, which `tests/nc_host/library` makes, with places.c, counting.c and depth.c in it.
A call answers with a named tuple that has the fields of its struct in C; one that writes into a buffer has the list of what was written in
place of `count`.
"""

from __future__ import annotations

import array
import collections
import ctypes
import os
from typing import Any, Tuple

BUNDLE, START, STOP = 32, 0x10000, 0xF4

(OK, BAD_BASE, BAD_LENGTH, OUT_OF_RANGE, NOT_PERMITTED, CROSSES, BARE, BAD_TARGET, OUT_OF_MEMORY, NO_ROOM, CUT_SHORT) = range(11)
(PATCH_BAD_SPAN, PATCH_NOT_LIVE, PATCH_NOT_PERMITTED, PATCH_BOUNDARIES, PATCH_PAIR_TOUCHED, PATCH_BAD_TARGET) = range(16, 22)
(NO_HANDLE, HANDLE_TAKEN, BAD_SEATS, BAD_SIZE, NO_SEAT, UNDER_WAY, NOT_BEGUN, WRONG_LIMIT, OCCUPIED, NO_CHUNK, FULL, NO_PLACE,
 NO_START) = range(32, 45)
(ELF_NOT_ELF, ELF_SHORT_HEADER, ELF_64_BITS, ELF_OTHER_FORMAT, ELF_OTHER_MACHINE, ELF_UNLINKED, ELF_OTHER_TYPE, ELF_BAD_TABLE,
 ELF_BEYOND_FILE, ELF_BEYOND_MEMORY, ELF_WRAPS, ELF_OUT_OF_ORDER, ELF_WRITABLE_CODE, ELF_UNFILLED_CODE, ELF_NO_CODE) = range(48, 63)
FLOW_NEXT, FLOW_BRANCH, FLOW_JUMP, FLOW_CALL, FLOW_INDIRECT_JUMP, FLOW_INDIRECT_CALL, FLOW_STOP = range(1, 8)
END_STOP, END_TRAMPOLINE, END_BEYOND, END_MORE = range(1, 5)
UNMARKED, PLAIN, MASKED = 0, 1, 16
PUT, MARK, BUMP, SERIALIZE, PUT_RUN, STOP_RUN = 1, 2, 3, 6, 7, 8

Code = bytes  # by a name of its own, since a region has a method `bytes`
Answer = Any  # a named tuple with the fields of a struct
ActWords = Tuple[int, int, int]  # an act: its kind, its address and its value

u32, size = ctypes.c_uint32, ctypes.c_size_t


def struct(name, **fields):
    """A struct of C, and a named tuple with its fields: `plain` makes it from a struct, `made` from the fields."""
    kind = type(name, (ctypes.Structure,), {"_fields_": [*fields.items()]})
    plain = collections.namedtuple(name, fields)
    kind.plain = lambda self: plain(*(getattr(self, field) for field in fields))
    kind.made = plain._make
    return kind


Instruction = struct("Instruction", fault=u32, length=u32, flow=u32, rel=ctypes.c_int32, reg=u32, masks=u32)
Verdict = struct("Verdict", fault=u32, at=u32)
Segment = struct("Segment", address=u32, offset=u32, file_len=u32, memory_len=u32, flags=u32)
Segments = struct("Segments", count=size, fault=u32, header=u32)
Act = struct("Act", kind=u32, at=u32, value=u32)
Change = struct("Change", fault=u32, at=u32, count=size)
Stamp = struct("Stamp", stamp=ctypes.c_uint64, fault=u32)
Count = struct("Count", fault=u32, count=u32)
Chunk = struct("Chunk", stamp=ctypes.c_uint64, fault=u32, base=u32, length=u32, retired=u32)
Place = struct("Place", fault=u32, byte=u32, mark=u32)
Walk = struct("Walk", count=size, fault=u32, end=u32)
Handle = struct("Handle", at=ctypes.c_void_p)
to = ctypes.POINTER

LIBRARY = ctypes.CDLL(os.environ["NC_HOST"])

# What each call returns and takes. Code is lent as bytes.
CALLS = {
    "nc_host_decode": (Instruction, ctypes.c_char_p, size),
    "nc_host_vet": (Verdict, u32, u32, ctypes.c_char_p, size),
    "nc_host_marks": (Verdict, u32, u32, ctypes.c_char_p, size, ctypes.c_char_p, size),
    "nc_host_image": (Verdict, u32, ctypes.c_char_p, size, ctypes.c_char_p, size),
    "nc_host_elf": (Segments, ctypes.c_char_p, size, to(Segment), size),
    "nc_region_new": (u32, u32, u32, to(Handle)),
    "nc_region_free": (None, to(Handle)),
    "nc_region_seat": (u32, to(Handle), to(Handle)),
    "nc_region_create": (Change, to(Handle), u32, ctypes.c_char_p, size, to(Act), size),
    "nc_vetted_new": (Verdict, u32, u32, ctypes.c_char_p, size, to(Handle)),
    "nc_vetted_free": (None, to(Handle)),
    "nc_region_load": (Change, to(Handle), to(Handle), to(Act), size),
    "nc_region_patch": (Change, to(Handle), u32, ctypes.c_char_p, size, to(Act), size),
    "nc_region_begin_delete": (Change, to(Handle), u32, to(Act), size),
    "nc_region_end_delete": (Stamp, to(Handle)),
    "nc_region_creation_runs": (Change, to(Handle), u32, to(Act), size),
    "nc_region_deletion_runs": (Change, to(Handle), to(Act), size),
    "nc_region_reclaim": (Count, to(Handle)),
    "nc_region_chunk": (Chunk, to(Handle), size),
    "nc_region_chunk_at": (Chunk, to(Handle), u32),
    "nc_region_place": (Place, to(Handle), u32),
    "nc_region_walk": (Walk, to(Handle), u32, to(u32), size, to(u32), size),
    "nc_region_generation": (Stamp, to(Handle)),
    "nc_seat_check_in": (u32, to(Handle)),
    "nc_seat_leave": (None, to(Handle)),
    "nc_host_version": (u32,),
    "places": (None, to(Handle), u32, size, ctypes.c_char_p, ctypes.c_char_p),
    "allocations_asked": (ctypes.c_long,),
    "largest_allocation": (size,),
    "blocks_kept": (ctypes.c_long,),
    "refuse_allocations": (None, ctypes.c_bool),
    "hold_allocation": (None, ctypes.c_long),
    "allocation_is_held": (ctypes.c_bool,),
    "let_go": (None,),
    "most_stack": (size, u32),
}
for _name, (_returned, *_taken) in CALLS.items():
    _call = getattr(LIBRARY, _name)
    _call.restype, _call.argtypes = _returned, _taken


def limit(bundles: int) -> int:
    """The limit of a region with this many bundles."""
    return START + BUNDLE * bundles


def decode(code: Code) -> Answer:
    return LIBRARY.nc_host_decode(code, len(code)).plain()


def vet(base: int, end: int, code: Code) -> Answer:
    return LIBRARY.nc_host_vet(base, end, code, len(code)).plain()


def marks(base: int, end: int, code: Code) -> tuple[Answer, list[int]]:
    """The verdict, and the list of marks of a valid chunk."""
    room = ctypes.create_string_buffer(len(code))
    verdict = LIBRARY.nc_host_marks(base, end, code, len(code), room, len(code)).plain()
    return verdict, [*room.raw] if verdict.fault == OK else []


def image(base: int, code: Code, length: int, before: int = 0xA5) -> tuple[Answer, Code]:
    """The verdict, and what memory of this length has after it; before it each byte is `before`."""
    room = ctypes.create_string_buffer(bytes([before]) * length, length)
    verdict = LIBRARY.nc_host_image(base, code, len(code), room, length).plain()
    return verdict, room.raw


def segments(file: Code, room: int) -> tuple[Answer, list[Answer]]:
    """The answer on an ELF file, and the elements that a buffer with room for so many has then; before it all their bytes are FF."""
    buffer = (Segment * room).from_buffer(bytearray(b"\xff" * ctypes.sizeof(Segment) * room))
    answer = LIBRARY.nc_host_elf(file, len(file), buffer, room).plain()
    return answer, [segment.plain() for segment in buffer]


Changed = collections.namedtuple("Changed", "fault at acts")


def acts_in(words):
    """The acts that these words are, three of them each."""
    return [*map(Act.made, zip(words[0::3], words[1::3], words[2::3]))]


def written(call, *words, room):
    """A call that writes acts: its fault, its address, and the acts."""
    acts = (Act * room)()
    change = call(*words, acts, room).plain()
    count = change.count if change.fault == OK else 0
    return Changed(change.fault, change.at, acts_in(array.array("I", bytes(acts)[: 12 * count])))


class Vetted:
    """A vetted chunk by its handle, which is empty where the verdict is a fault. It is freed when nothing holds it."""

    def __init__(self, base: int, end: int, code: Code) -> None:
        self.handle = Handle()
        self.verdict = LIBRARY.nc_vetted_new(base, end, code, len(code), self.handle).plain()
        self.length = len(code)

    def __del__(self):
        LIBRARY.nc_vetted_free(self.handle)


class Seat:
    """A seat of a region."""

    def __init__(self, handle):
        self.handle = handle

    def check_in(self):
        return LIBRARY.nc_seat_check_in(self.handle)

    def leave(self):
        LIBRARY.nc_seat_leave(self.handle)


class Region:
    """A region by its handle. It is freed when nothing holds it."""

    def __init__(self, bundles: int, seats: int = 1) -> None:
        self.handle, self.limit = Handle(), limit(bundles)
        self.fault = LIBRARY.nc_region_new(bundles, seats, self.handle)

    def __del__(self):
        LIBRARY.nc_region_free(self.handle)

    def seat(self) -> Seat | None:
        """The next seat; None once each was given."""
        handle = Handle()
        return Seat(handle) if LIBRARY.nc_region_seat(self.handle, handle) == OK else None

    def create(self, base: int, code: Code) -> Changed:
        return written(LIBRARY.nc_region_create, self.handle, base, code, len(code), room=len(code) + 2)

    def load(self, vetted: Vetted) -> Changed:
        """Creates a vetted chunk, whose handle is empty then."""
        return written(LIBRARY.nc_region_load, self.handle, vetted.handle, room=vetted.length + 2)

    def patch(self, at: int, new: Code) -> Changed:
        return written(LIBRARY.nc_region_patch, self.handle, at, new, len(new), room=3 * len(new))

    def begin_delete(self, base: int, room: int) -> Changed:
        """The first step of a deletion, with room for this many acts."""
        return written(LIBRARY.nc_region_begin_delete, self.handle, base, room=room)

    def creation_runs(self, base: int, room: int) -> Changed:
        """The acts of a live chunk's creation, as runs."""
        return written(LIBRARY.nc_region_creation_runs, self.handle, base, room=room)

    def deletion_runs(self, room: int) -> Changed:
        """The acts of the deletion that is under way, as runs."""
        return written(LIBRARY.nc_region_deletion_runs, self.handle, room=room)

    def end_delete(self) -> Answer:
        return LIBRARY.nc_region_end_delete(self.handle).plain()

    def delete(self, base: int) -> tuple[Changed, int]:
        """Both steps of a deletion: the answer of the first one, and the stamp, or 0."""
        length = next((chunk.length for chunk in self.chunks() if chunk.base == base), 0)
        begun = self.begin_delete(base, length + 2)
        return begun, self.end_delete().stamp if begun.fault == OK else 0

    def reclaim(self) -> int:
        """How many chunks left the list."""
        return LIBRARY.nc_region_reclaim(self.handle).plain().count

    def chunk(self, index: int) -> Answer:
        return LIBRARY.nc_region_chunk(self.handle, index).plain()

    def chunk_at(self, at: int) -> Answer:
        """The chunk that has an address, or else the first one above it."""
        return LIBRARY.nc_region_chunk_at(self.handle, at).plain()

    def chunks(self) -> list[Answer]:
        """All chunks, by ascending base."""
        found: list[Answer] = []
        while (chunk := self.chunk(len(found))).fault == OK:
            found.append(chunk)
        return found

    def place(self, at: int) -> Answer:
        return LIBRARY.nc_region_place(self.handle, at).plain()

    def places(self, start: int = START, end: int | None = None) -> tuple[Code, Code]:
        """The bytes from one address to another, and their marks, each mark as a byte."""
        count = (self.limit if end is None else end) - start
        found, marks = ctypes.create_string_buffer(count), ctypes.create_string_buffer(count)
        LIBRARY.places(self.handle, start, count, found, marks)
        return found.raw, marks.raw

    def bytes(self, start: int = START, end: int | None = None) -> Code:
        """The bytes from one address to another."""
        return self.places(start, end)[0]

    def marks(self, start: int = START, end: int | None = None) -> list[int]:
        """The marks from one address to another."""
        return [*self.places(start, end)[1]]

    def walk(self, start: int, choices: list[int]) -> tuple[int, list[int], int]:
        """The fault, the places, and how the walk ended."""
        room = len(choices) + 1
        places = (u32 * room)()
        walk = LIBRARY.nc_region_walk(self.handle, start, (u32 * len(choices))(*choices), len(choices), places, room).plain()
        return walk.fault, places[: walk.count] if walk.fault == OK else [], walk.end

    def generation(self) -> int:
        return LIBRARY.nc_region_generation(self.handle).plain().stamp
