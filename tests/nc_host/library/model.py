"""A region said a second time and plainly, by its rules: all bytes and marks, the code of the live chunks, the stamps of the retired ones,
and for each seat the generation of its last check-in. Each call returns what the region has to answer.
"""

from __future__ import annotations

import nc_host as nc
from following import unused_marks
from lawful import chunk_at, judge
from reading import marks_of


class Model:
    """A new region with this limit, whose seats are all given."""

    def __init__(self, limit: int, seats: int) -> None:
        self.limit = limit
        self.bytes = bytearray([nc.STOP]) * (limit - nc.START)
        self.marks = bytearray(unused_marks(limit - nc.START))
        self.live: dict[int, bytes] = {}
        self.retired: dict[int, tuple[int, int]] = {}
        self.taken: set[int] = set()  # where a bundle of some chunk begins
        self.generation, self.since = 0, [0] * seats

    def chunks(self) -> list[tuple[int, int, int]]:
        """Base, length and stamp of each chunk, by ascending base. The stamp of a live one is 0."""
        live = [(base, len(code), 0) for base, code in self.live.items()]
        return sorted(live + [(base, length, stamp) for base, (length, stamp) in self.retired.items()])

    def span(self, base: int, length: int) -> slice:
        return slice(base - nc.START, base - nc.START + length)

    def create(self, base: int, code: bytes) -> int:
        """Creates a valid chunk: the fault."""
        bundles = range(base, base + len(code), nc.BUNDLE)
        if not self.taken.isdisjoint(bundles):
            return nc.OCCUPIED
        self.taken.update(bundles)
        self.live[base] = code
        self.bytes[self.span(base, len(code))] = code
        self.marks[self.span(base, len(code))] = marks_of(code)
        return nc.OK

    def patch(self, at: int, new: bytes) -> int:
        """The fault. No mark changes: the new instructions begin where the old ones did."""
        fault, _ = judge(self.live, self.limit, at, new)
        if fault == nc.OK:
            base = chunk_at(self.live, at)
            self.bytes[self.span(at, len(new))] = new
            self.live[base] = bytes(self.bytes[self.span(base, len(self.live[base]))])
        return fault

    def delete(self, base: int) -> tuple[int, int]:
        """The fault, and the stamp or 0. The marks stay."""
        if base not in self.live:
            return nc.NO_CHUNK, 0
        length = len(self.live.pop(base))
        self.bytes[self.span(base, length)] = bytes([nc.STOP]) * length
        self.generation += 1
        self.retired[base] = length, self.generation
        return nc.OK, self.generation

    def check_in(self, seat: int) -> None:
        self.since[seat] = self.generation

    def reclaim(self) -> int:
        """How many chunks are freed: those whose stamp each seat has reached by a check-in."""
        freed = [base for base, (_, stamp) in self.retired.items() if stamp <= min(self.since)]
        for base in freed:
            length, _ = self.retired.pop(base)
            self.taken.difference_update(range(base, base + length, nc.BUNDLE))
            self.marks[self.span(base, length)] = unused_marks(length)
        return len(freed)
