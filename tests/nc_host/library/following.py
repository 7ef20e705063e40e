"""A text that follows a region act by act."""

from __future__ import annotations

import unittest
from collections.abc import Callable, Iterable, Iterator, Sequence
from typing import Any

import nc_host as nc

# What a reclaim does, and no call writes: it looks at the seats, and unmarks each span that it frees.
UNMARK, LOOK = 4, 5


def unused_marks(length: int) -> bytes:
    """The marks of a span that no chunk uses: bundle starts are plain."""
    return bytes([nc.PLAIN]).ljust(nc.BUNDLE, bytes([nc.UNMARKED])) * (length // nc.BUNDLE)


class Text:
    """The bytes and marks of a region with this limit, at first without a chunk."""

    def __init__(self, limit: int) -> None:
        self.limit = limit
        self.bytes = bytearray([nc.STOP]) * (limit - nc.START)
        self.marks = bytearray(unused_marks(limit - nc.START))

    def mark(self, at: int) -> int:
        """The mark at an address. Outside the region there are none."""
        return self.marks[at - nc.START] if nc.START <= at < self.limit else nc.UNMARKED

    def rest_of_bundle(self, at: int) -> bytes:
        """The bytes from an address to its bundle's end."""
        return bytes(self.bytes[at - nc.START : at - at % nc.BUNDLE + nc.BUNDLE - nc.START])

    def make(self, act: nc.ActWords, marks: bytes = b"") -> None:
        """Makes an act. A marking sets these marks."""
        kind, at, value = act
        span = slice(at - nc.START, at - nc.START + value)
        if kind == nc.PUT:
            self.bytes[at - nc.START] = value
        elif kind == nc.MARK:
            self.marks[span] = marks
        elif kind == UNMARK:
            self.marks[span] = unused_marks(value)


def begun_again(acts: list[nc.ActWords]) -> Iterator[nc.ActWords]:
    """The acts of a change after attempts at them: none of those that the host makes, then the first of them, then the first two, and so on
    to all of them.
    """
    own = [act for act in acts if act[0] in (nc.PUT, nc.MARK, nc.SERIALIZE)]
    for count in range(len(own) + 1):
        yield from own[:count]
    yield from acts


def differences(region: nc.Region, text: Text) -> list[str]:
    """The addresses at which a region's bytes or marks aren't those of a text."""
    if region.places() == (text.bytes, text.marks):
        return []
    pairs = zip(zip(*region.places()), zip(text.bytes, text.marks))
    return [hex(nc.START + i) for i, (found, wanted) in enumerate(pairs) if found != wanted]


class Life:
    """A region with one seat, on which a test case makes calls, and a text that follows it."""

    def __init__(self, case: unittest.TestCase, bundles: int) -> None:
        self.case, self.region = case, nc.Region(bundles)
        self.seat = self.region.seat()
        self.text = Text(self.region.limit)

    def live(self, steps: Iterable[Sequence[Any]],
             made: Callable[[list[nc.ActWords]], Iterable[nc.ActWords]] = iter) -> Iterator[nc.ActWords]:
        """Makes calls, each given as the name of a method below and its arguments. Yields each of their acts once it was made in the text.
        `made` says which are made for the acts of a call, and in which order. After each call the region has the text's bytes and marks.
        """
        for name, *words in steps:
            acts, marks = getattr(self, name)(*words)
            for act in made(acts):
                self.text.make(act, marks)
                yield act
            self.case.assertEqual(differences(self.region, self.text), [], (name, words))

    def create(self, base: int, code: bytes) -> tuple[list[nc.ActWords], bytes]:
        changed = self.region.create(base, code)
        verdict, marks = nc.marks(base, self.region.limit, code)
        self.case.assertEqual((changed.fault, verdict.fault), (nc.OK, nc.OK))
        return changed.acts, bytes(marks)

    def patch(self, at: int, new: str) -> tuple[list[nc.ActWords], bytes]:
        changed = self.region.patch(at, bytes.fromhex(new))
        self.case.assertEqual(changed.fault, nc.OK)
        return changed.acts, b""

    def delete(self, base: int, stamp: int) -> tuple[list[nc.ActWords], bytes]:
        begun, drawn = self.region.delete(base)
        self.case.assertEqual((begun.fault, drawn), (nc.OK, stamp))
        return begun.acts, b""

    def check_in(self) -> tuple[list[nc.ActWords], bytes]:
        self.case.assertEqual(self.seat.check_in(), nc.OK)
        return [], b""

    def reclaim(self, *spans: tuple[int, int]) -> tuple[list[nc.ActWords], bytes]:
        """Frees these spans, each given as its base and its length."""
        self.case.assertEqual(self.region.reclaim(), len(spans))
        return [(LOOK, 0, 0)] + [(UNMARK, base, length) for base, length in spans], b""
