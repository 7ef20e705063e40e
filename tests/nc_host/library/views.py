"""What threads may read of a text that fetch each byte by itself: at each place any byte that stood there at some moment since the last
serialization, beside any such byte of the next place.
"""

from __future__ import annotations

from collections.abc import Iterable, Iterator

import nc_host as nc
from following import UNMARK, Text
from judging import is_right
from reading import decoded


def mixtures(places: list[list[int]], front: bytes = b"") -> Iterator[tuple[bytes, nc.Answer]]:
    """What may be read behind some bytes at the last places of a bundle, in every mixture: the bytes, and the instruction that they are, or
    None. For each place the bytes are given that may be read there.
    """
    if not places:
        yield front, None
        return
    for byte in places[0]:
        longer = front + bytes([byte])
        instruction = decoded(longer)
        if instruction.fault == nc.CUT_SHORT:
            yield from mixtures(places[1:], longer)
        else:
            yield longer, instruction if instruction.fault == nc.OK else None


class Views:
    """The bytes that each place of a text has had since the last serialization, each of them once and the oldest first, and what was found
    in reading them at marked places. One serialization, counted from 1, is left out, or none for 0: what was seen before it stays.
    """

    def __init__(self, text: Text, left_out: int) -> None:
        self.text, self.left_out = text, left_out
        self.seen = [[nc.STOP] for _ in text.bytes]
        self.looks, self.serializations, self.readings = 0, 0, 0
        self.wrong: list[tuple[int, bytes]] = []

    def follow(self, act: nc.ActWords) -> None:
        """An act was made in the text. After a put every mixture of its bundle is read, and after a marking or an unmarking every mixture
        of the text.
        """
        kind, at, value = act
        if kind == nc.SERIALIZE:
            self.serialize()
        elif kind == nc.PUT:
            seen = self.seen[at - nc.START]
            if value not in seen:
                seen.append(value)
            start = at - at % nc.BUNDLE
            self.look(range(start, start + nc.BUNDLE))
        elif kind in (nc.MARK, UNMARK):
            self.look(range(nc.START, self.text.limit))

    def serialize(self) -> None:
        self.serializations += 1
        if self.serializations != self.left_out:
            self.seen = [[byte] for byte in self.text.bytes]

    def look(self, addresses: Iterable[int]) -> None:
        """Reads every mixture at each marked place of some. A reading is right that is an instruction which may be executed there; the
        front of one that crosses the bundle's end isn't.
        """
        self.looks += 1
        for at in addresses:
            if self.text.mark(at) == nc.UNMARKED:
                continue
            start = at - nc.START
            for code, instruction in mixtures(self.seen[start : start - start % nc.BUNDLE + nc.BUNDLE]):
                self.readings += 1
                if instruction is None or not is_right(self.text, at, instruction):
                    self.wrong.append((at, code))
