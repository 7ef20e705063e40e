"""Where control goes from an instruction, and whether a path from a label needs what a register has there."""

from __future__ import annotations

from .frames import saved_at_calls
from .listing import Listing, is_direct
from .registers import ALL, ENDS, FOR_CALLS, OWN_ADDRESS, read, written
from .statements import Statement

TYPE_CHECKING = False
if TYPE_CHECKING:
    from collections.abc import Callable, Iterable, Iterator
    from typing import AbstractSet


class Paths:
    """`labels_of` tells the labels to which an indirect jump goes, by its place and itself, or none where they aren't known."""

    def __init__(self, listing: Listing, labels_of: Callable[[int, Statement], list[str]]) -> None:
        self.listing, self.labels_of = listing, labels_of
        self.saved = saved_at_calls(listing.statements)

    def targets(self, index: int, statement: Statement) -> list[int | None]:
        """The places to which a jump or a call goes. None is outside, or not known: another function may stand for a weak one."""
        if is_direct(statement):
            return [None if statement.operands in self.listing.weak else self.listing.labels.get(statement.operands)]
        return [self.listing.labels[label] for label in self.labels_of(index, statement)] or [None]

    def following(self, index: int, statement: Statement, register: str) -> Iterator[int | None]:
        """The places to which control goes from an instruction with the register as it is. A call comes back only with those that it
        keeps, also to a landing pad."""
        is_call = statement.word.startswith("call") and OWN_ADDRESS not in statement.operands
        takes_along = is_call and register in FOR_CALLS
        if takes_along or statement.word.startswith(("j", "loop")):
            yield from self.targets(index, statement)
        if not takes_along and (is_call or OWN_ADDRESS in statement.operands or not statement.word.startswith(("jmp", *ENDS))):
            yield self.listing.after.get(index)
        if is_call and not takes_along:
            yield from (self.listing.labels[label] for label in self.listing.landing_beside(index))

    def is_for_caller(self, index: int, register: str) -> bool:
        """Whether a statement is a call that an exception may leave, and the function's caller then wants the register as it is."""
        return index in self.saved and register not in FOR_CALLS and register not in self.saved[index]

    def is_needed(self, labels: Iterable[str], register: str) -> bool:
        """Whether a path from one of the labels reads a part of the register before that is written, or leads outside with it."""
        return self.is_needed_from([self.listing.labels[label] for label in labels], register)

    def is_needed_from(self, places: Iterable[int | None], register: str) -> bool:
        """The same for places."""
        seen: set[tuple[int | None, AbstractSet[str]]] = set()
        waiting: list[tuple[int | None, AbstractSet[str]]] = [(place, ALL) for place in places]
        while waiting:
            index, kept = waiting.pop()
            if (index, kept) in seen or not kept:
                continue
            seen.add((index, kept))
            if index is None:
                return True
            statement = self.listing.statements[index]
            if statement.kind != "instruction":
                waiting += [(after, kept) for after in [self.listing.after.get(index)] if after is not None]
            elif read(statement, register) & kept or self.is_for_caller(index, register):
                return True
            else:
                waiting += [(place, kept - written(statement, register)) for place in self.following(index, statement, register)]
        return False
