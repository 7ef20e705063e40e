"""What a text tells the unwinder of its frames: which registers it restores for a caller when an exception leaves a function."""

from __future__ import annotations

from collections.abc import Sequence

from .statements import Statement, split_operands

# The registers that a call keeps, by DWARF's numbers, which gcc writes.
NUMBERS = {"3": "%ebx", "5": "%ebp", "6": "%esi", "7": "%edi"}
SAVES, RESTORES = {".cfi_offset", ".cfi_rel_offset"}, {".cfi_restore", ".cfi_same_value", ".cfi_undefined"}


class Frame:
    """The registers that the frame has in memory, as directives say one after the other, or None outside of functions."""

    def __init__(self) -> None:
        self.saved: frozenset[str] | None = None
        self.remembered: list[frozenset[str] | None] = []

    def take(self, directive: Statement) -> None:
        name = directive.operands.partition(",")[0].strip()
        if directive.word == ".cfi_startproc":
            self.saved, self.remembered = frozenset(), []
        elif directive.word == ".cfi_endproc":
            self.saved = None
        elif directive.word == ".cfi_remember_state":
            self.remembered.append(self.saved)
        elif directive.word == ".cfi_restore_state" and self.remembered:
            self.saved = self.remembered.pop()
        elif directive.word in SAVES and self.saved is not None:
            self.saved |= {NUMBERS.get(name, name)}
        elif directive.word in RESTORES and self.saved is not None:
            self.saved -= {NUMBERS.get(name, name)}


def are_for_unwinder(statements: Sequence[Statement]) -> bool:
    """Whether frames are described to the unwinder, and not only to a debugger."""
    return all(".eh_frame" in split_operands(each.operands) for each in statements if each.word == ".cfi_sections")


def saved_at_calls(statements: Sequence[Statement]) -> dict[int, frozenset[str]]:
    """The registers that the frame has in memory, at each call that an exception may leave."""
    frame = Frame()
    found: dict[int, frozenset[str]] = {}
    for index, statement in enumerate(statements if are_for_unwinder(statements) else ()):
        if statement.word.startswith(".cfi_"):
            frame.take(statement)
        elif statement.word.startswith("call") and frame.saved is not None:
            found[index] = frame.saved
    return found
