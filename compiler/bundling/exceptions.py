"""Tables by which an exception finds its landing pads: the labels to which the unwinder jumps.

`.cfi_lsda` names the table of a function. Its rows have four numbers each: where some calls begin, how long they are, where control lands
if one of them throws, and what it does there. All places are distances between labels, which the assembler measures in the rewritten code.
"""

from __future__ import annotations

import re
from collections.abc import Container, Iterator, Sequence

from .sections import Section
from .statements import Statement, split_operands, symbols

NAME = ".gcc_except_table"
NUMBERS = {".byte", ".uleb128", ".sleb128"}
OMITTED, ULEB128 = "255", "1"  # what a table says of its parts: one isn't there, and how the numbers of the rows are written
COLUMNS, LANDING, NOWHERE = 4, 2, "0"
DISTANCE = re.compile(r"([\w.$]+)\s*-\s*([\w.$]+)$")


def plain(text: str) -> str:
    """A number in decimal digits, and any other text as it is."""
    return str(int(text, 16)) if re.fullmatch("0x[0-9a-fA-F]+", text) else text


def rows_of(texts: list[str]) -> range | None:
    """Which numbers and labels of a table are its rows, between two labels behind its head. None if it has another form."""
    head = 2 if texts[1:2] == [OMITTED] else 4  # with types there are their distance, and the label from which it counts
    length = DISTANCE.match(texts[head + 1]) if texts[head + 1:] else None
    first, last = (length.group(2) + ":", length.group(1) + ":") if length else ("", "")
    rows = range(head + 3, texts.index(last) if last in texts else 0)
    is_known = texts[0] == OMITTED and texts[head] == ULEB128 and texts[head + 2:head + 3] == [first] if length else False
    return rows if is_known and rows.start <= rows.stop and len(rows) % COLUMNS == 0 else None


class LandingPads:
    """`by_places` has the landing pads by the places of the statements that tell where they are."""

    def __init__(self, statements: Sequence[Statement], sections: Sequence[Section], labels: Container[str]) -> None:
        self.statements, self.sections, self.labels = statements, sections, labels
        self.by_places: dict[int, list[str]] = {}
        self.read: set[int] = set()
        named = {split_operands(statement.operands)[-1] for statement in statements if statement.word == ".cfi_lsda"}
        for index, statement in enumerate(statements):
            if statement.kind == "label" and statement.word in named:
                self.take(statement, list(self.items(index + 1)))
        for index in self.unread():
            statements[index].refuse("a table of exceptions that no `.cfi_lsda` names isn't read: leave out -fno-dwarf2-cfi-asm")

    def items(self, start: int) -> Iterator[tuple[int, str]]:
        """The numbers of a table from a place on, and its labels with a colon."""
        for index in range(start, len(self.statements)):
            statement = self.statements[index]
            if statement.kind == "label":
                yield index, statement.word + ":"
            elif statement.word in NUMBERS and self.sections[index] == self.sections[start]:
                yield from ((index, plain(operand)) for operand in split_operands(statement.operands))
            else:
                return

    def take(self, label: Statement, items: list[tuple[int, str]]) -> None:
        """A table that begins at a label."""
        rows = rows_of([text for _, text in items])
        if rows is None:
            label.refuse("a table of exceptions in a form that isn't read: gcc and clang write another one")
        for place, text in items[rows.start + LANDING:rows.stop:COLUMNS]:
            landing = DISTANCE.match(text)
            if landing and landing.group(1) in self.labels:
                self.by_places.setdefault(place, []).append(landing.group(1))
            elif text != NOWHERE:
                self.statements[place].refuse("where an exception lands has to be a label's distance from another one")
        self.read.update(place for place, _ in items)

    def unread(self) -> Iterator[int]:
        """The statements of tables that were not read and name labels of code."""
        for index, section in enumerate(self.sections):
            if section.name.startswith(NAME) and index not in self.read and self.statements[index].word in NUMBERS:
                if any(name in self.labels for name in symbols(self.statements[index].operands)):
                    yield index
