"""Tables of labels through which a function jumps by an instruction such as `jmp *table(,%eax,4)`."""

from __future__ import annotations

import re

from .listing import DATA, Listing
from .paths import Paths
from .registers import REGISTERS
from .statements import Statement, split_operands, symbols

SILENT = {".size", ".type", ".local", ".hidden", ".loc"}  # directives that name a label and don't read its address
CONSTANT = (".rodata", ".data.rel.ro")
INDEXED = r"(?:@GOTOFF)?(?:[-+]\d+)?\((?:%(?!esp)\w+)?,%\w+,4\)$"
PAD = ".Lrestores_ecx_"


def is_jump_through_memory(statement: Statement) -> bool:
    return statement.word in ("jmp", "jmpl") and bool(re.match(r"\*(?!\s*%\w+$)", statement.operands))


def references(listing: Listing) -> dict[str, list[int]]:
    """The statements that name each label of data, but for those that say nothing of its address."""
    found: dict[str, list[int]] = {}
    for index, statement in enumerate(listing.statements):
        if statement.kind != "label" and statement.word not in SILENT and '"' not in statement.operands:
            for name in symbols(statement.operands):
                found.setdefault(name, []).append(index)
    return found


def constant_tables(listing: Listing) -> dict[str, list[int]]:
    """The statements of constant data that name code labels, by the data's label."""
    tables: dict[str, list[int]] = {}
    current = None
    for index, statement in enumerate(listing.statements):
        if statement.kind == "label":
            current = statement.word
        elif current and statement.word in DATA and listing.sections[index].name.startswith(CONSTANT):
            if any(name in listing.labels for name in symbols(statement.operands)):
                tables.setdefault(current, []).append(index)
    return tables


class Tables:
    """`by_jumps` has the labels of those tables that nothing else reads than jumps through memory, by the table's name. Such a jump loads
    its target into a register whose value none of the labels needs. Where there is none, it saves %ecx, and the table's statements, which
    are `padded`, have labels instead that restore it."""

    def __init__(self, listing: Listing) -> None:
        self.listing = listing
        tables, named = constant_tables(listing), references(listing)
        self.of_labels = {name: places for name, places in tables.items() if any(self.inner_labels(index) for index in places)}
        by_jumps = [name for name in self.of_labels if all(self.is_jump_by(index, name) for index in named.get(name, ()))
                    and all(self.is_replaceable(index) for index in tables[name])]
        self.by_jumps = {name: sorted({label for index in tables[name] for label in self.inner_labels(index)}) for name in by_jumps}
        self.paths = Paths(listing, self.targets)
        jumped = self.by_jumps.keys() & self.jumped()
        self.free = {name: [each for each in REGISTERS if not self.paths.is_needed(self.by_jumps[name], each)] for name in jumped}
        self.padded = {index for name in jumped if not self.free[name] for index in tables[name]}

    def inner_labels(self, index: int) -> list[str]:
        """The labels inside of functions that a statement names."""
        names = symbols(self.listing.statements[index].operands)
        return [name for name in names if name in self.listing.labels and self.listing.named_once(name) not in self.listing.functions]

    def is_replaceable(self, index: int) -> bool:
        """Whether a statement has nothing but labels inside of functions."""
        return self.inner_labels(index) == split_operands(self.listing.statements[index].operands)

    def is_jump_by(self, index: int, table: str) -> bool:
        """Whether a statement is a jump by the table, with an index and without the stack pointer."""
        statement = self.listing.statements[index]
        by_index = re.match(r"\*" + re.escape(table) + INDEXED, statement.operands)
        return is_jump_through_memory(statement) and bool(by_index)

    def jumped(self) -> set[str]:
        """The names in all jumps through memory."""
        jumps = (statement for statement in self.listing.statements if is_jump_through_memory(statement))
        return {name for statement in jumps for name in symbols(statement.operands)}

    def pads(self) -> set[str]:
        """The labels for which there has to be one that restores %ecx."""
        return {name for index in self.padded for name in self.inner_labels(index)}

    def replaced(self, index: int) -> Statement:
        """A table's statement with the labels that restore %ecx."""
        statement = self.listing.statements[index]
        return statement._replace(operands=", ".join(PAD + name for name in self.inner_labels(index)))

    def table_of(self, statement: Statement) -> str | None:
        """The name of the table by which alone a jump through memory goes, or None."""
        return next((name for name in symbols(statement.operands) if name in self.by_jumps), None)

    def register_for(self, statement: Statement) -> str | None:
        """The register that a jump by a table overwrites: its index where that is free. None saves %ecx."""
        table = self.table_of(statement)
        free = self.free[table] if table else []
        return next((name for name in re.findall(r"%\w+", statement.operands)[::-1] if name in free), free[0] if free else None)

    def targets(self, index: int, statement: Statement) -> list[str]:
        """The labels inside of functions to which a jump through memory may go. Without any it leaves its function."""
        table = self.table_of(statement)
        if table:
            return self.by_jumps[table]
        if not is_jump_through_memory(statement):
            return []
        places = [place for name in symbols(statement.operands) for place in self.of_labels.get(name, ())]
        return [name for place in places for name in self.inner_labels(place)] + self.listing.pointed_beside(index)
