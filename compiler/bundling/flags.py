"""Labels that need the processor's flags.

gcc merges comparisons at the heads of a table's cases to one before the jump, whose mask changes the flags.
"""

from __future__ import annotations

import re
from collections.abc import Iterator

from .listing import Listing, is_direct
from .registers import ENDS
from .statements import JumpRefusal, Statement, split_operands

CARRY, REST = frozenset({"carry"}), frozenset({"rest"})
ALL = CARRY | REST
CONDITION = re.compile(r"(?:j|set|cmov)(n?(?:[abg]e?|[cl]|le|[eospz])|p[eo])[lw]?(?:,p[nt])?$")
OF_CARRY, OF_BOTH = {"b", "nb", "c", "nc", "ae", "nae"}, {"a", "na", "be", "nbe"}
READERS = [(re.compile(r"(?:adc|sbb|rc[lr])[bwl]?$|cmc$"), CARRY), (re.compile(r"loopn?[ez]$"), REST), (re.compile(r"pushf|lahf"), ALL)]
# What is undefined after an instruction counts as written: no compiler relies on it.
WRITERS = [
    (re.compile(r"(?:add|sub|adc|sbb|cmp|test|and|or|xor|neg|i?mul|i?div|bs[fr]|xadd)[bwl]?$"), ALL),
    (re.compile(r"(?:inc|dec)[bwl]?$"), REST),
    (re.compile(r"(?:bt[src]?|rc[lr]|ro[lr])[bwl]?$"), CARRY),
    (re.compile(r"(?:sh[lr]d?|sa[lr])[bwl]?$"), ALL),
]
SHIFT = re.compile(r"(?:sh[lr]d?|sa[lr]|rc[lr]|ro[lr])[bwl]?$")


def read(statement: Statement) -> frozenset[str]:
    """The flags that an instruction reads."""
    condition = CONDITION.match(statement.word)
    if condition:
        return CARRY if condition.group(1) in OF_CARRY else ALL if condition.group(1) in OF_BOTH else REST
    return next((flags for pattern, flags in READERS if pattern.match(statement.word)), frozenset())


def written(statement: Statement) -> frozenset[str]:
    """The flags that have other values after an instruction. A shift by a register may shift by 0, and then changes none."""
    operands = split_operands(statement.operands)
    if SHIFT.match(statement.word) and len(operands) > 1 and not operands[0].startswith("$"):
        return frozenset()
    return next((flags for pattern, flags in WRITERS if pattern.match(statement.word)), frozenset())


def following(listing: Listing, index: int, statement: Statement) -> Iterator[int | None]:
    """The places to which control goes with the flags as they are. Calls, returns and indirect jumps change them."""
    if is_direct(statement) and not statement.word.startswith("call"):
        yield listing.labels.get(statement.operands)
    if not statement.word.startswith(("jmp", *ENDS)):
        yield listing.after.get(index)


def needs_flags(listing: Listing, label: str) -> bool:
    """Whether a path from a label reads flags before they are written."""
    seen: set[tuple[int, frozenset[str]]] = set()
    waiting: list[tuple[int | None, frozenset[str]]] = [(listing.labels[label], ALL)]
    while waiting:
        index, kept = waiting.pop()
        if index is None or not kept or (index, kept) in seen:
            continue
        seen.add((index, kept))
        statement = listing.statements[index]
        if statement.kind != "instruction":
            waiting.append((listing.after.get(index), kept))
        elif read(statement) & kept:
            return True
        else:
            waiting += [(place, kept - written(statement)) for place in following(listing, index, statement)]
    return False


def check_flags(listing: Listing) -> None:
    """Refuses a label inside of a function that needs flags where a pointer may lead to it."""
    for label in listing.pointed:
        if label not in listing.functions and needs_flags(listing, label):
            listing.statements[listing.labels[label]].refuse(
                "a jump by a table or a pointer leads here, whose mask changes the flags that are read here: compile with -fno-gcse (gcc), "
                "or with -fno-jump-tables (a switch)", JumpRefusal)
