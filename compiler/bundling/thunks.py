"""Thunks of clang for calls by a register: each goes to the address that its register holds."""

from __future__ import annotations

import re
from collections.abc import Iterable, Iterator

from .statements import Statement

THUNK = re.compile(r"__x86_indirect_thunk_(e(?:[a-d]x|[sd]i|bp))$")
CONDITION = re.compile(r"j(?!mp|e?cxz)(n?)([a-z]+)$")


def without_thunks(statements: Iterable[Statement]) -> Iterator[Statement]:
    """The statements with a call or a jump by the register in the place of one to its thunk. clang has chosen one without an argument."""
    for number, statement in enumerate(statements):
        thunk = statement.kind == "instruction" and THUNK.match(statement.operands)
        condition = thunk and CONDITION.match(statement.word)
        if not thunk:
            yield statement
        elif condition:
            past = f".Lpast_thunk_{number}"
            opposite = "j" + ("" if condition.group(1) else "n") + condition.group(2)
            yield statement._replace(word=opposite, operands=past)
            yield statement._replace(word="jmp", operands="*%" + thunk.group(1))
            yield statement._replace(kind="label", word=past, operands="")
        else:
            yield statement._replace(operands="*%" + thunk.group(1))
