"""Thread-local variables as plain ones, for programs of one thread.

A thread's variables are at their offsets (`x@ntpoff`) from the thread's pointer (`%gs:0`). Here the pointer is 0, so the offsets are
addresses.
"""

from __future__ import annotations

import re

from .statements import Statement, split_operands

MARKS = ("%gs:", "tpoff", "TPOFF", ".tbss", ".tdata", ".tls_common", 'T"')  # a text without these has no such variables
POINTER = "%gs:0"
OFFSET = re.compile(r"@(?:nt|dt)poff\b", re.I)
KEPT_OFFSET = re.compile(r"([\w.$]+)@(?:ind|got)ntpoff(?:\(%\w+\))?", re.I)  # one that is in a table that the linker makes
CALLED = re.compile(r"@tls\w+|___tls_get_addr", re.I)
PLACE = re.compile(r"%gs:[-+\dx]+$")  # of something else that belongs to a thread, such as the canary of -fstack-protector
SECTION = re.compile(r'^("?)\.t(data|bss)\b')
FLAGS = re.compile(r'(,\s*"[^"T]*)T')
NOT_THERE = "this place belongs to a thread, and the sandbox has none for it: leave out the code that uses it"
NONE = "the sandbox has no place for thread-local variables: --one-thread takes them for plain ones"
BY_CALL = "a function tells the place of this thread-local variable: leave out its attribute tls_model"


def is_own(statement: Statement) -> bool:
    """Whether a statement is an instruction about something that belongs to a thread."""
    operands = statement.operands
    return statement.kind == "instruction" and ("%gs:" in operands or "tpoff" in operands.lower() or bool(CALLED.search(operands)))


def plain_operand(operand: str) -> str:
    """An operand of such an instruction, without the thread's pointer."""
    return "$0" if operand == POINTER else OFFSET.sub("", KEPT_OFFSET.sub(r"$\1", operand)).replace("%gs:", "")


def plain_instruction(statement: Statement, is_one: bool) -> Statement:
    """Such an instruction as one about a plain variable, if the program has one thread."""
    operands = split_operands(statement.operands)
    if any(PLACE.match(operand) and operand != POINTER for operand in operands):
        statement.refuse(NOT_THERE)
    if not is_one:
        statement.refuse(NONE)
    if CALLED.search(statement.operands):
        statement.refuse(BY_CALL)
    return statement._replace(operands=", ".join(map(plain_operand, operands)))


def plain_directive(statement: Statement) -> Statement:
    if statement.word in (".section", ".pushsection"):
        return statement._replace(operands=FLAGS.sub(r"\1", SECTION.sub(r"\1.\2", statement.operands), count=1))
    if statement.word == ".tls_common":
        return statement._replace(word=".comm")
    return statement if '"' in statement.operands else statement._replace(operands=OFFSET.sub("", statement.operands))


def without_threads(statements: list[Statement], text: str, is_one: bool) -> list[Statement]:
    """The statements of a text with plain variables. Where the program may have several threads, a use of their variables is refused."""
    if not any(mark in text for mark in MARKS):
        return statements
    plain = [plain_instruction(statement, is_one) if is_own(statement) else statement for statement in statements]
    return [plain_directive(statement) if statement.kind == "directive" else statement for statement in plain] if is_one else plain
