"""Which section each statement of a text is in, and whether code stands there."""

from __future__ import annotations

import re
from collections import namedtuple

from .statements import Statement

CODE_NAMES = re.compile(r"\.(?:text|init|fini)(?:\..*)?$")
DEBUG_NAMES = re.compile(r"\.(?:debug|zdebug|stab|comment|note|gnu|llvm|eh_frame)")
SEVERAL = re.compile(r",\s*(?:comdat|unique)\b")  # sections of one name, which these words tell apart
# What a directive names: a section, with or without quotes, then the number of a part of it, then its flags.
OPERANDS = re.compile(r'(?:"([^"]*)"|([^",\s]*))\s*(?:,\s*(\d\w*))?\s*(?:,\s*"([^"]*)")?')
NUMBERED = "parts of a section by numbers aren't read: give them sections with names"
REFUSED_NAMES = [
    (re.compile(r"\.gnu\.lto_"), "this is no code yet: compile with -fno-lto"),
]


class Section(namedtuple("Section", "directive name is_code is_data")):
    """A section by a directive that enters it. `is_code`: the rewriter reads it. `is_data`: the program can read addresses there."""

    __slots__ = ()
    directive: str
    name: str
    is_code: bool
    is_data: bool


def named(name: str, flags: str | None, operands: str) -> Section:
    """The section of a name, with its flags if the directive has some."""
    is_code = "x" in flags if flags is not None else bool(CODE_NAMES.match(name))
    is_data = not is_code and not DEBUG_NAMES.match(name) and (flags is None or "a" in flags)
    return Section("\t.section\t" + operands, name, is_code, is_data)


class Sections:
    """The current section, as the assembler tracks it."""

    def __init__(self) -> None:
        self.known = {word: Section("\t" + word, word, word == ".text", word != ".text") for word in (".text", ".data", ".bss")}
        self.current = self.previous = self.known[".text"]
        self.stack: list[tuple[Section, Section]] = []

    def enter(self, section: Section) -> None:
        self.previous, self.current = self.current, section

    def of_directive(self, statement: Statement) -> Section:
        """The section that `.section` or `.pushsection` names: the first directive has its flags, and later ones may leave them out."""
        found = OPERANDS.match(statement.operands)
        assert found is not None  # each part may be absent
        quoted, plain, number, flags = found.groups()
        name = plain if quoted is None else quoted
        for names, reason in REFUSED_NAMES:
            if names.match(name):
                statement.refuse(reason)
        if number:
            statement.refuse(NUMBERED)
        section = named(name, flags, statement.operands)
        if name == ".note.GNU-stack" and section.is_code:
            statement.refuse("a nested function's address is taken, which needs code on the stack: use an ordinary function")
        return self.known.setdefault(statement.operands if SEVERAL.search(statement.operands) else name, section)

    def follow(self, statement: Statement) -> bool:
        """Changes the section where a directive does; whether it does."""
        word = statement.word
        if word in (".text", ".data", ".bss") and statement.operands in ("", "0"):
            self.enter(self.known[word])
        elif word == ".section":
            self.enter(self.of_directive(statement))
        elif word == ".pushsection":
            self.stack.append((self.current, self.previous))
            self.enter(self.of_directive(statement))
        elif word == ".popsection":
            if not self.stack:
                statement.refuse("there is no `.pushsection` before it")
            self.current, self.previous = self.stack.pop()
        elif word == ".previous":
            self.current, self.previous = self.previous, self.current
        elif word in (".subsection", ".text", ".data", ".bss"):
            statement.refuse(NUMBERED)
        else:
            return False
        return True
