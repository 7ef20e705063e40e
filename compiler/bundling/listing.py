"""A whole text: its statements with their sections, its labels, and which of them a pointer may hold."""

from __future__ import annotations

import re
from bisect import bisect_right
from collections import Counter
from collections.abc import Iterable, Iterator

from .encoded import instructions_of, refused_name
from .exceptions import NAME, LandingPads
from .sections import Section, Sections
from .statements import Statement, symbols
from .thunks import without_thunks

DATA = {".byte", ".short", ".value", ".word", ".hword", ".2byte", ".long", ".int", ".4byte", ".quad", ".8byte", ".octa", ".float",
        ".single", ".double", ".ascii", ".asciz", ".string", ".zero", ".skip", ".space", ".fill", ".uleb128", ".sleb128", ".org", ".nops",
        ".nop", ".incbin"}
EQUATES = {".set", ".equ", ".equiv", ".eqv"}
ALIAS = re.compile(r"[\w.$]+\s*,\s*[A-Za-z_.][\w.$]*")
GLOBALS = {".globl", ".global", ".weak"}
MACROS = {".macro", ".rept", ".irp", ".irpc", ".altmacro", ".include", ".if", ".ifdef", ".ifndef", ".ifc", ".ifeq", ".ifne", ".else"}
REFUSED = {
    **dict.fromkeys(MACROS, "the assembler's macros and conditions aren't read: use those of the preprocessor, in a file .S"),
    **dict.fromkeys([".intel_syntax", ".code16", ".code64", ".code16gcc"], "only 32-bit code in AT&T syntax is read: use -m32 -masm=att"),
    **dict.fromkeys([".bundle_align_mode", ".bundle_lock", ".bundle_unlock"], "this text is in bundles already: assemble it as it is"),
}

NUMBERED = re.compile(r"(?<![\w.%])(?<!\w\$)(\d+)([bf])\b")
HERE = re.compile(r"(?<![\w.])\.(?![\w.$])")
BARE = re.compile(r'(?:[\w.$@]+|"[^"]+")$')
JUMP = re.compile(r"(?:jmpl?|calll?|j[a-z]+|loop[a-z]*|xbegin)(?:,p[nt])?$")


def is_direct(statement: Statement) -> bool:
    """Whether an instruction is a jump or a call to the label that it names."""
    return bool(JUMP.match(statement.word)) and not statement.operands.startswith("*")


def is_alias(statement: Statement) -> bool:
    """Whether a directive gives a symbol another name, and no more."""
    is_equate = statement.kind == "directive" and statement.word in EQUATES
    return is_equate and bool(ALIAS.fullmatch(statement.operands))


def without_numbers(statements: Iterable[Statement]) -> Iterator[Statement]:
    """The statements with names in the place of labels such as `1:`, `1b` and `1f`."""
    seen: dict[str, int] = {}

    def name(found: re.Match[str]) -> str:
        number, direction = found.groups()
        return f".Lnumbered_{number}_{seen.get(number, 0) + (direction == 'f')}"

    for statement in statements:
        if statement.kind == "label" and statement.word.isdigit():
            seen[statement.word] = seen.get(statement.word, 0) + 1
            yield statement._replace(word=f".Lnumbered_{statement.word}_{seen[statement.word]}")
        elif '"' in statement.operands:
            yield statement
        else:
            yield statement._replace(operands=NUMBERED.sub(name, statement.operands))


class Listing:
    """`sections[i]` is the section of `statements[i]`; for a directive that enters one, the entered one."""

    def __init__(self, statements: Iterable[Statement]) -> None:
        self.statements: list[Statement] = []
        self.sections: list[Section] = []
        self.enters: set[int] = set()
        tracker = Sections()
        for statement in without_numbers(without_thunks(statements)):
            if statement.kind == "directive" and tracker.follow(statement):
                self.enters.add(len(self.statements))
            found = instructions_of(statement) if tracker.current.is_code else [statement]
            self.statements += found
            self.sections += [tracker.current] * len(found)
        self.after = self.successors()
        self.labels = {statement.word: index for index, statement in self.code() if statement.kind == "label"}
        self.aliases = self.aliased()
        self.labels.update({alias: self.labels[name] for alias, name in self.aliases.items()})
        self.globals = set(self.named_by(GLOBALS))
        self.weak = {name for statement in self.statements if statement.word == ".weak" for name in symbols(statement.operands)}
        self.functions = self.globals | set(self.functions_by_type())
        self.starts = self.starts_of_functions()
        self.landing = LandingPads(self.statements, self.sections, self.labels).by_places
        self.pointed: dict[str, list[int]] = {}  # the labels that a pointer may hold, with the statements that take their addresses
        for index, statement in enumerate(self.statements):
            for name in self.taken(index, statement):
                if name in self.labels:
                    self.pointed.setdefault(self.named_once(name), []).append(index)
        self.inside = self.by_functions(name for name in self.pointed.keys() - self.functions if self.is_held(name))
        self.landing_inside = self.by_functions({name for names in self.landing.values() for name in names})

    def code(self) -> Iterator[tuple[int, Statement]]:
        """The statements of code sections."""
        return ((index, statement) for index, statement in enumerate(self.statements) if self.sections[index].is_code)

    def successors(self) -> dict[int, int]:
        """For each statement of code the next one of its section."""
        after: dict[int, int] = {}
        last: dict[Section, int] = {}
        for index, _ in self.code():
            section = self.sections[index]
            if section in last:
                after[last[section]] = index
            last[section] = index
        return after

    def aliased(self) -> dict[str, str]:
        """The labels for which other names stand, by those names: gcc gives two functions with the same code one body. An alias of an alias
        is found too, after the one that it stands for."""
        equates = [symbols(statement.operands) for statement in self.statements if is_alias(statement)]
        times = Counter(alias for alias, _ in equates)
        found: dict[str, str] = {}
        for alias, name in equates:
            name = found.get(name, name)
            if times[alias] == 1 and name in self.labels and alias not in self.labels:
                found[alias] = name
        return found

    def named_once(self, name: str) -> str:
        """A label's own name, for an alias."""
        return self.aliases.get(name, name)

    def named_by(self, words: set[str]) -> Iterator[str]:
        """The code labels that directives with these words name."""
        for statement in self.statements:
            if statement.kind == "directive" and statement.word in words:
                yield from (self.named_once(name) for name in symbols(statement.operands) if name in self.labels)

    def functions_by_type(self) -> Iterator[str]:
        for statement in self.statements:
            if statement.word == ".type" and re.search(r"[@%]function", statement.operands):
                yield from (self.named_once(name) for name in symbols(statement.operands.split(",")[0]) if name in self.labels)

    def begins_bundle(self, name: str, replaced: set[int]) -> bool:
        """Whether a pointer may hold this label's address, so that it has to be a bundle start. In the statements of `replaced` other
        labels stand for it."""
        return name in self.functions or any(index not in replaced for index in self.pointed.get(name, ()))

    def starts_of_functions(self) -> dict[Section, list[int]]:
        """For each section the places at which functions begin, in order."""
        found: dict[Section, list[int]] = {}
        for place in sorted(self.labels[name] for name in self.functions):
            found.setdefault(self.sections[place], []).append(place)
        return found

    def function_at(self, place: int) -> str | None:
        """The name of the function in which a statement is, without what tells the parts apart into which a compiler has split it."""
        starts = self.starts.get(self.sections[place], [])
        before = bisect_right(starts, place)
        return self.statements[starts[before - 1]].word.split(".cold")[0] if before else None

    def is_held(self, name: str) -> bool:
        """Whether a pointer may hold a label's address, and not only the unwinder."""
        return any(index not in self.landing for index in self.pointed[name])

    def by_functions(self, names: Iterable[str]) -> dict[str | None, list[str]]:
        """Labels by the functions in which they are."""
        found: dict[str | None, list[str]] = {}
        for name in names:
            found.setdefault(self.function_at(self.labels[name]), []).append(name)
        return found

    def pointed_beside(self, index: int) -> list[str]:
        """The labels inside the function in which a statement is that a pointer may hold."""
        return self.inside.get(self.function_at(index), [])

    def landing_beside(self, index: int) -> list[str]:
        """The landing pads of that function."""
        return self.landing_inside.get(self.function_at(index), [])

    def taken(self, index: int, statement: Statement) -> list[str]:
        """The names whose addresses a statement takes."""
        section = self.sections[index]
        if section.name.startswith(NAME):
            names = self.landing.get(index, [])
        elif statement.kind == "assignment":
            names = symbols(statement.operands)
        elif statement.kind == "directive" and statement.word in EQUATES:
            names = [] if symbols(statement.operands)[0] in self.aliases else symbols(statement.operands.partition(",")[2])
        elif statement.kind == "directive" and statement.word in DATA and section.is_data and '"' not in statement.operands:
            names = symbols(statement.operands)
        elif statement.kind == "instruction" and section.is_code and not is_direct(statement):
            names = [] if "_GLOBAL_OFFSET_TABLE_" in statement.operands else symbols(statement.operands)
        else:
            names = []
        for name in names:
            if name in self.labels and re.search(re.escape(name) + r"\s*[-+]\s*\d", statement.operands):
                statement.refuse(f"`{name}` with a number added needn't be a bundle start: put a label there")
        return names

    def check(self) -> None:
        """Refuses what can't be rewritten to the same meaning, whatever stands around it."""
        for index, statement in enumerate(self.statements):
            if statement.kind == "directive" and statement.word in REFUSED:
                statement.refuse(REFUSED[statement.word])
            if not self.sections[index].is_code:
                if statement.kind == "instruction":
                    statement.refuse(f"the section {self.sections[index].name} isn't code: give it the flag x, such as \"ax\"")
                continue
            if statement.kind == "label" and statement.word.startswith('"'):
                statement.refuse("a label in quotes isn't read: give it a plain name")
            if statement.kind == "directive" and statement.word in DATA:
                name = refused_name(statement)
                statement.refuse(f"these bytes are {name}, which isn't permitted: leave out the code that uses it" if name else
                                 "data among code would be read as code: put it into a section of its own, or write the instruction's name")
            if statement.kind == "instruction" and HERE.search(statement.operands):
                statement.refuse("a distance from `.` changes with the padding: use a label")
            if statement.kind == "instruction" and is_direct(statement) and not BARE.match(statement.operands):
                statement.refuse("a distance from a label changes with the padding: jump to a label of its own")
