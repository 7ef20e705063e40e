"""What include/nc_host.h declares and promises, and what the crates have of it: calls, structs, numbers and clauses."""

from __future__ import annotations

import functools
import pathlib
import re

import specs

HEADER = pathlib.Path("include/nc_host.h")
CRATES = pathlib.Path("crates")

COMMENT = re.compile(r"/\*[^*]*\*+(?:[^/*][^*]*\*+)*/")
OTHER_LINES = re.compile(r"^#(?:.*\\\n)*.*$|^extern \"C\" \{$|^\}$", re.M)
STATEMENT = re.compile(r"\s*(?:typedef struct (\w+) \{([^{}]*)\} (\w+)|(\w+) (nc_\w+)\(([^()]*)\));")
DECLARED = re.compile(r"(const )?(\w+) (\*?)(\w+)")
NUMBER = re.compile(r"^#define (NC_\w+)(?:\(\w+\))? +(\(.*\)|0x[0-9A-F]+u|\d+u)\s*$", re.M)
DEFINED = re.compile(r"^#define (NC_[A-Z0-9_]+)(?:\(\w+\))? +(?=[^\s\\])", re.M)
FAULTS = re.compile(r"^#define NC_FAULTS\(X\)(?:.*\\\n)+.*", re.M)
FAULT = re.compile(r"\bX\((NC_\w+),")
FIRST_FAULTS = re.compile(r"^#define NC_OK .*\n(?:#define .*\n)*", re.M)
BELOW = re.compile(r"\n\w+ (nc_\w+)\(")

# How a paragraph of a call's comment may begin. What is before the first of them says what the call does.
LABELS = re.compile(r"^(Promised:|Not promised:|The host must)")
DEFINITIONS = re.compile(r"\(((?:Is|Has|Are|May|log_of_)\w+(?:, \w+)*)\)")
BRACKETS = re.compile(r"\[(\w+(?:, \w+)*)\](?=[.;])")

# What is defined beside numbers.
NO_NUMBERS = {"NC_UNUSED", "NC_NAME_OF", "NC_SENTENCE_OF"}

# Numbers that are written otherwise than as digits.
FORMULAS = {
    "NC_VERSION": "(NC_VERSION_MAJOR << 16 | NC_VERSION_MINOR << 8 | NC_VERSION_PATCH)",
    "NC_LIMIT": "(NC_START + NC_BUNDLE * (uint32_t)(bundles))",
}
MASKED = re.compile(r"\((\d+)u \+ \(reg\)\)")


@functools.cache
def spaces(text):
    """As many lines of the same lengths, without a word."""
    return "\n".join(" " * len(line) for line in text.split("\n"))


def blank(pattern, text):
    """The text without whatever the pattern finds, all else at its place."""
    return pattern.sub(lambda found: spaces(found.group()), text)


class Sentence:
    """A sentence of a comment: whether it is a promise, and the names in brackets at its end."""

    def __init__(self, text, promised):
        self.text, self.promised = text, promised
        ending = re.search(r"\[(\w+(?:, \w+)*)\]\.$", text)
        self.names = ending.group(1).split(", ") if ending else []


class Call:
    """A call as C declares it: what it returns, and the name and type of each argument; with its sentences, or its clauses."""

    def __init__(self, name, returned, taken, where):
        self.name, self.returned, self.taken, self.where = name, returned, taken, where
        self.sentences, self.clauses, self.comment = [], [], ""

    def definitions(self):
        """The definitions that the comment names."""
        return [name for names in DEFINITIONS.findall(self.comment) for name in names.split(", ")]

    def declared(self):
        arguments = ", ".join(c_declared(name, kind) for name, kind in self.taken) or "void"
        return f"{self.returned} {self.name}({arguments})"


def c_declared(name: str, kind: str) -> str:
    return kind + name if kind.endswith("*") else f"{kind} {name}"


@functools.cache
def sentences(comment):
    """The sentences of a call's comment. A label begins a paragraph where a sentence has ended."""
    lines = [line.strip().removeprefix("*").strip() for line in comment[2:-2].strip().split("\n")]
    parts = [["", ""]]
    for line in filter(None, lines):
        label = LABELS.match(line)
        if label and (not parts[-1][1] or parts[-1][1].endswith(".")):
            parts.append([label.group(1), ""])
        parts[-1][1] = (parts[-1][1] + " " + line).strip()
    return [Sentence(text, label == "Promised:") for label, part in parts for text in re.split(r"(?<=\.)\s+", part) if text]


class Header:
    """The declarations, the numbers and the comments of a header's text; and what of it can't be read."""

    def __init__(self, text: str) -> None:
        self.calls: dict[str, Call] = {}
        self.structs: dict[str, list[tuple[str, str]]] = {}
        self.others: list[str] = []
        self.unread: list[str] = []
        plain = blank(COMMENT, text)
        self.numbers = {name: value_of(value) for name, value in NUMBER.findall(plain)}
        self.unread += sorted(set(DEFINED.findall(plain)) - self.numbers.keys() - NO_NUMBERS)
        listed, first = FAULTS.search(text), FIRST_FAULTS.search(text)
        self.messages = FAULT.findall(listed.group()) if listed else []
        self.faults = re.findall(r"^#define (\w+)", first.group(), re.M) if first else []
        self.read_statements(blank(OTHER_LINES, plain.split("#ifdef NC_FAULT_NAMES")[0]))
        self.read_comments(text)

    def read_statements(self, plain: str) -> None:
        """Finds each struct and each prototype; all else that ends in a semicolon can't be read."""
        at = 0
        while ";" in plain[at:]:
            found, end = STATEMENT.match(plain, at), plain.index(";", at) + 1
            if found:
                self.add(found, f"{HEADER}:{plain.count(chr(10), 0, found.start(found.lastindex)) + 1}")
            else:
                self.unread.append(" ".join(plain[at:end].split()))
            at = found.end() if found else end

    def add(self, found: re.Match[str], where: str) -> None:
        struct, members, again, returned, name, arguments = found.groups()
        if struct and struct == again:
            self.structs[struct] = [self.declared(member) for member in members.split(";")[:-1]]
        elif struct:
            self.unread.append(f"{struct}, {again}")
        else:
            taken = [] if arguments.strip() == "void" else [self.declared(argument) for argument in arguments.split(",")]
            self.calls[name] = Call(name, returned, taken, where)

    def declared(self, text: str) -> tuple[str, str]:
        """The name and the type of an argument or a member."""
        found = DECLARED.fullmatch(" ".join(text.split()))
        if not found:
            self.unread.append(" ".join(text.split()))
            return text.strip(), ""
        const, kind, star, name = found.groups()
        return name, (const or "") + kind + (" *" if star else "")

    def read_comments(self, text: str) -> None:
        """The sentences of the comment directly above each call; and the names that other comments have in brackets."""
        for found in COMMENT.finditer(text):
            comment, below = found.group(), BELOW.match(text, found.end())
            if below and below.group(1) in self.calls:
                call = self.calls[below.group(1)]
                call.comment, call.sentences = comment, sentences(comment)
            else:
                self.others += [name for names in BRACKETS.findall(comment) for name in names.split(", ")]


def value_of(text):
    """The value of a number, that of register 0 for one that is of a register; or a formula as it is written."""
    masked = MASKED.fullmatch(text)
    if masked:
        return int(masked.group(1))
    return text if text.startswith("(") else int(text.rstrip("u"), 0)


# ---- The crates

FUNCTION = re.compile(r'^pub extern "C" fn (\w+)\(([^()]*)\)(?: -> (\w+))?(?: \{$|\n(.*?)^\{$)', re.M | re.S)
CLAUSE = re.compile(r"^    (ensures|requires)(?: (\w+))? \{", re.M)
STRUCT = re.compile(r"^#\[repr\(C\)\]\n(?:#[^\n]*\n)*pub struct (\w+) \{\n(.*?)^\}", re.M | re.S)
MEMBER = re.compile(r"^    (?:pub )?(\w+): (.+),$", re.M)
CONSTANT = re.compile(r"^(?:pub(?:\(crate\))? )?const ([A-Z0-9_]+): u\d+ = (0x[0-9A-F_]+|[\d_]+);", re.M)
EQUATION = re.compile(r"^(?!register_)(\w+_number) (.*\b[A-Z]\w*.*?)\)? = (\d+|[A-Z0-9_]+)(?: \+ \w+)?$", re.M)
ACT = re.compile(r"^(act_of|entry_of|run_of) \(?([A-Z]\w+).* = record \{ kind = (\d+);", re.M)

SCALARS = {"u8": "uint8_t", "u32": "uint32_t", "i32": "int32_t", "u64": "uint64_t", "usize": "size_t", "*mut u8": "void *"}
NOWHERE = "Global"  # has no size, so C doesn't pass it

# What has another name in C: words of C or C++, and the lengths of slices that aren't the slice's name and `_len`.
WORDS = {"new": "new_bytes", "register": "reg"}
LENGTHS = {"code": "len", "bytes": "len", "new": "new_len"}

# Where the numbers are: constants, and the equations by which a contract names a fault, a flow, an end, a mark or a kind of act, with a
# number or a constant.
CONSTANTS = ["nc_decode/src/bundles.rt", "nc_decode/src/instruction.rt", "nc_host_acts/src/act.rt", "nc_host/src/*.rt"]
EQUATIONS = ["nc_host/specs/*.antt", "nc_host_acts/specs/*.antt"]
PREFIXES = {"flow_number": "NC_FLOW_", "end_number": "NC_END_", "refused_patch_number": "NC_PATCH_", "elf_number": "NC_ELF_",
            "segment_number": "NC_ELF_"}

# Numbers that have another name in C, and kinds of acts that no call writes.
OTHER_NAMES = {
    "UNDERWAY": "UNDER_WAY", "NONE_LEFT": "NO_SEAT", "GENS_FULL": "FULL", "AFTER": "MASKED", "MARK_SPAN": "MARK",
    "SERIALIZED": "SERIALIZE", "ELF64": "64_BITS",
}
UNWRITTEN = {"UnmarkSpan", "Look"}


class Crates:
    """The exported functions with their contracts, the structs of C, the numbers with their places, and the definitions with a comment."""

    def __init__(self) -> None:
        self.calls: dict[str, Call] = {}
        self.structs: dict[str, list[tuple[str, str]]] = {}
        self.unread: list[str] = []
        self.numbers = {"NC_OK": {0: "each contract"}}
        self.definitions = commented()
        for path in sorted(CRATES.glob("*/src/**/*.rt")):
            text = path.read_text(encoding="utf-8")
            self.read_functions(path, text)
            for name, members in STRUCT.findall(text):
                plain = [(member, kind) for member, kind in MEMBER.findall(members) if kind != NOWHERE]
                self.structs[name] = [(WORDS.get(member, member), c_type(kind)) for member, kind in plain]
        self.read_numbers()

    def read_functions(self, path: pathlib.Path, text: str) -> None:
        found = list(FUNCTION.finditer(text))
        if len(found) != text.count('extern "C" fn'):
            self.unread.append(f'{path}: a function that is `extern "C"`')
        for function in found:
            name, arguments, returned, contract = function.groups()
            pairs = [pair for pair in re.findall(r"(\w+): ([^,]+)", arguments) if pair[1].strip() != NOWHERE]
            call = Call(name, SCALARS.get(returned, returned) or "void", [c for pair in pairs for c in c_arguments(*pair)], str(path))
            call.clauses = CLAUSE.findall(contract or "")
            self.calls[name] = call

    def read_numbers(self) -> None:
        constants: dict[str, int] = {}
        for pattern in CONSTANTS:
            for path in sorted(CRATES.glob(pattern)):
                for name, value in CONSTANT.findall(path.read_text(encoding="utf-8")):
                    constants[name] = int(value.replace("_", ""), 0)
                    self.add(name, constants[name], path)
        for pattern in EQUATIONS:
            for path in sorted(CRATES.glob(pattern)):
                text = path.read_text(encoding="utf-8")
                for function, case, value in EQUATION.findall(text) + ACT.findall(text):
                    case = re.findall(r"[A-Z]\w*", case)[-1]
                    if case not in UNWRITTEN:
                        number = int(value) if value.isdigit() else constants[value]
                        self.add(snake(case), number, path, PREFIXES.get(function, "NC_"))

    def add(self, name: str, value: int, path: object, prefix: str = "NC_") -> None:
        if name == "VERSION":
            for part, shift in ("MAJOR", 16), ("MINOR", 8), ("PATCH", 0):
                self.add("VERSION_" + part, value >> shift & 0xFF, path)
            return
        self.numbers.setdefault(prefix + OTHER_NAMES.get(name, name), {}).setdefault(value, str(path))


def commented():
    """The names of all definitions that have a comment above them."""
    files = [specs.File(*specs.in_crate(source)) for source in specs.sources()]
    return {name for file in files for name, comment in file.comments.items() if comment}


def snake(name):
    """NO_ROOM for NoRoom."""
    return re.sub(r"(?<=[a-z])(?=[A-Z])", "_", name).upper()


def c_type(kind):
    return SCALARS.get(kind, kind)


def c_arguments(name, kind):
    """What C passes for an argument: a slice is a pointer and a length."""
    own = WORDS.get(name, name)
    found = re.fullmatch(r"&(mut )?(\[?)(\w+)\]?", kind.strip())
    if not found:
        return [(own, c_type(kind.strip()))]
    pointer = ("" if found.group(1) else "const ") + c_type(found.group(3)) + " *"
    return [(own, pointer)] + ([(LENGTHS.get(name, name + "_len"), "size_t")] if found.group(2) else [])
