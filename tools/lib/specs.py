"""What the definitions of specs/ say: their lines, their comments, what each of them cites, and what a contract rests on."""

from __future__ import annotations

import pathlib
import re
import sys
from collections.abc import Collection, Iterable, Iterator
from typing import Tuple

import repository

TOP = pathlib.Path(repository.TOP)
CRATES = TOP / "crates"
# A definition: its crate, its file and its name.
Key = Tuple[str, str, str]
STANDS_FOR = {("nc_decode", "specs/machinery/Reading.antt", "reading"): ("nc_decode", "specs/Front.antt", "IsExact")}
# A definition that is only a premise, with the files whose public functions are each proved to meet it, and the clauses that say so. (The
# other clauses of these functions say what else their bodies do.)
MET_BY: dict[Key, list[tuple[str, str, tuple[str, ...]]]] = {
    ("nc_histories", "specs/Histories.antt", "IsCall"): [("nc_histories", "src/calls.rt", ("call", "refused", "logged"))],
    ("nc_histories", "specs/Histories.antt", "IsRefusal"): [("nc_histories", "src/calls.rt", ("refused",))],
    ("nc_host_handles", "specs/Pending.antt", "IsHandleCall"): [
        ("nc_host", "src/region_change.rt", ("pending",)),
        ("nc_host", "src/region_delete.rt", ("pending",)),
        ("nc_host", "src/vetted.rt", ("pending",)),
    ],
}

IMPORT = re.compile(r"^\s*(?:ghost |pub )*use Rattle\.(nc_\w+)\.specs\.([\w.]+?)(?:\.\{([^}]*)\}| as (\w+));?", re.M)
LIBRARY = re.compile(r"^\s*(?:pub )?use (?!Rattle\.nc_)[\w.]+?\.\{([^}]*)\}", re.M)
START = re.compile(r"^(?:(?:abbrev|unfoldable) )?(?:pub )?(?:(record|data) )?([A-Za-z_][\w']*)(?: |$)")
TYPE = re.compile(r"^(?:pub(?:\(crate\))? )?(?:struct|enum|const|static) (\w+)")
WORD = re.compile(r"(?<![\w.])[A-Za-z_][\w']*(?:\.[A-Za-z_][\w']*)*")
WHOLE = r"(?<![\w.'])%s(?![\w'])"
LABEL = re.compile(r"(?<=[{;])\s*\w+ =(?= )")
BOUND = re.compile(r"\(([^():]*) :")
EQUATION = re.compile(r"^[A-Za-z_][\w']* ([^=:]+) =", re.M)
NAME = re.compile(r"[a-z_][\w']*")
PUBLIC = r"^(?:abbrev |unfoldable )?pub (?:record |data )?%s "


def counted(lines: Iterable[str]) -> list[str]:
    """The lines that say something, without comments at their ends."""
    kept = [re.sub(r"\s*(--|//).*", "", line) for line in lines]
    return [line for line in kept if line.strip() and not line.strip().startswith("#[")]


def is_cited(name, text):
    """Whether a text has a name, or each part of a sign, in whose name ◌ stands for an argument."""
    parts = filter(None, name.split("◌"))
    return all(re.search(WHOLE % part if part.isidentifier() else re.escape(part), text) for part in parts)


class File:
    """The definitions of one file, by name, with the comment above each and its place; the comment at its head; and what it imports."""

    def __init__(self, crate: str, path: str, text: str | None = None) -> None:
        text = (CRATES / crate / path).read_text(encoding="utf-8") if text is None else text
        self.crate, self.path = crate, path
        self.parts: dict[str, list[str]] = {}
        self.owner: dict[str, str] = {}
        self.comments: dict[str, str] = {}
        self.places: dict[str, int] = {}
        self.about = " ".join(line.strip("- ") for line in re.match(r"(--.*\n)*", text).group().splitlines())
        (self.cut_types if path.startswith("src/") else self.cut_definitions)(text)
        self.library = {name for names in LIBRARY.findall(text) for name in map(str.strip, names.split(","))}
        self.imports: dict[str, Key] = {}
        self.modules: dict[str, tuple[str, str, str | None]] = {}
        for source, module, names, alias in IMPORT.findall(text):
            if alias:
                self.modules[alias] = (source, *place_of(source, module))
            for name in filter(None, map(str.strip, names.split(","))):
                own, _, other = name.partition(" as ")
                file, kind = place_of(source, module)
                self.imports[other or own] = (source, file, kind or own)

    def cut_definitions(self, text: str) -> None:
        """Finds each definition, with the constructors of a data type as names of it."""
        name, above = None, []
        for number, raw in enumerate(text.split("\n"), 1):
            if raw.startswith("--"):
                above.append(raw.strip("- "))
                continue
            for line in counted([raw]):
                name = self.cut_line(line, name, above, number)
            above = []

    def cut_line(self, line: str, name: str | None, above: list[str], number: int) -> str | None:
        """The name of the definition that a line is of, after the one of the line before, with the comment above it and its place."""
        head = START.match(line)
        if re.match(r"(use|pub use|pub mod|module|infix)", line):
            return None if line.startswith("module") else name
        if head and (re.match(r"(abbrev|unfoldable|pub|record|data) ", line) or head.group(2) not in self.parts):
            name, self.constructors = head.group(2), head.group(1) == "data"
            self.parts[name], self.owner[name], self.comments[name] = [], name, " ".join(above)
            self.places[name] = number
        elif name and self.constructors and re.match(r"^  \w+ :", line):
            self.owner[line.split()[0]] = name
        if name:
            self.parts[name].append(line)
        return name

    def cut_types(self, text: str) -> None:
        """Finds each struct, enum, constant and static of a file of the program."""
        name = None
        for line in counted(text.split("\n")):
            head = TYPE.match(line)
            if head:
                name = head.group(1)
                self.parts[name], self.owner[name] = [], name
            if name:
                self.parts[name].append(line)
                name = None if line in ("}", "];") or line.endswith(";") and len(self.parts[name]) == 1 else name

    def arguments(self, name: str) -> list[str]:
        """The names of a definition's arguments: those of a record, or those that all its equations give; or none."""
        head, *lines = self.parts[name]
        if " record " in head:
            return [word for group in BOUND.findall(head) for word in group.split()]
        equations = [re.sub(r"\{\w+\} ", "", line).split(" =")[0].split()[1:] for line in lines if line.startswith(name + " ")]
        same = equations and all(words == equations[0] for words in equations) and all(map(NAME.fullmatch, equations[0]))
        return equations[0] if same else []

    def library_names(self, lines: list[str]) -> list[str]:
        """Whatever these lines cite of the base library."""
        text = "\n".join(lines)
        return [name.partition(" ")[0] for name in self.library if is_cited(name.rpartition(" ")[2], text)]

    def names(self, lines: list[str], but: Collection[str] = ()) -> Iterator[Key]:
        """Whatever these lines cite of this project: crate, file and name. A module's short name may also be a variable's."""
        text = LABEL.sub("", "\n".join(lines))
        variables = {word for group in BOUND.findall(text) + EQUATION.findall(text) for word in re.findall(NAME, group)}
        for word in WORD.findall(text):
            module, _, inner = word.partition(".")
            if inner and module in self.modules and module not in variables:
                source, file, kind = self.modules[module]
                yield source, file, kind or inner
            elif module in self.imports:
                yield self.imports[module]
            elif module in self.owner and self.owner[module] not in but:
                yield self.crate, self.path, self.owner[module]


def place_of(crate: str, module: str) -> tuple[str, str | None]:
    """The file of a module of specs/, and the type that it is of, if it is a type of the program."""
    declared = re.match(r"declared\.([\w.]+?)\.([A-Z]\w*)(?:\.TheVariants)?$", module)
    if not declared:
        return "specs/" + module.replace(".", "/") + ".antt", None
    return "src/" + declared.group(1).replace(".", "/") + ".rt", None if declared.group(2) == "TheConstants" else declared.group(2)


def sources() -> list[pathlib.Path]:
    """Each file with definitions."""
    return sorted(CRATES.glob("nc_*/specs/**/*.antt"))


def crates_in_order() -> list[str]:
    """The names of the crates, from the lowest one up."""
    return [line.split(":")[0].split()[0] for line in (TOP / "crates.txt").read_text(encoding="utf-8").splitlines()]


def in_crate(source: pathlib.Path) -> tuple[str, str]:
    """The crate of a file, and its path in the crate."""
    crate, *path = source.relative_to(CRATES).parts
    return crate, "/".join(path)


class Files:
    """Files of the crates, each read once."""

    def __init__(self) -> None:
        self.files: dict[tuple[str, str], File] = {}

    def file(self, crate: str, path: str) -> File:
        if (crate, path) not in self.files:
            self.files[crate, path] = File(crate, path)
        return self.files[crate, path]

    def resolved(self, key: Key) -> Key:
        """Where a name is defined: a constructor with its type, a name that a file hands on where that has it from."""
        crate, path, name = key
        file = self.file(crate, path)
        return (crate, path, file.owner[name]) if name in file.owner else self.resolved(file.imports[name])


class Definitions(Files):
    """Whatever the contracts of laws or calls rest on, or definitions, each with what was found to cite it."""

    def __init__(self, *roots: str, met_by: dict[Key, list[tuple[str, str, tuple[str, ...]]]] = MET_BY) -> None:
        super().__init__()
        self.found: dict[Key, str] = {}
        self.roots = roots
        todo: list[tuple[Key, str]] = [(key, root) for root in roots for key in self.law(root) or self.definition(root)]
        while todo:
            key, by = todo.pop(0)
            crate, path, name = key = self.resolved(STANDS_FOR.get(key, key))
            if key not in self.found:
                self.found[key] = by
                file = self.file(crate, path)
                met = [cited for meets in met_by.get(key, []) for cited in self.clauses(*meets)]
                cited = met if key in met_by else file.names(file.parts[name], {name})
                todo += [(other, name) for other in cited]

    def clauses(self, crate: str, path: str, names: Collection[str]) -> Iterator[Key]:
        """The definitions that the clauses of these names, the conditions and the types of a file's public functions name."""
        text = (CRATES / crate / path).read_text(encoding="utf-8")
        found = re.findall(r'^pub (?:extern "C" )?fn .*?^{', text, re.M | re.S)
        parts = [part for function in found for part in re.split(r"^(?=    ensures )", function, flags=re.M)]
        kept = [part for part in parts if not part.startswith("    ensures ") or part.split()[1] in names]
        return self.file(crate, path).names(counted("".join(kept).split("\n")))

    def law(self, name: str) -> Iterator[Key] | None:
        """The definitions that the clauses of a public function name, or None if there is no such function."""
        for source in sorted(CRATES.glob("nc_*/src/**/*.rt")):
            clauses = re.search(rf'^pub (?:extern "C" )?fn {name}\(.*?^{{', source.read_text(encoding="utf-8"), re.M | re.S)
            if clauses:
                file = self.file(*in_crate(source))
                return file.names(counted(clauses.group().split("\n")))
        return None

    def definition(self, name: str) -> list[Key]:
        """The public definitions of this name."""
        found = [(*in_crate(source), name) for source in sources() if re.search(PUBLIC % name, source.read_text(encoding="utf-8"), re.M)]
        return found or sys.exit(f"no public function and no definition {name} in crates/nc_*")
