"""The public contracts of the crates: the functions that have one, its clauses, and the definitions that these cite.

A contract is public where its function can be called from outside its crate: an exported function, a method of an exported type, or
a member of an exported trait. What it cites is each name that its file imports from a crate's specs/ and that stands in one of its
clauses.
"""

from __future__ import annotations

import pathlib
import re
from collections.abc import Iterator

import specs

IMPORT = re.compile(r"ghost use Rattle\.(nc_\w+)\.specs\.([\w.]+)\.\{([^}]*)\};")
MODULE = re.compile(r"ghost use Rattle\.(nc_\w+)\.specs\.([\w.]+) as (\w+);")
EXPORT = re.compile(r"^\s*pub use [\w:]*?(?:(\w+)|\{([^}]*)\});", re.M)
WORD = re.compile(r"[A-Za-z_][\w']*")
NAMED = re.compile(r"^\s*(requires|ensures)(?: (\w+))? \{")
MARK = re.compile(r"[][(){};]")


class Contract:
    """A public function or ghost member, the number of its line, the first paragraph of its comment, and the lines of its clauses."""

    def __init__(self, name, lines, at, clauses):
        self.name, self.line, self.clauses = name, at + 1, clauses
        above = at
        while above and lines[above - 1].lstrip().startswith(("///", "#[")):
            above -= 1
        paragraph = "\n".join(line.strip(" /") for line in lines[above:at] if not line.lstrip().startswith("#[")).split("\n\n")[0]
        self.about = " ".join(paragraph.split())

    def text(self):
        """The clauses without their comments."""
        return "\n".join(line for line in self.clauses if not line.strip().startswith("//"))

    def named(self):
        """The name of each clause, or what it is where it has none, with the comment directly above it."""
        above = []
        for line in self.clauses:
            found = NAMED.match(line)
            if found:
                yield found.group(2) or found.group(1), " ".join(above)
            above = above + [line.strip(" /")] if line.strip().startswith("//") else []


def exported(crate: pathlib.Path) -> set[str]:
    """The names that a library exports, and those of a program's public modules."""
    names: set[str] = set()
    for path in filter(lambda path: path.exists(), (crate / "src" / "lib.rt", crate / "src" / "main.rt")):
        text = path.read_text(encoding="utf-8")
        for one, many in EXPORT.findall(text):
            names.update(name.strip().split(" as ")[-1] for name in (one + "," + many).split(",") if name.strip())
        for module in re.findall(r"^pub mod (\w+);", text, re.M):
            inner = (crate / "src" / f"{module}.rt").read_text(encoding="utf-8")
            names.update(re.findall(r"^pub (?:fn|struct|enum|trait|type) (\w+)", inner, re.M))
    return names


def end_of_head(lines, start):
    """The line at which the head of a function ends, and whether it ends in a `;` there, as it does without a body. The first `;` or `{`
    outside all brackets that opens no clause is its end."""
    depth = 0
    for at in range(start, len(lines)):
        line = lines[at].split("//")[0]
        opening = NAMED.match(line)
        for mark in MARK.finditer(line):
            is_clause = opening and mark.end() == opening.end()
            if depth == 0 and mark.group() in ";{" and not is_clause:
                return at, mark.group() == ";"
            depth += (mark.group() in "([{") - (mark.group() in ")]}")
    raise ValueError(f"the head at line {start + 1} has no end")


def clauses(lines, start):
    """The lines of a function's clauses with their comments, from its signature to its body or its `;`."""
    end, is_bodiless = end_of_head(lines, start)
    head = lines[start + 1 : end + is_bodiless]
    first = next((at for at, line in enumerate(head) if NAMED.match(line)), len(head))
    while first and head[first - 1].strip().startswith("//"):
        first -= 1
    return head[first:]


def owner_of(head, names):
    """The exported type or trait that a block `impl` or `trait` is of, if there is one."""
    words = WORD.findall(re.sub(r"<[^>]*>", " ", head.group(2)))
    if head.group(1) == "impl" and "for" in words:
        words = words[words.index("for") + 1:]
    return next((word for word in words if word in names), None)


def contracts(path: pathlib.Path, names: set[str]) -> Iterator[Contract]:
    """The contract of each public function and ghost member of a file."""
    lines = path.read_text(encoding="utf-8").split("\n")
    owner, in_trait = None, False
    for at, line in enumerate(lines):
        head = re.match(r"^(?:pub )?(impl|trait)\b(.*)\{\s*$", line)
        if head:
            owner, in_trait = owner_of(head, names), head.group(1) == "trait"
        elif line == "}":
            owner, in_trait = None, False
        method = re.match(r"^    (pub )?fn (\w+)", line)
        ghost = re.match(r"^    ghost (?!use|view|inverse)(\w+)", line)
        top = re.match(r"^pub (?:extern \"C\" )?fn (\w+)", line)
        if top and top.group(1) in names:
            yield Contract(top.group(1), lines, at, clauses(lines, at))
        elif method and owner and (method.group(1) or in_trait):
            yield Contract(f"{owner}::{method.group(2)}", lines, at, clauses(lines, at))
        elif ghost and owner:
            yield Contract(f"{owner}.{ghost.group(1)}", lines, at, [line])


def imports(text):
    """What a file imports from specs/: each name as the file writes it, with its crate, its module and its own name."""
    found = {}
    for crate, module, names in IMPORT.findall(text):
        for name in filter(None, map(str.strip, names.split(","))):
            own, _, other = name.partition(" as ")
            found[other or own] = (crate, module, own)
    for crate, module, name in MODULE.findall(text):
        for own in re.findall(rf"\b{name}\.([A-Za-z_][\w']*)", text):
            found[f"{name}.{own}"] = (crate, module, own)
    return {name: source for name, source in found.items() if not source[1].startswith("declared")}


def citations() -> tuple[int, dict[specs.Key, set[str]]]:
    """How many public contracts there are, and those that cite each definition, by its crate, file and name."""
    seen = 0
    cited: dict[specs.Key, set[str]] = {}
    for crate in sorted(specs.CRATES.iterdir()):
        names = exported(crate) if (crate / "src").is_dir() else set()
        for path in sorted((crate / "src").rglob("*.rt")):
            imported = imports(path.read_text(encoding="utf-8"))
            for contract in contracts(path, names):
                seen += 1
                text = contract.text()
                for word in set(re.findall(r"[A-Za-z_][\w']*(?:\.[A-Za-z_][\w']*)?", text)) | set(WORD.findall(text)):
                    if word in imported:
                        source, module, own = imported[word]
                        key = source, specs.place_of(source, module)[0], own
                        cited.setdefault(key, set()).add(f"{crate.name}::{contract.name}")
    return seen, cited
