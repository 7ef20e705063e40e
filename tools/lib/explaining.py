"""What the comments above definitions say, as a page: a row for each definition that a contract cites or that has a public source."""

from __future__ import annotations

import re
from collections.abc import Iterable

import specs
from citing import citations

SOURCE = re.compile(r"\((Intel SDM|Yee et al\.|Ansel et al\.)")
TITLE = "# All definitions"
ABOUT = """Each definition that a public contract cites, or that has a public source, in the words of the comment above it. \
[DEFINITIONS.md](DEFINITIONS.md) has the terms, the public sources and the order in which to read. \
In the source repository `tools/definitions --all` prints this page, and `tools/definitions NAME` one definition."""


class Rows(specs.Files):
    """The definitions that have a row."""

    def __init__(self, cited: Iterable[specs.Key]) -> None:
        super().__init__()
        self.keys = {self.resolved(key) for key in cited}
        for path in specs.sources():
            place = specs.in_crate(path)
            self.keys |= {(*place, name) for name, comment in self.file(*place).comments.items() if SOURCE.search(comment)}

    def uncommented(self) -> list[specs.Key]:
        """The definitions without a comment."""
        return [key for key in sorted(self.keys) if not self.files[key[:2]].comments[key[2]]]

    def section(self, crate: str) -> str:
        """What is made of a crate's files: for each one with rows a heading, the comment at its head, and its rows."""
        found = {path for own, path, _ in self.keys if own == crate}
        text = [f"## {crate}", ""]
        for path in sorted(found, key=lambda path: ("machinery" in path, places_in(crate, path))):
            file = self.files[crate, path]
            rows = [row(file, name) for name in file.parts if (crate, path, name) in self.keys]
            text += [f"### [{path[6:-5]}](../crates/{crate}/{path})", "", *filter(None, [file.about]), "", *rows, ""]
        return "\n".join(text)

    def page(self) -> str:
        """The page, with the crates from the lowest one up."""
        sections = [self.section(crate) for crate in specs.crates_in_order() if crate in {key[0] for key in self.keys}]
        return "\n".join([TITLE, "", ABOUT, "", *sections]).rstrip("\n") + "\n"


def row(file: specs.File, name: str) -> str:
    """A definition's row: its name, with its arguments where the comment names one between backquotes, and the comment as a sentence."""
    comment, arguments = file.comments[name], file.arguments(name)
    called = " ".join([name] + arguments if set(arguments) & set(re.findall(r"`(\w+)`", comment)) else [name])
    return f"- `{called}`: {sentence(comment)}"


def sentence(comment: str) -> str:
    """A comment as a sentence, or several."""
    return comment[:1].upper() + comment[1:] + ("" if comment.endswith(".") else ".")


def places_in(crate, path):
    """The places of a file and of each folder above it in the lists of modules, specs/Lib.antt first."""
    folder, modules, places = specs.CRATES / crate / "specs", "Lib.antt", []
    for name in path[: -len(".antt")].split("/")[1:]:
        listed = re.findall(r"^pub mod (\w+)", (folder / modules).read_text(encoding="utf-8"), re.M)
        places.append(listed.index(name))
        modules, folder = f"../{name}.antt", folder / name
    return places


def all_definitions() -> str:
    """The page of all definitions."""
    return Rows(citations()[1]).page()
