"""The manual page nc_host(3), made from the comments, the declarations and the faults of the header."""

from __future__ import annotations

import re
import textwrap

from header import COMMENT, FAULTS, FIRST_FAULTS, STATEMENT, Header

PAGE = "share/man/man3/nc_host.3"
MESSAGE = re.compile(r'X\((NC_\w+), ((?:"[^"]*"[ \\\n]*)+)\)')
CLAUSES = re.compile(r" ?\[(?!tested\])\w+(?:, \w+)*\](?=[.;,])")
HEADING = re.compile(r"^\S[^.:]*$")
WIDTH = 78
ITEM = re.compile(r"^ {2,}(\S(?:[^ ]| (?! ))*)  +(?=\S)")  # a word or two at the margin, and text in a column
SECTION = re.compile(r"/\* ---- (.*?) \*/")
GUARDS = re.compile(r"^#(?:ifn?def|endif|else|include|define NC_HOST_H)\b.*$|^extern \"C\" \{$|^\}$", re.M)
HEAD = """.Dd {date}
.Dt NC_HOST 3
.Os Reedbodkin {version}
.Sh NAME
.Nm nc_host
.Nd regions of untrusted 32-bit x86 code, for hosts in C and C++
.Sh LIBRARY
.Ql pkg-config --libs nc_host
names the shared library, and
.Ql nc_host-static
the static one.
.Sh SYNOPSIS
.In nc_host.h
"""


def escaped(line):
    """A line of text, in which nothing is a request of the renderer."""
    line = line.replace("\\", "\\e")
    return "\\&" + line if line[:1] in (".", "'") else line


def told(text):
    """A paragraph, each sentence on lines of its own, without the names of clauses."""
    whole = CLAUSES.sub("", " ".join(text.split()))
    parts = [textwrap.wrap(part, WIDTH, break_on_hyphens=False, break_long_words=False)
             for part in re.split(r"(?<=[.?!])\s+(?=[A-Z(`])", whole)]
    return "".join(escaped(line) + "\n" for lines in parts for line in lines)


class Text:
    """A comment as it becomes text of the page: paragraphs, headings, and a list of terms."""

    def __init__(self):
        self.made, self.lines, self.has_list = "", [], False

    def flush(self):
        self.made, self.lines = self.made + told("\n".join(self.lines)), []

    def end_list(self):
        self.flush()
        self.made += ".El\n" if self.has_list else ""
        self.has_list = False

    def begin(self, words):
        """Begins a paragraph, or what these words begin."""
        self.end_list()
        if self.made and not self.made.endswith(".Pp\n"):
            self.made += ".Pp\n"
        self.made += words

    def item(self, term):
        self.flush()
        self.made += ("" if self.has_list else ".Bl -tag -width Arguments\n") + ".It Sy %s\n" % escaped(term)
        self.has_list = True


def listed(lines):
    """The lines of a comment, with their margins, as text. What is said only of names of clauses is left out."""
    text = Text()
    for line, below in zip(lines, [*lines[1:], ""]):
        item = ITEM.match(line)
        if item:
            text.item(item.group(1))
        elif HEADING.match(line) and below.startswith("  "):
            text.begin(".Sy %s\n.Pp\n" % escaped(line))
            continue
        elif not line.strip() or re.match(r"(Promised|Not promised):|The host must ", line) or text.has_list and not line.startswith("  "):
            text.begin("")
        text.lines.append(line[item.end():] if item else line)
    text.begin("")
    return re.sub(r"\.It Sy \[refused\]\n(?:[^.].*\n)*", "", text.made).removesuffix(".Pp\n")


def inside(comment):
    """The lines of a comment, without its signs."""
    lines = comment[2:-2].strip("\n").split("\n")
    return [re.sub(r"^ ?\*(?: |$)", "", line) if line.startswith(" *") else line.removeprefix("   ").removeprefix(" ") for line in lines]


def literal(code):
    """Declarations as they are, between two requests."""
    code = GUARDS.sub("", code).strip("\n")
    return ".Bd -literal\n%s\n.Ed\n" % "\n".join(map(escaped, code.split("\n"))) if code.strip() else ""


def prototype(call):
    """A call for the synopsis."""
    taken = " ".join('"%s%s%s"' % (kind, "" if kind.endswith("*") else " ", name) for name, kind in call.taken) or "void"
    return ".Ft %s\n.Fn %s %s\n" % (call.returned, call.name, taken)


def faults(text):
    """The list of faults, with their numbers."""
    numbers = Header(text).numbers
    rows = [(name, "".join(re.findall(r'"([^"]*)"', said))) for name, said in MESSAGE.findall(text)]
    items = "".join(".It Dv %s Pq %d\n%s" % (name, numbers[name], told(said)) for name, said in rows)
    return ".Bl -tag -width Ds\n%s.El\n" % items


def blocks(text):
    """The comments that begin a line, each with the code below it up to the next one."""
    found = [comment for comment in COMMENT.finditer(text) if comment.start() == 0 or text[comment.start() - 1] == "\n"]
    ends = [comment.start() for comment in found[1:]] + [len(text)]
    for comment, end in zip(found, ends):
        yield comment.group(), text[comment.end():end]


def described(text):
    """All comments and declarations, in their order."""
    made = ""
    for comment, code in blocks(text):
        section = SECTION.fullmatch(comment)
        call = STATEMENT.match(code) if not section else None
        code = FAULTS.sub("", FIRST_FAULTS.sub("", code))
        if section:
            made += ".Ss %s\n" % section.group(1)
        elif call and call.group(5):
            made += ".Ss %s\n%s" % (call.group(5), listed(inside(comment)))
            code = code[call.end():]
        else:
            made += (".Pp\n" if made else "") + listed(inside(comment))
        made += literal(code)
    return made


def page(text: str, version: str, date: str) -> str:
    """The page of a header."""
    calls = "".join(map(prototype, Header(text).calls.values()))
    made = (HEAD.format(version=version, date=date) + calls + ".Sh DESCRIPTION\n" + described(text)
            + ".Sh RETURN VALUES\nThe faults, and their numbers:\n" + faults(text) + ".Sh SEE ALSO\n.Xr nc_check 1 ,\n.Xr nc_replay 1\n")
    return re.sub(r"(?m)(?<=^)(\.Ss .*\n)\.Pp\n|^\.Pp\n(?=\.Bl )", lambda found: found[1] or "", made)


def pages(text: str, version: str, date: str) -> dict[str, str]:
    """The page of a header, and for each call one that leads to it, by their places in an installation."""
    return {PAGE: page(text, version, date), **{"share/man/man3/%s.3" % name: ".so man3/nc_host.3\n" for name in Header(text).calls}}
