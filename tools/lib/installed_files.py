"""What an installation consists of: each path below PREFIX, with its file or its link."""

from __future__ import annotations

import os
import re
import stat
import sys
from string import Template

from cxx_library import cxx_library
from explaining import all_definitions
from installer import Entry, File, Link
from manual import pages
from products import DEFAULT, FASTER, PROCESSORS, boxes, libraries, program
from repository import TOP

sys.path.append(os.path.join(TOP, "compiler", "runtime"))
from runtime import runtime

PROGRAMS = ["nc_check", "nc_replay"]
REWRITER, DRIVER, DEBUGGER = "compiler/nc-bundle", "compiler/nc-cc", "debugger/nc-gdb"
SHARE, DOC = "share/reedbodkin/", "share/doc/reedbodkin/"
RUNTIME = SHARE + "runtime/"

# What has a manual page and completions, and the crates for Rust.
COMMANDS = ["nc-bundle", "nc-cc", "nc_check", "nc-gdb", "nc_replay", "nc-run", "nc-rustc"]
CRATES = ["nc_sandbox", "nc_host"]

# What a C library for the sandbox is made of, and what nc-cc's hints name.
RUNTIME_FILES = """atomics.c complex.c division.c floating.c heap.h libstdcxx.py making.py math.c runtime.py setup.h start.c
    strings.c""".split()

# What stands where it is installed as it does in the repository.
PAGES_AND_EXAMPLES = [
    "README.md", "SECURITY.md", "CHANGELOG.md", "CONTRIBUTING.md", "VERSION", "docs", "docs/charts",
    "examples/check", "examples/host", "examples/sandbox", "examples/forth", "examples/run", "examples/rust", "examples/languages",
    "examples/boxes", "examples/boxes/calculator",
    "examples/boxes/costs", "examples/boxes/document", "examples/boxes/picture", "examples/boxes/plugins",
    *["examples/boxes/hosts" + part for part in ("", "/java", "/node", "/perl", "/postgres", "/prefork", "/python")],
    "examples/compile/sample.c", "examples/good.bin", "examples/bad.bin",
    *["examples/ports/" + name for name in ("build", "host.s", "load.c", "trials")],
    "examples/first.script", "examples/first.replies", "examples/vet.lines", "examples/vet.replies",
]

# What nc-cc reads.
DRIVER_FILES = [
    ("sandbox/guest/nc_run.h", SHARE + "guest/nc_run.h"),
    ("compiler/runtime/chunk.ld", SHARE + "chunk.ld"),
    ("compiler/bundling", SHARE + "bundling"),
    ("compiler/driving", SHARE + "driving"),
]

# Files of the repository, and where they go. A folder's files go below the second path. Of two for one place the later one goes there.
FILES = [
    *DRIVER_FILES,
    ("include/nc_host.h", "include/nc_host.h"),
    ("bindings/cpp/nc_host.hpp", "include/nc_host.hpp"),
    ("sandbox/nc_sandbox.h", "include/nc_sandbox.h"),
    ("bindings/cpp/nc_sandbox.hpp", "include/nc_sandbox.hpp"),
    ("bindings/cpp/nc_sandbox_words.hpp", "include/nc_sandbox_words.hpp"),
    *[("bindings/rust/" + name + part, SHARE + "rust/" + name + part) for name in CRATES for part in ("", "/src", "/examples")],
    *[("bindings/rust/linking.rs", SHARE + "rust/" + name + "/build.rs") for name in CRATES],
    ("compiler/rust", SHARE + "rust"),
    ("debugger/debugging", SHARE + "debugging"),
    ("packaging/nc_toolchain.cmake", "lib/cmake/nc_host/nc_toolchain.cmake"),
    ("packaging/meson/nc-cc", "share/meson/cross/nc-cc"),
    ("packaging/meson/nc-run", "share/meson/cross/nc-run"),
    *[("docs/man/" + name + ".1", "share/man/man1/" + name + ".1") for name in COMMANDS],
    *[("packaging/completions/" + name + ".bash", "share/bash-completion/completions/" + name) for name in COMMANDS],
    *[("packaging/completions/_" + name, "share/zsh/site-functions/_" + name) for name in COMMANDS],
    ("packaging/NOTICE", DOC + "NOTICE"),
    *[(path, DOC + path) for path in PAGES_AND_EXAMPLES],
    *[("compiler/runtime/" + name, RUNTIME + name) for name in RUNTIME_FILES],
    *[("compiler/runtime/" + name, RUNTIME + name) for name in ("code", "musl", "musl/bits", "run", "templates/bits", "unwinder")],
]

# Folders and files of the repository that pages name and that aren't installed, and what stands before their names on an installed page.
ELSEWHERE = [".ci/", "bench/", "bindings/", "compiler/", "crates/", "examples/compile/build", "examples/compile/host.s", "examples/mapped/",
             "examples/ports/generators", "examples/ports/opus.c", "examples/ports/webp", "packaging/", "sandbox/", "tests/", "tools/"]
ONLY_THERE = "Named on this page, and only in the source repository: "

# Templates of packaging/, and where they go.
TEMPLATES = [
    ("nc_host.pc.in", "lib/pkgconfig/nc_host.pc"),
    ("nc_host-static.pc.in", "lib/pkgconfig/nc_host-static.pc"),
    ("nc_hostConfig.cmake.in", "lib/cmake/nc_host/nc_hostConfig.cmake"),
    ("ConfigVersion.cmake.in", "lib/cmake/nc_host/nc_hostConfigVersion.cmake"),
    ("nc_sandbox.pc.in", "lib/pkgconfig/nc_sandbox.pc"),
    ("nc_sandboxConfig.cmake.in", "lib/cmake/nc_sandbox/nc_sandboxConfig.cmake"),
    ("ConfigVersion.cmake.in", "lib/cmake/nc_sandbox/nc_sandboxConfigVersion.cmake"),
]


class Words(Template):
    """Words such as @VERSION@ in a text."""

    pattern = r"@(?:(?P<escaped>@)|(?P<named>[A-Z]+)@|(?P<braced>(?!))|(?P<invalid>(?!)))"  # type: ignore[assignment] # compiled later


def read(path: str) -> bytes:
    with open(os.path.join(TOP, path), "rb") as file:
        return file.read()


def version() -> str:
    """The version, as it stands in the file VERSION."""
    text = read("VERSION").decode()
    if not re.fullmatch(r"\d+\.\d+\.\d+\n", text):
        raise ValueError("VERSION isn't a line such as 1.2.3")
    return text.strip()


def filled(template: str, **more: str) -> str:
    """A template of packaging/, with the version and other words put in."""
    number = version()
    major, minor, _ = number.split(".")
    return Words(read("packaging/" + template).decode()).substitute(VERSION=number, MAJOR=major, MINOR=minor, **more)


def copied(path, to):
    """A file of the repository, or each file of a folder."""
    place = os.path.join(TOP, path)
    if os.path.isdir(place):
        names = [name for name in sorted(os.listdir(place)) if os.path.isfile(os.path.join(place, name))]
        return {key: file for name in names for key, file in copied(path + "/" + name, to + "/" + name).items()}
    return {to: File(read(path), 0o755 if os.stat(place).st_mode & stat.S_IXUSR else 0o644)}


def without_links(text, place, made):
    """A page without its links to files that aren't installed: their words stay."""
    def kept(link):
        to = os.path.normpath(os.path.join(os.path.dirname(place), link[2]))
        return link[0] if "://" in link[2] or any(path == to or path.startswith(to + "/") for path in made) else link[1]
    return re.sub(r"\[([^\]\n]+)\]\(([^)#\s]+)(?:#[^)\s]*)?\)", kept, text)


def names(text, path):
    """Whether a page names this file, or this folder (whose path ends with a slash) or something below it."""
    end = "[/`]" if path.endswith("/") else r"(?![\w.-])"
    return re.search(r"(?<![\w/.-])" + re.escape(path.rstrip("/")) + end, text) is not None


def with_note(text):
    """A page with a line below its title about what it names and isn't installed."""
    named = ", ".join("`%s`" % path for path in ELSEWHERE if names(text, path))
    title, rest = text.split("\n", 1)
    return "%s\n\n%s%s.\n%s" % (title, ONLY_THERE, named, rest) if named else text


def as_installed(text, place, made):
    """A page as it is installed: without links to what isn't, and with the names that files have where they are installed."""
    text = without_links(text, place, made)
    for path, to in FILES:
        there = to[len(DOC):] if to.startswith(DOC) else to
        if there != path:
            text = re.sub(re.escape(path) + r"(?![\w-])", there, text)
    return with_note(text)


def driver() -> dict[str, Entry]:
    """nc-cc and all that it needs."""
    made: dict[str, Entry] = {}
    for path, to in DRIVER_FILES:
        made.update(copied(path, to))
    made["bin/nc-bundle"] = File(read(REWRITER), 0o755)
    made["bin/nc-cc"] = File(read(DRIVER), 0o755)
    made["bin/nc-c++"] = Link("nc-cc")
    made[SHARE + "VERSION"] = File(read("VERSION"), 0o644)
    return made


def c_library(sources: str | None, cxx_sources: str | None = None) -> dict[str, Entry]:
    """The libraries that nc-cc takes: that for C, made of musl's sources, and libstdc++ of gcc's."""
    if sources is None:
        return {}
    files = runtime(sources, has_libstdcxx=cxx_sources is not None)
    made: dict[str, Entry] = {SHARE + "libc/" + name: File(content, 0o644) for name, content in files.items()}
    if cxx_sources is not None:
        made.update({SHARE + "libc/" + name: entry for name, entry in cxx_library(cxx_sources, {**driver(), **made}).items()})
    return made


def manual_pages():
    """The manual page of the library for C, which has the date of that of nc_check."""
    date = re.search(r"^\.Dd (.*)$", read("docs/man/nc_check.1").decode(), re.M)[1]
    return {place: File(text.encode(), 0o644) for place, text in pages(read("include/nc_host.h").decode(), version(), date).items()}


def tree(cpu: str = DEFAULT, anew: bool = False) -> dict[str, Entry]:
    """All of it, for a processor; what is built already isn't built again, if it isn't to be made anew."""
    number = version()
    soname = "libnc_host.so." + number.split(".")[0]
    made = {}
    for path, to in FILES:
        made.update(copied(path, to))
    made[DOC + "docs/DEFINITIONS-ALL.md"] = File(all_definitions().encode(), 0o644)
    for path in [path for path in made if path.endswith(".md")]:
        made[path] = File(as_installed(made[path].content.decode(), path, made).encode(), made[path].mode)
    for template, to in TEMPLATES:
        made[to] = File(filled(template).encode(), 0o644)
    made.update(manual_pages())
    made.update(driver())
    made["bin/nc-rustc"] = File(read("compiler/nc-rustc"), 0o755)
    made["bin/nc-gdb"] = File(read(DEBUGGER), 0o755)
    for name in PROGRAMS:
        made["bin/" + name] = File(program(name, cpu, anew), 0o755)
    static, shared = libraries(cpu, soname, anew)
    made["lib/libnc_host.a"] = File(static, 0o644)
    made["lib/libnc_host.so." + number] = File(shared, 0o755)
    made["lib/" + soname] = Link("libnc_host.so." + number)
    made["lib/libnc_host.so"] = Link(soname)
    if PROCESSORS.index(cpu) < PROCESSORS.index(FASTER):
        made["lib/glibc-hwcaps/%s/%s" % (FASTER, soname)] = File(libraries(FASTER, soname, anew)[1], 0o755)
    sandbox, runner = boxes(cpu, static)
    made["lib/libnc_sandbox.a"] = File(sandbox, 0o644)
    made["bin/nc-run"] = File(runner, 0o755)
    made[SHARE + "processor"] = File((cpu + "\n").encode(), 0o644)
    return made
