"""What the scripts share that try the wrappers of a library in C++ and in Rust."""

from __future__ import annotations

import concurrent.futures
import os
import re
import shutil
import subprocess
from collections.abc import Iterable, Iterator
from typing import Callable, NamedTuple

from mutants import Mutant, planted, source_of
from native import INCLUDE
from repository import TOP

CPP = os.path.join(TOP, "bindings", "cpp")
# A way to compile a text.
CompileText = Callable[[str], subprocess.CompletedProcess]
COMPILERS = ("g++", "clang++")
WARN = ["-Wall", "-Wextra", "-Wpedantic", "-Werror", "-pthread", "-I" + INCLUDE, "-I" + CPP]
PLAIN = ["-O1", "-fno-exceptions", "-fno-rtti"]
CHECKED = ["-g1", "-fsanitize=address,undefined", "-fno-sanitize-recover=all"]


class Build(NamedTuple):
    """A program to be made, how it is started, and what it has to print."""
    name: str
    words: list
    line: list
    wanted: str


class Misuse(NamedTuple):
    """A text that mustn't compile, and what the compiler says, as a regular expression. Without its lines that begin with @ it must."""
    name: str
    text: str
    said: str

    def wrong(self) -> str:
        return re.sub("^@", "", self.text, flags=re.M)

    def right(self) -> str:
        return re.sub("^@.*\n?", "", self.text, flags=re.M) if "@" in self.text else ""


def misuses(path: str, frame: str) -> list[Misuse]:
    """Those of a file, within a text that has %s where their lines go."""
    with open(path, encoding="utf-8") as file:
        parts = [part.partition("\n") for part in file.read().strip().split("\n\n") if not part.startswith("#")]
    return [Misuse(first.partition(": ")[0], frame % lines, first.partition(": ")[2]) for first, _, lines in parts]


def known_standards(compiler):
    """The standards that the compiler knows, each by its first name for which that is so."""
    for names in (["c++17"], ["c++20", "c++2a"], ["c++23", "c++2b"]):
        for name in names:
            run = subprocess.run([compiler, "-std=" + name, "-x", "c++", "-fsyntax-only", os.devnull], capture_output=True)
            if run.returncode == 0:
                yield name
                break


def ways(header: str) -> Iterator[tuple[str, str, str, list[str]]]:
    """A compiler, a standard, a way in words, and flags, for each way to build what includes a header. Sanitizers are g++'s alone."""
    for compiler in COMPILERS:
        if shutil.which(compiler) is None:
            print("skipped: %s by %s, which isn't there" % (header, compiler))
            continue
        for standard in known_standards(compiler):
            yield compiler, standard, standard, PLAIN
        for standard in ("c++17", "c++20") if compiler == "g++" else ():
            yield compiler, standard, standard + " with sanitizers", CHECKED


def try_build(build):
    """What went wrong with one build, or nothing."""
    made = subprocess.run(build.words, capture_output=True, text=True)
    if made.returncode:
        return "%s DOESN'T COMPILE\n%s" % (build.name, made.stderr[:2000])
    run = subprocess.run(build.line, capture_output=True, text=True, timeout=60)
    if run.returncode or run.stdout != build.wanted:
        return "%s DIFFERS: status %d\n%s%s" % (build.name, run.returncode, run.stdout[:2000], run.stderr[:2000])
    return ""


def try_builds(builds: list[Build]) -> int:
    """How many builds of sources in C++ went wrong."""
    with concurrent.futures.ThreadPoolExecutor(os.cpu_count()) as pool:
        found = [said for said in pool.map(try_build, builds) if said]
    print("".join(said + "\n" for said in found), end="")
    print("C++: %d programs, %d as expected" % (len(builds), len(builds) - len(found)))
    return len(found)


def try_misuse(compile_text, misuse, by):
    """Whether the misuse compiles, fails for another reason, or isn't what fails. `compile_text` runs a compiler on a text."""
    right, wrong = compile_text(misuse.right()), compile_text(misuse.wrong())
    if right.returncode:
        print("%s: %s refuses also what is right\n%s" % (misuse.name, by, right.stderr))
    elif wrong.returncode == 0 or not re.search(misuse.said, wrong.stderr):
        print("%s, and %s DOESN'T REFUSE it for that\n%s" % (misuse.name, by, wrong.stderr))
    else:
        return False
    return True


def try_misuses(name: str, jobs: list[tuple[CompileText, Misuse, str]]) -> int:
    """How many misuses, each with a way to compile it and that way's name, aren't refused."""
    with concurrent.futures.ThreadPoolExecutor(os.cpu_count()) as pool:
        wrong = sum(pool.map(lambda job: try_misuse(*job), jobs))
    print("%s: %d misuses compiled, %d not refused" % (name, len(jobs), wrong))
    return wrong


def cxx_text(compiler: str, header: str, flags: Iterable[str] = ()) -> CompileText:
    """A way to compile a text behind a header. The flags come first, so they may name a folder with another header of this name."""
    words = [compiler, "-std=c++17", *flags, *WARN, "-x", "c++", "-fsyntax-only", "-"]
    return lambda text: subprocess.run(words, input='#include "%s"\n%s\n' % (header, text), capture_output=True, text=True)


def try_cxx_misuses(header: str, known: list[Misuse], flags: Iterable[str] = ()) -> int:
    """How many misuses of a header aren't refused by each compiler."""
    ways = [(compiler, cxx_text(compiler, header, flags)) for compiler in filter(shutil.which, COMPILERS)]
    return try_misuses(header, [(way, misuse, compiler) for compiler, way in ways for misuse in known])


def plant(mutant: Mutant, tree: str, folder: str) -> str:
    """A copy of a tree with this mutant of one of its files."""
    made = os.path.join(folder, "-".join(["mutant", os.path.basename(tree), mutant.name]))
    shutil.copytree(tree, made, ignore=shutil.ignore_patterns("target", "mutants"))
    path = os.path.join(made, os.path.relpath(source_of(mutant), tree))
    wrong = planted(mutant, path)
    with open(path, "w", encoding="utf-8") as file:
        file.write(wrong)
    return made


def said_of_misuse(compile_text: CompileText, known: Iterable[Misuse], name: str) -> str:
    """The name of a misuse if it compiles, and otherwise what the compiler says."""
    run = compile_text({misuse.name: misuse for misuse in known}[name].wrong())
    return run.stderr if run.returncode else name


def try_mutants(name: str, known: list[Mutant], said_of: Callable[[Mutant], str]) -> int:
    """How many mutants aren't found. `said_of` plants one, and returns what its test then says, in which the mutant's line has to be."""
    with concurrent.futures.ThreadPoolExecutor(os.cpu_count()) as pool:
        missed = [(mutant, said) for mutant, said in zip(known, pool.map(said_of, known)) if mutant.line not in said]
    for mutant, said in missed:
        print("%s with the mutant %s: NOT FOUND by %s\n%s" % (name, mutant.name, mutant.test, said[:2000]))
    print("%s: %d mutants, %d not found" % (name, len(known), len(missed)))
    return len(missed)


def try_reach(of: str, to: str, pattern: str, what: str) -> int:
    """How many calls of a header in C the wrapper doesn't make. The pattern finds them in the header, `what` says which they are."""
    texts = []
    for path in (of, to):
        with open(path, encoding="utf-8") as file:
            texts.append(re.sub(r"/\*.*?\*/", "", file.read(), flags=re.S))
    calls = re.findall(pattern, texts[0], re.M)
    missing = [call for call in calls if not re.search(r"\b%s\b" % call, texts[1])]
    print("%s: %d %s, %d left out%s" % (os.path.basename(to), len(calls), what, len(missing), "".join(" " + call for call in missing)))
    return len(missing) + (not calls)


def library_folder(folder: str, name: str, archives: list[str]) -> str:
    """A folder with these archives, and a file for pkg-config that names them by the name of the library."""
    made = os.path.join(folder, "lib")
    os.mkdir(made)
    for archive in archives:
        shutil.copy(archive, made)
    libs = " ".join("-l" + os.path.basename(archive)[len("lib"):-len(".a")] for archive in archives)
    with open(os.path.join(made, name + ".pc"), "w", encoding="utf-8") as file:
        file.write("Name: %s\nDescription: %s as it is built\nVersion: 0.1.0\nLibs: -L%s %s\n" % (name, name, made, libs))
    return made


def cargo(crate: str, folder: str, words: list[str], **names: str | None) -> subprocess.CompletedProcess:
    """A run of cargo in a crate, with a folder for what it builds, and with these variables set or, by None, not set."""
    env = dict(os.environ, CARGO_TARGET_DIR=os.path.join(folder, "target"), RUSTFLAGS="-D warnings")
    env.update({name: value for name, value in names.items() if value})
    for name in (name for name, value in names.items() if value is None):
        env.pop(name, None)
    line = ["cargo"] + words[:1] + ["--offline", "--locked", "--quiet"] + words[1:]
    return subprocess.run(line, cwd=crate, env=env, capture_output=True, text=True)


def try_rust_tests(crate: str, folder: str, **names: str | None) -> bool:
    """Whether the tests of a crate fail, or there are none. It tells what they have compared, and what they have skipped."""
    run = cargo(crate, folder, ["test", "--", "--show-output"], **names)
    for line in sorted(set(re.findall(r"^(?:skipped|compared): .*", run.stdout, re.M))):
        print(line)
    passed = sum(map(int, re.findall(r"^test result: ok\. (\d+) passed", run.stdout, re.M)))
    print("Rust, tests: %s" % ("%d passed" % passed if run.returncode == 0 else "FAILED\n" + run.stdout + run.stderr))
    return run.returncode != 0 or passed == 0


def try_rust_example(crate: str, folder: str, line: list[str], wanted: str, how: str, **names: str | None) -> bool:
    """Whether an example, by its name and its arguments, prints something else."""
    run = cargo(crate, folder, ["run", "--example"] + line, **names)
    same = run.returncode == 0 and run.stdout == wanted
    print("Rust, %s.rs, %s: %s" % (line[0], how, "as expected" if same else "DIFFERS\n" + run.stdout + run.stderr))
    return not same


def try_rust_by_pkg_config(crate: str, folder: str, line: list[str], wanted: str, where: str, variable: str) -> bool:
    """Whether an example prints something else where pkg-config finds the library in a folder, and the variable isn't set that names it."""
    if shutil.which("pkg-config") is None:
        print("skipped: %s.rs by pkg-config, which isn't there" % line[0])
        return False
    return try_rust_example(crate, folder, line, wanted, "by pkg-config", PKG_CONFIG_PATH=where, **{variable: None})
