"""Small projects that make, a configure script, CMake and Meson build for the sandbox by nc-cc, and what nc-cc answers to build systems."""

from __future__ import annotations

import concurrent.futures
import os
import re
import shutil
import subprocess
from typing import NamedTuple

from beneath import VARIABLES, ended
from installed_files import version
from repository import TOP

COMPILE, PACKAGING = os.path.join(TOP, "compiler"), os.path.join(TOP, "packaging")
SOURCES = os.path.join(TOP, "tests", "compiler", "compile", "projects")


class Build(NamedTuple):
    """How `projects` becomes the program `made`, with the host's object. {folder} has that, and the project as `project`."""

    name: str
    needs: list
    command: str
    made: str = "built/program"


CONFIGURE = "/project/configure --host=i686-unknown-elf CC=nc-cc LDFLAGS=-Wl,-e,main PROGRAM_LIBS={folder}/host.o && make"
CMAKE = "cmake -S project -B built -DCMAKE_TOOLCHAIN_FILE={packaging}/nc_toolchain.cmake -DCMAKE_EXE_LINKER_FLAGS={folder}/host.o "
MESON = "meson setup --cross-file {packaging}/meson/nc-cc -Dc_link_args={folder}/host.o built project && ninja -C built"
BUILDS = [
    Build("make", ["make"], "make -C project CC=nc-cc LDLIBS={folder}/host.o", "project/program"),
    Build("make by CC, several at once", ["make"], "CC=nc-cc make -C project -j2 LDLIBS={folder}/host.o", "project/program"),
    Build("make, clang", ["make", "clang"], "NC_CC=clang make -C project CC=nc-cc LDLIBS={folder}/host.o", "project/program"),
    Build("configure", ["make"], "mkdir built && cd built && {folder}" + CONFIGURE),
    Build("configure, clang", ["make", "clang"], "export NC_CC=clang && mkdir built && cd built && {folder}" + CONFIGURE),
    Build("CMake, built by make", ["cmake", "make"], CMAKE + "-G 'Unix Makefiles' && cmake --build built"),
    Build("CMake, built by Ninja", ["cmake", "ninja"], CMAKE + "-G Ninja -DCMAKE_BUILD_TYPE=Release && cmake --build built"),
    Build("CMake, clang", ["cmake", "make", "clang"], "export NC_CC=clang && " + CMAKE + "-G 'Unix Makefiles' && cmake --build built"),
    Build("Meson", ["meson", "ninja"], MESON),
    Build("Meson, clang", ["meson", "ninja", "clang"], "export NC_CC=clang && " + MESON),
]

FILES = {
    "it.c": '#include "it.h"\nint f(int n) { return n + IT; }\n',
    "it.h": "#define IT 7\n",
    "it.S": '#include "it.h"\n\t.globl g\ng:\tmovl $IT, %eax\n\tret\n',
    "start.c": "int f(int), h(int);\nvoid start(void) { f(h(1)); }\n",
    "pads.s": "f:\tmovl -112(%ebp), %eax\n\tcall f\n",
    "own.s": "f:\tnop\n.L1:\tnop\n\tcall f\n\tjmp .L1\n",
    "h.c": "int h(int n) { return n; }\n",
    "ret.s": "\t.bundle_align_mode 5\n\t.globl start\nstart:\tcall f\n\t.p2align 5, 0x90\nf:\tret\n\t.p2align 5, 0x90\n",
    "host.s": "\t.section .host, \"ax\"\n\tret\n",
    "good.s": "\t.globl start\nstart:\tret\n",
    "wrong.c": "int n = nowhere;\n",
    "words": '-O2 "-DNAME=two words" \'it.c\'\n@more',
    "more": "start.c h.c\n-o by\\ words\n",
    "lib/libn.a": "",
}
# A name, a shell's command, its status, and a pattern of all that it prints on standard output.
ANSWERS = [
    ("its version", "nc-cc --version", 0, r"nc-cc \(Reedbodkin\) {version}\ngcc (?s:.*)"),
    ("its version, clang", "NC_CC=clang nc-cc --version", 0, r"nc-cc \(Reedbodkin\) {version}\n(?s:.*)clang version (?s:.*)"),
    ("its version as nc-c++", "nc-c++ --version | sed -n 1p", 0, r"nc-c\+\+ \(Reedbodkin\) {version}\n"),
    ("the rewriter's version", "nc-bundle --version", 0, r"nc-bundle \(Reedbodkin\) {version}\n"),
    ("the target", "nc-cc -dumpmachine", 0, "i686-unknown-elf\n"),
    ("the compiler's version", 'test "$(nc-cc -dumpversion)" = "$(gcc -dumpversion)"', 0, ""),
    ("folders of libraries", "nc-cc -Llib -L other -print-search-dirs", 0, "programs: =\nlibraries: =lib:other\n"),
    ("a library that is there", "nc-cc -Llib -print-file-name=libn.a", 0, "lib/libn.a\n"),
    ("a library of the system", "nc-cc -print-file-name=libm.so", 0, "libm.so\n"),
    ("the compiler's library", "nc-cc -print-libgcc-file-name", 0, "libgcc.a\n"),
    ("the compiler's headers", 'ls "$(nc-cc -print-file-name=include)/stddef.h"', 0, r".*/stddef\.h\n"),
    ("no folders of a system", "nc-cc -print-multiarch -print-sysroot", 0, "\n\n"),
    ("the linker beneath", "NC_LD=ld.bfd nc-cc -print-prog-name=ld", 0, r"ld\.bfd\n"),
    ("the linker's version", "nc-cc -Wl,--version | sed -n 1p", 0, "GNU ld .*\n"),
    ("flags for a compiler alone",
     "gcc $(nc-cc --cflags) -O2 -S it.c -o - | nc-bundle | as --32 -n -o by.o - "
     "&& nc-bundle --long-nops by.o && nc-cc -O2 -c it.c && cmp it.o by.o", 0, ""),
    ("long nops", "nc-cc -c pads.s && objdump -d pads.o | grep -c 'nop'; objdump -d pads.o | grep -cw 90", 0, "3\n1\n"),
    ("no long nops beside others", "nc-cc -c own.s && objdump -d own.o | grep -c 'nop$'", 0, "57\n"),
    ("no long nops without objdump", "mkdir few && for each in gcc as python3 env; do ln -s \"$(command -v $each)\" few; done; "
     "PATH=few:{compile} nc-cc -c pads.s && objdump -d pads.o | grep -c 'nop$'", 0, "24\n"),
    ("long nops of what is no object", "nc-bundle --long-nops it.c 2>&1", 1, "nc-bundle: it\\.c: no long nops: .*\n"),
    ("macros of the target", "echo __i386__ __SSE__ __x86_64__ | nc-cc -E -P -", 0, "1 __SSE__ __x86_64__\n"),
    ("what is preprocessed", "nc-cc -E -P it.c -o it.i && cat it.i", 0, r"int f\(int n\) \{{ return n \+ 7; \}}\n"),
    ("where headers are looked for", "nc-cc -v -E -xc - 2>&1 < /dev/null | grep -c 'search starts here'", 0, "2\n"),
    ("assembly text in bundles", "nc-cc -S it.c && sed -n 1p it.s", 0, "\t\\.bundle_align_mode 5\n"),
    ("what a source depends on", "nc-cc -M it.c", 0, r"it\.o: it\.c it\.h\n"),
    ("the same with -c", "nc-cc -c -MM -MF it.list -MT one it.c && cat it.list", 0, r"one: it\.c it\.h\n"),
    ("a list beside an object", "nc-cc -c -MD it.c && cat it.d", 0, r"it\.o: it\.c it\.h\n"),
    ("a list by its name", "nc-cc -MMD -MP -MFother.d -MQ two -c it.c -o it.o && cat other.d", 0, r"two: it\.c it\.h\nit\.h:\n"),
    ("a list for the preprocessor", "nc-cc -Wp,-MMD,third.d -c it.c && cat third.d", 0, r"it\.o: it\.c it\.h\n"),
    ("a list for assembly text", "nc-cc -MMD -c it.S -o its.o && cat its.d", 0, r"its\.o: it\.S it\.h\n"),
    ("a response file", "nc-cc @words && test -s 'by words'", 0, ""),
    ("a response file that isn't there", "nc-cc -c @nowhere 2>&1", 2, "nc-cc: no source file is named\n"),
    ("errors alone", "nc-cc -fsyntax-only it.c && nc-cc -fsyntax-only wrong.c 2> /dev/null", 1, ""),
    ("commands shown only", "nc-cc '-###' it.c h.c -o never 2>&1 | cut -d ' ' -f 1 | grep -c '^gcc$\\|^as$\\|^ld$'; ls never 2>&1", 2,
     "5\nls: .*\n"),
    ("several at once", "nc-cc -O2 -j3 start.c it.c h.c -o three && nc-cc -O2 -j1 start.c it.c h.c -o one && cmp three one", 0, ""),
    ("objects at once", "nc-cc -c -j start.c h.c && nm start.o h.o | grep -c ' T '", 0, "2\n"),
    ("an error among several", "nc-cc -j2 wrong.c h.c -o never 2>&1 | grep '^nc-cc'; ls never 2>&1", 2,
     "nc-cc: gcc ended with status 1\nls: .*\n"),
    ("a verdict", "nc-cc good.s -o it 2>&1 && ls it", 0, "it\n"),
    ("a verdict: what is refused isn't kept", "nc-cc ret.s -o it 2>&1; echo $?; ls it", 2,
     r"it \(00010000\): refused NotPermitted 00010020\n  00010020 <f>\n(?s:.*)  a return \(ret\): (?s:.*)\n"
     r"nc-cc: it is removed, since nc_check refuses it; --no-check keeps such a file\n1\n"),
    ("a verdict: foreign code that is refused", "as --32 ret.s -o ret.o && nc-cc ret.o -o it 2>&1", 1,
     r"(?s:.*)\nnc-cc: ret\.o was not compiled by nc-cc\nnc-cc: it is removed, (?s:.*)"),
    ("a verdict: foreign code that is accepted", "nc-cc good.s -c && objcopy -R .note.nc-bundle good.o && nc-cc good.o -o it 2>&1",
     0, ""),
    ("a verdict: what has none", "nc-cc --no-check ret.s -o it && nc-cc --keep-returns good.s -o it && nc-cc -r ret.s -o it 2>&1", 0, ""),
    ("a verdict: none for a host", "as --32 host.s -o host.o && nc-cc ret.s host.o -o it 2>&1", 0, ""),
    ("a verdict: none for a device", "nc-cc ret.s -o /dev/null 2>&1", 0, ""),
    ("a verdict: none for another form", "nc-cc ret.s -Wl,--oformat=binary -o it 2> said", 0, ""),
    ("a verdict: none, with a warning", "echo 'echo no >&2; exit 2' > no && NC_CHECK='sh' nc-cc ret.s -o it 2>&1 && ls it", 0,
     r"nc-cc: warning: it has no verdict: (?s:.*)\nit\n"),
    ("a verdict: another program that isn't there", "NC_CHECK=./nowhere nc-cc good.s -o it 2>&1", 2,
     r"nc-cc: \./nowhere: No such file .*\n"),
    ("kept answers", "XDG_CACHE_HOME=$PWD/kept nc-cc -c it.c && find kept/reedbodkin/answers -type f | sed 's:.*/::'", 0, "--version\n"),
    ("kept answers are taken", "export XDG_CACHE_HOME=$PWD/kept; nc-cc -c it.c; "
     "find kept -name --version -exec sh -c 'echo clang > \"$0\"' {} ';' && nc-cc '-###' -c it.c 2>&1 | grep -c -e -Qunused", 0, "1\n"),
    ("kept answers, but none of a script", "printf '#!/bin/sh\nexec gcc \"$@\"\n' > gcc-own && chmod +x gcc-own && "
     "XDG_CACHE_HOME=$PWD/kept NC_CC=./gcc-own nc-cc -c it.c && ls kept/reedbodkin", 0, "modules\n"),
    ("kept answers, but not where others may write", "mkdir -p kept/reedbodkin && chmod 777 kept/reedbodkin && "
     "XDG_CACHE_HOME=$PWD/kept nc-cc -c it.c && ls kept/reedbodkin", 0, ""),
    ("kept answers, but no folder", "env -u XDG_CACHE_HOME HOME=\"$PWD/nowhere\" nc-cc -c it.c && ls nowhere 2>&1", 2, "ls: .*\n"),
    ("C as C++", "nc-c++ -S it.c -o - | grep -c _Z1fi:", 0, "1\n"),
]


def prepare(folder):
    """The host's object, and the files that the answers are about."""
    os.makedirs(os.path.join(folder, "lib"))
    subprocess.run(["as", "--32", "-o", os.path.join(folder, "host.o"), os.path.join(TOP, "examples", "compile", "host.s")], check=True)
    for name, text in FILES.items():
        with open(os.path.join(folder, name), "w", encoding="ascii") as file:
            file.write(text)


def environment():
    kept = {name: value for name, value in os.environ.items() if name not in VARIABLES}
    return {**kept, "PATH": COMPILE + ":" + os.environ["PATH"], "LC_ALL": "C"}


def wrong_build(build, folder, program):
    """What is wrong with a build, or nothing: its program has to be accepted, and to end with status 0."""
    work = os.path.join(folder, f"build-{BUILDS.index(build)}")
    shutil.copytree(SOURCES, os.path.join(work, "project"))
    shutil.copy(os.path.join(folder, "host.o"), work)
    command = build.command.format(folder=work, packaging=PACKAGING)
    status, said = ended(["sh", "-c", command], env=environment(), cwd=work)
    made = os.path.join(work, build.made)
    if status or not os.path.exists(made):
        return f"{build.name}: status {status}, {said!r}"
    subprocess.run(["objcopy", "-O", "binary", "-j", ".text", made, made + ".bin"], check=True)
    if program:
        done = subprocess.run([program, "--raw", made + ".bin"], capture_output=True, text=True)
        if done.returncode:
            return f"{build.name}: {done.stdout}{done.stderr}"
    try:
        status = ended([made])[0]
    except OSError:
        return ""  # this system doesn't run 32-bit programs
    return f"{build.name}: its program ended with status {status}" if status else ""


def wrong_answer(row, folder, program):
    """What is wrong with an answer, or nothing."""
    name, command, status, pattern = row
    work = os.path.join(folder, name)
    kept = {*FILES, "lib"}
    shutil.copytree(folder, work, ignore=lambda place, names: [each for each in names if place == folder and each not in kept])
    done = subprocess.run(["sh", "-c", command.replace("{compile}", COMPILE)], env=environment(), cwd=work, stdin=subprocess.DEVNULL,
                          capture_output=True, text=True)
    right = done.returncode == status and re.fullmatch(pattern.format(version=re.escape(version())), done.stdout)
    return "" if right else f"{name}: status {done.returncode}, {done.stdout!r}, {done.stderr!r}, and not status {status}, {pattern!r}"


def lacking(names):
    return [name for name in names if shutil.which(name) is None]


def try_builds(folder: str, word: str, program: str) -> tuple[int, int]:
    """How many projects and answers were tried whose names have the word, and how many differ. `program` judges, where it is there."""
    prepare(folder)
    builds = [build for build in BUILDS if word in build.name]
    answers = [row for row in ANSWERS if word in row[0]]
    for build in [build for build in builds if lacking(build.needs)]:
        print(f"skipped: a project by {build.name}: {', '.join(lacking(build.needs))} isn't there")
        builds.remove(build)
    if lacking(["gcc"]):
        print("skipped: projects and answers of nc-cc: gcc isn't there")
        return 0, 0
    answers = [row for row in answers if "clang" not in row[0] or not lacking(["clang"])]
    if program is None:
        print("skipped: verdicts on what nc-cc links: nc_check isn't there")
        answers = [row for row in answers if "a verdict" not in row[0]]
    with concurrent.futures.ThreadPoolExecutor(os.cpu_count()) as pool:
        found = [pool.submit(wrong_build, build, folder, program) for build in builds]
        found += [pool.submit(wrong_answer, row, folder, program) for row in answers]
        wrong = [each.result() for each in found if each.result()]
    for said in wrong:
        print(said)
    return len(found), len(wrong)
