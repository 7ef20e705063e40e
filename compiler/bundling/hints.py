"""What to do about the names that a link lacks, and the headers that a source does: hints for those that a first program often does."""

from __future__ import annotations

import re
from typing import NamedTuple


class Hint(NamedTuple):
    """A pattern of names, what to do, and a pattern of bytes that one of the linked files has to have for it."""

    names: str
    words: str
    has: bytes = b""


LIBC = (r"_?_?(?:assert_fail|errno(?:_location)?|v?[fs]?n?(?:printf|scanf)|f?puts|f?put(?:c|char)|f?getc|getchar"
        r"|f(?:open|close|read|write|flush)|std(?:in|out|err)"
        r"|[mc]alloc|realloc|free|exit|abort|qsort|bsearch|s?rand|ato[if]|str\w+|memchr|time|clock|setjmp|longjmp"
        r"|(?:sin|cos|tan|exp|log|pow|sqrt|floor|ceil|round|fabs|fmod)[fl]?)")

# The first that fits a name counts. {library} is the folder compiler/runtime, installed as share/reedbodkin/runtime.
HINTS = [
    Hint("start", 'C++ calls this function _Z5startv: declare it extern "C"', rb"_Z5start"),
    Hint("start", "a program begins there, and nothing calls main: a C library does (tools/install --musl installs one), or "
         "void start(void) { host_exit(main()); }; -e names another entry", rb"\0main\0"),
    Hint("start", "a program begins there, and _start is the name for other systems: rename it, or give -e _start", rb"\0_start\0"),
    Hint("start", 'a program begins at this function: define it (in C++ extern "C"), or name another entry by -e'),
    Hint("_start", "the entry of other systems: a program for the sandbox begins at start, where -e names nothing else"),
    Hint("main", "called by {library}/start.c or by a file like it: define main, or leave that file out and define start"),
    Hint("mem(cpy|set|move|cmp)", "compilers call this for structs and arrays, also with -ffreestanding: link "
         "{library}/strings.c, or a C library"),
    Hint("__(u?div|u?mod|u?divmod)[dt]i[34]|__(popcount|parity|clz|ctz|ffs|clrsb|bswap|negv|absv)[sd]i2|__u?cmpdi2|__(add|sub|mul)v[sd]i3",
         "64-bit division and the counting of bits: link {library}/division.c"),
    Hint("__(mul|div)[sd]c3|__powi[sd]f2", "complex numbers: link {library}/complex.c and {library}/floating.c"),
    Hint("__(add|sub|mul|div|neg|eq|ne|lt|le|gt|ge|unord)[sd]f[23]|__fix(uns)?[sd]f[sd]i|__float(un)?[sd]i[sd]f|__extendsfdf2|__truncdfsf2",
         "software floating point: link {library}/floating.c"),
    Hint(r"__atomic_\w+", "atomic objects that aren't words: link {library}/atomics.c"),
    Hint(r"__\w+[sdtx][ifc]\d?", "from the compiler's own library, which isn't in bundles: define it, or do without"),
    Hint(r"operator (new|delete).*|_Zn[aw]j.*|_Zd[al]Pv.*",
         "there is no C++ library: define operator new and operator delete, for a heap of your own"),
    Hint("__cxa_pure_virtual", 'in the tables of abstract classes: extern "C" void __cxa_pure_virtual() { __builtin_trap(); }'),
    Hint(r"__cxa_\w+|__gxx_\w+|_Unwind_\w+|__dso_handle|(vtable|typeinfo) for .*__cxxabiv1.*|_ZTVN10__cxxabiv1.*|std::.*|_ZN?K?S[a-z].*",
         "there is no C++ library: tools/install --libstdcxx installs one, or define it"),
    Hint("atexit", "called for the destructors of static objects: define it, to keep what is to be called at the end or to drop it"),
    Hint(LIBC, "there is no C library but one that you link, compiled by nc-cc: tools/install --musl installs one"),
    Hint("-l.*", "the system's libraries aren't in bundles: name an archive of objects that nc-cc has compiled, its folder by -L"),
    Hint(r"host_\w+", "the host says where its trampoline is: -Wl,--defsym=NAME=0x60, for example"),
]

LACKING = re.compile(r"undefined reference to [`'](.+?)'(?:\s|$)|required symbol [`'](.+?)' not defined|cannot find (-l[^\s:]+)"
                     r"|(?:undefined symbol|required symbol not defined): (.+)|unable to find library (-l\S+)")


def hint_of(name: str, files: list[bytes]) -> str | None:
    """The words for a name, or none. `files` are the bytes of what was linked."""
    for hint in HINTS:
        if re.fullmatch(hint.names, name) and (not hint.has or any(re.search(hint.has, content) for content in files)):
            return hint.words
    return None


def hints(said: str, files: list[bytes], library: str) -> list[str]:
    """A line for each hint that what the linker said calls for, with the names that it is about."""
    names: dict[str | None, dict[str, bool]] = {}
    for found in LACKING.finditer(said):
        name = next(filter(None, found.groups()))
        names.setdefault(hint_of(name, files), {})[name] = True
    return [f"{', '.join(about)}: {words.replace('{library}', library)}" for words, about in names.items() if words]


HEADER = re.compile(r"fatal error: '?([^':\n]+)'?(?:: No such file or directory| file not found)")


def header_hints(said: str) -> list[str]:
    """A line for each header that the compiler didn't find."""
    return [f"{name}: the compiler's own headers serve (stddef.h, stdint.h and the like); string.h and others come with a C library: "
            "tools/install --musl installs one, or name the folder of another's by -I" for name in dict.fromkeys(HEADER.findall(said))]
