"""What a command line asks for."""

from __future__ import annotations

import os
import re

from .faults import Fault
from .responses import expanded

TYPE_CHECKING = False
if TYPE_CHECKING:
    from collections.abc import Iterable, Iterator
    from typing import Optional, Tuple, TypeVar

    T = TypeVar("T")
    # A file with its language, or a word for the linker with None.
    Input = Tuple[str, Optional[str]]

LANGUAGES = {
    ".c": "c", ".i": "cpp-output", ".cc": "c++", ".cp": "c++", ".cpp": "c++", ".cxx": "c++", ".c++": "c++", ".C": "c++",
    ".ii": "c++-cpp-output", ".s": "assembler", ".S": "assembler-with-cpp", ".sx": "assembler-with-cpp",
    ".d": "d", ".f": "f77", ".f90": "f95", ".f95": "f95", ".f03": "f95", ".f08": "f95",
}
IN_CXX = {"c": "c++", "cpp-output": "c++-cpp-output"}
# What is made: of several of these words, the one with the highest number counts.
STOPS = {"-c": 1, "-S": 2, "-E": 3, "-M": 3, "-MM": 3, "-fsyntax-only": 4}
# Options whose value is the next word: the compiler's, and those that are for the linker.
WITH_VALUE = {"-D", "-U", "-I", "-A", "-B", "-include", "-imacros", "-isystem", "-iquote", "-idirafter", "-iprefix", "-iwithprefix",
              "-iwithprefixbefore", "-isysroot", "--sysroot", "-MF", "-MT", "-MQ", "-MJ", "-Xclang", "-Xpreprocessor", "-mllvm", "--param",
              "-target", "-gcc-toolchain", "-aux-info", "-dumpbase", "-dumpdir", "-dumpbase-ext"}
FOR_LINKER_WITH_VALUE = {"-L", "-l", "-u", "-z"}
FOR_LINKER = ("-L", "-l", "-u", "-z", "-Wl,")
FOR_LINKER_ALONE = {"-r", "-s"}
# What nc-cc itself has to know of the words that are for the linker.
LINKER_OWN = {"-e": "entry", "--entry": "entry", "-T": "script", "--script": "script"}
ONE_ADDRESS, ONE_PROCESSOR = "a chunk is linked for one address, that of --base", "code for the sandbox is 32-bit x86"
NO_RUNTIME = "it calls a library of the compiler's that isn't in bundles"
# Options that can't be kept, and why; the first pattern that fits counts.
REFUSED = [
    (r"-shared|-pie|-static-pie|-qmkshrobj|-dynamiclib", ONE_ADDRESS),
    (r"-m64|-mx32|-m16|-miamcu", ONE_PROCESSOR),
    (r"-flto(=.*)?", "each source is rewritten before it is linked, so it has to be code by then: leave it out"),
    (r"-pg|-p|-finstrument-functions|-fprofile-generate(=.*)?|-fprofile-instr-generate(=.*)?|-fprofile-arcs|--?coverage|-fcoverage-mapping",
     NO_RUNTIME + ": profile the program natively"),
    (r"-fsanitize=.*(address|thread|memory|leak|fuzzer|dataflow).*", NO_RUNTIME + ": try the program natively with it"),
    (r"-fopenmp(=.*)?|-fopenacc|-fgnu-tm|-fsplit-stack|-fcilkplus", NO_RUNTIME),
    (r"-masm=intel", "the rewriter reads AT&T syntax: leave it out"),
    (r"-fuse-ld=.*", "NC_LD names the linker"),
    (r"-fembed-bitcode|-emit-llvm|-emit-ast", "nc-cc makes code, and no other form of a program"),
]
DROPPED = {"-nostdlib", "-nostdlib++", "-nolibc", "-nostartfiles", "-nodefaultlibs", "-static", "-no-pie", "-pthread", "-rdynamic",
           "-march=i686", "-static-libgcc", "-shared-libgcc", "-static-libstdc++", "-fno-lto"}
ALONE = {"-nostdlib", "-nolibc", "-nodefaultlibs"}  # of these, those without the C library
REGION, REGION_END = 0x00010000, 0x04010000
QUESTION = r"--version|--help=.*|--target-help|-dump(?:machine|version|fullversion|specs)|--?print-.*"
# How those begin for which the patterns are tried: most words are none of them, and a pattern takes its time.
MAYBE_REFUSED = ("-shared", "-pie", "-static-pie", "-qmk", "-dynamiclib", "-m64", "-mx32", "-m16", "-miamcu", "-flto", "-pg", "-p",
                 "-finstr", "-fprofile", "-coverage", "--coverage", "-fcoverage", "-fsanitize=", "-fopen", "-fgnu-tm", "-fsplit", "-fcilk",
                 "-masm=", "-fuse-ld=", "-fembed", "-emit")
MAYBE_ASKED = ("--", "-dump", "-print")


class Line:
    """The words of a command line, in parts. With `is_cxx`, files of C are of C++."""

    def __init__(self, words: Iterable[str], is_cxx: bool = False) -> None:
        self.stop: str | None = None
        self.out: str | None = None
        self.language: str | None = None
        self.script: str | None = None
        self.entry, self.jobs = "start", 1
        self.shows = self.is_dry = self.keeps_returns = self.keeps_files = self.is_quiet = self.asks_flags = self.is_alone = False
        self.is_unjudged = self.is_one_thread = False
        self.is_cxx = is_cxx
        self.flags: list[str] = []
        self.for_as: list[str] = []
        self.for_ld: list[str] = []
        self.warnings: list[str] = []
        self.questions: list[str] = []
        self.inputs: list[Input] = []
        rest = iter(list(expanded(words)))
        for word in rest:
            self.take(word, rest)
        self.inputs = list(self.without_own(iter(self.inputs)))

    def value(self, word: str, rest: Iterator[T]) -> T:
        try:
            return next(rest)
        except StopIteration:
            raise Fault(f"{word} wants a value") from None

    def take(self, word: str, rest: Iterator[str]) -> None:
        own = {"-o": "out", "-T": "script", "-e": "entry", "-x": "language"}
        alone = {"-v": ["shows"], "-###": ["shows", "is_dry"], "--keep-returns": ["keeps_returns"], "--cflags": ["asks_flags"],
                 "--no-check": ["is_unjudged"], "--one-thread": ["is_one_thread"]}
        if word in own:
            setattr(self, own[word], self.value(word, rest))
        elif word in alone:
            for name in alone[word]:
                setattr(self, name, True)
        elif word in STOPS:
            self.stop = max(self.stop or word, word, key=STOPS.__getitem__)
        elif word in ("--data", "--base"):
            self.for_ld += ["--defsym", f"nc_{word[2:]}=0x{self.address(word, rest):08x}"]
        elif word.startswith("-save-temps"):
            self.keeps_files = True
        elif word == "-j" or word.startswith("-j") and word[2:].isdecimal():
            self.jobs = int(word[2:] or os.cpu_count() or 1)
        elif word.startswith(("-o", "-x")):
            setattr(self, own[word[:2]], word[2:])
        elif word.startswith("-") and word != "-":
            self.take_flag(word, rest)
        else:
            self.inputs.append((word, self.language_of(word)))

    def take_flag(self, word: str, rest: Iterator[str]) -> None:
        """A flag that a tool behind this one gets."""
        patterns = REFUSED if word.startswith(MAYBE_REFUSED) else []
        reason = next((reason for pattern, reason in patterns if re.fullmatch(pattern, word)), None)
        if reason:
            raise Fault(f"{word}: {reason}")
        if word.startswith(MAYBE_ASKED) and re.fullmatch(QUESTION, word):
            self.questions.append(word)
        elif word.startswith("-Wa,"):
            self.for_as += word[4:].split(",")
        elif word == "-Xassembler":
            self.for_as.append(self.value(word, rest))
        elif word == "-Xlinker":
            self.inputs.append((self.value(word, rest), None))
        elif word in FOR_LINKER_WITH_VALUE:
            self.inputs.append((word + self.value(word, rest), None))
        elif word.startswith("-march=") and word not in DROPPED:
            self.warnings.append(f"{word} is left out: the code is for -march=i686, whose instructions nc_check knows")
        elif word in FOR_LINKER_ALONE:
            self.for_ld.append(word)
        elif word.startswith(FOR_LINKER):
            self.inputs += [(part, None) for part in (word[4:].split(",") if word.startswith("-Wl,") else [word])]
        elif word in WITH_VALUE:
            self.flags += [word, self.value(word, rest)]
        elif word in DROPPED:
            self.is_alone |= word in ALONE
        else:
            self.is_quiet |= word == "-w"
            self.flags.append(word)

    def without_own(self, inputs: Iterator[Input]) -> Iterator[Input]:
        """The inputs without the entry and the script, which -Wl and -Xlinker may name too."""
        for word, language in inputs:
            name, equals, value = word.partition("=")
            if language or name not in LINKER_OWN:
                yield word, language
            else:
                setattr(self, LINKER_OWN[name], value if equals else self.value(word, inputs)[0])

    def address(self, word: str, rest: Iterator[str]) -> int:
        text = self.value(word, rest)
        try:
            number = int(text, 16)
        except ValueError:
            number = -1
        if word == "--base" and (number % 32 or not REGION <= number < REGION_END):
            raise Fault(f"--base wants a multiple of 32 from {REGION:08x} on, below {REGION_END:08x}, in hexadecimal: {text}")
        if not 0 <= number < 1 << 32:
            raise Fault(f"{word} wants a hexadecimal address below 2^32: {text}")
        return number

    def language_of(self, name: str) -> str | None:
        """A file's language, or None where it is for the linker. Standard input is C where it is only preprocessed."""
        if self.language and self.language != "none":
            return self.language
        if name == "-" and STOPS.get(self.stop or "", 0) < STOPS["-E"]:
            raise Fault("- (standard input) wants -x LANGUAGE before it")
        language = "c" if name == "-" else LANGUAGES.get(os.path.splitext(name)[1])
        return IN_CXX.get(language, language) if language and self.is_cxx else language

    def is_judged(self) -> bool:
        """Whether nc_check is to judge what is linked."""
        return not self.is_unjudged and not self.keeps_returns and "-r" not in self.for_ld

    def sources(self) -> list[tuple[str, str]]:
        return [(name, language) for name, language in self.inputs if language]

    def own_language(self) -> str:
        """The language of questions, where no file is named."""
        return self.language if self.language and self.language != "none" else "c++" if self.is_cxx else "c"

    def has_files(self) -> bool:
        return any(language or not name.startswith("-") for name, language in self.inputs)

    def folders(self) -> list[str]:
        """The folders of -L, in order."""
        return [name[2:] for name, language in self.inputs if not language and name.startswith("-L")]
