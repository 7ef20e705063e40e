"""How the tools are run for a command line.

What only some runs need is imported where it is needed, since a start takes as long as a small source.
"""

import os
import sys

from .caching import on_path
from .faults import Fault
from .flags import NO_TABLES, OTHERS, flags_for, retries
from .line import Line
from .places import HOST, Folder, Places
from .responses import shortened
from .tools import ABOVE, LED_BACK, run, tool


def load_rewriter():
    """Imports what a compiled source needs next."""
    from bundling import padding, rewriting  # noqa: F401


class Driver:
    """How the tools are run for a command line."""

    def __init__(self, line, folder, places):
        self.line, self.folder, self.places = line, folder, places

    def temporary(self, name, number, suffix):
        """A file for what is made of a source. The number tells sources of one name apart."""
        stem = os.path.splitext(os.path.basename(name))[0]
        return self.folder.path(f"{stem}.{number}{suffix}")

    def show(self, words, reads=None, writes=None):
        """A command as a shell takes it, with the files of its standard input and output."""
        if self.line.shows:
            import shlex

            files = [mark + shlex.quote(name) for mark, name in (("< ", reads), ("> ", writes)) if name not in (None, "-")]
            print(shlex.join(words), *files, file=sys.stderr, flush=True)

    def warn(self, what):
        if not self.line.is_quiet:
            print(f"nc-cc: warning: {what}", file=sys.stderr)

    def done(self, words, caught=(), meanwhile=lambda: None):
        """The status of a command that has ended, or that -### only shows, and what is caught of its output."""
        self.show(words)
        return (0, "") if self.line.is_dry else run(words, caught, meanwhile)

    def run(self, words):
        status, _ = self.done(words)
        if status:
            raise Fault(f"{words[0]} ended with status {status}", 1)

    def compile(self, words, meanwhile=lambda: None):
        """Compiles. What fails is done once more, to see which headers are missing; its messages have been on the terminal already."""
        status, _ = self.done(words, meanwhile=meanwhile)
        if status:
            from bundling.hints import header_hints

            os.environ["LC_ALL"] = "C"
            _, said = run(words, caught=(1, 2))
            raise Fault("\nnc-cc: ".join([f"{words[0]} ended with status {status}", *header_hints(said)]), 1)

    def compiling(self, language):
        """The command that compiles, up to its own words for one file."""
        return [*tool("CC"), *self.all_flags(language)]

    def all_flags(self, language):
        """The compiler's flags for a language, with those for headers."""
        is_hosted = self.has_library()
        headers = [] if language in OTHERS else self.headers(language) if is_hosted else self.places.guest
        return flags_for(language, [*self.line.flags, *headers], is_hosted, is_hosted and self.places.has_libstdcxx)

    def headers(self, language):
        """The flags for headers: those of the C library, with the compiler's own, but none of the system's."""
        from .headers import cxx_flags, own_headers

        flags, libc = self.line.flags, self.places.libc
        if "-nostdinc" in flags:
            return self.places.guest
        is_cxx = language.startswith("c++") and "-nostdinc++" not in flags
        own = cxx_flags(libc, self.places.has_libstdcxx) if is_cxx else []
        return ["-nostdinc", *own, "-isystem", os.path.join(libc, "include"), "-idirafter", own_headers(), *self.places.guest]

    def compiled(self, name, language, number, last=()):
        """The file with the assembly text of a source, before it is rewritten. `last` are further flags, which count more than others."""
        if language == "assembler":
            return name
        text = self.temporary(name, number, ".s")
        stop = "-E" if language == "assembler-with-cpp" else "-S"
        self.compile([*self.compiling(language), *last, stop, *self.dependencies(name), "-x", language, name, "-o", text],
                     load_rewriter)
        return text

    def dependencies(self, name):
        """Where -MD and -MMD write, who would take the temporary file's name otherwise."""
        if not {"-MD", "-MMD"} & set(self.line.flags):
            return []
        made = self.output(name, ".o") if self.line.stop else self.line.out or "a.out"
        words = [] if any(word.startswith(("-MT", "-MQ")) for word in self.line.flags) else ["-MT", made]
        return words + ([] if any(word.startswith("-MF") for word in self.line.flags) else ["-MF", os.path.splitext(made)[0] + ".d"])

    def read(self, name):
        try:
            with open(0 if name == "-" else name, encoding="latin-1") as file:
                return file.read()
        except OSError as fault:
            raise Fault(f"{name}: {fault.strerror}", 1) from None

    def bundle(self, name, language, out, number):
        """Writes the text in bundles. One that is in bundles already stays as it is."""
        source = self.compiled(name, language, number)
        from bundling.notes import noted
        from bundling.statements import Refusal

        text = "" if self.line.is_dry else self.read(source)
        if language == "assembler" and text.lstrip().startswith(".bundle_align_mode 5"):
            self.show(["cat"], source, out)
            return self.write(noted(text), out)
        try:
            text = self.in_bundles(text, name, language, number)
        except Refusal as refusal:
            raise Fault(f"{name}: assembly text, {refusal}", 1) from None
        options = [*["--keep-returns"] * self.line.keeps_returns, *["--one-thread"] * self.has_one_thread()]
        self.show([self.places.rewriter, *options], source, out)
        if not self.line.is_dry:
            self.write(text, out)

    def in_bundles(self, text, name, language, number):
        """The text that is rewritten. Where a jump can't be kept, the source is compiled again, at last without tables for jumps."""
        from bundling.statements import JumpRefusal

        for flag in [] if language.startswith("assembler") or NO_TABLES in self.line.flags else retries():
            try:
                return self.rewritten(text)
            except JumpRefusal:
                text = self.read(self.compiled(name, language, number, [flag]))
        return self.rewritten(text)

    def rewritten(self, text):
        from bundling.rewriting import rewritten

        return rewritten(text, self.line.keeps_returns, self.has_one_thread())

    def has_one_thread(self):
        """Whether a program has one thread: one with the C library has, which knows no others."""
        return self.line.is_one_thread or self.has_library()

    def assembled(self, name, language, out, number):
        source = self.temporary(name, number, ".bundled.s")
        self.bundle(name, language, source, number)
        self.run([*tool("AS"), "--32", "-n", *self.line.for_as, "-o", out, source])
        self.lengthen(out)

    def lengthen(self, name):
        """Makes an object's padding of long nops, by objdump where it is there."""
        if on_path("objdump"):
            from bundling.padding import lengthen

            self.show([self.places.rewriter, "--long-nops", name])
            fault = "" if self.line.is_dry else lengthen(name)
            if fault:
                self.warn(f"{name} has no long nops: {fault}")

    def write(self, text, out):
        try:
            with open(1 if out == "-" else out, "w", encoding="latin-1") as file:
                file.write(text)
        except OSError as fault:
            raise Fault(f"{out}: {fault.strerror}", 1) from None

    def output(self, name, suffix):
        return self.line.out or os.path.splitext(os.path.basename(name))[0] + suffix

    def one(self, name, language, out, number):
        """What is made of one source."""
        if self.line.stop in (None, "-c"):
            self.assembled(name, language, out, number)
        elif self.line.stop == "-S":
            self.bundle(name, language, out, number)
        else:
            words = ["-v"] if self.line.shows else []  # also the compiler then says where it looks for headers
            words += ["-o", self.line.out] if self.line.out and self.line.stop != "-fsyntax-only" else []
            self.compile([*self.compiling(language), self.line.stop, "-x", language, name, *words])

    def all(self, sources):
        """Does this for each of the sources, as many at once as the line says. The first one that fails counts."""
        work = [(*source, number) for number, source in enumerate(sources, 1)]
        if self.line.jobs < 2 or len(work) < 2:
            for each in work:
                self.one(*each)
            return
        import concurrent.futures
        import multiprocessing

        self.temporary("", 0, "")  # the folder for all of them
        with concurrent.futures.ProcessPoolExecutor(min(self.line.jobs, len(work)), multiprocessing.get_context("fork")) as pool:
            for made in [pool.submit(self.one, *each) for each in work]:
                made.result()

    def each(self):
        """-c, -S, -E and the like: a file for each source."""
        sources = self.line.sources()
        if not sources:
            raise Fault("no source file is named")
        if self.line.out and len(sources) > 1:
            raise Fault("-o names one file, but with -c, -S or -E each source has a file of its own")
        suffix = ".s" if self.line.stop == "-S" else ".o"
        self.all([(name, language, self.output(name, suffix)) for name, language in sources])

    def link(self):
        from bundling.notes import without_note

        if not self.line.has_files():
            raise Fault("no file is named; --help says what there is")
        numbers = iter(range(1, len(self.line.inputs) + 1))
        words = [self.temporary(name, next(numbers), ".o") if language else name for name, language in self.line.inputs]
        self.all([(*source, out) for source, out in zip(self.line.inputs, words) if source[1]])
        link_map, out = self.folder.path("link.map"), self.line.out or "a.out"
        self.run_linker(["-m", "elf_i386", "-z", "noexecstack", *self.line.for_ld, *self.layout(), "-Map=" + link_map,
                         "-o", out, *words, *self.library()], [name for name in words if not name.startswith("-")])
        self.judge(out, without_note(self.read(link_map)) if os.path.exists(link_map) else [])

    def judge(self, out, foreign):
        """Has nc_check judge what is linked. `foreign` are the objects with code that nc-cc didn't compile."""
        from bundling.padding import section_names

        from .judging import REFUSED, is_linked, judge_beside, verdict

        program = judge_beside(self.places.here) if self.line.is_judged() else None
        status, said = None, ""
        if program:
            self.show([program, out], writes=os.devnull)
            if is_linked(out) and not self.line.is_dry and HOST not in section_names(out):
                status, said = verdict(program, out)
        if status == REFUSED:
            self.refuse(out, said, foreign)
        if status != 0:
            for name in foreign:
                self.warn(f"{name} was not compiled by nc-cc: nc_check may refuse it")
        if status:
            self.warn(f"{out} has no verdict: {said.strip()}")

    @staticmethod
    def refuse(out, report, foreign):
        """Removes a file that is refused, so that no build takes it for good."""
        sys.stderr.write(report)
        os.remove(out)
        causes = [f"{name} was not compiled by nc-cc" for name in foreign]
        raise Fault("\nnc-cc: ".join([*causes, f"{out} is removed, since nc_check refuses it; --no-check keeps such a file"]), 1)

    def layout(self):
        """The entry and the script; it sees only what is defined before it. Objects joined to another one (-r) keep their sections."""
        if "-r" in self.line.for_ld:
            return []
        script = self.line.script or self.places.script()
        return ["-e", self.line.entry, "--require-defined=" + self.line.entry, "-T", script]

    def has_library(self):
        """Whether there is a C library, and the line wants it."""
        return self.places.has_libc and not self.line.is_alone

    def library(self):
        """The libraries for C++ and C. That for C has `start` too, for programs that define only main."""
        if not self.has_library() or "-r" in self.line.for_ld:
            return []
        libc, names = self.places.libc, [*["libstdc++.a"] * self.places.has_libstdcxx, "libc.a"]
        return ["-L" + libc, *(os.path.join(libc, name) for name in names)]

    def run_linker(self, words, files):
        """Links; what ld says is followed by what can be done about the names that it lacks."""
        status, said = self.done([*tool("LD"), *shortened(words, self.folder.path("link.words"))], caught=(2,))
        sys.stderr.write(said)
        if status:
            from bundling.hints import hints

            contents = [self.read(name).encode("latin-1") for name in files if os.path.exists(name)]
            advice = hints(said, contents, self.places.runtime())
            raise Fault("\nnc-cc: ".join([f"{tool('LD')[0]} ended with status {status}", *advice]), 1)

    def ask(self):
        """Answers what the line asks, or has the compiler answer."""
        from bundling.releases import release

        from .questions import answer

        for word in self.line.questions:
            said = answer(word, [*self.line.folders(), *[self.places.libc] * self.places.has_libc])
            if word == "--version":
                print(f"{own_name()} (Reedbodkin) {release()}", flush=True)
            if said is None:
                self.run([*self.compiling(self.line.own_language()), word])
            else:
                print(said, flush=True)

    def make(self):
        """What the line asks for."""
        line = self.line
        if line.asks_flags:
            import shlex

            print(shlex.join(self.all_flags(line.own_language())))
        elif line.has_files() and line.stop:
            self.each()
        elif line.has_files():
            self.link()
        elif line.questions:
            self.ask()
        elif line.stop:
            self.each()
        elif line.inputs:
            self.run([*tool("LD"), "-m", "elf_i386", *[name for name, _ in line.inputs]])  # such as -Wl,--version
        elif line.shows:
            self.run([*self.compiling(line.own_language()), "-v"])
        else:
            self.link()


def own_name():
    """The name by which the driver was called. As nc-c++ it takes files of C for C++."""
    return "nc-c++" if os.path.basename(sys.argv[0]) == "nc-c++" else "nc-cc"


def main(here: str, usage: str) -> int:
    """Does what the command line asks for. `here` is the folder of nc-cc."""
    words = sys.argv[1:]
    if words in (["-h"], ["--help"]):
        print(usage, end="")
        return 0
    try:
        if ABOVE in os.environ:
            raise Fault(LED_BACK)
        os.environ[ABOVE] = "1"
        line = Line(words, own_name() == "nc-c++")
        with Folder((line.out or "a.out") + ".temps" if line.keeps_files and not line.is_dry else None) as folder:
            driver = Driver(line, folder, Places(here))
            for what in line.warnings:
                driver.warn(what)
            driver.make()
    except Fault as fault:
        print(f"nc-cc: {fault}", file=sys.stderr)
        return fault.status
    return 0
