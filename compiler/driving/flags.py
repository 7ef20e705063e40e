"""The compiler's flags for the sandbox."""

from __future__ import annotations

from .tools import is_clang

TYPE_CHECKING = False
if TYPE_CHECKING:
    from collections.abc import Iterable

FREESTANDING = "-ffreestanding"
DEFAULTS = ["-fno-pic", "-fno-pie", "-fno-asynchronous-unwind-tables"]
DEFAULTS_GCC = ["-mtune=generic"]  # clang's code is larger with it, by up to a sixth, and no faster
# With the first gcc compares anew at the cases of a switch what it compared once before the jump, whose mask changes the flags.
NO_TABLES, RETRIES_GCC = "-fno-jump-tables", ["-fno-gcse"]
DEFAULTS_CXX = ["-fno-threadsafe-statics"]
ALONE_CXX = ["-fno-exceptions", "-fno-rtti", "-fno-use-cxa-atexit"]  # without libstdc++, which has what these would call
# The languages of gcc besides those of C, which have no headers: D without its runtime, as C needs it, and Fortran.
OTHERS: dict[str, list[str]] = {"d": ["-fno-druntime"], "f77": [], "f95": []}
# Conventions by which a return keeps %ecx, or has a part of the result there. A rewritten return goes by %ecx, so functions have the usual
# convention instead. The attribute that stands for theirs does nothing.
CONVENTIONS = ["no_caller_saved_registers", "preserve_most", "preserve_all", "regcall", "swiftcall"]
NO_CONVENTIONS = [*("-D%s=__unused__" % form for name in CONVENTIONS for form in (name, "__%s__" % name)), "-D__regcall="]
NEEDED = ["-m32", "-march=i686", "-mno-sse", "-mno-mmx", "-mlong-double-64", "-fcf-protection=none", "-fno-stack-protector",
          "-ftls-model=local-exec"]
NEEDED_GCC = ["-mno-80387", "-msoft-float", "-fno-ipa-ra", "-mindirect-branch-register"]
# clang's driver does nothing on -msoft-float; with -mno-80387 clang 14 has no `long double`, and fails where a `double` becomes a
# `long long`. With the two features clang calls by a register that has no argument, and never through memory: see bundling/thunks.py.
FEATURES = ["+retpoline-indirect-calls", "+retpoline-external-thunk"]
NEEDED_CLANG = ["-m80387", "-Xclang", "-msoft-float",
                *(word for name in FEATURES for word in ("-Xclang", "-target-feature", "-Xclang", name)), "-Qunused-arguments"]


def retries() -> list[str]:
    """The flags with which a source is compiled again, one after the other, while nc-bundle can't keep a jump."""
    return [*([] if is_clang() else RETRIES_GCC), NO_TABLES]


def flags_for(language: str, given: Iterable[str] = (), is_hosted: bool = False, has_libstdcxx: bool = False) -> list[str]:
    """The flags for a language: the defaults, those given, which may replace them, and those that can't be otherwise. With a C library the
    code is hosted."""
    own, needed = ([], NEEDED_CLANG) if is_clang() else (DEFAULTS_GCC, NEEDED_GCC)
    if language in OTHERS:
        return [*DEFAULTS, *own, *OTHERS[language], *given, *NEEDED, *needed]
    cxx = [*DEFAULTS_CXX, *([] if has_libstdcxx else ALONE_CXX)] if language.startswith("c++") else []
    return [*[FREESTANDING] * (not is_hosted), *DEFAULTS, *own, *cxx, *given, *NEEDED, *NO_CONVENTIONS, *needed]
