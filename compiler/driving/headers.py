"""Headers of the compiler that serve in the sandbox, beside a C library's."""

from __future__ import annotations

import os

from .caching import kept
from .places import CXX
from .tools import asked, tool

# The folders of libstdc++'s headers, in order.
CXX_PARTS = ("include", "include/i686-linux-musl", "include/backward")


def said(*words: str) -> str:
    return kept(tool("CC"), " ".join(words), lambda: asked([*tool("CC"), *words]))


def own_headers() -> str:
    """The folder of the compiler's own headers. What is kept of a compiler that is gone doesn't count."""
    place = said("-print-file-name=include").strip()
    return place if os.path.isdir(place) else asked([*tool("CC"), "-print-file-name=include"]).strip()


def of_system() -> list[str]:
    """The folders with headers of the system's C++ library, in the compiler's order."""
    places = [line[1:] for line in said("-E", "-v", "-x", "c++", "-").splitlines() if line.startswith(" /") and "c++" in line]
    return [place for place in places if " " not in place]


def cxx_flags(library: str, has_libstdcxx: bool) -> list[str]:
    """The flags that find the headers of C++: those of libstdc++ beside the C library, or else the system's."""
    if has_libstdcxx:
        places = [os.path.join(library, CXX, part) for part in CXX_PARTS]
    else:
        places = [os.path.join(library, "templates"), *of_system()]
    return [word for place in places for word in ("-isystem", place)]
