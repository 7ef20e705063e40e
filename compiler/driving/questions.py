"""Options that ask something, with no file named: what the driver answers by itself, and what it hands to the compiler."""

from __future__ import annotations

import os

from .tools import tool

TARGET = "i686-unknown-elf"
CXX = {"c++", "c++-cpp-output"}


def found(name: str, folders: list[str]) -> str:
    """A file of a library's name in the folders given by -L, or the name alone, as a compiler says of what it hasn't found."""
    return next((path for path in (os.path.join(folder, name) for folder in folders) if os.path.exists(path)), name)


def is_of_library(name: str) -> bool:
    return name.endswith((".a", ".so", ".o", ".lo")) or ".so." in name


def answer(word: str, folders: list[str]) -> str | None:
    """What is to be printed for an option, or None where the compiler answers. Nothing but the folders of -L has libraries for the
    sandbox."""
    option, _, value = word.replace("--print-", "-print-", 1).partition("=")
    if option == "-dumpmachine":
        return TARGET
    if option == "-print-libgcc-file-name":
        return found("libgcc.a", folders)
    if option == "-print-file-name" and is_of_library(value):
        return found(value, folders)
    if option == "-print-search-dirs":
        return "programs: =" + "\nlibraries: =" + ":".join(folders)
    if option in ("-print-multiarch", "-print-sysroot"):
        return ""
    if option in ("-print-multi-directory", "-print-multi-os-directory"):
        return "."
    if option == "-print-prog-name" and value in ("as", "ld"):
        return tool(value.upper())[0]
    return None
