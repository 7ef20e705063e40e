"""Boxes of a checkout of Reedbodkin, for tests/compiler/peers: its compiler and C library, and its library of boxes."""

from __future__ import annotations

import glob
import importlib.util
import os
from concurrent.futures import Executor

from native import archives, kit
from peers_ways import HOST, SOURCES, Built, Unit, objects
from porting import Fault, code_size, done
from repository import TOP

FLAGS = ["-O2", "-fhosted"]
LINKED = ["--data", "00410000", "-e", "begin", "-Wl,--defsym=ncs_exit=0x40"]
CC = "gcc"


def making_of(path, name):
    """The module with which a checkout makes its C library."""
    spec = importlib.util.spec_from_file_location("making_" + name, os.path.join(path, "compiler", "runtime", "making.py"))
    module = importlib.util.module_from_spec(spec)
    spec.loader.exec_module(module)
    return module


class Tree:
    """A checkout."""

    def __init__(self, name: str, path: str, folder: str, musl: str) -> None:
        self.name, self.path, self.musl = name, path, musl
        self.folder = os.path.join(folder, "tree-" + name)
        self.making = making_of(path, name)

    def of(self, *parts: str) -> str:
        return os.path.join(self.path, *parts)

    def made(self, name: str) -> str:
        return os.path.join(self.folder, name)

    def make_library(self, pool: Executor) -> None:
        """The C library, and what it has for a system."""
        os.makedirs(self.folder)
        self.making.write_headers(self.musl, self.folder)
        self.making.build_musl(self.musl, self.folder, CC, pool)
        inner = self.making.including(self.musl, self.folder, inner=True)
        words = ["-c", "-O2", *self.making.C_FLAGS, *inner, "-I" + self.of("compiler", "runtime"), self.of("examples", "boxes", "musl.c")]
        self.making.nc_cc([*words, "-o", self.made("musl.o")], CC)

    def archives(self) -> list[str]:
        """The library nc_host, and what it stands on."""
        own = self.of("crates", "nc_host", "out", "libnc_host.a")
        if self.path == TOP:
            return archives()
        if not os.path.exists(own):
            raise Fault("%s has no %s, which `rt lib` makes in crates/nc_host" % (self.name, own))
        return [own, os.path.join(kit(), "c", "liblibc_c.a")]

    def host_made(self, name: str, sources: list[str]) -> str:
        """A program over the library of boxes."""
        words = ["gcc", "-std=gnu11", "-O2", "-pthread", "-I" + SOURCES, "-I" + self.of("include"), "-I" + self.of("sandbox")]
        library = [*sorted(glob.glob(self.of("sandbox", "*.c"))), self.of("sandbox", "switch.S"), *self.archives()]
        done([*words, *sources, *library, "-o", self.made(name)], self.folder)
        return self.made(name)

    def make(self, pool: Executor) -> None:
        """Everything but units."""
        self.make_library(pool)
        self.host_made("host", [*HOST, os.path.join(SOURCES, "box.c")])

    def compiler(self) -> list[str]:
        """The words that compile for a box."""
        return [self.of("compiler", "nc-cc"), *FLAGS, *self.making.including(self.musl, self.folder, inner=False)]

    def linked(self, files: list[str], path: str) -> str:
        """Links a file for a box."""
        words = [self.of("compiler", "nc-cc"), *LINKED, self.made("musl.o"), *files, self.made("libc-%s.a" % CC)]
        done([*words, "-o", path], self.folder)
        return path

    def build(self, unit: Unit) -> Built:
        """The unit in a box."""
        own, library = objects(unit, "tree-" + self.name, self.compiler())
        elf = self.linked([*own, *library], os.path.join(unit.folder, "tree-" + self.name + ".elf"))
        return Built([self.made("host")], [elf], code_size(library), code_size([elf]))
