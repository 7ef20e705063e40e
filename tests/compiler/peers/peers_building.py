"""Unpacks and builds what tests/compiler/peers compares."""

from __future__ import annotations

import glob
import os
import shutil
import sys
from concurrent.futures import Executor
from typing import Any

from peers_boxes import Tree
from peers_table import PEERS
from peers_ways import NATIVE, SOURCES as OWN, Built, Unit, native, web
from porting import archives_of, done
from repository import TOP
from with_musl import ARCHIVE, SOURCES

sys.path.append(os.path.join(TOP, "compiler", "runtime"))
from making import unpack

MUSL_SUM = "7d5b0b6062521e4627e099e4c9dc8248d32a30285e959b7eecaa780cf8cfd4a4"
PORTS_AT = os.path.join(TOP, "examples", "ports")


def unpacked(archive: str, wanted: str, folder: str) -> str:
    """The only folder of an archive, which may have been unpacked before."""
    place = os.path.join(folder, "sources-" + archive.partition("_")[0])
    if not os.path.exists(place):
        unpack(os.path.join(SOURCES, archive), wanted, place)
    return glob.glob(os.path.join(place, "*"))[0]


def musl_unpacked(folder: str) -> str:
    return unpacked(os.path.basename(ARCHIVE), MUSL_SUM, folder)


def there(names: list[str]) -> list[str]:
    """Those of the libraries whose sources can be had here. Lines tell what the others lack."""
    ports = {port.archive.partition("_")[0]: port for name in names for port in PEERS[name].ports}
    found = {ports[package].archive for package in archives_of("peers", ports, list(ports))}
    names = [name for name in names if all(port.archive in found for port in PEERS[name].ports)]
    if "sqlite" in names and not (shutil.which("make") and shutil.which("tclsh")):
        print("skipped: peers of sqlite: make or tclsh isn't there, which make its source")
        names.remove("sqlite")
    return names


def write_given(given, tops):
    """The headers that configuring makes, and SQLite's source."""
    os.makedirs(given)
    with open(os.path.join(given, "expat_config.h"), "w", encoding="ascii"):
        pass
    if "libpng" in tops:
        shutil.copy(os.path.join(tops["libpng"][0], "scripts", "pnglibconf.h.prebuilt"), os.path.join(given, "pnglibconf.h"))
    if "sqlite" in tops:
        done(["sh", "-c", "./configure && make sqlite3.c"], tops["sqlite"][0])


def unit_of(name: str, tops: list[str], given: str, folder: str) -> Unit:
    """A library with its operations."""
    ports = list(zip(PEERS[name].ports, tops))
    headers = [os.path.join(top, place) for port, top in ports for place in port.headers.split()]
    places = [OWN, PORTS_AT, os.path.join(PORTS_AT, name), given, *headers]
    flags = [*("-I" + place for place in places if os.path.isdir(place)), *(flag for port, _ in ports for flag in port.flags.split())]
    own = [os.path.join(OWN, name + ".c"), os.path.join(OWN, "unit.c")]
    return Unit(own, [path for port, top in ports for path in port.sources(top)], flags, os.path.join(folder, "unit-" + name))


def units_of(names: list[str], folder: str) -> dict[str, Unit]:
    """The libraries, unpacked."""
    tops = {name: [unpacked(port.archive, port.sum, folder) for port in PEERS[name].ports] for name in names}
    given = os.path.join(folder, "given")
    write_given(given, tops)
    return {name: unit_of(name, tops[name], given, folder) for name in names}


def build_all(units: dict[str, Unit], trees: list[Tree], ways: list[str], pool: Executor) -> dict[str, dict[str, Built]]:
    """Each unit by each way, side by side, in the order of the ways."""
    jobs: dict[tuple[str, str], Any] = {}
    for name, unit in units.items():
        os.makedirs(unit.folder)
        jobs.update({(name, way): pool.submit(native, unit, way) for way in NATIVE if way in ways})
        jobs.update({(name, tree.name): pool.submit(tree.build, unit) for tree in trees})
        jobs[name, "web"] = pool.submit(web, unit, ways)
    built = {}
    for name in units:
        those = {**{way: jobs[name, way].result() for way in ways if (name, way) in jobs}, **jobs[name, "web"].result()}
        built[name] = {way: those[way] for way in ways}
    return built
