"""The objects in JSON that reports of nc_check in text stand for, as docs/nc_check.schema.json describes them."""

from __future__ import annotations

import re
from typing import Any


def transfer_of(line):
    """The object for a line about transfers to an address outside."""
    to, times = re.fullmatch("  -> ([0-9a-f]{8}): ([0-9]+) transfers?", line).groups()
    return {"to": to, "transfers": int(times)}


def shown_by(lines):
    """The members about a fault by the lines about it. Label, listing, target and meaning, which may hold no address, are left out."""
    symbol, target, code, starts = {}, {}, "", []
    for line in lines[:-1]:
        if re.match("  [0-9a-f]{8} <", line):
            symbol = {"symbol": line[12:-1]}
        elif line.startswith("  -> "):
            target = dict(zip(("target", "why"), line[5:].split(": ", 1)))
        else:
            mark, at, digits, told = re.fullmatch(r"  ([ >]) ([0-9a-f]{8}):((?: (?:[0-9a-f]{2}|\|)(?= |$))+) *(.*)", line).groups()
            name, times = re.fullmatch(r"(.*?) *(?:# ([0-9]+) times)?", told).groups()
            count = len(digits.split(" |")[0].split())
            # in these files bytes without a name at the beginning of a bundle are of an instruction before it
            is_start = code or name or mark == ">"
            for n in range(int(times or 1)):
                code += digits.split(" |")[0].replace(" ", "")
                starts += [{"at": "%08x" % (int(at, 16) + n * count), **({"name": name} if name else {})}] if is_start else []
    if not code:
        return {"meaning": lines[-1].strip()}
    return {**symbol, "meaning": lines[-1].strip(), **target, "bundle": code, "starts": starts}


def object_of(name: str, base: int, said: str, detail: str = "") -> dict[str, Any]:
    """The object that a verdict in text stands for. The verdict is the line after the file's name, and the lines below it."""
    found = {"file": name, "address": "%08x" % base}
    verdict, *lines = said.splitlines()
    ok = re.fullmatch("ok, ([0-9]+) bytes, ([0-9]+) instructions", verdict)
    if ok:
        calls = {"calls": [transfer_of(line) for line in lines]} if detail == "--calls" else {}
        return {**found, "verdict": "ok", "bytes": int(ok[1]), "instructions": int(ok[2]), **calls}
    _, fault, *at = verdict.split()
    place = {"at": at[0]} if at else {}
    if detail != "--all" or not at:
        return {**found, "verdict": "refused", "fault": fault, **place, **shown_by(lines)}
    note = {"note": lines.pop().strip()} if lines[-1].startswith("  the code isn't in bundles") else {}
    counts = dict.fromkeys(("Crosses", "NotPermitted", "Bare", "BadTarget"), 0)
    counts.update((kind, int(count)) for count, kind in re.findall("([0-9]+) ([A-Z][A-Za-z]+)", lines.pop()))
    own, *others = re.split("^  also ", "\n".join(lines), flags=re.M)
    faults = [{"fault": fault, **place, **shown_by(own.splitlines())}]
    for other in others:
        heading, *below = other.splitlines()
        faults.append({**dict(zip(("fault", "at"), heading.split())), **shown_by(below)})
    return {**found, "verdict": "refused", "fault": fault, **place, **shown_by(own.splitlines()),
            "faults": faults, "counts": counts, **note}
