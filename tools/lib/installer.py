#!/usr/bin/env python3
"""Installs Reedbodkin below a folder, and takes it away again. In a release this is the script `install`.

Usage: ./install PREFIX [--destdir DIR] [--uninstall]

It copies the folders bin, include, lib and share beside it to PREFIX; with --destdir to DIR/PREFIX, as a packager wants it.
PREFIX/share/reedbodkin/manifest lists what was put there and the folders that were made for it. --uninstall removes exactly that: a folder
stays that was there before, or has something else in it. An earlier installation is replaced. If a file is there that no installation
has put there, nothing is done, and the status is 1.
"""

from __future__ import annotations

import argparse
import os
import stat
import sys
from collections.abc import Callable
from typing import NamedTuple, Union

FOLDERS = ["bin", "include", "lib", "share"]
MANIFEST = "share/reedbodkin/manifest"


class File(NamedTuple):
    content: bytes
    mode: int


class Link(NamedTuple):
    target: str


Entry = Union[File, Link]


class Refusal(Exception):
    """Why nothing was done."""


def tree_of(folder: str) -> dict[str, Entry]:
    """The files and links below these folders of a folder."""
    found: dict[str, Entry] = {}
    for place, _, names in sorted(entry for top in FOLDERS for entry in os.walk(os.path.join(folder, top))):
        for name in names:
            path = os.path.join(place, name)
            if os.path.islink(path):
                found[os.path.relpath(path, folder)] = Link(os.readlink(path))
            else:
                with open(path, "rb") as file:
                    found[os.path.relpath(path, folder)] = File(file.read(), stat.S_IMODE(os.stat(path).st_mode))
    return found


def put(path: str, entry: Entry) -> None:
    if isinstance(entry, Link):
        os.symlink(entry.target, path)
        return
    with open(path, "wb") as file:
        file.write(entry.content)
    os.chmod(path, entry.mode)


def make_folder(path, made):
    """Makes a folder, and those above it; the ones that weren't there are added to the list."""
    if not os.path.isdir(path):
        make_folder(os.path.dirname(path), made)
        os.mkdir(path)
        made.append(path)
        os.chmod(path, 0o755)


def lines_for(root, files, folders):
    """What the manifest has to say of these files and of the folders made for them."""
    return sorted(files) + [os.path.relpath(folder, root) + "/" for folder in folders]


def lines_of(root):
    """The lines of the manifest, none where nothing is installed."""
    try:
        with open(os.path.join(root, MANIFEST), encoding="utf-8") as file:
            return file.read().splitlines()
    except FileNotFoundError:
        return []


def remove(root, lines):
    """Removes the files of a manifest, and those of its folders that are empty then. Lines of folders end with a slash."""
    paths = [(os.path.normpath(os.path.join(root, line)), line.endswith("/")) for line in lines]
    for path, is_folder in paths:
        if not is_folder and path.startswith(root + os.sep) and os.path.lexists(path):
            os.unlink(path)
    for path in sorted((path for path, is_folder in paths if is_folder), key=len, reverse=True):
        if os.path.isdir(path) and not os.listdir(path):
            os.rmdir(path)


def install(root, tree):
    """Puts a tree below a folder, in the place of an earlier one; where that fails, nothing of either is left."""
    earlier = lines_of(root)
    foreign = [path for path in sorted(tree) if path not in earlier and os.path.lexists(os.path.join(root, path))]
    if foreign:
        raise Refusal("not of an earlier installation, so remove it first: " + ", ".join(os.path.join(root, path) for path in foreign))
    remove(root, earlier)
    files, made = {**tree, MANIFEST: File(b"", 0o644)}, []
    try:
        for path in sorted(files):
            make_folder(os.path.dirname(os.path.join(root, path)), made)
            put(os.path.join(root, path), files[path])
        with open(os.path.join(root, MANIFEST), "w", encoding="utf-8") as manifest:
            manifest.writelines(line + "\n" for line in lines_for(root, files, made))
    except OSError:
        remove(root, lines_for(root, files, made))
        raise
    print("%d files below %s" % (len(tree), root))


def uninstall(root):
    lines = lines_of(root)
    if not lines:
        raise Refusal("nothing is installed: there is no %s" % os.path.join(root, MANIFEST))
    remove(root, lines)
    left = [line for line in lines if os.path.lexists(os.path.normpath(os.path.join(root, line)))]
    print("removed from %s" % root + (", but for folders with something else in them: " + ", ".join(left) if left else ""))


def command_line(text: str) -> argparse.ArgumentParser:
    """What every installation is told: where."""
    line = argparse.ArgumentParser(description=text.split("\n")[0], epilog="\n".join(text.split("\n")[4:]),
                                   formatter_class=argparse.RawDescriptionHelpFormatter)
    line.add_argument("prefix", metavar="PREFIX", help="the folder, such as /usr/local")
    line.add_argument("--destdir", metavar="DIR", default="", help="put everything below DIR, as if it were the root")
    line.add_argument("--uninstall", action="store_true", help="remove what was installed there")
    return line


def carry_out(asked: argparse.Namespace, tree: Callable[[], dict[str, Entry]]) -> int:
    """Installs or uninstalls; `tree` makes what is to be installed. The status."""
    root = os.path.abspath(asked.prefix)
    if asked.destdir:
        root = os.path.join(os.path.abspath(asked.destdir), root.lstrip("/"))
    try:
        uninstall(root) if asked.uninstall else install(root, tree())
    except (Refusal, OSError) as fault:
        print("install: %s" % fault, file=sys.stderr)
        return 1
    return 0


def main():
    return carry_out(command_line(__doc__).parse_args(), lambda: tree_of(os.path.dirname(os.path.abspath(__file__))))


if __name__ == "__main__":
    sys.exit(main())
