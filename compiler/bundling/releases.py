"""The version of Reedbodkin that these programs belong to."""

import os

HERE = os.path.dirname(os.path.realpath(__file__))
# Beside the installed parts, and in the repository.
PLACES = [os.path.join(HERE, "..", "VERSION"), os.path.join(HERE, "..", "..", "VERSION")]


def release() -> str:
    """The version's number, or a word where there is none."""
    for path in PLACES:
        if os.path.exists(path):
            with open(path, encoding="ascii") as file:
                return file.read().strip()
    return "of an unknown version"
