"""Instructions of MMX and SSE. A script that only asks whether one compiles has to find that it doesn't, since nc_check refuses it."""

from __future__ import annotations

import re

from .listing import Listing

REGISTER = re.compile(r"%[xyz]?mm\d")


def check_vectors(listing: Listing) -> None:
    """Refuses a text with one of their registers."""
    for _, statement in listing.code():
        if statement.kind == "instruction" and REGISTER.search(statement.operands):
            statement.refuse("the sandbox has no registers of MMX and SSE: leave out what asks for them, such as a target attribute")
