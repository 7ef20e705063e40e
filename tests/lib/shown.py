"""How nc_check shows the bundle of a fault, worked out from rows of bytes and names."""

import re


def listed(at: int, *rows: str) -> str:
    """The lines that show a bundle from this address on, by rows of bytes with their names after `=`. `>` before a row marks that of the
    fault, and a number and `x` say how often it stands there."""
    lines = []
    for row in rows:
        mark, times, digits, name = re.fullmatch(r"(> )?(?:(\d+) x )?([0-9a-f |]+?)(?: = (.*))?", row).groups()
        told = (name or "") + ("  # %s times" % times if int(times or 1) > 1 else "")
        parts = [digits] if "|" in digits else [digits[n:n + 24].strip() for n in range(0, len(digits), 24)]
        for part in parts:
            lines.append("  %s %08x: %s\n" % ((mark or " ").strip() or " ", at, "%-24s %s" % (part, told.strip()) if told else part))
            at += len(part.replace("|", "").split()) * int(times or 1)
            mark = told = ""
    return "".join(lines)
