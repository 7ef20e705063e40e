"""Drawings as SVG. The width of a text is an estimate from its characters, so that no drawing depends on a machine's fonts."""

from __future__ import annotations

from collections.abc import Iterable
from html import escape
from typing import NamedTuple, Tuple

Point = Tuple[float, float]

# Blue, orange, green, gray and red, each as a line and as a fill.
BLUE, ORANGE, GREEN, GRAY, RED = "#1b6ca8", "#d1662b", "#3f8a58", "#8a8f98", "#b3261e"
FILLS = {BLUE: "#dceaf6", ORANGE: "#fae6d8", GREEN: "#dff0e4", GRAY: "#eceef1", RED: "#f9dedc"}
INK, WHITE = "#222", "#fff"
# Widths of characters, as parts of the size: those of a wide font.
WIDTHS = [("ijl'|", 0.3), (" .,:;()[]!I", 0.4), ("frt-/", 0.45), ("mwMW%", 0.97), ("→", 0.85)]
MONO = 0.61


class Box(NamedTuple):
    """Where a text stands."""

    left: float
    top: float
    right: float
    bottom: float

    def overlaps(self, other):
        return self.left < other.right and other.left < self.right and self.top < other.bottom and other.top < self.bottom


def width_of(words: str, size: float, mono: bool = False) -> float:
    """About how wide a text is, and hardly ever less."""
    if mono:
        return MONO * size * len(words)
    return size * sum(next((width for letters, width in WIDTHS if one in letters), 0.72 if one.isupper() else 0.62) for one in words)


def text(at: Point, words: str, anchor: str = "start", size: float = 12, color: str = "#333", more: str = "") -> str:
    x, y = at
    return (f'<text x="{x:.1f}" y="{y:.1f}" text-anchor="{anchor}" font-size="{size}" fill="{color}"{more}>'
            f'{escape(words)}</text>')


def line(start: Point, end: Point, color: str = "#ddd", more: str = "") -> str:
    (x1, y1), (x2, y2) = start, end
    return f'<line x1="{x1:.1f}" y1="{y1:.1f}" x2="{x2:.1f}" y2="{y2:.1f}" stroke="{color}"{more}/>'


def document(title: str, width: float, height: float, parts: Iterable[str], about: str | None = None) -> str:
    """A drawing on a white ground, with its title at the top, and in words what it shows."""
    head = (f'<svg xmlns="http://www.w3.org/2000/svg" width="{width}" height="{height}" viewBox="0 0 {width} {height}" '
            f'font-family="sans-serif" role="img">')
    said = [f"<title>{escape(title)}</title>"] + ([f"<desc>{escape(about)}</desc>"] if about else [])
    return "\n".join([head, *said, f'<rect width="{width}" height="{height}" fill="#fff"/>', *parts, "</svg>"]) + "\n"


class Picture:
    """A drawing that knows where its texts stand."""

    def __init__(self, title: str, about: str, width: float = 900) -> None:
        self.title, self.about, self.width, self.height = title, about, width, 0.0
        self.parts: list[str] = []
        self.boxes: list[tuple[str, Box]] = []
        self.text((width / 2, 28), title, "middle", 17, face="bold")

    def text(self, at: Point, words: str, anchor: str = "start", size: float = 13, color: str = INK, face: str = "") -> None:
        """Writes some words, in a face that is "bold", "mono" or plain."""
        x, y = at
        more = {"bold": ' font-weight="bold"', "mono": ' font-family="monospace"', "": ""}[face]
        wide = width_of(words, size, face == "mono") * (1.08 if face == "bold" else 1)
        left = x - {"start": 0, "middle": wide / 2, "end": wide}[anchor]
        self.boxes.append((words, Box(left, y - 0.8 * size, left + wide, y + 0.2 * size)))
        self.parts.append(text(at, words, anchor, size, color, more))

    def line(self, start: Point, end: Point, color: str = GRAY, width: float = 1.0, dashed: bool = False) -> None:
        more = f' stroke-width="{width}"' + (' stroke-dasharray="4 3"' if dashed else "")
        self.parts.append(line(start, end, color, more))

    def rect(self, area: tuple[float, float, float, float], fill: str, edge: str | None = None, width: float = 1.0, dashed: bool = False,
             round_: float = 0) -> None:
        """Draws a rectangle: its left and upper edge, its width and its height."""
        x, y, wide, high = area
        more = f' stroke="{edge}" stroke-width="{width}"' if edge else ""
        more += (' stroke-dasharray="4 3"' if dashed else "") + (f' rx="{round_}"' if round_ else "")
        self.parts.append(f'<rect x="{x:.1f}" y="{y:.1f}" width="{wide:.1f}" height="{high:.1f}" fill="{fill}"{more}/>')

    def curve(self, points: list[Point], color: str = GRAY, width: float = 1.4) -> None:
        """A line through some points that is vertical at each of them."""
        path = f"M{points[0][0]:.1f},{points[0][1]:.1f}"
        for (x1, y1), (x2, y2) in zip(points, points[1:]):
            middle = (y1 + y2) / 2
            path += f" C{x1:.1f},{middle:.1f} {x2:.1f},{middle:.1f} {x2:.1f},{y2:.1f}"
        self.parts.append(f'<path d="{path}" fill="none" stroke="{color}" stroke-width="{width}"/>')

    def arc(self, x1: float, x2: float, y: float, high: float, color: str) -> None:
        """An arrow from one place of a level to another, by this much above."""
        top = y - high
        self.parts.append(f'<path d="M{x1:.1f},{y:.1f} C{x1:.1f},{top:.1f} {x2:.1f},{top:.1f} {x2:.1f},{y - 7:.1f}" fill="none" '
                          f'stroke="{color}" stroke-width="1.6"/>')
        self.shape([(x2 - 4, y - 8), (x2 + 4, y - 8), (x2, y)], color)

    def shape(self, points: Iterable[Point], fill: str) -> None:
        self.parts.append(f'<polygon points="{" ".join(f"{x:.1f},{y:.1f}" for x, y in points)}" fill="{fill}"/>')

    def drawn(self) -> str:
        return document(self.title, self.width, self.height, self.parts, self.about)

    def slips(self) -> list[str]:
        """Texts that stand on each other, or beyond the edge."""
        edge = Box(0, 0, self.width, self.height)
        found = [f"{words!r} is beyond the edge" for words, box in self.boxes
                 if min(box.left, box.top) < 0 or box.right > edge.right or box.bottom > edge.bottom]
        for k, (words, box) in enumerate(self.boxes):
            found += [f"{words!r} and {other!r} stand on each other" for other, place in self.boxes[:k] if box.overlaps(place)]
        return found
