"""The graph of crates: families side by side, and each crate above what it uses. A line that follows from others is left out."""

import itertools
import os

from repository import TOP
from sources import source
from svg import BLUE, FILLS, GRAY, GREEN, ORANGE, Picture, width_of

LIST = "crates.txt"
# Tests and benchmarks, which nothing uses, and which use nearly everything.
BESIDE = {"nc_tests", "nc_bench", "nc_jobs"}
# The families, from left to right, with the part of the width that each has.
FAMILIES = [
    ("Command lines", 0.13, {"nc_cli", "nc_command"}),
    ("Files to verdicts", 0.29, {"nc_mnemonics", "nc_disasm", "nc_reading", "nc_report", "nc_output", "nc_files", "nc_check"}),
    ("Scripts to replies", 0.12, {"nc_work", "nc_lines", "nc_script", "nc_replay"}),
    ("The region", 0.29, {"nc_base", "nc_decode", "nc_vet", "nc_text", "nc_gens", "nc_list", "nc_acts", "nc_region", "nc_histories",
                          "nc_elf"}),
    ("Hosts", 0.17, {"nc_host_acts", "nc_host_handles", "nc_host", "nc_host_law", "nc_embed"}),
]
SWEEPS = 40
CRATE = 30
HEAD, STEP, HIGH, APART = 84, 80, 34, 10
LEFT, RIGHT = 78, 1120
COLORS = {"program": ORANGE, "library for C": GREEN, "crate": BLUE}


def family_of(name):
    """The number of a crate's family."""
    return next(k for k, (_, _, names) in enumerate(FAMILIES) if name in names)


def bands():
    """The left and the right edge of each family."""
    edges = [LEFT + (RIGHT - LEFT) * sum(part for _, part, _ in FAMILIES[:k]) for k in range(len(FAMILIES) + 1)]
    return list(zip(edges, edges[1:]))


def in_families(row):
    """Whether the crates of a row stand in the order of the families."""
    families = [family_of(place) for place in row if isinstance(place, str)]
    return families == sorted(families)


def settled(row):
    """A row with its crates in the order of the families, each where one stood."""
    names = iter(sorted((place for place in row if isinstance(place, str)), key=family_of))
    return [next(names) if isinstance(place, str) else place for place in row]


def crates():
    """For each crate the crates of this repository that it uses, and whether it is a program or a library for C."""
    uses, kinds = {}, {}
    for line in source(LIST).splitlines():
        head, _, words = line.partition(":")
        name, *flags = head.split()
        uses[name] = {word for word in words.split() if word.startswith("nc_")}
        is_program = os.path.exists(os.path.join(TOP, "crates", name, "src", "main.rt"))
        kinds[name] = "program" if is_program else "library for C" if "staticlib" in flags else "crate"
    return uses, kinds


def reach(uses):
    """For each crate all that it stands upon."""
    made = {}

    def below(name):
        if name not in made:
            made[name] = uses[name].union(*map(below, uses[name]))
        return made[name]

    for name in uses:
        below(name)
    return made


def reduced(uses):
    """The same without what follows from the rest."""
    below = reach(uses)
    return {name: {one for one in used if not any(one in below[other] for other in used)} for name, used in uses.items()}


def layers_of(uses):
    """The layer of each crate: one above the highest that it uses."""
    made = {}

    def layer(name):
        if name not in made:
            made[name] = 1 + max(map(layer, uses[name]), default=0)
        return made[name]

    for name in uses:
        layer(name)
    return made


class Graph:
    """Rows of places, the lowest first, and lines from a place to places of the row below. Where a line passes a row it has a place there,
    a pair of two crates."""

    def __init__(self, uses):
        layer = layers_of(uses)
        self.rows = [[] for _ in range(max(layer.values()))]
        self.below, self.routes = {}, []
        for name in uses:
            self.rows[layer[name] - 1].append(name)
            self.below[name] = []
        for name, used in uses.items():
            for one in sorted(used):
                route = [name, *((name, one, k) for k in range(layer[name] - 1, layer[one], -1)), one]
                self.routes.append(route)
                for k, place in enumerate(route[1:-1]):
                    self.rows[layer[name] - 2 - k].append(place)
                for upper, lower in zip(route, route[1:]):
                    self.below.setdefault(upper, []).append(lower)
        self.above = {place: [] for row in self.rows for place in row}
        for place, lower in self.below.items():
            for one in lower:
                self.above[one].append(place)

    def crossings(self):
        count = 0
        for upper, lower in zip(self.rows[1:], self.rows):
            at = {place: k for k, place in enumerate(lower)}
            ends = [(k, at[one]) for k, place in enumerate(upper) for one in self.below[place]]
            count += sum((a - c) * (b - d) < 0 for (a, b), (c, d) in itertools.combinations(ends, 2))
        return count

    def sort(self, k, beside):
        """Sorts a row by where the places beside it stand on the average, and by families."""
        at = {place: i / max(1, len(row) - 1) for row in self.rows for i, place in enumerate(row)}

        def mean(place):
            near = beside[place]
            return sum(at[one] for one in near) / len(near) if near else at[place]

        self.rows[k] = settled(sorted(self.rows[k], key=mean))

    def swap(self):
        """Exchanges neighbours as long as fewer lines cross."""
        best, again = self.crossings(), True
        while again:
            again = False
            for row in self.rows:
                for i, j in itertools.combinations(range(len(row)), 2):
                    row[i], row[j] = row[j], row[i]
                    if in_families(row) and self.crossings() < best:
                        best, again = self.crossings(), True
                    else:
                        row[i], row[j] = row[j], row[i]
        return best

    def order(self):
        """Puts the places of each row in an order in which few lines cross."""
        self.rows = [settled(row) for row in self.rows]
        best, kept = None, None
        for sweep in range(SWEEPS):
            upwards = sweep % 2 == 0
            for k in range(1, len(self.rows)) if upwards else range(len(self.rows) - 2, -1, -1):
                self.sort(k, self.below if upwards else self.above)
            if best is None or self.crossings() < best:
                best, kept = self.crossings(), [list(row) for row in self.rows]
        self.rows = kept
        self.swap()


def wide(place):
    return width_of(place, 14) * 1.08 + 20 if isinstance(place, str) else 6


def spread(row, wanted):
    """Places of a row as near as can be to where they are wanted, each beside the next: by the means of those that push each other, where
    a crate counts more than a line that passes."""
    begins = [0.0]
    for one, other in zip(row, row[1:]):
        begins.append(begins[-1] + (wide(one) + wide(other)) / 2 + APART)
    groups = []
    for k, place in enumerate(row):
        groups.append((wanted[place] - begins[k], CRATE if isinstance(place, str) else 1, 1))
        while len(groups) > 1 and groups[-2][0] > groups[-1][0]:
            (one, weight, count), (other, more, others) = groups[-2:]
            groups[-2:] = [((one * weight + other * more) / (weight + more), weight + more, count + others)]
    means = [value for value, _, count in groups for _ in range(count)]
    low, high = LEFT + wide(row[0]) / 2, RIGHT - begins[-1] - wide(row[-1]) / 2
    return {place: min(max(mean, low), high) + begin for place, mean, begin in zip(row, means, begins)}


def kept_within(row, wanted):
    """Where the places of a row are wanted, with each crate beside its fellows in the band of its family."""
    kept = dict(wanted)
    for k, (left, right) in enumerate(bands()):
        names = [place for place in row if isinstance(place, str) and family_of(place) == k]
        widths = [wide(name) + APART for name in names]
        for i, name in enumerate(names):
            low, high = left + sum(widths[:i]) + widths[i] / 2, right - sum(widths[i + 1:]) - widths[i] / 2
            kept[name] = max(min(wanted[name], high), low)
    return kept


def across(graph):
    """Where each place stands in its row: near the places above and below it."""
    at = {}
    for row in graph.rows:
        at.update(spread(row, kept_within(row, {place: LEFT + (RIGHT - LEFT) * (k + 0.5) / len(row) for k, place in enumerate(row)})))
    for sweep in range(SWEEPS):
        for row in graph.rows if sweep % 2 else reversed(graph.rows):
            near = {place: graph.above[place] + graph.below[place] or [place] for place in row}
            at.update(spread(row, kept_within(row, {place: sum(map(at.get, near[place])) / len(near[place]) for place in row})))
    return at


def draw_lines(picture, graph, at, level):
    """The lines. One that passes a layer goes straight down there."""
    for route in graph.routes:
        points = []
        for place in route:
            y = level[place]
            points += [(at[place], y + HIGH / 2)] if isinstance(place, str) else [(at[place], y + 4), (at[place], y + HIGH - 4)]
        picture.curve(points)


def draw_families(picture, bottom):
    """A ground for each family, with its name at the top."""
    for k, ((left, right), (name, _, _)) in enumerate(zip(bands(), FAMILIES)):
        if k % 2 == 0:
            picture.rect((left, HEAD - 36, right - left, bottom - HEAD + 48), "#f5f6f8")
        picture.text(((left + right) / 2, HEAD - 18), name, "middle", 13, GRAY, "bold")


def legend(picture, y, uses):
    x = 18
    for kind, color in COLORS.items():
        picture.rect((x, y - 12, 16, 14), FILLS[color], color, round_=3)
        picture.text((x + 22, y), kind, size=13)
        x += 40 + width_of(kind, 13)
    beside = ", ".join(sorted(BESIDE & set(uses)))
    picture.text((x, y), f"Not drawn: lines that follow from others; {beside}", size=13)
    picture.height = y + 16


def draw():
    uses, kinds = crates()
    drawn = {name: used - BESIDE for name, used in uses.items() if name not in BESIDE}
    graph = Graph(reduced(drawn))
    graph.order()
    at, count = across(graph), len(graph.rows)
    picture = Picture("The crates: a line goes down to a crate that is used",
                      f"The crates by families, each above those that it uses. {LIST} lists what each uses.", RIGHT + 10)
    tops = [HEAD + STEP * (count - 1 - k) for k in range(count)]
    level = {place: tops[k] for k, row in enumerate(graph.rows) for place in row}
    draw_families(picture, tops[0] + HIGH)
    draw_lines(picture, graph, at, level)
    for k, y in enumerate(tops):
        picture.text((18, y + 23), f"Layer {k + 1}", size=13, color=GRAY, face="bold")
    for name in drawn:
        color = COLORS[kinds[name]]
        picture.rect((at[name] - wide(name) / 2, level[name], wide(name), HIGH), FILLS[color], color, round_=6)
        picture.text((at[name], level[name] + 23), name, "middle", 14, face="bold")
    legend(picture, tops[0] + HIGH + 30, uses)
    return picture
