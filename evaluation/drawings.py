"""The drawings of the page, as SVG."""
import math

from runs import VERSIONS
from pagetables import added, more, percent

STYLE = """text { font: 11px sans-serif; fill: #222 } .small { font-size: 9.5px; fill: #555 } .head { font-weight: bold; font-size: 12px }
.n { fill: #eee } .region { fill: #a9c8f0 } .s { fill: #c0392b } .t { fill: #e08e2b }
.axis { stroke: #888; fill: none } .grid { stroke: #e4e4e4; fill: none } .safe { stroke: #2e6fb0; stroke-dasharray: 3 3; fill: none }
.plain { stroke: #777; fill: none; stroke-width: 1.6 } .ocelot { stroke: #2e6fb0; fill: none; stroke-width: 2.2 }
.turns { stroke: #b0572e; fill: none; stroke-width: 1.6 } .whole { stroke: #4b8b3b; fill: none; stroke-width: 1.6 }"""
LEFT, ROOM, STRIP = 84, 700, 32  # of the strips: where they begin, how wide they are, and how far one lies below the other
KINDS = (("s", "a use is stale"), ("t", "a set is split"), ("n", "no harm"), ("region", "inferred region (the line below)"))
WIDE, HIGH, SHORTEST, LONGEST, MOST = 240, 200, 16, 65536, 16  # of the panels: their size, and the values at their edges
LABELS = {"plain": "no regions", "ocelot": "inferred regions", "turns": "each turn a region", "whole": "main a region"}


def svg(width, height, shown):
    head = f'<svg xmlns="http://www.w3.org/2000/svg" width="{width}" height="{height}" viewBox="0 0 {width} {height}">'
    return "\n".join([head, f"<style>{STYLE}</style>", '<rect width="100%" height="100%" fill="#fff"/>', *shown, "</svg>\n"])


def text(x, y, said, kind="", anchor="start"):
    return f'<text class="{kind}" x="{x:.1f}" y="{y:.1f}" text-anchor="{anchor}">{said}</text>'


def box(kind, x, y, width, height):
    return f'<rect class="{kind}" x="{x:.2f}" y="{y}" width="{width:.2f}" height="{height}"/>'


def stretches(letters, chosen):
    """Yields where letters that are chosen stand next to each other: the first, and behind the last."""
    first = None
    for place, letter in enumerate([*letters, ""]):
        is_in = letter != "" and letter in chosen
        if is_in and first is None:
            first = place
        elif not is_in and first is not None:
            yield first, place
            first = None


def strip(fact, top):
    """Returns the strip of an application."""
    letters, scale = fact["strip"], ROOM / len(fact["strip"])
    shown = [text(8, top + 15, fact["app"]), box("n", LEFT, top, ROOM, 20)]
    layers = (("s", "sS", 0, 20), ("t", "tT", 0, 20), ("s", "bB", 0, 10), ("t", "bB", 10, 10), ("region", "STBN", 21, 4))
    for kind, chosen, down, height in layers:
        for first, behind in stretches(letters, chosen):
            shown.append(box(kind, LEFT + first * scale, top + down, (behind - first) * scale, height))
    harm = sum(letter not in "nN" for letter in letters)
    return [*shown, text(LEFT + ROOM + 8, top + 15, f"{percent(harm, len(letters))} of {fact['steps']:,}")]


def exposure(results):
    """Where one outage breaks an annotation of the plain program."""
    shown = [text(8, 18, "Behind which steps of a run one outage breaks an annotation, without regions", "head")]
    for place, (kind, label) in enumerate(KINDS):
        shown += [box(kind, LEFT + 130 * place, 26, 11, 11), text(LEFT + 130 * place + 16, 36, label)]
    for place, fact in enumerate(results.facts):
        shown += strip(fact, 46 + STRIP * place)
    return svg(LEFT + ROOM + 108, 50 + STRIP * len(results.facts), shown)


class Panel:
    """A panel: steps for each instruction by the length of periods, of one application."""

    def __init__(self, number, fact):
        self.number, self.fact = number, fact
        self.x, self.y = 44 + number % 3 * (WIDE + 60), 62 + number // 3 * (HIGH + 44)

    def across(self, length):
        return self.x + math.log(length / SHORTEST) / math.log(LONGEST / SHORTEST) * WIDE

    def up(self, value):
        return self.y + HIGH - math.log(value) / math.log(MOST) * (HIGH - 10)

    def frame(self):
        fact, right = self.fact, self.x + WIDE
        yield f'<clipPath id="panel-{self.number}"><rect x="{self.x - 3}" y="{self.y + 4}" width="{WIDE + 6}" height="{HIGH}"/></clipPath>'
        yield text(self.x, self.y - 2, fact["app"], "head")
        for value in (1, 1.5, 2, 4, 8, 16):
            yield f'<path class="grid" d="M{self.x} {self.up(value):.1f} H{right}"/>'
            yield text(self.x - 6, self.up(value) + 3, value, "small", "end")
        for length in (16, 64, 256, 1024, 4096, 16384, 65536):
            yield text(self.across(length), self.y + HIGH + 13, length, "small", "middle")
        yield f'<path class="axis" d="M{self.x} {self.y + 6} V{self.y + HIGH} H{right}"/>'
        yield f'<path class="safe" d="M{self.across(fact["safe"]):.1f} {self.y + 8} V{self.y + HIGH}"/>'

    def line(self, results, version):
        """The line of a version: it has the lengths at which all runs end."""
        rows = [row for row in results.by[self.fact["app"], version, 0, "constant"] if row["ended"] == row["runs"]]
        points = [(self.across(row["length"]), self.up(1 + more(added([row])))) for row in sorted(rows, key=lambda row: row["length"])]
        if points:
            yield f'<polyline class="{version}" points="{" ".join(f"{x:.1f},{y:.1f}" for x, y in points)}"/>'
            yield "".join(f'<circle class="{version}" cx="{x:.1f}" cy="{y:.1f}" r="1.8"/>' for x, y in points)

    def drawn(self, results):
        yield from self.frame()
        yield f'<g clip-path="url(#panel-{self.number})">'
        for version in ("whole", "turns", "plain", "ocelot"):
            yield from self.line(results, version)
        yield "</g>"


def overhead(results):
    """Steps for each instruction by the length of periods, one panel for each application."""
    shown = [text(8, 18, "Steps for each instruction of the plain program, by the steps in a period, where all runs end", "head")]
    for x, version in zip((20, 120, 245, 375), VERSIONS):
        shown += [f'<path class="{version}" d="M{x} 32 h18"/>', text(x + 22, 36, LABELS[version])]
    shown += ['<path class="safe" d="M490 32 h18"/>', text(512, 36, "safe, as `regions` prints it")]
    for number, fact in enumerate(results.facts):
        shown += Panel(number, fact).drawn(results)
    return svg(3 * (WIDE + 60), 62 + -(-len(results.facts) // 3) * (HIGH + 44), shown)
