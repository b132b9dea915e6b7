#!/usr/bin/env python3
"""Draws a report of ./ocelot run, as text or as a picture.

Shown are the periods of power, the regions with the attempts that were broken off, the readings, the uses of fresh
variables, the tags and the outputs. What lies in an attempt that was broken off didn't count: the text has it between
tildes and beside dotted lines, and the picture pale, dashed and struck through.
"""
import argparse
import bisect
import html
import os
import re
import sys

LEFT, PAST, WIDEST, NARROWEST, GAP, LETTER = 100, 30, 8.0, 13.0, 70, 6
HEIGHT, LANE, LANES = 310, 21, 3
LINE = re.compile(r"\d+ (sense|emit) [A-Za-z_]\w* -?\d+|\d+ trap (zero|index) \d+|\d+ (use|done|tag|enter|commit|abort|off) \d+|\d+ (end|dark)", re.A)
NONVOLATILE = re.compile(r"nv [A-Za-z_]\w*( -?\d+)+", re.A)


class NoReport(Exception):
    """Says why a text is no report."""


class Item:
    """A line of a report that has a tick: its tick, its word and its other fields, and whether it counts."""

    def __init__(self, line):
        tick, self.word, *self.fields = line.split(" ")
        self.tick, self.counts = int(tick), True
        self.number = self.fields[0] if self.fields else ""


def read(text):
    """Returns the items of a report, and the lines of its nonvolatile variables."""
    items, nonvolatile = [], []
    for number, line in enumerate(text.splitlines(), 1):
        if NONVOLATILE.fullmatch(line):
            nonvolatile.append(line)
        elif LINE.fullmatch(line) and not nonvolatile and (not items or items[-1].tick <= int(line.split(" ")[0])):
            items.append(Item(line))
        else:
            raise NoReport(f"line {number} is none of a report")
    look_through(items)
    return items, nonvolatile


def look_through(items):
    """Puts down which items lie in an attempt that was broken off, and sees that what ends has begun."""
    entered, open_uses, before = None, [], 0
    for place, item in enumerate(items):
        if item.word == "enter":
            entered, before = place, len(open_uses)
        elif item.word in ("commit", "abort"):
            if entered is None or items[entered].number != item.number:
                raise NoReport(f"region {item.number} is over at {item.tick}, and wasn't entered")
            if item.word == "abort":
                del open_uses[before:]
                for inner in items[entered : place + 1]:
                    inner.counts = False
            entered = None
        elif item.word == "use" and item.number not in open_uses:
            open_uses.append(item.number)
        elif item.word == "done":
            if item.number not in open_uses:
                raise NoReport(f"use {item.number} is done at {item.tick}, and wasn't begun")
            del open_uses[open_uses.index(item.number) :]


def told(item):
    """Returns what an item says, in words."""
    words = ""
    match item.word, item.fields:
        case "sense", [sensor, value]:
            words = f"reads {value} from {sensor}"
        case "emit", [port, value]:
            words = f"writes {value} to {port}"
        case "tag", [number]:
            words = f"tag {number}"
        case "trap", [kind, number]:
            return f"trap {kind} in statement {number}"
        case "abort", _:
            return "broken off"
        case "end" | "dark", _:
            return item.word
    return words if item.counts or not words else f"~{words}~"


class Uses:
    """The uses that are begun and not done, the oldest first, and how many of them the last attempt found."""

    def __init__(self):
        self.open, self.bars, self.before = [], [], 0

    def follow(self, item):
        """Goes on by an item, and returns the lane with what begins or ends there."""
        lane = list(self.bars)
        if item.word == "enter":
            self.before = len(self.open)
        elif item.word == "use" and item.number not in self.open:
            self.open.append(item.number)
            self.bars.append("│" if item.counts else "┊")
            lane.append(f"┌ {item.number}")
        elif item.word == "done":
            at = self.open.index(item.number)
            lane[at:] = [f"└ {item.number}"]
            del self.open[at:], self.bars[at:]
        elif item.word == "abort":
            lane[self.before :] = ["╳"] * (len(self.open) - self.before)
            del self.open[self.before :], self.bars[self.before :]
        return "".join(lane)


def rows_of(items):
    """Returns the rows of the text, each with its tick and its five cells."""
    uses, region = Uses(), None
    rows = [(0, ("0", "┬", "", "", ""))]
    for item, following in zip(items, [*items[1:], None]):
        sign = {"enter": "┌", "commit": "└", "abort": "╳"}.get(item.word)
        lane = f"{sign} {item.number}" if sign else ("│" if item.counts else "┊") * (region is not None)
        region = {"enter": item.number, "commit": None, "abort": None}.get(item.word, region)
        if item.word == "off":
            # The tick at which power fails has one row, with what else happens there.
            _, at_once = rows.pop() if rows[-1][0] == item.tick and rows[-1][1][0] else (0, (str(item.tick), "", lane, uses.follow(item), ""))
            rows.append((item.tick, (at_once[0], "┴", *at_once[2:])))
            rows.append((item.tick, ("", f"off {item.number}", "", "".join(uses.bars), "")))
            if following and following.word != "dark":
                back = item.tick + int(item.number)
                rows.append((back, (str(back), "┬", "", "".join(uses.bars), "")))
        else:
            power = {"end": "┴", "trap": "┴", "dark": ""}.get(item.word, "│")
            rows.append((item.tick, (str(item.tick), power, lane, uses.follow(item), told(item))))
    return rows


def drawn(text, window):
    """Returns the lines of the text that draws what a report says between two ticks."""
    items, nonvolatile = read(text)
    rows = [("tick", "power", "region", "uses", "")] + [row for tick, row in rows_of(items) if window[0] <= tick <= window[1]]
    widths = [max(len(row[at]) for row in rows) for at in range(5)]
    lines = [row[0].rjust(widths[0]) + "  " + "  ".join(cell.ljust(width) for cell, width in zip(row[1:], widths[1:])) for row in rows]
    return [line.rstrip() for line in lines] + nonvolatile


class Scale:
    """Where ticks stand in the picture: ticks with power take a width each, an outage takes one for itself."""

    def __init__(self, items):
        ticks = sorted({item.tick for item in items if item.word in ("sense", "emit", "tag")})
        least = min([b - a for a, b in zip(ticks, ticks[1:]) if b > a], default=2)
        self.tick = max(WIDEST / 2, min(WIDEST * 2, NARROWEST / least))
        self.outages = [(item.tick, int(item.number)) for item in items if item.word == "off"]
        self.last = max([item.tick for item in items], default=0)
        self.gaps, place, since = [], 0.0, 0
        for start, ticks in self.outages:
            place += (start - since) * self.tick + self.gap(start, ticks)
            since = start + ticks
            self.gaps.append((start, since, place))

    def gap(self, tick, ticks):
        """Returns the width of an outage, in which its length and its first tick can be read."""
        return max(GAP, LETTER * len(f"off {ticks}") + 24, LETTER * len(str(tick)) + 8)

    def periods(self):
        """Returns the first and the last tick of each period."""
        starts = [0] + [since for _, since, _ in self.gaps]
        ends = [tick for tick, _ in self.outages] + [max(self.last, starts[-1])]
        return list(zip(starts, ends))

    def at(self, tick, behind=False):
        """Returns the place of a tick; behind an outage that begins and ends there, if asked."""
        passed = bisect.bisect_left(self.gaps, tick + behind, key=lambda gap: gap[0])
        _, since, place = self.gaps[passed - 1] if passed else (0, 0, 0.0)
        return place + max(tick - since, 0) * self.tick


class Rows:
    """The rows of a picture: each shows the places from a cut to the next one, with what is put there."""

    def __init__(self, scale, window, width, height):
        begin, end = (scale.at(min(tick, scale.last)) for tick in window)
        if window[1] >= scale.last:
            end = scale.at(scale.last, behind=True)
        self.height, self.cuts = height, [begin]
        room = max(width - LEFT - PAST - max([GAP, *(scale.gap(*outage) for outage in scale.outages)]), GAP)
        for start, last in [(scale.at(start, behind=True), scale.at(last)) for start, last in scale.periods()]:
            if self.cuts[-1] < start < end and start - self.cuts[-1] >= room:
                self.cuts.append(start)
            while min(last, end) - self.cuts[-1] > room:
                self.cuts.append(max(self.cuts[-1], start) + max(1, (room - max(start - self.cuts[-1], 0)) // scale.tick) * scale.tick)
        self.cuts.append(max(end, begin))
        self.shown = [[] for _ in self.cuts[1:]]
        self.width = LEFT + PAST + max(b - a for a, b in zip(self.cuts, self.cuts[1:]))

    def between(self, left, right):
        """Returns where rows begin between two places."""
        return self.cuts[bisect.bisect_right(self.cuts, left) : bisect.bisect_left(self.cuts, right, hi=len(self.cuts) - 1)]

    def put(self, left, right, draw):
        """Puts into each row the part of something between two places, which `draw` draws at its own two there."""
        first = max(bisect.bisect_right(self.cuts, left) - 1, 0)
        for row in range(first, len(self.shown)):
            begin, end = max(left, self.cuts[row]), min(right, self.cuts[row + 1])
            if right < self.cuts[row] or begin > end or (begin == end and left < right):
                break
            self.shown[row].append(draw(LEFT + begin - self.cuts[row], LEFT + end - self.cuts[row]))

    def mark(self, place, draw):
        """Puts something at one place into the row where that is, if there is one."""
        row = min(bisect.bisect_right(self.cuts, place) - 1, len(self.shown) - 1)
        if 0 <= row and place <= self.cuts[-1]:
            self.shown[row].append(draw(LEFT + place - self.cuts[row]))

    def say(self, place, words, top, aside):
        """Puts words beside a place."""

        def draw(at):
            self.widen(at + aside + LETTER * len(words))
            return f'<text x="{at + aside:.1f}" y="{top}">{words}</text>'

        self.mark(place, draw)

    def widen(self, place):
        """Makes the picture wide enough for what reaches to a place of a row."""
        self.width = max(self.width, place + 8)


def box(top, kind, label=""):
    """Returns what draws a box with a label, which is just a title where the box has no room for it."""

    def draw(left, right):
        width = max(right - left, 2)
        has_room = LETTER * len(label) + 4 <= width
        title = "/>" if has_room or not label else f"><title>{label}</title></rect>"
        shown = f'<rect class="{kind}" x="{left:.1f}" y="{top}" width="{width:.1f}" height="18" rx="2"{title}'
        return shown + (f'<text x="{left + 3:.1f}" y="{top + 13}">{label}</text>' if label and has_room else "")

    return draw


STYLE = """text { font: 11px sans-serif; fill: #222 } .lane { font-weight: bold }
.on { fill: #b7dfb0 } .off { stroke: #999; stroke-dasharray: 3 4 } .region { fill: #a9c8f0 } .use { fill: #f3dc9a }
.broken { fill: #f2b5ad; stroke: #b03a2e; stroke-dasharray: 4 3 } .sense { fill: #2e6fb0 } .emit { fill: #b0572e } .tag { fill: #777 }
.open { stroke: #555; stroke-dasharray: 4 3 } .pale { opacity: 0.45 } .pale text { text-decoration: line-through }"""


def spans(items, scale):
    """Returns the regions and the uses: the places, how deep each lies (regions at 0), its kind and its number."""
    found, region, open_uses, before = [], None, [], 0

    def close(at, place, kind):
        found.extend((*use, place, depth, kind) for depth, use in list(enumerate(open_uses, 1))[at:])
        del open_uses[at:]

    for item in items:
        here = scale.at(item.tick)
        if item.word == "enter":
            region, before = (item.number, scale.at(item.tick, behind=True)), len(open_uses)
        elif item.word in ("commit", "abort"):
            found.append((*region, here, 0, "region" if item.word == "commit" else "broken"))
            region = close(before, here, "broken") if item.word == "abort" else None
        elif item.word == "use" and item.number not in [use for use, _ in open_uses]:
            open_uses.append((item.number, here))
        elif item.word == "done":
            close([use for use, _ in open_uses].index(item.number), here, "use" if item.counts else "broken")
    end = scale.at(scale.last)
    if region:
        found.append((*region, end, 0, "region open"))
    close(0, end, "use open")
    return found


def put_periods(rows, scale):
    """Puts the periods of power and the outages into the rows."""
    for (start, end), outage in zip(scale.periods(), [*scale.outages, None]):
        left, right = scale.at(start, behind=True), scale.at(end)
        rows.put(left, right, box(30, "on"))
        for place in [left, *rows.between(left, right)]:
            rows.say(place, str(start + round((place - left) / scale.tick)), 24, 0)
        if outage:
            rows.put(right, right + scale.gap(*outage), lambda a, b: f'<line class="off" x1="{a:.1f}" y1="39" x2="{b:.1f}" y2="39"/>')
            rows.say(right, f"off {outage[1]}", 34, 12)
            # Where both ticks have no room above the period, the last one stands below.
            begin = max([left, *rows.between(left, right)])
            has_room = right - begin >= LETTER * (len(str(start)) + len(str(end))) + 8
            rows.say(right, str(end), *(24, -7 * len(str(end))) if has_room else (55, 4))


def put_marks(rows, items, scale, lanes):
    """Puts the readings, tags and outputs into the rows."""
    for item in items:
        if item.word in lanes:
            label = " ".join([*["tag"] * (item.word == "tag"), *item.fields])
            top, pale = lanes[item.word], "" if item.counts else "pale"

            def draw(place, top=top, label=label, word=item.word, pale=pale):
                rows.widen(place + 3 + 0.65 * LETTER * len(label))
                shown = f'<circle class="{word}" cx="{place:.1f}" cy="{top}" r="4"/>'
                shown += f'<text transform="translate({place + 3:.1f} {top - 8}) rotate(-50)">{html.escape(label)}</text>'
                return f'<g class="{pale}">{shown}</g>' if pale else shown

            rows.mark(scale.at(item.tick), draw)


def picture(text, window, width):
    """Returns the SVG picture of what a report says between two ticks."""
    items, _ = read(text)
    scale = Scale(items)
    found = spans(items, scale)
    lower = LANE * max(0, max([depth for _, _, _, depth, _ in found], default=0) - LANES)
    rows = Rows(scale, window, width, HEIGHT + lower)
    put_periods(rows, scale)
    for number, left, right, depth, kind in found:
        rows.put(left, right, box(69 + LANE * depth if depth else 60, kind, number))
        if kind == "broken" and depth == 0:
            # In the outage there is room for words.
            rows.say(right, "broken off", 73, 4)
    put_marks(rows, items, scale, {"sense": 205 + lower, "tag": 205 + lower, "emit": 290 + lower})
    names = (("power", 43), ("region", 73), ("use", 103), ("readings", 209 + lower), ("outputs", 294 + lower))
    for row in rows.shown:
        row += [f'<text class="lane" x="8" y="{place}">{name}</text>' for name, place in names]
    if items and items[-1].word in ("end", "dark", "trap"):
        rows.say(scale.at(scale.last), items[-1].word, 43, 4)
    return joined(rows)


def joined(rows):
    """Returns the picture of some rows."""
    height, many = rows.height * len(rows.shown), len(rows.shown) > 1
    head = f'<svg xmlns="http://www.w3.org/2000/svg" width="{rows.width:.0f}" height="{height}" viewBox="0 0 {rows.width:.0f} {height}">'
    lines = [head, f"<style>{STYLE}</style>", '<rect width="100%" height="100%" fill="#fff"/>']
    for number, shown in enumerate(rows.shown):
        lines += [f'<g transform="translate(0 {rows.height * number})">'] * many + shown + ["</g>"] * many
    return "\n".join([*lines, "</svg>"])


def words():
    parser = argparse.ArgumentParser(description=__doc__, formatter_class=argparse.RawDescriptionHelpFormatter)
    parser.add_argument("--svg", action="store_true", help="draw a picture")
    parser.add_argument("--width", type=int, default=1600, metavar="W", help="how many pixels wide a row of the picture is at most (1600)")
    parser.add_argument("--from", type=int, default=0, metavar="T", dest="first", help="draw what happens from this tick on")
    parser.add_argument("--to", type=int, default=2**64, metavar="T", dest="last", help="draw what happens up to this tick")
    parser.add_argument("report", metavar="REPORT", help="the file of a report, or - for standard input")
    return parser.parse_args()


def main():
    asked = words()
    window = asked.first, asked.last
    if window[0] > window[1] or asked.width < 300:
        sys.exit("timeline: --to is at --from or later, and --width at least 300")
    try:
        with sys.stdin.buffer if asked.report == "-" else open(asked.report, "rb") as file:
            text = file.read().decode("ascii", errors="replace")
        print(picture(text, window, asked.width) if asked.svg else "\n".join(drawn(text, window)), flush=True)
    except NoReport as fault:
        sys.exit(f"timeline: {asked.report} is no report: {fault}")
    except BrokenPipeError:
        os.dup2(os.open(os.devnull, os.O_WRONLY), sys.stdout.fileno())
    except OSError as fault:
        sys.exit(f"timeline: {asked.report}: {fault.strerror}")


if __name__ == "__main__":
    main()
