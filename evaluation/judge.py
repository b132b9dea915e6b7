"""Judges a report: which uses and which sets in it had an outage where the annotations forbid one.

The judge goes by no region and by nothing that the compiler worked out about flow. It executes the code of the program
without its regions over the readings that the report kept (replay.py), and each word carries the readings on which its
value depends. What is executed must say just what the report says. Then, as docs/ANALYSIS.md says it, with the attempts
that were broken off left out:

- a use is stale where an outage lies between a reading on which it depends and its `use` or its `done`;
- a set is split where an outage lies between two readings on which its annotated variables depend at their tags.
"""
import dataclasses

from replay import Replay


def items_of(report):
    """Returns the items of a report: ticks and words."""
    lines = (line.split(" ") for line in report.splitlines())
    return [(int(tick), tuple(words)) for tick, *words in lines if tick != "nv"]


def kept(items):
    """Returns the items without the attempts that were broken off."""
    stay, opened = [], None
    for item in items:
        word = item[1][0]
        if word == "enter":
            opened = len(stay)
        if word == "abort":
            del stay[opened:]
        else:
            stay.append(item)
    return stay


def bits(readings):
    """Returns the numbers of the readings of a set."""
    return [number for number, one in enumerate(bin(readings)[:1:-1]) if one == "1"]


@dataclasses.dataclass
class Verdict:
    """What the judge found in a report."""

    instructions: int = 0  # of the program without regions and probes over these readings
    uses: int = 0
    stale: int = 0
    sets: int = 0
    split: int = 0
    torn: int = 0  # outages in a region that counts
    age: int = 0  # the greatest age in ticks of a reading at the end of a use
    spread: int = 0  # the most ticks between two readings of a set


class Judge:
    """Goes over the items of a report that counted."""

    def __init__(self, said):
        self.said = iter(said)  # what the program says
        self.verdict = Verdict()
        self.taken = []  # of each reading: its tick, and how many outages were before it
        self.outages, self.inside = 0, False
        self.begun = {}  # of each statement whose use is begun: whether it is stale so far
        self.readings = {}  # of each set: the readings on which its variables depend
        self.spans = []  # ticks between which an outage does harm: behind the first, up to the second

    def item(self, tick, words):
        kind = words[0]
        if kind in ("enter", "commit"):
            self.inside = kind == "enter"
        elif kind == "off":
            self.outages += 1
            self.verdict.torn += self.inside
        elif kind != "dark":
            self.said_item(tick, words)

    def said_item(self, tick, words):
        """Takes an item that the program says."""
        said = next(self.said)
        if said.words != words:
            raise ValueError(f"at tick {tick} the report says {' '.join(words)}, and the program {' '.join(said.words)}")
        if words[0] == "sense":
            self.taken.append((tick, self.outages))
        elif words[0] in ("use", "done"):
            self.use(tick, words[0], (said.frame, words[1]), bits(said.readings))
        elif words[0] == "tag":
            self.readings[said.instance] = self.readings.get(said.instance, 0) | said.readings

    def use(self, tick, kind, statement, readings):
        late = False
        for reading in readings:
            then, before = self.taken[reading]
            late |= before != self.outages
            self.verdict.age = max(self.verdict.age, tick - then)
            self.spans.append((then, tick))
        if kind == "use":
            self.begun[statement] = self.begun.get(statement, False) or late
        else:
            self.verdict.uses += 1
            self.verdict.stale += self.begun.pop(statement, False) or late

    def close(self):
        """Judges what is still open at the end, and the sets."""
        self.verdict.uses += len(self.begun)
        self.verdict.stale += sum(self.begun.values())
        self.verdict.sets = len(self.readings)
        for readings in self.readings.values():
            taken = [self.taken[reading] for reading in bits(readings)]
            if taken:
                first, last = min(taken)[0], max(taken)[0]
                self.verdict.spread = max(self.verdict.spread, last - first)
                self.verdict.split += len({before for _, before in taken}) > 1
                self.spans.append((first, last))
        return self.verdict


def judged(program, items):
    """Returns the verdict on the items of a report, and the spans of ticks within which an outage does harm."""
    stay = kept(items)
    run = Replay(program, [int(words[2]) for _, words in stay if words[0] == "sense"])
    judge = Judge(run.said)
    for tick, words in stay:
        judge.item(tick, words)
    verdict = judge.close()
    verdict.instructions = run.instructions
    return verdict, judge.spans


def harmful(spans):
    """Returns the numbers of steps behind which one outage does harm, where a run without outages has these spans."""
    steps = set()
    for first, last in spans:
        steps.update(range(first + 1, last + 1))
    return steps
