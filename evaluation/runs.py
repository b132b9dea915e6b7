"""Runs applications in four versions over supplies of power, and judges each report.

The versions are one code with other regions:
    plain   without regions: checkpoints alone
    ocelot  with the regions that are inferred from the annotations
    turns   a region around each turn of the outermost loops of main, as somebody may write by hand
    whole   a region around all of main
`run` has no blocks, so the code of `build --image` gets other regions (imagefile.py), and `exec` verifies and runs it.
Each version comes twice: with the probes that say `use`, `done` and `tag`, by which it is judged, and without them, for
what it costs.
"""
import collections
import dataclasses
import pathlib
import random
import re
import subprocess
import sys

HERE = pathlib.Path(__file__).resolve().parent
SOURCES = HERE.parent / "examples" / "applications"
sys.path.insert(0, str(HERE.parent / "checks"))
import judge  # noqa: E402
import world  # noqa: E402
from imagefile import Image  # noqa: E402
from program import program  # noqa: E402
from replay import Program, Replay  # noqa: E402

APPLICATIONS = "activity cem greenhouse photo send_photo tire".split()
VERSIONS = "plain ocelot turns whole".split()
LENGTHS = sorted(base << shift for shift in range(3, 15) for base in (2, 3))
SENSOR_FILES = 20
MOST_PERIODS = 6000  # a run that hasn't ended after so many is taken for one that doesn't
ANNOTATION = re.compile(r"\b(Fresh|Consistent)\([^)]*\);")
WRITTEN = (0, 8, 9)


@dataclasses.dataclass
class Scale:
    """How much is measured: sensor files, steps behind which power fails, seeds of each length and traces of power."""

    sensors: int = 6
    steps: int = 300
    seeds: int = 2
    traces: int = 10


SMALL = Scale(sensors=1, steps=40, seeds=0, traces=1)


def asked(*words):
    return subprocess.run([program(), *words], stdin=subprocess.DEVNULL, capture_output=True)


def printed(*words):
    done = asked(*words)
    if done.returncode:
        raise SystemExit(f"{words}: status {done.returncode}: {done.stderr.decode()}")
    return done.stdout


class Application:
    """An application: its source, its images, what `regions` says of it, and the judge's programs."""

    def __init__(self, name, folder):
        self.name, self.folder, self.path = name, folder, SOURCES / f"{name}.oc"
        self.source = self.path.read_text()
        self.data = printed("build", "--image", self.path)
        lines = printed("regions", self.path).decode().splitlines()
        self.regions = [line.split(" ") for line in lines if line.startswith("region ")]
        self.reasons = [line for line in lines if line.startswith(("fresh ", "consistent "))]
        self.total, self.safe = (int(line.split(" ")[1]) for line in lines[-2:])
        self.stack = Image(self.data).stack
        self.judges = {probes: Program(self.source, self.image("plain", probes)) for probes in (True, False)}
        for version in VERSIONS:
            for probes in (True, False):
                self.file(version, probes).write_bytes(self.image(version, probes).bytes())
        self.bare = folder / "bare.oc"
        self.bare.write_text(ANNOTATION.sub("", self.source))
        for seed in range(SENSOR_FILES):
            self.sensors(seed).write_text(world.sensor_file(name, seed))

    def image(self, version, probes):
        """Returns the image of a version."""
        image = Image(self.data).drop(*([] if probes else ["probe"]))
        if version != "ocelot":
            image.drop("enter", "commit")
        if version == "turns":
            image.turns()
        if version == "whole":
            image.whole()
        return image

    def file(self, version, probes):
        return self.folder / f"{version}-{'judged' if probes else 'bare'}"

    def sensors(self, seed):
        return self.folder / f"sensors-{seed % SENSOR_FILES}"

    def power(self, rows):
        file = self.folder / "power"
        file.write_text(world.power_file(rows))
        return file

    def enough(self, length):
        """Returns a number of periods after which a run is taken for one that doesn't end."""
        return max(60, min(MOST_PERIODS, 20 * self.total // length))

    def audited(self, version, probes, report):
        """Says whether `audit` finds a report honest, or None where there is no source that has just this code."""
        source = {("ocelot", True): self.path, ("plain", False): self.bare}.get((version, probes))
        if source is None:
            return None
        file = self.folder / "report"
        file.write_bytes(report)
        return asked("audit", source, file).stdout == b"honest\n"


@dataclasses.dataclass
class Run:
    """A run in numbers."""

    app: str
    version: str
    probes: int
    family: str
    size: int  # the length of periods, what the capacitor holds, or the step behind which power fails
    seed: int
    status: int
    end: int  # its last tick
    on: int  # steps with power
    outages: int
    aborts: int
    attempts: int  # steps of attempts that were broken off
    emits: int
    lost: int  # outputs of attempts that were broken off
    longest: str  # of each region: the most steps from `enter` to `commit`
    audits: int = 0
    honest: int = 0
    instructions: int = 0  # those of the plain program over the readings that counted
    uses: int = 0
    stale: int = 0
    sets: int = 0
    split: int = 0
    torn: int = 0
    age: int = 0
    spread: int = 0
    inside: int = 0  # of one outage: whether it lies in an inferred region,
    foretold: int = 0  # and whether it was to do harm, by the run without outages

    def is_broken(self):
        return self.stale + self.split + self.torn > 0


def counted(items):
    """Returns what a report counts: steps, outages, and attempts that were broken off."""
    counts, longest = collections.Counter(), collections.Counter()
    for tick, (kind, *rest) in items:
        counts[kind] += 1
        if kind == "enter":
            opened, emitted = tick, counts["emit"]
        elif kind == "commit":
            longest[rest[0]] = max(longest[rest[0]], tick - opened)
        elif kind == "abort":
            counts["attempts"] += tick - opened - 1
            counts["lost"] += counts["emit"] - emitted
        elif kind == "off":
            counts["away"] += int(rest[0])
    end = items[-1][0]
    return {
        "end": end, "on": end - counts["away"] + counts["end"], "outages": counts["off"], "aborts": counts["abort"],
        "attempts": counts["attempts"], "emits": counts["emit"], "lost": counts["lost"],
        "longest": " ".join(f"{region}:{steps}" for region, steps in sorted(longest.items())),
    }  # fmt: skip


def run(app, version, probes, family, size, seed, rows):
    """Runs a version over a supply, and returns the run in numbers and the spans of ticks in which an outage does harm."""
    done = asked("exec", app.file(version, probes), app.sensors(seed), app.power(rows))
    if done.returncode not in WRITTEN:
        raise SystemExit(f"{app.name} {version}: status {done.returncode} {done.stderr.decode()}")
    items = judge.items_of(done.stdout.decode())
    verdict, spans = judge.judged(app.judges[probes], items)
    found = Run(app.name, version, int(probes), family, size, seed, done.returncode, **counted(items), **dataclasses.asdict(verdict))
    is_honest = app.audited(version, probes, done.stdout)
    found.audits, found.honest = int(is_honest is not None), int(is_honest is True)
    return found, spans


def continuous(app, scale):
    """Runs without outages."""
    for version in VERSIONS:
        for probes in (True, False):
            for seed in range(scale.sensors):
                yield run(app, version, probes, "none", 0, seed, world.steady())[0]


def marked(app, version, seed):
    """Returns the run without outages of the code with inferred regions, over the readings that a version takes."""
    done = asked("exec", app.file(version, True), app.sensors(seed), app.power(world.steady()))
    samples = [int(words[2]) for _, words in judge.items_of(done.stdout.decode()) if words[0] == "sense"]
    return Replay(Program(app.source, Image(app.data)), samples)


def exposure(app, scale):
    """One outage behind each of so many steps, without regions, and with them behind some of these."""
    whole, spans = run(app, "plain", True, "none", 0, 0, world.steady())
    harmful, inside = judge.harmful(spans), [0, *marked(app, "plain", 0).inside]  # the first step is that of the boot
    for version, share in (("plain", 1), ("ocelot", 4)):
        for step in range(1, whole.on, (1 + whole.on // scale.steps) * share):
            found, _ = run(app, version, True, "one", step, 0, world.one_outage(step))
            if version == "plain":
                found.inside, found.foretold = int(0 < inside[step - 1] == inside[step]), int(step in harmful)
            yield found


def periods(app, scale):
    """Periods of one length. The versions by hand are left out where they can't get anywhere."""
    for length in LENGTHS:
        versions = VERSIONS if length >= app.safe else VERSIONS[:2]
        for seed in range(scale.seeds):
            rows = world.constant(length, random.Random(f"{app.name} {length} {seed}"), app.enough(length))
            for version in versions:
                for probes in (True, False):
                    yield run(app, version, probes, "constant", length, seed, rows)[0]


def harvests(app, scale, source):
    """Harvested power, with a capacitor that holds just what regions need, and with one of four times that."""
    for charge, capacity in (("tight", app.safe), ("roomy", 4 * app.safe)):
        for seed in range(scale.traces):
            rng = random.Random(f"{app.name} {source} {capacity} {seed}")
            rows = world.harvested(source, rng, capacity, app.enough(capacity))
            for version in VERSIONS:
                for probes in (True, False):
                    yield run(app, version, probes, f"{source} {charge}", capacity, seed, rows)[0]
