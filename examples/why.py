#!/usr/bin/env python3
"""Says why the regions of a program are as large as they are: why.py SRC
                                                            why.py --lines SRC

SRC is a source. For each region that './ocelot regions SRC' lists, and each reason for it, come the statements that the
region must hold, with their lines and numbers, the first and the last of them marked: inputs with the variables on their
way to the one that is annotated, uses, annotations, calls, and loops that carry an input from turn to turn. Behind the
regions stands each annotation that binds nothing. With --lines all statements of SRC are listed instead, each with its
number and its line. OCELOT in the environment stands in the place of ./ocelot.
"""
import pathlib
import signal
import subprocess
import sys

sys.dont_write_bytecode = True

from caller import ocelot
from sites import Analysis, policies, requirements
from statements import Reader

NOT_COVERED = 18


class Region:
    """A region as it is listed: its line, its function, its first and its last number, and its reasons."""

    def __init__(self, line):
        _, _, self.function, numbers, *_ = line.split(" ")
        self.line, self.reasons = line, []
        self.first, self.last = map(int, numbers.split(".."))


def asked(command, source, accepted):
    """Returns what the program prints of a source, and ends as the program does where it refuses it."""
    done = subprocess.run([ocelot(), command, source], stdin=subprocess.DEVNULL, stdout=subprocess.PIPE, stderr=subprocess.PIPE, encoding="utf-8", errors="replace")
    if done.returncode not in accepted:
        sys.stderr.write(done.stderr)
        sys.exit(done.returncode)
    return done.stdout


def listed(text):
    """Returns the regions that are listed."""
    found = []
    for line in text.splitlines():
        if line.startswith("region "):
            found.append(Region(line))
        elif line.startswith(("fresh ", "consistent ")):
            found[-1].reasons.append(line)
    return found


def read(source):
    return Reader(pathlib.Path(source).read_text(encoding="latin-1"))


def holds(region, function, sites):
    """Says whether a region holds all these sites."""
    within = {s.number for s in function.statements for outer in [s, *s.around] if region.first <= outer.number <= region.last and s.number >= region.first}
    return region.function == function.name and all(site.statement.number in within for site in sites)


def shown(sites):
    """Returns the lines about the sites of a requirement."""
    lowest, highest = sites[0].statement, sites[-1].statement
    for site in sites:
        at = site.statement
        place = "only" if lowest is highest else "first" if at is lowest else "last" if at is highest else ""
        yield f"    line {at.line:<4} statement {at.number:<4} {place:5} {at.text}"
        yield f"{'':33}{site.why}"


def reasons(program, regions):
    """Returns the lines for each region, by what its requirements are, and the policies that bind nothing."""
    analysis = Analysis(program)
    lines, idle = {region: [] for region in regions}, []
    found = {region: [] for region in regions}
    for policy in policies(program.functions):
        tied = list(requirements(analysis, policy))
        idle += [] if tied else [policy]
        for function, sites in tied:
            region = next((region for region in regions if holds(region, function, sites)), None)
            if region is None:
                sys.exit(f"why: no region holds what {policy.name()} ties together in {function.name}")
            found[region] += [] if policy.name() in found[region] else [policy.name()]
            lines[region] += [f"  {policy.name()}", *shown(sites)]
    for region in regions:
        if found[region] != region.reasons:
            sys.exit(f"why: the reasons found for region {region.line} are others: {', '.join(found[region])}")
    return lines, idle


def unbound(policy):
    """Returns the lines about the annotations of a policy that binds nothing."""
    cause = "no reading goes into it" if policy.held() else f"no statement uses {policy.key.name}"
    return [f"binds nothing: line {note.line} {note.text} {cause}" for note in policy.notes]


def explained(source):
    """Returns the lines about the regions of a source."""
    regions = listed(asked("regions", source, (0,)))
    lines, idle = reasons(read(source), regions)
    told = [line for region in regions for line in [region.line, *lines[region]]]
    return (told or ["no annotation asks for a region"]) + [line for policy in idle for line in unbound(policy)]


def numbered(source):
    """Returns the lines that list the statements of a source."""
    asked("check", source, (0, NOT_COVERED))
    statements = [statement for function in read(source).functions.values() for statement in function.statements]
    return [f"{s.number} line {s.line}: {s.text}" for s in sorted(statements, key=lambda s: s.number)]


def main():
    # Where what reads this stops, this stops.
    signal.signal(signal.SIGPIPE, signal.SIG_DFL)
    words = sys.argv[1:]
    if words in (["--help"], ["-h"]):
        print(__doc__, end="")
        return
    lines = words[:1] == ["--lines"]
    if len(words) != 1 + lines or words[-1].startswith("-"):
        sys.exit(__doc__)
    print(*(numbered if lines else explained)(words[-1]), sep="\n")


if __name__ == "__main__":
    main()
