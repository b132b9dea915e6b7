#!/usr/bin/env python3
"""Tries examples/why.py: why.py [--sources FOLDER] [WORD..]

For each source of a case or an example that has regions, and for random ones, the smallest ranges around the sites that
it prints for a region must make up just that region, its reasons must be those that are listed, and each policy that no
region has must be named as one that binds nothing. These ranges are found by the reader of statements of blocks.py and
not by that of the examples; and the lines that both and 'regions' know of statements must be the same. Where a file
NAME.why stands beside NAME.oc, the lines must be those, and so with NAME.lines and --lines. With words only
the sources whose names have one of them, and no random ones; with a folder the files in it. The program is that of
OCELOT in the environment, or else the built one. Prints what differs; ends with 1 where something does.
"""
import argparse
import pathlib
import re
import subprocess
import sys
import tempfile

sys.dont_write_bytecode = True

import blocks
from inputs import annotated
from program import TOP, program

sys.path.insert(0, str(TOP / "examples"))
import statements
import why

RANDOM = 100
SITE = re.compile(r"    line (\d+) +statement (\d+) ")
REGION = re.compile(r"region \d+ (\S+) (\d+)\.\.(\d+) lines (\d+)\.\.(\d+) ")


class Tree:
    """The statements of a source as blocks.py reads them: where each one stands, and its line."""

    def __init__(self, source):
        lists = [found for found, _ in blocks.Reader(source).program()]
        self.lists, self.all = lists, [(s, at, place) for at, found in enumerate(lists) for place, s in enumerate(found)]
        self.places = {number: (at, place) for s, at, place in self.all for number in range(s.first, s.number + 1)}
        self.lines = {number: source.count("\n", 0, s.start) + 1 for s, _, _ in self.all for number in range(s.first, s.number + 1)}

    def ways(self, number):
        """Returns the list and the place in it of a statement and of each one around it, the innermost first."""
        at, place = self.places[number]
        inner = self.lists[at][place]
        around = [(s.start, *where) for s, *where in self.all if s.start < inner.start and inner.end <= s.end]
        return [(at, place), *((at, place) for _, at, place in sorted(around, reverse=True))]

    def smallest(self, numbers):
        """Returns the first and the last number of the smallest range that holds these statements."""
        ways = [dict(self.ways(number)) for number in numbers]
        at = next(at for at, _ in self.ways(numbers[0]) if all(at in way for way in ways))
        places = [way[at] for way in ways]
        return at, self.lists[at][min(places)].first, self.lists[at][max(places)].number


def united(tree, ranges):
    """Returns the one range that these make up, as the rules say, or None where they make up several."""
    joined = []
    for at, first, last in sorted(ranges):
        if joined and joined[-1][0] == at and first <= joined[-1][2]:
            joined[-1] = (at, joined[-1][1], max(last, joined[-1][2]))
        else:
            joined.append((at, first, last))
    outer = [r for r in joined if not any(is_inside(tree, r, other) for other in joined if other is not r)]
    return outer[0] if len(outer) == 1 else None


def is_inside(tree, inner, outer):
    """Says whether a range lies inside a statement of another one."""
    return any(at == outer[0] and outer[1] <= tree.lists[at][place].number <= outer[2] for at, place in tree.ways(inner[1])[1:])


def parts(lines):
    """Returns for each region its line, and for each of its reasons that line with the numbers of the sites."""
    found = []
    for line in lines:
        site = SITE.match(line)
        if line.startswith("region "):
            found.append((line, []))
        elif line.startswith(("  fresh ", "  consistent ")):
            found[-1][1].append((line.strip(), []))
        elif site:
            found[-1][1][-1][1].append((int(site[2]), int(site[1])))
    return found


def faults_of_region(tree, line, tied):
    """Yields what is wrong with the sites of a region."""
    function, first, last, *lines = REGION.match(line).groups()
    for reason, sites in tied:
        for number, at in sites:
            if tree.lines[number] != at:
                yield f"statement {number} has line {tree.lines[number]}, not {at}"
    whole = united(tree, [tree.smallest([number for number, _ in sites]) for _, sites in tied])
    if whole is None or whole[1:] != (int(first), int(last)):
        yield f"the sites of {function} make up {whole}, not {first}..{last}"
    if [str(tree.lines[int(number)]) for number in (first, last)] != lines:
        yield f"{first}..{last} have other lines than {lines}"


def all_statements(source):
    return [s for function in statements.Reader(source).functions.values() for s in function.statements]


def policies_of(source):
    """Returns what the annotations of a source ask for, each with their lines."""
    found = {}
    for function in statements.Reader(source).functions.values():
        for s in function.statements:
            if s.note:
                kind, variable, *number = s.note
                name = f"{kind} {function.name} {int(number[0].replace('_', '')) if number else variable.name}"
                found.setdefault(name, []).append(s.line)
    return found


def faults_of_files(path):
    """Yields where the lines aren't those of the files beside a source."""
    for end, printed in (("why", why.explained), ("lines", why.numbered)):
        kept = path.with_suffix(f".{end}")
        if kept.exists() and kept.read_text().splitlines() != printed(path):
            yield f"the lines aren't those of {kept.name}"


def faults(path):
    """Yields what is wrong with what is printed of a source that is accepted."""
    source = path.read_text(encoding="latin-1")
    yield from faults_of_files(path)
    tree = Tree(source)
    try:
        lines = why.explained(path)
    except SystemExit as end:
        yield str(end)
        return
    known = [line for line in lines if line.startswith("region ")]
    printed = subprocess.run([program(), "regions", path], stdout=subprocess.PIPE, encoding="ascii").stdout.splitlines()
    if known != [line for line in printed if line.startswith("region ")]:
        yield "the regions are others"
    for line, tied in parts(lines):
        yield from faults_of_region(tree, line, tied)
    reasons = {line for line in printed if line.startswith(("fresh ", "consistent "))}
    wanted = sorted(line for policy, lines_of in policies_of(source).items() if policy not in reasons for line in lines_of)
    idle = sorted(int(line.split()[3]) for line in lines if line.startswith("binds nothing: line "))
    if idle != wanted:
        yield f"the annotations of lines {idle} are said to bind nothing, and no region has those of lines {wanted}"
    if {s.number: s.line for s in all_statements(source)} != tree.lines:
        yield "the two readers of statements don't agree"


def accepted(path):
    return subprocess.run([program(), "regions", path], stdin=subprocess.DEVNULL, capture_output=True).returncode == 0


def main():
    parser = argparse.ArgumentParser(description="Tries examples/why.py.")
    parser.add_argument("--sources", type=pathlib.Path)
    parser.add_argument("words", nargs="*", metavar="WORD")
    asked = parser.parse_args()
    why.PROGRAM = program()
    paths = sorted(path for folder in ("checks/cases", "examples") for path in (TOP / folder).rglob("*.oc"))
    with tempfile.TemporaryDirectory() as folder:
        if asked.sources:
            paths = sorted(asked.sources.iterdir())
        elif not asked.words:
            for seed in range(RANDOM):
                made = pathlib.Path(folder, f"random-{seed}.oc")
                made.write_text(annotated.source(seed))
                paths.append(made)
        tried = [path for path in paths if (not asked.words or any(word in str(path) for word in asked.words)) and accepted(path)]
        told = [f"{path.name}: {line}" for path in tried for line in faults(path)]
    print(*told[:40], f"why: {len(tried)} sources, {len(told)} faults", sep="\n")
    return 1 if told or not tried else 0


if __name__ == "__main__":
    sys.exit(main())
