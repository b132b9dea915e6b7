#!/usr/bin/env python3
"""Compares crates.txt with the files of the crates, and the picture of it with crates.txt: crates.py [--write]

A line of crates.txt names what its crate stands on: each library that a file of its src/, specs/ or proofs/ names, and no
other. The picture in docs/ARCHITECTURE.md has a line for each crate, by layers: a crate stands one layer above the highest
that it stands on. Beside its name are those that it stands on directly, not by way of another.

Prints each name that is missing or too many, and whether the picture is another, and ends with 1 where there is one. With
--write the lines are written anew, the names of each in the order in which they stood, and then the picture.
"""
import pathlib
import re
import sys

TOP = pathlib.Path(__file__).resolve().parent.parent
LIST = TOP / "crates.txt"
PAGE = TOP / "docs/ARCHITECTURE.md"
# The picture is the block behind this heading.
HEADING = "### Which stands on which\n"
PARTS = ("src", "specs", "proofs")
# A library is named as the beginning of a path, in code or in definitions.
NAME = re.compile(r"\b(?:Rattle\.|(?=[a-z0-9_]+::))([a-z][a-z0-9_]*)")


def listed():
    """Returns for each crate what its line names."""
    lines = [line.partition(":") for line in LIST.read_text().splitlines() if not line.startswith("#")]
    return {crate: below.split() for crate, _, below in lines}


def named(crate, libraries):
    """Returns which of these libraries the files of a crate name."""
    found = set()
    for part in PARTS:
        for path in (TOP / "crates" / crate / part).rglob("*"):
            if path.suffix in (".rt", ".antt"):
                found |= libraries & set(NAME.findall(path.read_text()))
    return found - {crate}


def in_order(below, wanted):
    """Returns what a line should name: what stands there, and then the rest by name."""
    return [name for name in below if name in wanted] + sorted(wanted - set(below))


def rewritten(line, wanted):
    """Returns a line of crates.txt with what it should name."""
    crate, colon, below = line.partition(":")
    return line if line.startswith("#") or not colon else f"{crate}: {' '.join(in_order(below.split(), wanted[crate]))}".rstrip()


def all_below(crate, lines):
    """Returns all that a crate stands on, directly or by way of another."""
    return set(lines[crate]).union(*(all_below(name, lines) for name in lines[crate]))


def layer(crate, lines):
    """Returns the layer of a crate: 1 where it stands on none."""
    return 1 + max((layer(name, lines) for name in lines[crate]), default=0)


def picture():
    """Returns the lines of the picture, by layers, and inside of a layer in the order of crates.txt."""
    crates = listed()
    lines = {crate: [name for name in names if name in crates] for crate, names in crates.items()}
    rows, last = [], 0
    for number, crate in sorted(((layer(crate, lines), crate) for crate in lines), key=lambda row: row[0]):
        direct = [name for name in lines[crate] if not any(name in all_below(other, lines) for other in lines[crate])]
        rows.append(f"{number if number > last else '':>2}  {crate:16}{' '.join(direct)}".rstrip())
        last = number
    return rows


def drawn(page):
    """Returns a page in three parts: what stands before the lines of its picture, these, and the rest."""
    head, heading, rest = page.partition(HEADING)
    text, fence, block = rest.partition("```\n")
    rows, end, tail = block.partition("```\n")
    return head + heading + text + fence, rows.splitlines(), end + tail


def main():
    lines = listed()
    libraries = set(lines).union(*lines.values())
    wanted = {crate: named(crate, libraries) for crate in lines}
    if sys.argv[1:] == ["--write"]:
        text = LIST.read_text().splitlines()
        LIST.write_text("".join(f"{rewritten(line, wanted)}\n" for line in text))
        head, _, tail = drawn(PAGE.read_text())
        PAGE.write_text(head + "".join(f"{row}\n" for row in picture()) + tail)
        return 0
    told = [f"crates: {crate} names {name}, which its line lacks" for crate in lines for name in sorted(wanted[crate] - set(lines[crate]))]
    told += [f"crates: the line of {crate} has {name}, which it doesn't name" for crate in lines for name in lines[crate] if name not in wanted[crate]]
    if drawn(PAGE.read_text())[1] != picture():
        told.append("crates: the picture in docs/ARCHITECTURE.md is that of other lines; crates.py --write draws it")
    print("\n".join(told or [f"crates: {len(lines)} lines have what their crates name"]))
    return 1 if told else 0


if __name__ == "__main__":
    sys.exit(main())
