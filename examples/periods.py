#!/usr/bin/env python3
"""Says how many periods of power suffice for a program's end: periods.py SRC ON

SRC is a source and ON the number of steps of each period, as in rows `ON,OFF` of a power file whose checkpoints
complete. Goes by what './ocelot regions SRC' prints, and by where the regions begin in SRC; OCELOT in the environment
stands in the place of ./ocelot. That so many periods suffice, whatever the sensors show, is proved
(docs/ANALYSIS.md, 'How many periods suffice').
"""
import pathlib
import subprocess
import sys

sys.dont_write_bytecode = True

from caller import ocelot
from statements import TOKEN, Reader

LARGEST = 2**64 - 1


class Tolls:
    """What the entries of regions cost a run at most, beside its instructions.

    `tolls` has the steps of each entry by the statement with which its region begins.
    """

    def __init__(self, source, tolls):
        self.functions, self.tolls = Reader(source).functions, tolls
        self.known = {}

    def of_function(self, name):
        """Returns what an execution of a function pays."""
        if name not in self.known:
            inside = {}
            for statement in self.functions[name].statements:
                outer = statement.around[0].number if statement.around else None
                inside.setdefault(outer, []).append(statement)
            self.known[name] = sum(self.of_statement(statement, inside) for statement in inside.get(None, []))
        return self.known[name]

    def of_statement(self, statement, inside):
        """Returns what a statement pays, where `inside` has the statements in the blocks of each one."""
        blocks = {}
        for inner in inside.get(statement.number, []):
            blocks[inner.block] = blocks.get(inner.block, 0) + self.of_statement(inner, inside)
        called = self.of_function(statement.call.name) if statement.call else 0
        return self.tolls.get(statement.number, 0) + called + turns(statement) * max(blocks.values(), default=0)


class Numbers:
    """What is printed with the regions of a program, and what follows from it and from the source."""

    def __init__(self, text, source):
        fields = [line.split(" ") for line in text.splitlines()]
        regions = [line for line in fields if line[0] == "region"]
        firsts = [int(line[3].split("..")[0]) for line in regions]
        budgets = [int(line[line.index("budget") + 1]) for line in regions]
        logged = [int(line[line.index("logged") + 1]) for line in regions]
        single = {line[0]: int(line[1]) for line in fields if line[0] in ("total", "safe")}
        self.total, self.safe = single["total"], single["safe"]
        if regions:
            self.words = (self.safe - 9 - max(budgets)) // 2
            self.least = self.safe - min(self.words + 4, max(budgets))
            tolls = {first: 3 + self.words + count for first, count in zip(firsts, logged)}
            printed = half(self.total * (5 + self.words + max(logged)))
            self.steps = min(self.total + Tolls(source, tolls).of_function("main"), printed)
        else:
            self.words = self.safe - 6
            self.least, self.steps = self.safe, self.total

    def periods(self, steps):
        """Returns how many periods of so many steps suffice, or None where they may be too short."""
        if steps < self.least:
            return None
        return min(self.total, over(self.steps, steps + 1 - self.least))


def turns(statement):
    """Returns how many turns a statement takes at most, where it is a loop, and else 1."""
    if not statement.is_loop:
        return 1
    words = TOKEN.findall(statement.text.removesuffix("{"))
    if words[0] == "while":
        return int(words[-1])
    middle = words.index("..")
    first, end = (int("".join(part)) for part in (words[3:middle], words[middle + 1 :]))
    return max(0, end - first)


def half(number):
    """Returns half of a number, rounded up."""
    return over(number, 2)


def over(number, part):
    """Returns how many such parts hold a number."""
    return -(-number // part)


def shown(numbers, steps):
    """Returns the lines about periods of so many steps."""
    periods = numbers.periods(steps)
    lines = [f"total {numbers.total}", f"safe {numbers.safe}", f"stack {numbers.words}", f"least {numbers.least}", f"steps {numbers.steps}"]
    if periods is None:
        return [*lines, f"a period of {steps} steps may carry the run nowhere"]
    carried = steps + 1 - numbers.least
    return [*lines, f"a period of {steps} steps carries the run {carried} further", f"periods that suffice {periods}"]


def main():
    if len(sys.argv) != 3 or not sys.argv[2].isascii() or not sys.argv[2].isdigit():
        sys.exit(__doc__)
    done = subprocess.run([ocelot(), "regions", sys.argv[1]], stdin=subprocess.DEVNULL, stdout=subprocess.PIPE, encoding="ascii")
    if done.returncode:
        sys.exit(done.returncode)
    numbers = Numbers(done.stdout, pathlib.Path(sys.argv[1]).read_text(encoding="latin-1"))
    if numbers.safe == LARGEST:
        sys.exit("periods: the numbers of this program are too large")
    print("\n".join(shown(numbers, int(sys.argv[2]))))


if __name__ == "__main__":
    main()
