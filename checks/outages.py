#!/usr/bin/env python3
"""Prints what crates/outage_table must print, by the second machine of machine.py: outages.py [--images | --compare]

With --images it prints the images that it must be given. With --compare it compares both with crates/outage_table/stdin
and stdout, and ends with 1 where they differ.
"""
import sys

from machine import TOP, Code, Machine, supplied
from plans import image

ONE_REGION = """fn main entry 0 params 0 frame 1
0 1 enter 1
1 1 sense t
2 1 store 0
3 3 probe use 3
4 3 load 0
5 3 nstore 0
6 3 probe done 3
7 4 nload 0
8 4 push 1
9 4 bin add
10 4 nstore 1
11 5 probe use 5
12 5 load 0
13 5 emit r
14 5 probe done 5
15 5 commit 1
16 0 halt
"""
COUNTING = "fn main entry 0 params 0 frame 0\n" + "".join(f"{2 * k - 2} {k} push {k}\n{2 * k - 1} {k} emit r\n" for k in (1, 2, 3, 4)) + "8 0 halt\n"
AREA = 6
SENSORS, PORTS, VARIABLES = ["t"], ["r"], [("n", 1, 7), ("m", 1, 9)]
TARGETS = [(0, 0, 1), (0, 1, 1)]


def places(listing):
    """Returns the instructions of a listing, each with its statement first, with numbers in place of names."""
    for site, (kind, *operands) in Code(listing).code:
        names = {"sense": SENSORS, "emit": PORTS}.get(kind, [])
        yield int(site), " ".join([kind, *(str(names.index(operand)) if operand in names else operand for operand in operands)])


def images():
    """Returns the images of both programs, each in a line."""
    named = lambda names: [(name,) for name in names]
    one_region = image(named(SENSORS), named(PORTS), VARIABLES, [("main", 0, 0, 1)], [TARGETS], 3, places(ONE_REGION))
    counting = image([], named(PORTS), [], [("main", 0, 0, 0)], [], 1, places(COUNTING))
    return one_region.hex() + "\n" + counting.hex() + "\n"


def over(periods, second_value=21):
    """Returns the lines of a run of the program with one region over these periods."""
    machine = Machine(Code(ONE_REGION), [("n", [7]), ("m", [9])], lambda _, tick: 21 if tick < 60 else second_value)
    machine.run([(on, off, False) for on, off in periods])
    area = machine.area + [0] * (AREA - len(machine.area))
    return [
        " ".join(["periods", *(f"{on},{off}" for on, off in periods)]),
        *machine.report,
        *machine.kept(),
        *(f"log {address} {old}" for address, old in machine.log),
        " ".join(map(str, ["area", machine.state, *area])),
    ]


def counted(supply):
    """Returns the lines of a run of the program that counts, over what a supply tells of one row."""
    plan = [(3, 0, False), (3, 0, False), (1, 3, False)] if supply == 2 else supplied([(7, 3, False)], supply)
    told = iter(plan)
    machine = Machine(Code(COUNTING), [], None)
    machine.run(told)
    return [f"supply {supply}", *machine.report, f"left {len(list(told))}"]


def lines():
    for first in range(25):
        for second in range(17):
            yield from over([(first, 1), (second, 1), (60, 0)])
    yield from over([(18, 10)], 30)
    yield from over([(18, 10), (2, 10)], 30)
    for supply in range(3):
        yield from counted(supply)


def main():
    text = "".join(line + "\n" for line in lines())
    if "--compare" not in sys.argv:
        print(images() if "--images" in sys.argv else text, end="")
        return 0
    folder = TOP / "crates/outage_table"
    same = [text == (folder / "stdout").read_text(), images() == (folder / "stdin").read_text()]
    print("outages: " + ("the table is that of the second machine" if all(same) else "the table differs" if same[1] else "the images differ"))
    return 0 if all(same) else 1


if __name__ == "__main__":
    sys.exit(main())
