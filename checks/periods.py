#!/usr/bin/env python3
"""Tries examples/periods.py: periods.py [WORD..]

Its lines about three examples must be those below, which were worked out by hand. Each example that runs with status 0
or 8 must end within its steps where power lasts, and by itself over so many rows of the least length, of the length
that is safe, of twice and of five times that. With words only the examples whose names have one of them. The program is that of OCELOT in the
environment, or else the built one. Prints what differs; ends with 1 where something does.
"""
import pathlib
import subprocess
import sys
import tempfile

sys.dont_write_bytecode = True

from program import TOP, program

sys.path.insert(0, str(TOP / "examples"))
import periods

ENDED = (0, 8)
# the stack has 12 words, the budgets are 7 and 12: 12 + 5 + 12 is less than 2 * 12 + 9; eight entries of region 1 and
# one of region 2 take 15 steps more each
GREENHOUSE = "total 264\nsafe 45\nstack 12\nleast 33\nsteps 399\n"
# 10 words, budgets 7 and 50, 18 words are logged: 10 + 5 + 50 is more than 2 * 10 + 9; two
# entries take 13 steps more, and the one that logs 31
WATERING = "total 82\nsafe 79\nstack 10\nleast 65\nsteps 139\n"
# no region, and 2 words
FIRST = "total 5\nsafe 8\nstack 2\nleast 8\nsteps 5\n"
EXPECTED = [
    ("greenhouse/greenhouse.oc", 32, GREENHOUSE + "a period of 32 steps may carry the run nowhere\n"),
    ("greenhouse/greenhouse.oc", 33, GREENHOUSE + "a period of 33 steps carries the run 1 further\nperiods that suffice 264\n"),
    ("greenhouse/greenhouse.oc", 60, GREENHOUSE + "a period of 60 steps carries the run 28 further\nperiods that suffice 15\n"),
    ("watering/watering.oc", 100, WATERING + "a period of 100 steps carries the run 36 further\nperiods that suffice 4\n"),
    ("first/first.oc", 7, FIRST + "a period of 7 steps may carry the run nowhere\n"),
    ("first/first.oc", 10, FIRST + "a period of 10 steps carries the run 3 further\nperiods that suffice 2\n"),
]


def answer(words):
    """Returns the status and the standard output of a call."""
    done = subprocess.run(words, stdin=subprocess.DEVNULL, stdout=subprocess.PIPE, stderr=subprocess.DEVNULL, encoding="ascii", timeout=60)
    return done.returncode, done.stdout


def faults_of_lines():
    """Yields the examples whose lines aren't those that are expected."""
    for source, steps, lines in EXPECTED:
        found = answer([TOP / "examples/periods.py", TOP / "examples" / source, str(steps)])
        if found != (0, lines):
            yield f"{source} {steps}: status {found[0]}, lines {found[1]!r}"


def runs(words):
    """Yields the source and the sensor file of each example that ends by itself."""
    for path in sorted((TOP / "examples").glob("*/*.words")):
        said = path.read_text().splitlines()
        if said[:1] == ["run"] and (not words or any(word in str(path) for word in words)):
            source, sensors = (path.with_name(name) for name in said[-3:-1])
            if answer([program(), "regions", source])[0] == 0:
                yield source, sensors


def ended_at(report):
    """Returns the tick at which a report ends, and before any where it doesn't end."""
    items = [line.split(" ") for line in report.splitlines()]
    return next((int(item[0]) for item in items if item[1] in ("end", "trap")), -1)


def faults_of_runs(found, folder):
    """Yields those of these runs that take more steps, or more periods, than suffice."""
    rows = folder / "power.csv"
    for source, sensors in found.items():
        name = source.relative_to(TOP)
        numbers = periods.Numbers(answer([program(), "regions", source])[1], source.read_text(encoding="latin-1"))
        rows.write_text(f"on,off\n{numbers.steps + 1},0\n")
        last = ended_at(answer([program(), "run", source, sensors, rows])[1])
        if not 0 < last <= numbers.steps:
            yield f"{name}: {numbers.steps} steps, and a run that ends at {last}"
        for steps in (numbers.least, numbers.safe, 2 * numbers.safe, 5 * numbers.safe):
            count = numbers.periods(steps)
            rows.write_text("on,off\n" + f"{steps},100\n" * count)
            status, _ = answer([program(), "run", source, sensors, rows])
            if status not in ENDED:
                yield f"{name}: {count} periods of {steps} steps end with status {status}"


def main():
    words = sys.argv[1:]
    found = dict(runs(words))
    with tempfile.TemporaryDirectory() as folder:
        faults = [*([] if words else faults_of_lines()), *faults_of_runs(found, pathlib.Path(folder))]
    for line in faults:
        print(line)
    print(f"periods: {len(found)} examples, {len(faults)} faults")
    return 1 if faults or not found else 0


if __name__ == "__main__":
    sys.exit(main())
