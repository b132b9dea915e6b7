#!/usr/bin/env python3
"""Compares the answers of crates/images_table with those of the second verifier: images.py --compare
                                                                               images.py --write
                                                                               images.py --program PROGRAM

--compare goes through crates/images_table/stdout: each file there must have the answer and the report that verifier.py
finds, and each rule an image that breaks it alone and one that breaks none; a refusal must name a rule that is broken.
The files must be those of plans.txt, which --write puts into crates/images_table/stdin.
--program hands the images there that were written by hand, and some of the changed ones, to 'PROGRAM exec', which must
end with the status of the answer.
"""
import pathlib
import re
import subprocess
import sys
import tempfile

import plans
from machine import TOP
from verifier import PERIODS, answer

TABLE = TOP / "crates/images_table"
VALUES = (lambda old: old ^ 1, lambda old: old ^ 128, lambda old: 0, lambda old: 255)
SPARSE = 53
STATUSES = {"end": 0, "zero": 8, "index": 8, "dark": 9}


def fits(said, found):
    """Tells whether an answer of the table is one to what is found."""
    bad, broken, report = found
    if bad is not None:
        return said == f"bad byte {bad}"
    if broken:
        return said in [f"refused {rule}" for rule in broken]
    how = report[-1].split(" ")
    return said == (how[2] if how[1] == "trap" else how[1])


class Table:
    """Goes through the table, and finds its faults."""

    def __init__(self, text):
        self.lines = text.split("\n")
        self.lines.pop()
        self.at, self.faults, self.answers = 0, [], 0
        self.files, self.alone, self.accepted = [], set(), set()
        while self.at < len(self.lines):
            if self.next().startswith("changes of "):
                self.changes()
                continue
            section, _, rule = self.line().partition(" ")
            {"rule": self.rule, "fields": self.fields}[section](rule)
        for rule in range(1, 12):
            if rule not in self.alone:
                self.faults.append(f"no image breaks rule {rule} alone")
            if rule not in self.accepted:
                self.faults.append(f"no image of rule {rule} is accepted")

    def line(self):
        self.at += 1
        return self.lines[self.at - 1]

    def next(self):
        return self.lines[self.at] if self.at < len(self.lines) else "rule"

    def is_over(self):
        return re.match(r"rule( \d+)?$|fields$|changes of ", self.next()) is not None

    def judge(self, data, said, place):
        """Compares an answer of the table."""
        found = answer(data)
        self.answers += 1
        if not fits(said, found):
            self.faults.append(f"line {self.at}: {place}: {said}, and not {found}")
        return found

    def case(self):
        """Goes through an image that was written by hand, and returns its bytes and what is found."""
        name, _, said = self.line().rpartition(": ")
        data = bytes.fromhex(self.line().removeprefix("file "))
        found = self.judge(data, said, name)
        report = []
        while re.match(r"\d+ (sense|emit|use|done|tag|enter|commit|abort|off|trap|end|dark)\b", self.next()) and found[2]:
            report.append(self.line())
        if report != (found[2] or []):
            self.faults.append(f"line {self.at}: {name}: another report than {found[2]}")
        self.files.append((name, data, said))
        return data, found

    def rule(self, number):
        while not self.is_over():
            data, (bad, broken, report) = self.case()
            if bad is not None or (broken and broken != {int(number)}):
                self.faults.append(f"line {self.at}: breaks not just rule {number}: {bad}, {broken}")
            elif broken:
                self.alone.add(int(number))
            else:
                self.accepted.add(int(number))

    def fields(self, _):
        while not self.is_over():
            self.case()

    def changes(self):
        data, _ = self.case()
        last = None
        for length in range(len(data)):
            if (found := answer(data[:length])) != last:
                line, _, said = self.line().rpartition(": ")
                self.judge(data[:length], said, f"cut to {length}")
                if line != f"cut to {length}":
                    self.faults.append(f"line {self.at}: not 'cut to {length}'")
                self.files.append((line, data[:length], said))
            last = found
        for at, old in enumerate(data):
            self.byte(data, at, old)

    def byte(self, data, at, old):
        """Goes through the answers where one byte is changed."""
        line, *answers = self.line().split(", ")
        if line != f"byte {at}" or len(answers) != len(VALUES):
            self.faults.append(f"line {self.at}: not 'byte {at}' with {len(VALUES)} answers")
        for value, said in zip((value(old) for value in VALUES), answers):
            if (value == old) != (said == "same"):
                self.faults.append(f"line {self.at}: {value} is the same or not")
            if value == old:
                continue
            changed = data[:at] + bytes([value]) + data[at + 1 :]
            self.judge(changed, said, f"byte {at} is {value}")
            if (at + value) % SPARSE == 0:
                self.files.append((f"byte {at} is {value}", changed, said))


def executed(program, name, data, said, folder):
    """Returns a line where the program answers a file otherwise than the table."""
    (folder / "image").write_bytes(data)
    done = subprocess.run([program, "exec", "image", "sensors.csv", "power.csv"], cwd=folder, stdin=subprocess.DEVNULL, capture_output=True, timeout=60)
    wanted = 16 if said.startswith("bad") else 17 if said.startswith("refused") else STATUSES[said]
    err = {16: f"ocelot: bad image at byte {said[9:]}\n", 17: "ocelot: image refused\n"}.get(wanted)
    if done.returncode != wanted or (err and done.stderr.decode() != err):
        return [f"{name}: status {done.returncode}, not {wanted}: {done.stderr.decode().strip()}"]
    return []


def main():
    if sys.argv[1:] not in (["--compare"], ["--write"]) and (sys.argv[1:2] != ["--program"] or len(sys.argv) != 3):
        sys.exit(__doc__)
    files = "".join(line + "\n" for line in plans.lines())
    if sys.argv[1] == "--write":
        (TABLE / "stdin").write_text(files)
        return 0
    table = Table((TABLE / "stdout").read_text())
    faults, what = table.faults, f"{table.answers} answers are those of the second reading"
    if files != (TABLE / "stdin").read_text():
        faults.append("crates/images_table/stdin isn't what --write puts there")
    if sys.argv[1] == "--program":
        with tempfile.TemporaryDirectory() as temporary:
            folder = pathlib.Path(temporary)
            (folder / "sensors.csv").write_text("time,sensor,value\n")
            (folder / "power.csv").write_text("on,off\n" + "".join(f"{on},{off}\n" for on, off, _ in PERIODS))
            faults = [line for file in table.files for line in executed(sys.argv[2], *file, folder)]
        what = f"{len(table.files)} images are answered by the program as in the table"
    for line in faults:
        print(line)
    print("images: " + (f"{len(faults)} differ" if faults else what))
    return 1 if faults else 0


if __name__ == "__main__":
    sys.exit(main())
