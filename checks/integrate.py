#!/usr/bin/env python3
"""Tries examples/integrate.py on a source, its regions and its logs: integrate.py

Each case below writes the files and must get just these lines and this status. Prints what differs; ends with 1 where
something does. The program is that of OCELOT in the environment, or else the built one.
"""
import os
import pathlib
import subprocess
import sys
import tempfile

sys.dont_write_bytecode = True

from program import TOP, program

SOURCE = (TOP / "examples/pump/fresh.oc").read_text()
REGIONS = (TOP / "examples/pump/regions.out").read_text()
REPORT = (TOP / "examples/pump/fresh.out").read_text()
IDLE = "sensor s;\nport p;\nfn main() {\n    let mut x = 0;\n    Fresh(x);\n    emit(p, x);\n}\n"
GOOD = {"fresh.oc": SOURCE, "fresh.regions": REGIONS}
CASES = [
    (GOOD, [], 0, []),
    (GOOD | {"fresh.7.log": REPORT, "fresh.8.log": REPORT.replace("\n", "\r\n")[:100]}, [], 0, []),
    ({"fresh.oc": SOURCE}, [], 1, ["fresh.oc: the regions aren't those of fresh.regions"]),
    ({"fresh.oc": SOURCE}, ["--accept"], 0, []),
    (GOOD | {"fresh.regions": REGIONS.replace("27", "28")}, [], 1, ["fresh.oc: the regions aren't those of fresh.regions"]),
    ({"fresh.oc": SOURCE.replace("Fresh(height);", "Fresh(height)")}, [], 1, ["fresh.oc: status 4, ocelot: syntax error in line 10"]),
    ({"idle.oc": IDLE, "idle.regions": "total 5\nsafe 8\n"}, ["--accept"], 1, ["idle.oc: binds nothing: line 5 Fresh(x); no reading goes into it"]),
    (GOOD | {"fresh.7.log": REPORT.replace("pump 50", "pump 51")}, [], 1, ["fresh.7.log: status 14, ocelot: report breaks at item 17"]),
    (GOOD | {"fresh.7.log": "hello\n"}, [], 1, ["fresh.7.log: status 15, ocelot: bad report line 1"]),
]


def fault(files, words, status, lines):
    """Returns what is wrong with the answer to these files, or None."""
    with tempfile.TemporaryDirectory() as folder:
        for name, text in files.items():
            pathlib.Path(folder, name).write_text(text, newline="")
        done = subprocess.run([TOP / "examples/integrate.py", *words, folder], capture_output=True, encoding="utf-8", env=os.environ | {"OCELOT": program()})
        found = [line.removeprefix(folder + "/") for line in done.stdout.splitlines()[:-1]]
    return None if (done.returncode, found) == (status, lines) else f"{words} {sorted(files)}: status {done.returncode}, {found} {done.stderr}"


def main():
    told = [line for line in (fault(*case) for case in CASES) if line]
    print(*told, f"integrate: {len(CASES)} cases, {len(told)} faults", sep="\n")
    return 1 if told else 0


if __name__ == "__main__":
    sys.exit(main())
