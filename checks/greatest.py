#!/usr/bin/env python3
"""Runs each command at a size near its limit: greatest.py [--program PROGRAM] [WORD..]

No contract can promise memory, so a call that may answer that there is none is still proved where it always does so
beyond some size. Here each command is made once with about as much as the limits allow, and must answer well: with the
status and the texts that are worked out below, and never with 'out of memory'. With words only the calls run whose
names have one of them. Prints what differs, and ends with 1 where something does.
"""
import argparse
import pathlib
import subprocess
import sys
import tempfile

from program import TOP, program

SECONDS = 60
MEBIBYTE = 1 << 20
NO_ROWS = "time,sensor,value\n"
ONE_PERIOD = "on,off\n9000000000,0\n"


class Call:
    """A call: its name, its words, its files (a text, or what a script of checks/inputs prints), the end of what comes on
    standard output, or all of it where `whole` is true, what comes on standard error, and its status."""

    def __init__(self, name, words, files, output, whole=True, errors="", status=0):
        self.name, self.words, self.files, self.output = name, words.split(), files, output
        self.whole, self.errors, self.status = whole, errors, status

    def make(self, folder):
        for name, wanted in self.files.items():
            if isinstance(wanted, str):
                (folder / name).write_text(wanted)
            else:
                script, *arguments = map(str, wanted)
                with (folder / name).open("wb") as file:
                    subprocess.run([TOP / "checks/inputs" / script, *arguments], check=True, stdout=file)

    def differences(self, program):
        """Runs the program and says what is otherwise than it should be."""
        with tempfile.TemporaryDirectory() as name:
            self.make(pathlib.Path(name))
            try:
                ran = subprocess.run([program, *self.words], cwd=name, capture_output=True, stdin=subprocess.DEVNULL, timeout=SECONDS)
            except subprocess.TimeoutExpired:
                return [f"it took more than {SECONDS} seconds"]
        found, errors = ran.stdout.decode(errors="replace"), ran.stderr.decode(errors="replace")
        told = []
        if ran.returncode != self.status:
            told.append(f"its status is {ran.returncode}, and not {self.status}")
        if found != self.output if self.whole else not found.endswith(self.output):
            told.append(f"it printed {len(found):,} bytes that end with {found[-60:]!r}, and not with {self.output[-60:]!r}")
        if errors != self.errors:
            told.append(f"on standard error it printed {errors[:200]!r}")
        return told


def run_of(script, kind, size, sensors=NO_ROWS, power=ONE_PERIOD):
    return {"source.oc": (script, kind, size), "sensors.csv": sensors, "power.csv": power}


def execution(name, kind, output):
    """An image of 64 MiB, which runs to its end."""
    files = {"image": ("images.py", kind, 64 * MEBIBYTE), "sensors.csv": NO_ROWS, "power.csv": ONE_PERIOD}
    return Call(name, "exec image sensors.csv power.csv", files, output, whole=False)


def audit(name, kind):
    """The audit of an honest report of 16 MiB."""
    return Call(name, "audit source.oc report.txt", {"source.oc": ("reports.py", kind), "report.txt": ("reports.py", kind, 16 * MEBIBYTE)}, "honest\n")


def dark(rows):
    """The report of a device that gets so many periods without a step."""
    return "0 off 0\n" * rows + "0 dark\n"


def sums_of_eight(count):
    """The report of sums of eight ones to eight, of which each takes sixteen steps."""
    return "".join(f"{16 * number} emit r 36\n" for number in range(1, count + 1)) + f"{16 * count + 1} end\n"


# 120 functions of 16 sums of 256 numbers, which take 512 instructions each, and a main that does nothing.
SUMS = {"source.oc": ("worst.py", "sums", 120)}
SUMS_CODE = 120 * (16 * 512 + 1)
CALLS = [
    Call("regions of a source of 1 MiB", "regions source.oc", SUMS, "total 1\nsafe 6\n"),
    Call("blocks of a source of 1 MiB", "check source.oc", SUMS, "safe\n"),
    Call("code of a source of 1 MiB", "build source.oc", SUMS, f"\n{SUMS_CODE} 0 halt\n", whole=False),
    Call("a run of a source of 1 MiB", "run source.oc sensors.csv power.csv", SUMS | {"sensors.csv": NO_ROWS, "power.csv": ONE_PERIOD}, "1 end\n"),
    Call("a thousand regions", "regions source.oc", {"source.oc": ("worst.py", "regions", 126)}, "total 123\nsafe 51\n", whole=False),
    Call("960 blocks", "check source.oc", {"source.oc": ("worst.py", "blocks", 48)}, "safe\n"),
    Call(
        "959 blocks, and one that is missing",
        "check source.oc",
        {"source.oc": ("worst.py", "gap", 48)},
        "",
        errors="ocelot: not covered: fresh show x needs lines 1058 and 1058 in f47\n",
        status=18,
    ),
    Call("a run of 8,000 statements", "run source.oc sensors.csv power.csv", run_of("workload.py", "straight", 8000), sums_of_eight(8000)),
    Call(
        "60,000 regions, with meters",
        "run --meters source.oc sensors.csv power.csv",
        run_of("workload.py", "regions", 60000),
        " end\nnv sum 0\nnv count 60000\n",
        whole=False,
        errors="meter counts 60000 60000 60000 0 0\nmeter off 0 0\nmeter retries 0 0\n",
    ),
    Call(
        "a sensor file of 16 MiB",
        "run source.oc sensors.csv power.csv",
        run_of("workload.py", "one", 1, ("filled.py", 16 * MEBIBYTE, "time,sensor,value", "1000000,s,1")),
        "1 sense s 0\n3 end\n",
    ),
    Call(
        "a power file of 16 MiB",
        "run source.oc sensors.csv power.csv",
        run_of("workload.py", "one", 1, power=("filled.py", 16 * MEBIBYTE, "on,off", "0,0")),
        dark((16 * MEBIBYTE - 7) // 4),
        status=9,
    ),
    audit("a report of 16 MiB with aborted attempts", "attempts"),
    audit("a report of 16 MiB with sums of all samples", "sums"),
    execution("an image of 64 MiB, most of it code", "straight", " end\n"),
    execution("an image of 64 MiB with as many names", "names", "\nnv xxxxx190 0\nnv xxxxx191 0\n"),
    execution("an image of 64 MiB with as many regions", "regions", "enter 1\n5 commit 1\n6 end\nnv v 0\n"),
    execution("an image of 64 MiB with as many targets of a region", "region", "enter 1\n5 commit 1\n6 end\nnv v 0\n"),
    execution("an image of 64 MiB with stacks as deep as the machine's", "deep", " end\n"),
    execution("an image of 64 MiB with as many calls in as many ways", "calls", " end\n"),
    execution("an image of 64 MiB with calls that differ in what is below", "apart", " end\n"),
]


def main():
    parser = argparse.ArgumentParser(description="Runs each command at a size near its limit.")
    parser.add_argument("--program")
    parser.add_argument("words", nargs="*", metavar="WORD")
    asked = parser.parse_args()
    wrong, tried = 0, program(asked.program)
    calls = [call for call in CALLS if not asked.words or any(word in call.name for word in asked.words)]
    for call in calls:
        told = call.differences(tried)
        for it in told:
            print(f"greatest: {call.name}: {it}")
        wrong += bool(told)
    print(f"greatest: {len(calls) - wrong} passed, {wrong} failed")
    return 1 if wrong or not calls else 0


if __name__ == "__main__":
    sys.exit(main())
