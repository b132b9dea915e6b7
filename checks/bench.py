#!/usr/bin/env python3
"""Measures the program on workloads: bench.py [--program PROGRAM] [--before PROGRAM] [--seconds N] [WORD..]

For each workload it prints, as a row of a table, the size of what is read, the processor time (user and system) and
the greatest memory of one call, and by how much the time grew from a quarter of the size. With words only the
workloads run whose names have one of them. A call that takes more than N seconds (60) is stopped.

With --before the same files are given to an older program too, and the table has its time and memory in place of the
growth; a workload whose command it doesn't have is left out.
"""
import argparse
import os
import pathlib
import signal
import subprocess
import sys
import tempfile

from program import TOP, program

RUN = ("run", "source.oc", "sensors.csv", "power.csv")
REGIONS = ("regions", "source.oc")
SENSORS = "time,sensor,value\n0,s,1\n"
ONE_PERIOD = "on,off\n9000000000,0\n"


class Workload:
    """What is measured: its name, its size N, what each file holds, a text or what a script of checks/inputs prints, and
    the statuses that a call may end with."""

    statuses = (0, 5, 9)

    def __init__(self, name, size, kind, sensors=None, power=None):
        script = "workload.py" if sensors or power else "worst.py"
        self.name, self.size, self.words = name, size, RUN if sensors or power else REGIONS
        self.files = {"source.oc": (script, kind, "N")}
        if self.words is RUN:
            self.files |= {"sensors.csv": sensors or SENSORS, "power.csv": power or ONE_PERIOD}

    def make(self, folder, size):
        """Writes the files of the workload at this size, and returns how many bytes they have."""
        for name, wanted in self.files.items():
            path = pathlib.Path(folder, name)
            if isinstance(wanted, str):
                path.write_text(wanted)
            else:
                write_printed(wanted, size, path)
        return sum(path.stat().st_size for path in pathlib.Path(folder).iterdir())


class Listing(Workload):
    """The code of a source of checks/inputs/worst.py."""

    def __init__(self, name, size, kind):
        super().__init__(name, size, kind)
        self.words = ("build", "source.oc")


class Audit(Workload):
    """The audit of a report of N bytes that checks/inputs/reports.py prints."""

    def __init__(self, name, kind, size=16777216):
        self.name, self.size, self.words = name, size, ("audit", "source.oc", "report.txt")
        self.files = {"source.oc": ("reports.py", kind), "report.txt": ("reports.py", kind, "N")}


class Execution(Workload):
    """A run of an image of N bytes that checks/inputs/images.py prints, which ends with this status."""

    def __init__(self, name, kind, status=0):
        self.name, self.size, self.words, self.statuses = name, 67108864, ("exec", "image", "sensors.csv", "power.csv"), (status,)
        self.files = {"image": ("images.py", kind, "N"), "sensors.csv": "time,sensor,value\n", "power.csv": ONE_PERIOD}


def write_printed(script, size, path):
    """Writes what a script prints, where N stands for a size. It doesn't come into memory: see measured()."""
    name, *arguments = [str(size) if word == "N" else word for word in script]
    with path.open("wb") as file:
        subprocess.run([TOP / "checks/inputs" / name, *arguments], check=True, stdout=file)


WORKLOADS = [
    Workload("a loop of arithmetic", 40000, "arithmetic", SENSORS),
    Workload("empty loops", 40000, "turns", SENSORS),
    Workload("calls and a nonvolatile array", 20000, "calls", SENSORS),
    Workload("regions that log two words", 60000, "regions", SENSORS),
    Workload("a straight run in periods of 100 steps", 7900, "straight", SENSORS, ("filled.py", "1000000", "on,off", "100,10")),
    Workload("a sensor file of the greatest size", 16777216, "one", ("filled.py", "N", "time,sensor,value", "1000000,s,1")),
    Workload("a power file of the greatest size, each row an outage", 16777216, "one", None, ("filled.py", "N", "on,off", "0,0")),
    Workload("a source of the greatest size, refused", 100000, "statements"),
    Workload("nonvolatile variables and as many inner inputs, refused", 36000, "nonvolatile"),
    Workload("nonvolatile variables that a call passes by &, refused", 28000, "passed"),
    Workload("nonvolatile variables that a call passes by &mut, refused", 23000, "lent"),
    Workload("calls in a statement that pass one each, refused", 27000, "inner"),
    Workload("nonvolatile variables beside calls, refused", 44000, "beside"),
    Workload("needs by a fan of calls", 126, "fan"),
    Workload("needs up a chain of calls", 126, "chain"),
    Workload("needs that are tied", 126, "tied"),
    Workload("needs inside 28 loops", 79, "loops"),
    Workload("250 variables in each function", 31, "variables"),
    Workload("sums of 256 numbers", 120, "sums"),
    Workload("calls inside long expressions", 100, "pulls"),
    Workload("references to nonvolatile variables", 63, "references"),
    Workload("names that end differently", 32, "names"),
    Workload("a thousand regions", 126, "regions"),
    Workload("regions of 8,000 usual statements", 64, "usual"),
    Listing("code of 8,000 usual statements", 64, "usual"),
    Workload("regions of these, each function called by the next", 64, "called"),
    Listing("code of these, each function called by the next", 64, "called"),
    Audit("a report of the greatest size, four in five attempts aborted", "attempts"),
    Audit("a report of the greatest size, sums of all samples so far", "sums"),
    Audit("a report of one line, for a run of 150 million silent turns", "silent", 24),
    Audit("a report of aborted attempts of 60,000 silent turns each", "waits", 262144),
    Audit("a report of the greatest size, regions of 64 silent turns", "passes"),
    Audit("a report of tags behind 8,000 statements", "tags", 2097152),
    Audit("a report of the greatest size, outputs beside 240 names", "outputs"),
    Execution("an image with the greatest code", "straight"),
    Execution("an image with stacks as deep as the machine's", "deep"),
    Execution("an image with a stack as deep as its code is long, refused", "deepest", 17),
    Execution("an image with the most names", "names"),
    Execution("an image with the longest names", "longest"),
    Execution("an image with the most functions, each called by the one before", "functions"),
    Execution("an image with the most calls of functions that call each other", "ranks"),
    Execution("an image with the most calls of 127 functions with 64 parameters", "calls"),
    Execution("an image with the most calls with 65,000 parameters", "wide"),
    Execution("an image with 127 functions with as many parameters as its code is long, refused", "product", 17),
    Execution("an image with 127 such functions, each called with two stacks, refused", "pair", 17),
    Execution("an image with the most calls that each pass another stack of 4,000 words", "others"),
    Execution("an image with the most calls that each pass other 32,000 words of a stack", "windows"),
    Execution("an image with the most regions", "regions"),
    Execution("an image with the most regions with a target", "targets"),
    Execution("an image with a region with the most targets", "region"),
    Execution("an image with the most regions in one another", "nested"),
    Execution("an image with the most jumps, each far away", "jumps"),
    Execution("an image with the most jumps that meet, above a deep stack", "joins"),
    Execution("an image with the most nonvolatile words", "words"),
    Execution("an image with a byte too many, bad", "byte", 16),
    Execution("an image that breaks the last rule at its last address, refused", "rule", 17),
]


class WrongStatus(Exception):
    """A call ended with a status that its workload doesn't allow."""


def measured(program, words, folder, seconds, statuses):
    """Returns the processor time and the memory in KiB of one call, or None where it was stopped.

    The system counts the memory of this process, from which the call was started, as the least that the call took.
    """
    how = {"cwd": folder, "stdin": subprocess.DEVNULL, "stdout": subprocess.DEVNULL, "stderr": subprocess.DEVNULL}
    call = subprocess.Popen([program, *words], **how)
    signal.signal(signal.SIGALRM, lambda *_: call.kill())
    signal.alarm(seconds)
    _, status, used = os.wait4(call.pid, 0)
    signal.alarm(0)
    call.returncode = status
    if not os.WIFSIGNALED(status) and os.WEXITSTATUS(status) not in statuses:
        raise WrongStatus(f"bench: {' '.join(words)} ended with status {os.WEXITSTATUS(status)}")
    return None if os.WIFSIGNALED(status) else (used.ru_utime + used.ru_stime, used.ru_maxrss)


def shown(call, seconds):
    """Returns the cells for the time and the memory of a call."""
    return f"{call[0]:.2f} s | {call[1] // 1024} MiB" if call else f"more than {seconds} s | "


def row(workload, program, seconds):
    """Returns the row of a workload."""
    times = []
    for size in (workload.size // 4, workload.size):
        with tempfile.TemporaryDirectory() as folder:
            made = workload.make(folder, size)
            times.append(measured(program, workload.words, folder, seconds, workload.statuses))
    quarter, whole = times
    growth = f"{whole[0] / max(quarter[0], 0.005):.1f}" if whole else ""
    return f"| {workload.name} | {workload.size:,} | {made:,} | {shown(whole, seconds)} | {growth} |"


def pair(workload, before, program, seconds):
    """Returns the row of a workload with what an older program takes, or None where that lacks the command."""
    with tempfile.TemporaryDirectory() as folder:
        workload.make(folder, workload.size)
        try:
            old = measured(before, workload.words, folder, seconds, workload.statuses)
        except WrongStatus:
            return None
        new = measured(program, workload.words, folder, seconds, workload.statuses)
    return f"| {workload.name} | {workload.size:,} | {shown(old, seconds)} | {shown(new, seconds)} |"


def main():
    parser = argparse.ArgumentParser(description="Measures the program on workloads.")
    parser.add_argument("--program")
    parser.add_argument("--before", type=os.path.abspath)
    parser.add_argument("--seconds", default=60, type=int)
    parser.add_argument("words", nargs="*", metavar="WORD")
    asked = parser.parse_args()
    tried = program(asked.program)
    heads = ["what", "N", "bytes read", "processor time", "greatest memory", "growth from N / 4"]
    if asked.before:
        heads = ["what", "N", "time before", "memory before", "time", "memory"]
    print(f"| {' | '.join(heads)} |", "|---" * len(heads) + "|", sep="\n")
    for workload in WORKLOADS:
        if not asked.words or any(word in workload.name for word in asked.words):
            line = pair(workload, asked.before, tried, asked.seconds) if asked.before else row(workload, tried, asked.seconds)
            if line:
                print(line, flush=True)


if __name__ == "__main__":
    try:
        sys.exit(main())
    except WrongStatus as wrong:
        sys.exit(str(wrong))
