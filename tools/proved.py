"""Proves and builds the program.

'rt ci' does so in a copy of the crates that the program is made of, without their wrong bodies. Some kits keep each crate
on the machine as soon as it is proved: a later call goes on from there then, and the gate needn't prove the same again.
"""
import contextlib
import os
import pathlib
import re
import shutil
import subprocess
import tempfile

import sources
from launch import Failed

DONE = re.compile(r"rt: (\w+) (proved$|is kept:)")
TAIL = 20
GROUP = pathlib.Path("/sys/fs/cgroup")


def number_in(path, pattern):
    """Returns the number that a file of the system has there, or None."""
    with contextlib.suppress(OSError):
        found = re.search(pattern, path.read_text(), re.M)
        return found and int(found[1])


def processors():
    """Returns how many processors there are to use."""
    found = len(os.sched_getaffinity(0))
    quota, period = number_in(GROUP / "cpu.max", r"^(\d+)"), number_in(GROUP / "cpu.max", r" (\d+)")
    return min(found, max(1, quota // period)) if quota and period else found


def free():
    """Returns how many bytes of memory are free."""
    found = 1024 * (number_in(pathlib.Path("/proc/meminfo"), r"MemAvailable:\s+(\d+)") or 0)
    limit, held = number_in(GROUP / "memory.max", r"^(\d+)"), number_in(GROUP / "memory.stat", r"^anon (\d+)")
    return found if limit is None or held is None else min(found, limit - held)


def jobs(asked, number, room):
    """Returns what rt is told of how many crates to prove side by side, for so many processors and bytes of free memory: what
    is asked, or one a processor where memory holds 2.5 GB for each and 1 GB more. It is told nothing where memory holds 6.5 GB
    for each, of four at most: by itself rt gives a proof the processors that no other one waits for, but reckons with more
    than twice the memory that proofs take."""
    if asked.isdigit() and int(asked):
        return {"RT_JOBS": asked}
    if room >= 6.5e9 * min(number, 4):
        return {}
    return {"RT_JOBS": str(max(1, min(number, int((room / 1e9 - 1) / 2.5))))}


def copy(to):
    """Copies the crates that the program is made of, without wrong bodies and what was built."""
    found = sources.crates()
    for name in found:
        folder = sources.TOP / "crates" / name
        left_out = lambda at, names, top=str(folder): {"out", "must-fail"} if at == top else set()
        shutil.copytree(folder, to / "crates" / name, ignore=left_out)
    (to / "crates.txt").write_text("".join(line + "\n" for line in found.values()))
    for name in ("KIT", "HANDLES"):
        shutil.copy(sources.TOP / name, to / name)
    # The top of a repository, as rt takes it.
    (to / ".git").mkdir()


def length(folder):
    """Returns how many lines the sources of a crate have."""
    return sum(pathlib.Path(path).read_bytes().count(b"\n") for path in sources.files(folder))


class Progress:
    """Counts the crates that are done, and reckons how long the others may take."""

    def __init__(self, top, side_by_side):
        self.crates = sources.crates(top)
        self.left = {name: length(top / "crates" / name) for name in self.crates}
        self.side_by_side, self.proved = side_by_side, 0

    def note(self, line, seconds):
        """Returns what to say of a line of 'rt ci', if anything, after so many seconds of processors."""
        found = DONE.match(line)
        if not found or found[1] not in self.left:
            return None
        lines = self.left.pop(found[1])
        said = f"{len(self.crates) - len(self.left)} of {len(self.crates)}: {found[1]}"
        if found[2] != "proved":
            return f"{said}, proved earlier"
        self.proved += lines
        return f"{said}{self.still(seconds / max(self.proved, 1))}"

    def still(self, pace):
        """Returns how long the crates that are left may take at this pace, each of which waits for those below it."""
        if not self.left:
            return ""
        chain = {}
        for name, line in self.crates.items():
            chain[name] = self.left.get(name, 0) + max((chain[other] for other in sources.below(line) if other in chain), default=0)
        minutes = round(pace * max(sum(self.left.values()) / self.side_by_side, max(chain.values())) / 60)
        return f", about {minutes} min still" if minutes else ", less than a minute still"


def seconds_below(process):
    """Returns how many seconds of processors the ended children of a process took."""
    with contextlib.suppress(OSError):
        words = pathlib.Path(f"/proc/{process.pid}/stat").read_text().rpartition(")")[2].split()
        return (int(words[13]) + int(words[14])) / os.sysconf("SC_CLK_TCK")
    return 0


def prove(top, told, side_by_side, say):
    """Runs 'rt ci' in a copy, and says how far it is."""
    progress, tail = Progress(top, side_by_side), []
    how = {"stdin": subprocess.DEVNULL, "stdout": subprocess.PIPE, "stderr": subprocess.STDOUT, "text": True, "errors": "replace"}
    settings = {name: value for name, value in os.environ.items() if name != "RT_JOBS"} | told
    started = subprocess.Popen(["rt", "ci"], cwd=top, env=settings, **how)
    try:
        for line in started.stdout:
            tail = [*tail[1 - TAIL :], line.rstrip("\n").replace(str(top), str(sources.TOP))]
            told = progress.note(line.rstrip("\n"), seconds_below(started))
            if told:
                say(told)
        status = started.wait()
    finally:
        if started.poll() is None:
            started.terminate()
            started.wait()
    if status != 0:
        raise Failed(*tail)


def build(place, say):
    """Proves and builds the program, and puts it into its place."""
    told = jobs(os.environ.get("RT_JOBS", ""), processors(), free())
    side_by_side = int(told.get("RT_JOBS", processors()))
    with tempfile.TemporaryDirectory(prefix="ocelot-") as folder:
        top = pathlib.Path(folder)
        copy(top)
        checksum = sources.checksum(top)
        say(
            f"proving and building the program first: {len(sources.crates(top))} crates, {side_by_side} at a time",
            "it takes a while, once for these sources; ./try answers in about two minutes, without proofs",
        )
        prove(top, told, side_by_side, say)
        made = top / "crates/ocelot/out/ocelot"
        if not made.exists():
            raise Failed("rt ci left no program")
        place.put(made, checksum)
