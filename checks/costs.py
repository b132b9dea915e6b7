#!/usr/bin/env python3
"""Measures what a run of the gate costs: costs.py [--out FILE] [WORD..]

Runs 'rt ci WORD..' at the top of the repository and looks four times a second at the checks that are under way. Then it
prints, as a table, the processor time (user and system) of each crate's proof, of its tests, of the check that its wrong
bodies begin with (the seed, where the kit makes one) and of these, and the greatest memory of one check; behind it the
sums, the time that went by, and the time that these checks would take on one to four processors with nothing beside
them, one check a processor and the longest chain first, as rt takes them. Where the kit keeps what it proved, that isn't
done again: a whole table wants a machine on which nothing is kept, or the kit's word --anew. With --out the table goes
into a file as well. The status is that of 'rt ci'.
"""
import argparse
import heapq
import os
import pathlib
import re
import subprocess
import sys
import time

TOP = pathlib.Path(__file__).resolve().parent.parent
KINDS = ("proof", "tests", "seed", "wrong bodies")
TICKS = os.sysconf("SC_CLK_TCK")
PAUSE = 0.25


class Check:
    """One process that checks a crate: which crate, what for, its processor time in seconds and greatest memory in MiB."""

    def __init__(self, crate, kind):
        self.crate, self.kind, self.seconds, self.memory = crate, kind, 0.0, 0


def read(path):
    try:
        return path.read_text(errors="replace")
    except OSError:
        return ""


def kind_of(words, folder):
    """Returns what a check with these words, in this folder, is for."""
    over = words[words.index("--incremental") + 1] if "--incremental" in words else ""
    if "rt-edit" in over or "rt-edit" in folder:
        return "seed" if over.endswith("/seed") else "wrong bodies"
    return "tests" if "--test" in words else "proof"


def new_check(process):
    """Returns the check that a process makes, or None where it makes none."""
    words = read(process / "cmdline").split("\0")
    if not words[0].endswith("/rattle") or "--crate-name" not in words:
        return None
    try:
        folder = os.readlink(process / "cwd")
    except OSError:
        folder = ""
    return Check(words[words.index("--crate-name") + 1], kind_of(words, folder))


def look(session, checks):
    """Brings what is known of each check that this run makes up to date. A process is named by its number and its start."""
    for process in pathlib.Path("/proc").iterdir():
        fields = read(process / "stat").rpartition(")")[2].split() if process.name.isdigit() else []
        if len(fields) < 20 or int(fields[3]) != session:
            continue
        name = process.name, fields[19]
        # A process may begin as a shell and become a check.
        check = checks.get(name) or new_check(process)
        if check:
            checks[name] = check
            check.seconds = (int(fields[11]) + int(fields[12])) / TICKS
            most = re.search(r"VmHWM:\s+(\d+)", read(process / "status"))
            check.memory = max(check.memory, int(most[1]) // 1024 if most else 0)


def measured(words):
    """Runs 'rt ci' with these words, and returns its status, the seconds that went by and the checks that it made."""
    begin, checks = time.monotonic(), {}
    run = subprocess.Popen(["rt", "ci", *words], cwd=TOP, start_new_session=True, stdin=subprocess.DEVNULL)
    while run.poll() is None:
        look(run.pid, checks)
        time.sleep(PAUSE)
    return run.returncode, time.monotonic() - begin, checks.values()


def crates():
    """Returns for each crate, lowest first, the crates of the repository that it names in crates.txt."""
    found = {}
    for name, below in re.findall(r"(?m)^(\w+)[^:\n]*:(.*)$", read(TOP / "crates.txt")):
        found[name] = [it for it in below.split() if it in found]
    return found


def tasks(rows, found):
    """Returns what rt does, each as the tasks that it waits for and its seconds: a crate's proof, its tests and its seed wait
    for the proofs below, each of its wrong bodies for these three."""
    made = {}
    for name, row in rows.items():
        waits = [(other, "proof") for other in found.get(name, ()) if other in rows]
        own = [(name, kind) for kind in ("proof", "tests", "seed")]
        made |= {key: (waits, row[key[1]]) for key in own}
        made |= {(name, place): (own, row["wrong bodies"] / row["edits"]) for place in range(row["edits"])}
    return made


def wall(made, processors):
    """Returns how many seconds the tasks take, one a processor, each once those it waits for have ended: first proofs and
    tests, and of these and of the others those with the longest chain behind them."""
    behind = dict.fromkeys(made, 0.0)
    # A task comes after those that it waits for.
    for key in reversed(made):
        behind[key] += made[key][1]
        for other in made[key][0]:
            behind[other] = max(behind[other], behind[key])
    now, running, done = 0.0, [], set()
    left = sorted(made, key=lambda key: (key[1] not in ("proof", "tests"), -behind[key]))
    while left or running:
        ready = [key for key in left if done.issuperset(made[key][0])][: processors - len(running)]
        for key in ready:
            left.remove(key)
            heapq.heappush(running, (now + made[key][1], str(key), key))
        now, _, key = heapq.heappop(running)
        done.add(key)
    return now


def cell(seconds):
    return f"{seconds:,.0f} s" if seconds >= 0.5 else ""


def table(checks, passed):
    """Returns the lines of the table, crates in the order of crates.txt."""
    rows = {}
    for check in checks:
        row = rows.setdefault(check.crate, dict.fromkeys(KINDS, 0.0) | {"memory": 0, "edits": 0})
        row[check.kind] += check.seconds
        row["edits"] += check.kind == "wrong bodies"
        row["memory"] = max(row["memory"], check.memory)
    found = crates()
    order = list(found)
    lines = [f"| crate | {' | '.join(KINDS)} | memory |", "|---" * (len(KINDS) + 2) + "|"]
    for name in sorted(rows, key=lambda it: order.index(it) if it in order else len(order)):
        row = rows[name]
        lines.append(f"| `{name}` | {' | '.join(cell(row[kind]) for kind in KINDS)} | {row['memory']:,} MiB |")
    sums = {kind: sum(row[kind] for row in rows.values()) for kind in KINDS}
    most = max((row["memory"] for row in rows.values()), default=0)
    lines.append(f"| all | {' | '.join(cell(sums[kind]) for kind in KINDS)} | {most:,} MiB |")
    minutes = sum(sums.values()) / 60
    lines += ["", f"{passed / 60:.0f} minutes on {len(os.sched_getaffinity(0))} processors, {minutes:.0f} minutes of processor time in checks."]
    made = tasks({name: rows[name] for name in sorted(rows, key=lambda it: order.index(it) if it in order else len(order))}, found)
    alone = ", ".join(f"{wall(made, number) / 60:.0f} on {number}" for number in (1, 2, 3, 4))
    lines.append(f"With nothing beside them these checks would take, in minutes by processors: {alone}.")
    return lines


def main():
    parser = argparse.ArgumentParser(description=__doc__.splitlines()[0])
    parser.add_argument("--out", type=pathlib.Path)
    options, words = parser.parse_known_args()
    status, passed, checks = measured(words)
    text = "\n".join(table(checks, passed)) + "\n"
    print(text, end="")
    if options.out:
        options.out.write_text(text)
    return status


if __name__ == "__main__":
    sys.exit(main())
