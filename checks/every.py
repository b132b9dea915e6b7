#!/usr/bin/env python3
"""Runs all checks that need no proof, side by side: every.py

The program that they try is that of OCELOT in the environment, or else the one that was proved and built. Each check
ends with its last line; of one that fails all lines are shown. Ends with 1 where one fails.
"""
import concurrent.futures
import os
import subprocess
import sys

sys.dont_write_bytecode = True

from program import TOP, program

CHECKS = (
    ("run.py",),
    ("greatest.py",),
    ("again.py",),
    ("images.py", "--program"),
    ("images.py", "--compare"),
    ("machine.py", "--cases"),
    ("blocks.py", "--cases"),
    ("outages.py", "--compare"),
    ("launcher.py",),
    ("crates.py",),
    ("periods.py",),
    ("timeline.py",),
    ("why.py",),
    ("supply.py",),
    ("integrate.py",),
    ("editors.py",),
    ("manual.py",),
    ("claim.py", "--selftest"),
    ("claim.py", "--check"),
    ("../evaluation/measure.py", "--small"),
    ("../evaluation/page.py", "--compare"),
)


def passes(check):
    """Runs a check, and returns whether it passed."""
    words = [sys.executable, "-B", TOP / "checks" / check[0], *check[1:], *[program()] * (check[-1] == "--program")]
    done = subprocess.run(words, stdin=subprocess.DEVNULL, stdout=subprocess.PIPE, stderr=subprocess.STDOUT, text=True, errors="replace")
    lines = done.stdout.splitlines() or [f"{check[0]}: as it must be"]
    print("\n".join(lines if done.returncode else lines[-1:]), flush=True)
    return done.returncode == 0


def run():
    """Runs all checks, and returns how many passed and how many there are."""
    os.environ["OCELOT"] = program()
    with concurrent.futures.ThreadPoolExecutor(len(os.sched_getaffinity(0))) as pool:
        return sum(pool.map(passes, CHECKS)), len(CHECKS)


def main():
    passed, of = run()
    print(f"every: {passed} of {of} checks passed")
    return 0 if passed == of else 1


if __name__ == "__main__":
    sys.exit(main())
