#!/usr/bin/env python3
"""Runs the program over worked cases: run.py [--program PROGRAM] [WORD..]

A case is a file NAME.words below checks/cases or examples, or a file that is just called words, with the words that
the program gets, one a line; it runs in the folder of that file. Beside it stand

    NAME.out, NAME.err   what must come on both outputs, to the byte; where there is no such file, nothing
    NAME.status          the status that must come; where there is no such file, 0
    NAME.how             lines 'make FILE SCRIPT ARGUMENT..' (FILE is what a script of checks/inputs prints),
                         'stdout FILE' (where standard output goes) and 'memory N' (a limit of N KiB)
    NAME.drawing, .svg   what examples/timeline.py must draw of NAME.out, as text and as a picture

Small cases stand in files NAME.table below checks/cases, many in each; tables.py says how. With words only the cases
run whose names have one of them. Without PROGRAM it is that of OCELOT in the environment, or else the built one.
Prints what differs; ends with 1 where something does. Nothing is written but temporary files.
"""
import argparse
import difflib
import os
import pathlib
import resource
import shutil
import subprocess
import sys
import tempfile

from program import TOP, program
from tables import read_table

FOLDERS = ("checks/cases", "examples")
ENDS = ("words", "*.words")
SECONDS = 20


def beside(words, what):
    """Returns the path of another file of the case that a file of words begins."""
    return words.with_name(words.name.removesuffix("words") + what)


def content(path):
    return path.read_bytes() if path.exists() else b""


def instructions(words):
    """Returns the lines of a case's file 'how', split into words."""
    return [line.split() for line in content(beside(words, "how")).decode().splitlines()]


def limit_memory(kibibytes):
    """Returns what a child has to do before it becomes the program, or None."""
    if kibibytes is None:
        return None
    return lambda: resource.setrlimit(resource.RLIMIT_AS, (kibibytes * 1024,) * 2)


def answer(tried, words, folder, stdout=None, memory=None):
    """Returns the status and both outputs of the program over words, or None where it takes too long."""
    try:
        done = subprocess.run(
            [tried, *words],
            cwd=folder,
            stdin=subprocess.DEVNULL,
            stdout=stdout or subprocess.PIPE,
            stderr=subprocess.PIPE,
            timeout=SECONDS,
            preexec_fn=limit_memory(memory),
        )
    except subprocess.TimeoutExpired:
        return None
    return done.returncode, done.stdout or b"", done.stderr


def run(tried, words, folder):
    """Returns the status and both outputs of the program over a case, or None where it takes too long."""
    stdout, memory = None, None
    for kind, *rest in instructions(words):
        if kind == "make":
            file, script, *arguments = rest
            made = subprocess.run([sys.executable, TOP / "checks/inputs" / script, *arguments], check=True, stdout=subprocess.PIPE)
            (folder / file).write_bytes(made.stdout)
        elif kind == "stdout":
            stdout = open(rest[0], "wb")
        elif kind == "memory":
            memory = int(rest[0])
    return answer(tried, words.read_bytes().splitlines(), folder, stdout, memory)


def differences(what, got, wanted):
    """Returns the lines that show how an output differs from what must come."""
    if got == wanted:
        return []
    lines = [text.decode(errors="backslashreplace").splitlines() for text in (wanted, got)]
    shown = list(difflib.unified_diff(*lines, f"{what} wanted", f"{what} got", lineterm="", n=1))
    return shown or [f"{what} differs in its line ends"]


def failures(got, status, out, err):
    """Returns the lines that say what is wrong with an answer."""
    if got is None:
        return [f"no answer in {SECONDS} seconds"]
    found = [] if got[0] == status else [f"status {got[0]}, not {status}"]
    return found + differences("out", got[1], out) + differences("err", got[2], err)


def faults(tried, words):
    """Returns the lines that say what is wrong with a case."""
    with tempfile.TemporaryDirectory() as temporary:
        folder = words.parent
        if any(kind == "make" for kind, *_ in instructions(words)):
            folder = pathlib.Path(shutil.copytree(folder, os.path.join(temporary, "case")))
        got = run(tried, words, folder)
    out, err = content(beside(words, "out")), content(beside(words, "err"))
    found = failures(got, int(content(beside(words, "status")) or 0), out, err)
    for what, option in (("drawing", []), ("svg", ["--svg"])):
        if beside(words, what).exists():
            drawn = subprocess.run([TOP / "examples/timeline.py", *option, beside(words, "out")], stdout=subprocess.PIPE)
            found += differences(what, drawn.stdout, content(beside(words, what)))
    return found


def faults_of_row(tried, row):
    """Returns the lines that say what is wrong with a case of a table."""
    status, out, err, words, files = row
    with tempfile.TemporaryDirectory() as folder:
        for file, text in files.items():
            (pathlib.Path(folder) / file).write_bytes(text)
        return failures(answer(tried, words, folder), status, out, err)


def name(words):
    """Returns the name of a case, which is its path without what says that these are words."""
    return str(words.relative_to(TOP)).removesuffix("words").rstrip("/.")


def all_cases():
    """Returns all cases: the name of each, what finds its faults, and the case."""
    words = sorted(path for folder in FOLDERS for end in ENDS for path in (TOP / folder).rglob(end) if path.is_file())
    cases = [(name(path), faults, path) for path in words]
    for table in sorted((TOP / "checks/cases").glob("*.table")):
        cases += [(f"{name(table)} {number}", faults_of_row, row) for number, row in enumerate(read_table(table), 1)]
    return cases


def main():
    parser = argparse.ArgumentParser(description="Runs the program over worked cases.")
    parser.add_argument("--program")
    parser.add_argument("words", nargs="*", metavar="WORD")
    asked = parser.parse_args()
    tried = program(asked.program)
    failed = 0
    cases = [case for case in all_cases() if not asked.words or any(word in case[0] for word in asked.words)]
    for called, fault, case in cases:
        found = fault(tried, case)
        failed += bool(found)
        for line in [f"{called}: differs"] * bool(found) + [f"    {line}" for line in found]:
            print(line)
    print(f"checks: {len(cases) - failed} of {len(cases)} cases as they must be")
    return 1 if failed or not cases else 0


if __name__ == "__main__":
    sys.exit(main())
