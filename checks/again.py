#!/usr/bin/env python3
"""Audits what the program wrote, and runs its images: again.py [--rows FILE..] [WORD..]

Of each case that runs a source over two files (see run.py) the report is written again and handed to 'audit', which
must find it honest; and where the case has no option the source is handed to 'build --image', and 'exec' of that file
over the same two files must write the same report with the same status. With words only the cases whose names have
one of them. --rows takes files in JSON whose list 'cases' has words and files in place of folders. The program is that
of OCELOT in the environment, or else the built one. Prints what differs; ends with 1 where something does.
"""
import argparse
import json
import os
import pathlib
import shutil
import subprocess
import sys
import tempfile

import run
from program import program

WRITTEN = (0, 8, 9, 12)


def answer(words, folder):
    """Returns the status and both outputs of the program."""
    done = subprocess.run(
        [program(), *words], cwd=folder, stdin=subprocess.DEVNULL, stdout=subprocess.PIPE, stderr=subprocess.PIPE, timeout=60
    )
    return done.returncode, done.stdout, done.stderr


def faults(words, folder):
    """Returns what is wrong with the report and the image of a run, or None where there is no report."""
    status, report, _ = answer([word for word in words if word != "--meters"], folder)
    if status not in WRITTEN:
        return None
    (folder / "again.report").write_bytes(report)
    found = []
    audited = answer(["audit", words[-3], "again.report"], folder)
    if audited != (0, b"honest\n", b""):
        found.append(f"its report: status {audited[0]} {audited[2].decode().strip()}")
    if len(words) == 4:
        built = answer(["build", "--image", words[-3]], folder)
        (folder / "again.image").write_bytes(built[1])
        executed = answer(["exec", "again.image", *words[-2:]], folder)
        if executed[:2] != (status, report):
            found.append(f"its image: status {executed[0]}, not {status} {executed[2].decode().strip()}")
    return found


def content(value):
    """Returns the bytes of a file in JSON."""
    if isinstance(value, str):
        return value.encode()
    return bytes.fromhex(value["hex"]) if "hex" in value else value["text"].encode().ljust(value["pad_to"])


def folders(names, words):
    """Yields each case: its name, its words, and a folder of its own with its files."""
    for path in sorted(path for top in run.FOLDERS for end in run.ENDS for path in (run.TOP / top).rglob(end)):
        said = path.read_text(errors="surrogateescape").splitlines()
        if said[:1] != ["run"] or len(said) < 4 or run.instructions(path):
            continue
        if not words or any(word in run.name(path) for word in words):
            with tempfile.TemporaryDirectory() as temporary:
                yield run.name(path), said, pathlib.Path(shutil.copytree(path.parent, os.path.join(temporary, "case")))
    for file in names:
        for case in json.loads(pathlib.Path(file).read_text())["cases"]:
            if case["words"][:1] == ["run"] and len(case["words"]) > 3 and (not words or any(word in case["id"] for word in words)):
                with tempfile.TemporaryDirectory() as temporary:
                    for name, value in case["files"].items():
                        pathlib.Path(temporary, name).write_bytes(content(value))
                    yield case["id"], case["words"], pathlib.Path(temporary)


def main():
    parser = argparse.ArgumentParser(description="Audits what the program wrote, and runs its images.")
    parser.add_argument("--rows", action="append", default=[], metavar="FILE")
    parser.add_argument("words", nargs="*", metavar="WORD")
    asked = parser.parse_args()
    tried = failed = 0
    for name, words, folder in folders(asked.rows, asked.words):
        found = faults(words, folder)
        tried += found is not None
        failed += bool(found)
        for line in found or []:
            print(f"{name}: {line}")
    print(f"again: {tried - failed} of {tried} reports are honest, and the same from images")
    return 1 if failed or not tried else 0


if __name__ == "__main__":
    sys.exit(main())
