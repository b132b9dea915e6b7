#!/usr/bin/env python3
"""Tries examples/timeline.py: timeline.py [--write]

A file NAME.report in drawings/ must be drawn as NAME.drawing and NAME.svg have it, with the options in NAME.options where
that is; with --write these files are written anew, and must be looked at then. What is no report, and words that are
none of its own, must get one line and no drawing. And a report of many turns must be drawn in rows that are no wider than
they may be, with everything in it once. Prints what differs; ends with 1 where something does.
"""
import difflib
import pathlib
import re
import subprocess
import sys
import tempfile

sys.dont_write_bytecode = True

from program import TOP

DRAWN = TOP / "checks/drawings"
REFUSED = [
    ("", ["nothing-there"], "timeline: nothing-there: No such file or directory"),
    ("", ["."], "timeline: .: Is a directory"),
    ("fn main() { }\n", ["file"], "timeline: file is no report: line 1 is none of a report"),
    ("\x00\xff\n", ["file"], "timeline: file is no report: line 1 is none of a report"),
    ("1 sense t 4\n2 sense t\n", ["file"], "timeline: file is no report: line 2 is none of a report"),
    ("5 end\n4 end\n", ["file"], "timeline: file is no report: line 2 is none of a report"),
    ("5 end\nnv n 1\n6 end\n", ["file"], "timeline: file is no report: line 3 is none of a report"),
    ("5 commit 1\n", ["file"], "timeline: file is no report: region 1 is over at 5, and wasn't entered"),
    ("5 enter 1\n6 commit 2\n", ["file"], "timeline: file is no report: region 2 is over at 6, and wasn't entered"),
    ("5 done 3\n", ["file"], "timeline: file is no report: use 3 is done at 5, and wasn't begun"),
    ("5 end\n", ["--from", "4", "--to", "3", "file"], "timeline: --to is at --from or later, and --width at least 300"),
    ("5 end\n", ["--width", "10", "file"], "timeline: --to is at --from or later, and --width at least 300"),
]


def drawing(words, folder=DRAWN):
    """Returns the status and both outputs of the script."""
    done = subprocess.run([TOP / "examples/timeline.py", *words], cwd=folder, stdin=subprocess.DEVNULL, capture_output=True, encoding="utf-8", timeout=60)
    return done.returncode, done.stdout, done.stderr


def faults_of_drawings(write):
    """Yields the reports that are drawn otherwise than they must be."""
    for report in sorted(DRAWN.glob("*.report")):
        options = report.with_suffix(".options")
        words = [*(options.read_text().split() if options.exists() else []), report.name]
        for end, more in (("drawing", []), ("svg", ["--svg"])):
            kept = report.with_suffix(f".{end}")
            status, drawn, told = drawing([*more, *words])
            if write:
                kept.write_text(drawn)
            elif (status, drawn, told) != (0, kept.read_text(), ""):
                yield f"{kept.name}: status {status} {told}"
                yield from list(difflib.unified_diff(kept.read_text().splitlines(), drawn.splitlines(), "wanted", "got", lineterm="", n=1))[:20]


def faults_of_refusals(folder):
    """Yields what is answered otherwise where there is nothing to draw."""
    for text, words, line in REFUSED:
        pathlib.Path(folder, "file").write_bytes(text.encode("latin-1"))
        for more in ([], ["--svg"]):
            found = drawing([*more, *words], folder)
            if found != (1, "", line + "\n"):
                yield f"{words} with {text!r}: {found}"
    status, out, err = drawing(["--help"])
    if status or err or not out.startswith("usage: timeline.py"):
        yield f"--help: status {status} {err}"
    status, out, err = drawing([])
    if status != 2 or out or "Traceback" in err:
        yield f"no words: status {status} {err}"


def turns(count):
    """Returns a report of many turns, each of them with an attempt that is broken off."""
    tick, lines = 0, []
    for turn in range(count):
        lines += [f"{tick + 1} enter 1", f"{tick + 2} sense s {2 * turn}", f"{tick + 9} abort 1", f"{tick + 9} off 50"]
        lines += [f"{tick + 61} enter 1", f"{tick + 62} sense s {2 * turn + 1}", f"{tick + 64} emit p {turn}", f"{tick + 65} commit 1"]
        tick += 70
    return "\n".join([*lines, f"{tick} end"]) + "\n"


def faults_of_rows(folder):
    """Yields what is wrong with the rows of a long report."""
    pathlib.Path(folder, "file").write_text(turns(100))
    for width in (400, 1600):
        _, drawn, _ = drawing(["--svg", "--width", str(width), "file"], folder)
        found = int(re.search(r'width="(\d+)"', drawn)[1])
        if found > width:
            yield f"a row is {found} wide, and may be {width}"
        for kind, number in (("sense", 200), ("emit", 100)):
            if drawn.count(f'<circle class="{kind}"') != number:
                yield f"{drawn.count(kind)} marks of {kind} at a width of {width}, not {number}"
        if drawn.count('class="pale"') != 100 or drawn.count(">broken off<") != 100:
            yield f"at a width of {width} other attempts are broken off"
    for first, last in ((0, 69), (700, 1399), (6930, 7000)):
        words = ["--from", str(first), "--to", str(last), "file"]
        marks = drawing(["--svg", *words], folder)[1].count('<circle class="emit"')
        rows = drawing(words, folder)[1].count("writes")
        wanted = sum(first <= 70 * turn + 64 <= last for turn in range(100))
        if not marks == rows == wanted:
            yield f"from {first} to {last} are {marks} and {rows} outputs, not {wanted}"


def main():
    write = sys.argv[1:] == ["--write"]
    with tempfile.TemporaryDirectory() as folder:
        told = [*faults_of_drawings(write), *faults_of_refusals(folder), *faults_of_rows(folder)]
    print(*told, f"timeline: {len(list(DRAWN.glob('*.report')))} reports, {len(told)} lines of faults", sep="\n")
    return 1 if told else 0


if __name__ == "__main__":
    sys.exit(main())
