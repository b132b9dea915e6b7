#!/usr/bin/env python3
"""Compares the manual page with USING.md: manual.py [--write]

The commands and the statuses of docs/ocelot.1 are those of docs/USING.md, and its version is that of CHANGELOG.md; with
--write the page is written anew. The commands of README.md's table must be the same ones, and each must be one that the
launchers know. What the pages quote of files must stand in these. Prints what differs; ends with 1 where something does.
"""
import difflib
import re
import sys
import textwrap

sys.dont_write_bytecode = True

from program import TOP
import words

PAGE = TOP / "docs/ocelot.1"
USING = (TOP / "docs/USING.md").read_text()
COMMAND = re.compile(r"^    \./ocelot (\w+)((?: \S+)*?) {2,}(.+)$", re.M)
STATUS = re.compile(r"^\| (\d+) \|(.*)\| (.+) \|$", re.M)
# The whole of a file, or so many lines of it, stands in a page as lines that are set in.
QUOTED = [
    ("docs/USING.md", "examples/pump/fresh.why", None),
    ("docs/USING.md", "examples/alarm/alarm.lines", 3),
    ("docs/USING.md", "examples/harvest/power.csv", None),
]
HEAD = """.\\" Written by checks/manual.py from docs/USING.md.
.TH OCELOT 1 "{date}" "Ocelot {version}" "User Commands"
.SH NAME
ocelot, try \\- compile and run programs for devices without a battery
.SH DESCRIPTION
Ocelot is a compiler for a small sensor language, and the machine that runs its programs where power may fail between any
two steps. It puts what readings must be fresh or belong together into the smallest atomic regions, and prints each
reading, output, region and outage of a run with its time.
.PP
.B ./ocelot
proves and builds the program first, where it isn't that of the sources;
.B ./try
answers the same words without proofs, and stops after 60 seconds.
.SH COMMANDS
"""
TAIL = """.SH FILES
SRC is a source of at most 1 MiB. SENSORS has rows
.IR time,sensor,value ,
and POWER rows
.I on,off
or
.IR on,off,cut ,
both with a header. IMAGE is what
.B ./ocelot build \\-\\-image
writes, and REPORT what
.B ./ocelot run
prints.
.SH SEE ALSO
docs/USING.md, docs/LANGUAGE.md
"""


def plain(text):
    """Returns a cell of a table in the markup of a manual page."""
    text = re.sub(r"\[([^]]+)\]\([^)]+\)", r"\1", text).replace("\\", "\\e").replace("-", "\\-")
    text = re.sub(r"`([^`]+)`", r"\\fB\1\\fR", text)
    return text if not text.startswith((".", "'")) else "\\&" + text


def commands():
    """Returns the commands that USING.md lists, each with what it does."""
    return [(name, rest.strip(), what) for name, rest, what in COMMAND.findall(USING)]


def page():
    """Returns the manual page."""
    version, date = re.search(r"^## (\d+\.\d+\.\d+) \((\d{4}-\d\d-\d\d)\)$", (TOP / "CHANGELOG.md").read_text(), re.M).groups()
    lines = [HEAD.format(version=version, date=date).rstrip("\n")]
    for name, rest, what in commands():
        shown = plain(f"./ocelot {name} {rest}".strip())
        lines += [".TP", f".B {shown}", plain(what[0].upper() + what[1:] + ".")]
    lines += [".TP", ".B ./ocelot \\-\\-help", "Prints this list."]
    lines.append(".SH EXIT STATUS")
    for status, told, what in STATUS.findall(USING):
        lines += [".TP", f".B {status}", (f"{plain(told.strip())}: " if told.strip() else "") + plain(what) + "."]
    return "\n".join(lines) + "\n" + TAIL


def main():
    if sys.argv[1:] == ["--write"]:
        PAGE.write_text(page())
        return 0
    kept = PAGE.read_text() if PAGE.exists() else ""
    told = list(difflib.unified_diff(kept.splitlines(), page().splitlines(), "docs/ocelot.1", "what it should be", lineterm="", n=0))
    listed = {" ".join([name, *rest.split()]) for name, rest, _ in commands()}
    readme = set(re.findall(r"`\./ocelot ([^`]+)`", re.search(r"## Commands\n(.*?)\n## ", (TOP / "README.md").read_text(), re.S)[1]))
    told += [f"{command} stands in one table of commands alone" for command in sorted(listed ^ readme)]
    told += [f"{command} is no command" for command in sorted(listed) if words.files(command.replace(" K", " 1").replace(" N", " 5").split()) is None]
    for name, file, lines in QUOTED:
        quoted = textwrap.indent("\n".join((TOP / file).read_text().splitlines()[:lines]), "    ")
        told += [] if quoted in (TOP / name).read_text() else [f"{name} doesn't quote {file}"]
    print(*told, f"manual: {len(listed)} commands, {len(STATUS.findall(USING))} statuses, {len(told)} faults", sep="\n")
    return 1 if told or not listed else 0


if __name__ == "__main__":
    sys.exit(main())
