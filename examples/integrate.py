#!/usr/bin/env python3
"""Checks sources of one's own, as continuous integration does: integrate.py [--accept] FOLDER..

Of each source NAME.oc in these folders './ocelot regions' must print what NAME.regions has, and no annotation may bind
nothing (examples/why.py); and each log NAME.*.log, from a device, must be honest, once carriage returns and an unfinished
last line are gone. With --accept the files NAME.regions are written anew, to be looked at and checked in. Prints one line
for each thing that isn't so, and ends with 1 then. OCELOT in the environment stands in the place of ./ocelot.
"""
import pathlib
import subprocess
import sys
import tempfile

sys.dont_write_bytecode = True

from caller import TOP, ocelot


def answer(*words):
    """Returns the status, the standard output and the last line on standard error of a call."""
    done = subprocess.run(words, stdin=subprocess.DEVNULL, capture_output=True, encoding="utf-8", errors="replace")
    return done.returncode, done.stdout, (done.stderr.splitlines() or [""])[-1]


def faults_of_regions(source, accept):
    """Yields what is wrong with a source and its regions."""
    kept = source.with_suffix(".regions")
    status, printed, told = answer(ocelot(), "regions", source)
    if status:
        yield f"{source}: status {status}, {told}"
        return
    if accept:
        kept.write_text(printed)
    if not kept.exists() or kept.read_text() != printed:
        yield f"{source}: the regions aren't those of {kept.name}"
    status, lines, told = answer(TOP / "examples/why.py", source)
    if status:
        yield f"{source}: {told}"
    yield from (f"{source}: {line}" for line in lines.splitlines() if line.startswith("binds nothing"))


def faults_of_log(source, log):
    """Yields what is wrong with a log."""
    text = log.read_bytes().replace(b"\r", b"")
    with tempfile.NamedTemporaryFile() as report:
        report.write(text[: text.rfind(b"\n") + 1])
        report.flush()
        status, _, told = answer(ocelot(), "audit", source, report.name)
    if status:
        yield f"{log}: status {status}, {told}"


def main():
    words = sys.argv[1:]
    accept = words[:1] == ["--accept"]
    folders = [pathlib.Path(word) for word in words[accept:]]
    if not folders or any(word.startswith("-") for word in words[accept:]):
        sys.exit(__doc__)
    sources = sorted(source for folder in folders for source in folder.rglob("*.oc"))
    told = [line for source in sources for line in faults_of_regions(source, accept)]
    told += [line for source in sources for log in sorted(source.parent.glob(f"{source.stem}.*.log")) for line in faults_of_log(source, log)]
    print(*told, f"integrate: {len(sources)} sources, {len(told)} faults", sep="\n")
    return 1 if told or not sources else 0


if __name__ == "__main__":
    sys.exit(main())
