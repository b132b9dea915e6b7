"""What the program is made of: its crates, their files, and a checksum over both."""
import hashlib
import os
import pathlib

TOP = pathlib.Path(__file__).resolve().parent.parent
CRATE = "ocelot"


def lines(top):
    """Returns the line of each crate in crates.txt, by its name."""
    text = (top / "crates.txt").read_text()
    return {line.partition(":")[0].split()[0]: line for line in text.splitlines() if ":" in line and line[0] != "#"}


def below(line):
    """Returns what the crate of this line stands on, libraries of the kit among it."""
    return line.partition(":")[2].split()


def crates(top=TOP):
    """Returns the line of each crate that the program is made of, by its name, lowest first."""
    every, found = lines(top), {}

    def add(name):
        for other in below(every[name]):
            if other in every and other not in found:
                add(other)
        found[name] = every[name]

    add(CRATE)
    return found


def files(folder):
    """Returns the sources, definitions and proofs of a crate, in order."""
    found = []
    for at, folders, names in os.walk(folder):
        folders[:] = [name for name in folders if at != str(folder) or name not in ("out", "must-fail")]
        found += [os.path.join(at, name) for name in names if name.endswith((".rt", ".antt"))]
    return sorted(found)


def checksum(top=TOP):
    """Returns a checksum over all that the program is made of."""
    found = crates(top)
    sum = hashlib.sha256("\n".join(found.values()).encode())
    for path in [str(top / "KIT"), *(path for name in found for path in files(top / "crates" / name))]:
        with open(path, "rb") as file:
            content = hashlib.sha256(file.read()).hexdigest()
        sum.update(os.fsencode(f"\n{os.path.relpath(path, top)} {content}"))
    return sum.hexdigest()
