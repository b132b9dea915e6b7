"""What the program answers to words that it needs no file's content for."""
import os
import re

import sources

SOURCE, ROWS, IMAGE = 1 << 20, 16 << 20, 64 << 20


def is_number(word, digits, least, most):
    """Says whether a word is a number of so many digits at most, in these bounds."""
    return re.fullmatch(f"[0-9]{{1,{digits}}}", word) is not None and least <= int(word) <= most


def files(words):
    """Returns the files that a line of words names, each with the most bytes that it may have, or None if it is no command."""
    match words:
        case ["drill", turns]:
            return [] if is_number(turns, 4, 1, 1000) else None
        case ["regions" | "build" | "check", source] | ["build", "--image", source]:
            found = [(source, SOURCE)]
        case ["audit", source, report]:
            found = [(source, SOURCE), (report, ROWS)]
        case ["exec", image, sensors, power]:
            found = [(image, IMAGE), (sensors, ROWS), (power, ROWS)]
        case ["run", *options, source, sensors, power]:
            match options:
                case [] | ["--meters"]:
                    pass
                case ["--supply", number] | ["--supply", number, "--meters"] if is_number(number, 3, 0, 2):
                    pass
                case _:
                    return None
            found = [(source, SOURCE), (sensors, ROWS), (power, ROWS)]
        case _:
            return None
    return found if all(name and name[0] != "-" for name, _ in found) else None


def answer(words):
    """Returns the status and the line of the program, if any, where the words or the first files decide; else None."""
    if any("\udc80" <= character <= "\udcff" for word in words for character in word):
        # A word that isn't UTF-8.
        return 1, None
    named = files(words)
    if named is None:
        return 1, "not a command"
    for name, most in named:
        if os.path.exists(name) and not os.path.isdir(name) and not os.path.isfile(name):
            return None
        if not os.path.isfile(name) or not os.access(name, os.R_OK):
            return 2, f"cannot read {name}"
        if os.path.getsize(name) > most:
            return 3, f"too long {name}"
    return None


def table():
    """Returns the table of commands, which stands in the page on using the program."""
    text = (sources.TOP / "docs/USING.md").read_text()
    return "".join(line.strip() + "\n" for line in text.splitlines() if line.startswith("    ./ocelot "))
