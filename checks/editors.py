#!/usr/bin/env python3
"""Compares the files of editors/ with the language and with its messages: editors.py

Each word of the language must have a colour in the Vim syntax file, and no other word; and of each message on a source
that USING.md lists the errorformat must find the line, or the lines. Prints what differs; ends with 1 where something
does.
"""
import re
import sys

sys.dont_write_bytecode = True

from program import TOP

VIM = TOP / "editors/vim"
KEPT = {"_"}
NOTES = {"TODO"}
MESSAGES = {
    "ocelot: syntax error in line 7": ("7", None),
    "ocelot: rule 12 broken in line 30": ("30", None),
    "ocelot: not covered: fresh f x needs lines 3 and 5 in main": ("3", "5"),
    "ocelot: not covered: consistent f 1 needs lines 3 and 3 in main": ("3", "3"),
    "ocelot: cannot read a.oc": (None, None),
}
PARTS = {"%f": r"[^:]+", "%m": r".+", "%l": r"(?P<line>\d+)", "%e": r"(?P<end>\d+)", "%*[A-Za-z0-9_]": r"\w+"}


def words_of_the_language():
    """Returns the words that LANGUAGE.md lists."""
    text = (TOP / "docs/LANGUAGE.md").read_text()
    return set(re.search(r"^- Words: `([^`]+)`", text, re.M)[1].split()) - KEPT


def coloured():
    """Returns the words that have a colour."""
    lines = (VIM / "syntax/ocelot.vim").read_text().splitlines()
    return {word for line in lines if line.startswith("syntax keyword") for word in line.split()[3:] if word != "contained"} - NOTES


def formats():
    """Returns the errorformat as patterns, but for the one that drops all other lines."""
    found = []
    for line in (VIM / "compiler/ocelot.vim").read_text().splitlines():
        if line.startswith("CompilerSet errorformat") and "%-G" not in line:
            text = line.split("=", 1)[1].replace("\\ ", " ")
            pieces = re.split("(" + "|".join(map(re.escape, PARTS)) + ")", text)
            found.append(re.compile("".join(PARTS.get(piece) or re.escape(piece) for piece in pieces)))
    return found


def found_in(message):
    """Returns the line and the last line that the errorformat finds in a message, as Vim looks for them."""
    for pattern in formats():
        hit = pattern.fullmatch(f"a.oc:{message}")
        if hit:
            return hit.groupdict().get("line"), hit.groupdict().get("end")
    return "nothing"


def main():
    told = [f"{word} has no colour" for word in sorted(words_of_the_language() - coloured())]
    told += [f"{word} has a colour, and is no word of the language" for word in sorted(coloured() - words_of_the_language())]
    told += [f"{message}: found is {found_in(message)}, not {wanted}" for message, wanted in MESSAGES.items() if found_in(message) != wanted]
    print(*told, f"editors: {len(coloured())} words and {len(MESSAGES)} messages, {len(told)} faults", sep="\n")
    return 1 if told else 0


if __name__ == "__main__":
    sys.exit(main())
