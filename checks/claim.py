#!/usr/bin/env python3
"""The claim, to click through: claim.py DIR | --check | --write | --selftest | --rests WORD

Writes pages into the folder DIR: for each promise of the README, and for each stage of its table, the clause as it stands
in the source, and below it each word that it rests on, once, with its definition. Nothing need be built: it reads
crates/*/specs and, of crates/*/src, the types, traits and contracts that definitions name.

--check says whether the counts in README.md and docs/PROVED.md are those of now, and --write puts them there; both make
all pages, but keep none. --selftest reads a small made-up repository with each form of the language. --rests prints what
a word rests on, as in 'claim.py --rests oc_top/Headline.IsRun'.

Below a definition stand its examples, from the files specs/*Examples.antt, which the prover checks.

Ends with 1 at a word that can't be placed, a field that no page means, a link that leads nowhere, a file that is too
large, a count that isn't true, a name in docs/PROVED.md or docs/TRUSTED.md that nothing has, an example of nothing, and
a definition of claim/examples.py that has no example.
"""
import pathlib
import sys

sys.dont_write_bytecode = True

from claim import selftest
from claim.counts import compared
from claim.documents import lost_names
from claim.examples import examples_of
from claim.files import faults_of, files_of, write
from claim.laws import laws_of
from claim.markup import count
from claim.order import reading_order
from claim.pages import Claim, closure
from claim.repository import Repository
from claim.text import Unplaced

TOP = pathlib.Path(__file__).resolve().parent.parent
# How many lines of definitions a page has at most.
MOST_LINES = 700


def made(out=None, is_written=False):
    """Makes all pages, writes them where they are wanted, and returns what is wrong with them, or with the counts."""
    claim = Claim(Repository(TOP))
    pages = list(claim.pages.values())
    laws_of(claim.repository, pages)
    examples_of(claim)
    files = files_of(claim)
    told = [*faults_of(files), *lost_names(TOP), *long_pages(pages)]
    if out:
        write(files, out)
    else:
        differ = compared(TOP, pages, is_written)
        if not is_written:
            told += [f"the counts in {name} aren't those of now; checks/claim.py --write mends it" for name in differ]
    if not told:
        below = {key: word for page in pages if page.is_promise for key, word in page.all.items()}
        loose = sum(len(word.loose) for page in pages for word in page.words)
        print(f"claim: {len(files)} pages; all promises rest on {len(below):,} definitions of "
              f"{sum(word.lines() for word in below.values()):,} lines"
              + (f"; {count(loose, 'field')} of no known record, not linked" if loose else ""))
    return told


def long_pages(pages):
    """Yields what is wrong with pages that nobody reads to their end."""
    for page in pages:
        if page.lines() > MOST_LINES:
            yield (f"the page {page.name} has {page.lines()} lines, more than {MOST_LINES}: checks/claim/homes.py is to "
                   "give words of it a page")


def print_rests(spec):
    """Prints what a word rests on, with the lines of each."""
    root = (Repository(TOP).word(spec), ())
    words = reading_order([root], closure([root]).values())
    print(*(f"{word.lines():4} {word.place} {word.name}" for word in words), sep="\n")
    print(f"{len(words)} definitions of {sum(word.lines() for word in words)} lines")


def main():
    try:
        match sys.argv[1:]:
            case ["--check"]:
                told = made()
            case ["--write"]:
                told = made(is_written=True)
            case ["--selftest"]:
                told = selftest.faults()
            case ["--rests", spec]:
                told = print_rests(spec)
            case [out] if not out.startswith("-"):
                told = made(pathlib.Path(out))
            case _:
                sys.exit(__doc__.split("\n", 1)[0])
    except Unplaced as fault:
        told = str(fault).splitlines()
    for line in told or ():
        print(f"claim: {line}")
    return 1 if told else 0


if __name__ == "__main__":
    sys.exit(main())
