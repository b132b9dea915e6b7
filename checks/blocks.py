#!/usr/bin/env python3
"""Writes inferred regions out as blocks: blocks.py SRC
                                         blocks.py --cases [WORD..]

Prints the source SRC with an `atomic` block around the statements of each region that './ocelot regions SRC' lists.
With --cases it does so with each source of a case that has regions, and says whether './ocelot check' finds each of
the results safe; with words only those whose names have one of them. The program is that of OCELOT in the environment,
or else the built one.

A block ends what is declared in it, so it is made longer where need be: it begins with the `let` of what is annotated in
it and ends with the last statement that names what is declared in it. A `return` in it becomes an assignment, and
stands behind it.
"""
import pathlib
import re
import subprocess
import sys
import tempfile

from program import TOP, program

TOKEN = re.compile(r"//[^\n]*|[A-Za-z_][A-Za-z0-9_]*|[0-9][0-9_]*|->|==|!=|<=|>=|&&|\|\||\.\.|\S")
NAME = re.compile(r"[A-Za-z_]")
REGION = re.compile(r"region \d+ \S+ (\d+)\.\.(\d+) ", re.M)


class Statement:
    """A statement: its tokens, where they stand in the source, the number of its first pull and its own number."""

    def __init__(self, tokens, first, number):
        self.tokens = tokens
        self.start, self.end = tokens[0].start(), tokens[-1].end()
        self.first, self.number = first, number

    def words(self):
        return [token.group() for token in self.tokens]

    def declared(self):
        """Returns the names that it declares in its block."""
        words = self.words()
        return {words[2] if words[1] == "mut" else words[1]} if words[0] == "let" else set()

    def annotated(self):
        """Returns the names that it annotates."""
        words = self.words()
        return {words[2]} if words[0] in ("Fresh", "Consistent") else set()


def whole(words):
    """Says whether an expression is just an input or a call, perhaps in brackets."""
    while words[:1] == ["("] and closing(words, 0) == len(words) - 1:
        words = words[1:-1]
    return len(words) > 1 and bool(NAME.match(words[0])) and words[1] == "(" and closing(words, 1) == len(words) - 1


def closing(words, at):
    """Returns the place of the bracket that closes the one at a place."""
    depth = 0
    for place in range(at, len(words)):
        depth += (words[place] in "([") - (words[place] in ")]")
        if depth == 0:
            return place


def pulls(words):
    """Returns how many inputs and calls stand in these words."""
    return sum(bool(NAME.match(word)) and words[place + 1 : place + 2] == ["("] for place, word in enumerate(words))


class Reader:
    """Reads the statements of an accepted source, with the numbers that they have in the expansion."""

    def __init__(self, source):
        self.tokens = [token for token in TOKEN.finditer(source) if not token.group().startswith("//")]
        self.at = 0
        self.next = 1
        self.blocks = []

    def word(self):
        return self.tokens[self.at].group()

    def until(self, end):
        """Goes on to the next such word that stands in no bracket, and returns the words before it."""
        start, depth = self.at, 0
        while depth > 0 or self.word() != end:
            depth += (self.word() in "([") - (self.word() in ")]")
            self.at += 1
        return [token.group() for token in self.tokens[start : self.at]]

    def program(self):
        """Reads all functions, and returns their blocks with those inside."""
        while self.at < len(self.tokens):
            if self.word() == "fn":
                head = self.until("{")
                self.block(head[-1] if "->" in head else None)
            else:
                self.at += 1
        return self.blocks

    def block(self, result=None):
        """Reads a block; the body of a function has the type of its result."""
        statements = []
        self.blocks.append((statements, result))
        self.at += 1
        while self.word() != "}":
            statements.append(self.statement())
        self.at += 1

    def statement(self):
        start, first = self.at, self.next
        head = self.word()
        if head in ("if", "while", "for"):
            self.at += 1
            own = pulls(self.until("{"))
        else:
            words = self.until(";")
            self.at += 1
            own = self.own(words)
        number = self.next = first + own
        self.next += 1
        if head in ("if", "while", "for"):
            self.block()
        if head == "if" and self.at < len(self.tokens) and self.word() == "else":
            self.at += 1
            if self.word() == "if":
                self.blocks.append(([self.statement()], "else"))
            else:
                self.block()
        return Statement(self.tokens[start : self.at], first, number)

    def own(self, words):
        """Returns how many pulls a statement without blocks has."""
        if words[0] in ("Fresh", "Consistent"):
            return 0
        if words[0] in ("emit", "return"):
            return pulls(words[1:])
        if "=" in words:
            equals = words.index("=")
            right = words[equals + 1 :]
            return pulls(words[:equals]) + pulls(right) - whole(right)
        return pulls(words[1:])


def spread(statements, first, last):
    """Returns the places of the first and the last statement of a block around these that keeps what is declared."""
    while True:
        inside = statements[first : last + 1]
        annotated = set().union(*(statement.annotated() for statement in inside))
        declared = set().union(*(statement.declared() for statement in inside))
        before = [place for place in range(first) if statements[place].declared() & annotated]
        behind = [place for place in range(last + 1, len(statements)) if declared & set(statements[place].words())]
        if not before and not behind:
            return first, last
        first, last = min([first, *before]), max([last, *behind])


def parts(statements, regions):
    """Returns the places of the first and last statements of the blocks that a list of statements gets."""
    found = []
    for low, high in regions:
        firsts = [place for place, s in enumerate(statements) if s.first <= low <= s.number]
        lasts = [place for place, s in enumerate(statements) if s.number == high]
        if firsts and lasts:
            found.append(spread(statements, firsts[0], lasts[0]))
    joined = []
    for first, last in sorted(found):
        if joined and first <= joined[-1][1]:
            joined[-1] = (joined[-1][0], max(last, joined[-1][1]))
        else:
            joined.append((first, last))
    return joined


def with_blocks(source, regions):
    """Returns a source with a block around the statements of each region."""
    edits = []
    for statements, kind in Reader(source).program():
        for first, last in parts(statements, regions):
            begin, end = "atomic { ", " }"
            final = statements[last]
            if final.words()[0] == "return":
                kept = "kept"
                while kept in source:
                    kept += "_"
                begin = f"let mut {kept} = {'false' if kind == 'bool' else '0'}; {begin}"
                end += f" return {kept};"
                edits.append((final.start, final.start + len("return"), f"{kept} ="))
            if kind == "else":
                begin, end = "{ " + begin, end + " }"
            edits.append((statements[first].start, statements[first].start, begin))
            edits.append((final.end, final.end, end))
    edits.sort(key=lambda edit: (edit[0], edit[1] != edit[0]))
    text, at = "", 0
    for start, stop, new in edits:
        text += source[at:start] + new
        at = stop
    return text + source[at:]


def asked(words, *files):
    """Returns the status and the output of the program."""
    done = subprocess.run([program(), *words, *files], stdin=subprocess.DEVNULL, capture_output=True)
    return done.returncode, (done.stdout + done.stderr).decode(errors="replace")


def regions_of(path):
    """Returns the first and last statements of the regions of a source; none where it is refused."""
    status, text = asked(["regions"], path)
    return [(int(first), int(last)) for first, last in REGION.findall(text)] if status == 0 else []


def fault(path, folder):
    """Returns what is said of a source whose regions are written out as blocks, or None where it is safe or has none."""
    regions = regions_of(path)
    if not regions:
        return None
    written = pathlib.Path(folder, "source.oc")
    written.write_bytes(with_blocks(path.read_bytes().decode("latin-1"), regions).encode("latin-1"))
    answer = asked(["check"], written)
    return None if answer == (0, "safe\n") else (*answer, written.read_text(encoding="latin-1"))


def compare(words):
    sources = sorted(path for folder in ("checks/cases", "examples") for path in (TOP / folder).rglob("*.oc"))
    sources = [path for path in sources if not words or any(word in str(path.relative_to(TOP)) for word in words)]
    failed = 0
    with tempfile.TemporaryDirectory() as folder:
        for path in sources:
            found = fault(path, folder)
            if found:
                failed += 1
                print(f"{path.relative_to(TOP)}: status {found[0]}, {found[1].strip()}", found[2], sep="\n")
    print(f"blocks: {len(sources) - failed} of {len(sources)} sources are safe with their regions as blocks, or have none")
    return 1 if failed or not sources else 0


def main():
    if sys.argv[1:2] == ["--cases"]:
        return compare(sys.argv[2:])
    if len(sys.argv) != 2:
        sys.exit(__doc__)
    path = pathlib.Path(sys.argv[1])
    print(with_blocks(path.read_text(encoding="latin-1"), regions_of(path)), end="")
    return 0


if __name__ == "__main__":
    sys.exit(main())
