"""The text of definitions: tokens, brackets, and the parts of a block."""
import re

# A name is any run of characters but blanks, brackets and `;,."`: `n+n`, `◌>>=◌` and `StmtKind-F` are names.
TOKEN = re.compile(r'(?P<blank>\s+|--[^\n]*)|(?P<string>"(?:\\.|[^"\\])*")|(?P<open>[({])|(?P<close>[)}])'
                   r'|(?P<mark>[;,.])|(?P<word>[^\s(){};,."]+)')


class Unplaced(Exception):
    """A word that has no place: neither bound, nor defined, nor imported, nor of the library; or a list that is wrong."""


class Token:
    """A token with its place in the text of its file. A bracket holds the tokens in it, to its `end`."""

    def __init__(self, kind, text, start, end):
        self.kind, self.text, self.start, self.end, self.inner = kind, text, start, end, []

    def is_word(self, *texts):
        return self.kind == "word" and (not texts or self.text in texts)

    def is_mark(self, text):
        return self.kind == "mark" and self.text == text


def tokens_of(text, start=0, end=None):
    """Returns the tokens of a part of a text, with each bracket as one token."""
    end = len(text) if end is None else end
    stack, at = [[]], start
    while at < end:
        m = TOKEN.match(text, at, end)
        if m is None:
            raise Unplaced(f"no token at {text[at:at + 20]!r}")
        at, kind = m.end(), m.lastgroup
        if kind == "open":
            stack[-1].append(Token("group", m.group(), m.start(), m.end()))
            stack.append(stack[-1][-1].inner)
        elif kind == "close":
            if len(stack) > 1:
                stack.pop()
                stack[-1][-1].end = m.end()
        elif kind != "blank":
            stack[-1].append(Token(kind, m.group(), m.start(), m.end()))
    return stack[0]


def flat(tokens):
    """Yields all tokens, also those in brackets."""
    for t in tokens:
        yield t
        yield from flat(t.inner)


def split_at(tokens, is_between):
    """Splits a list of tokens at each token that passes a test."""
    parts = [[]]
    for t in tokens:
        if is_between(t):
            parts.append([])
        else:
            parts[-1].append(t)
    return parts


def place_of(tokens, *texts):
    """Returns the place of the first of some words, or None."""
    return next((k for k, t in enumerate(tokens) if t.is_word(*texts)), None)


def is_access(tokens, i):
    """Whether a dot stands at this place with a name behind it and no blank around it: `s.phase`."""
    if not 0 < i < len(tokens) - 1:
        return False
    before, dot, name = tokens[i - 1:i + 2]
    return dot.is_mark(".") and name.kind == "word" and dot.end == name.start and before.end == dot.start


def rows_of(text, start, end):
    """Yields the lines of a part of a text that aren't blank, as (indent, start, end)."""
    at = start
    while at < end:
        stop = text.find("\n", at)
        stop = end if stop < 0 or stop > end else stop
        line = text[at:stop]
        if line.strip():
            yield len(line) - len(line.lstrip(" ")), at, stop
        at = stop + 1


def chunks_of(text, start, end):
    """Yields the parts of a block: each line of its least indent, with all that is indented further behind it."""
    rows = list(rows_of(text, start, end))
    least = min((indent for indent, _, _ in rows), default=0)
    begun = None
    for indent, at, stop in rows:
        if indent == least and not text[at:stop].lstrip().startswith(("}", ")")):
            if begun is not None:
                yield begun
            begun = (at + indent, stop)
        else:
            begun = (begun[0], stop)
    if begun is not None:
        yield begun
