"""Reads tables of small cases.

A file NAME.table below checks/cases has cases that would be dull as folders. Empty lines part its blocks: the first one
has what all cases share, and each other one is a case, which may say it anew. The first word of a line says what the
line is of:

    words            the words that the program gets
    status           the status that must come; where there is none, 0
    out, err         what must come on both outputs; where there is none, nothing
    any other word   the file of that name, in the folder where the program runs

Further lines of the same word add to the text. A line ends with a line feed, but for one with a backslash at its end.
With N* before its word a line stands N times, with the number of its turn from 0 on in place of each #. What follows
another backslash is as in Python: \\n, \\r, \\t, \\\\ and \\xHH. A line that begins with # is a comment.
"""
import re

ESCAPES = {b"n": b"\n", b"r": b"\r", b"t": b"\t", b"\\": b"\\"}
SPOKEN = ("words", "status", "out", "err")


def unescaped(found):
    """Returns the byte for which an escape stands."""
    return ESCAPES.get(found[1]) or bytes.fromhex(found[1][1:].decode())


def text_of(line):
    """Returns the bytes for which the rest of a line stands."""
    cut = line.endswith(b"\\") and not line.endswith(b"\\\\")
    text = line[:-1] if cut else line + b"\\n"
    return re.sub(rb"\\(x[0-9a-f]{2}|.)", unescaped, text)


def repeated(line, times):
    """Returns the bytes for which the rest of a line stands, so many times where that is said."""
    if times is None or b"#" not in line:
        return text_of(line) * (1 if times is None else times)
    return b"".join(text_of(line.replace(b"#", b"%d" % turn)) for turn in range(times))


def block_of(lines):
    """Returns the texts of a block, by the words of its lines."""
    block = {}
    for line in lines:
        what, _, rest = line.partition(b" ")
        *times, what = what.decode().split("*")
        block[what] = block.get(what, b"") + repeated(rest, int(times[0]) if times else None)
    return block


def read_table(path):
    """Returns the cases of a table: each is a status, both outputs, the words, and the files by their names."""
    parts = [[line for line in part.split(b"\n") if line and not line.startswith(b"#")] for part in path.read_bytes().split(b"\n\n")]
    shared, *cases = [block_of(lines) for lines in parts if lines]
    for case in [shared | case for case in cases]:
        files = {what: text for what, text in case.items() if what not in SPOKEN}
        words = case["words"].decode().split()
        yield int(case.get("status", 0)), case.get("out", b""), case.get("err", b""), words, files
