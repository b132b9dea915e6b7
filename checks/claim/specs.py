"""Files of specs/: functions with their clauses, records, data types, and modules around them."""
import re

from claim.text import chunks_of, tokens_of
from claim.words import Word

TYPE = re.compile(r"(?:pub )?(record|data) (\S+)")
SIGNATURE = re.compile(r"(?:(?:abbrev|unfoldable|pub|instance) )*(\S+) :(?=\s|$)")
# `unfolding` says what a proof computes by.
SKIPPED = re.compile(r"(pub )?mod |infix[lr]? |unfolding ")
WHERE = re.compile(r"\bwhere\b")
MEMBER = re.compile(r"(?:pub )?((?:[^\s(){}]+ )*?[^\s(){}]+) :(?=\s)")


def read_specs(source):
    """Finds the definitions of a file."""
    read_block(source, 0, len(source.text), [])


def read_block(source, start, end, params):
    """Finds those of a block. A comment belongs to the definition right behind it; clauses follow their signature."""
    comment, behind, block = [], start, {}
    for at, stop in chunks_of(source.text, start, end):
        if source.text.count("\n", behind, at) > 1:
            comment = []
        behind = stop
        if source.text.startswith("--", at):
            # lines of one comment follow each other without a blank one
            comment.append(source.text[at:stop])
            continue
        read_chunk(source, at, stop, params, comment, block)
        comment = []


def read_chunk(source, at, stop, params, comment, block):
    """Reads one part: an import, a block of definitions, a type, a signature, or a clause of what stands above."""
    chunk = source.text[at:stop]
    head = chunk.split("\n", 1)[0]
    signature = SIGNATURE.match(chunk)
    if re.match(r"(pub )?use ", chunk):
        source.add_import(chunk, at)
    elif SKIPPED.match(chunk):
        pass
    elif re.match(r"(abbrev )?mutual\s*$|module _ ", head):
        read_inner(source, at, stop, params, comment, block)
    elif TYPE.match(chunk):
        read_type(source, at, stop, params, comment)
    elif signature and "=" not in signature.group().split():
        word = Word("function", signature[1], source, at, comment)
        word.spans, word.params, word.parts = [(at, stop)], params, [("", at, stop)]
        source.add(word)
        block[word.name] = word
    else:
        add_clause(source, at, stop, block)


def read_inner(source, at, stop, params, comment, block):
    """Reads the definitions of a `mutual` or a module, whose head may take several lines. A comment above it belongs to
    its first word without one."""
    where = WHERE.search(source.text, at, stop) if source.text.startswith("module", at) else None
    end = source.text.find("\n", where.end() if where else at, stop)
    groups = [t for t in tokens_of(source.text, at, end) if t.kind == "group"]
    before = set(source.words)
    read_block(source, end + 1, stop, params + groups)
    inner = [word for name, word in source.words.items() if name not in before]
    if inner and comment and not inner[0].comment:
        inner[0].comment = comment
    for word in inner:
        block[word.name] = word
        if groups:
            word.around.insert(0, (at, end))


def add_clause(source, at, stop, block):
    """Adds a clause to the definition whose name, or whose operator, it begins with."""
    chunk = source.text[at:stop]
    names = [t.text for t in tokens_of(source.text, at, stop) if t.is_word()]
    word = block.get(names[0]) if names and not chunk.startswith(("(", "[")) else None
    word = word or next((block[f"◌{n}◌"] for n in names if f"◌{n}◌" in block), None)
    if word is None:
        source.fail(at, f"a clause of no definition above: {chunk[:60]!r}")
    if source.text[word.spans[-1][1]:at].strip():
        word.spans.append((at, stop))
    else:
        word.spans[-1] = (word.spans[-1][0], stop)
    word.parts.append((chunk.split("=")[0].strip() or "=", at, stop))


def read_type(source, at, stop, params, comment):
    """Reads a record or a data type: its head up to `where`, and its fields or constructors."""
    kind, name = TYPE.match(source.text, at).groups()
    word = Word(kind, name, source, at, comment)
    where = WHERE.search(source.text, at, stop)
    if where is None:
        source.fail(at, f"{kind} {name} without where")
    word.spans, word.params, word.parts = [(at, stop)], params, [("", at, where.end())]
    for a, b in chunks_of(source.text, where.end(), stop):
        if source.text.startswith("--", a):
            continue
        m = MEMBER.match(source.text, a, b)
        if m is None:
            source.fail(a, f"neither a field nor a constructor: {source.text[a:a + 60]!r}")
        word.members.update((member, a) for member in m[1].split())
        word.parts.append((m[1], a, b))
    source.add(word)
