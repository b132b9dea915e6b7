"""Files of src/: types, traits and contracts, as they stand there."""
import re

from claim.text import Unplaced
from claim.words import Word

RUST = re.compile(r'(?P<blank>\s+|//[^\n]*)|(?P<string>b?"(?:\\.|[^"\\])*")|(?P<char>b?\'(?:\\.|[^\'\\])\'|\'[a-z_]+)'
                  r"|(?P<word>[A-Za-z_][A-Za-z_0-9]*)|(?P<mark>::|->|=>|.)")
PUB = r"(?:pub(?:\(\w+\))? )?"
CLAUSE = re.compile(r"^\s*(requires|ensures)\s*(\w*)\s*\{", re.M)
ISLAND = re.compile(r"\b(?:requires|ensures)(?: \w+\*?)?\s*\{|\bghost \w+\s*[:=]\s*\{")
FUNCTION = re.compile(r"^( *)pub fn (\w+)", re.M)
BODY = re.compile(r"^\s*\{(\s*$|\})", re.M)


def read_rust_imports(source):
    """Adds the `use` and `ghost use` lines of a source; `crate::a::B` is kept as ('::oc_x::a', 'B')."""
    for m in re.finditer(r"^ *(?:pub )?ghost use [^;]*;", source.text, re.M):
        source.add_import(m.group().strip().replace("pub ghost", "ghost"), m.start())
    for m in re.finditer(r"^(?:pub )?use ([^;]*);", source.text, re.M):
        for path, name, here in rust_uses("".join(m[1].split("\n"))):
            path = re.sub(r"^(crate|super)\b", source.crate, path)
            if (source.path.parent / (path.split("::")[0] + ".rt")).is_file():
                path = source.crate + "::" + path
            source.imports.setdefault(here, ("::" + path, name))


def rust_uses(text):
    """Yields (path, name, name here) for each name of a Rust `use`, also of nested braces."""
    text = re.sub(r"\s+", "", re.sub(r"\s+as\s+", "@", text))
    m = re.match(r"(.*?)::\{(.*)\}$", text)
    if m is None:
        path, _, name = text.rpartition("::")
        there, _, here = name.partition("@")
        yield path, there, here or there
        return
    depth, begun, inner = 0, 0, m[2] + ","
    for i, c in enumerate(inner):
        depth += (c == "{") - (c == "}")
        if c == "," and depth == 0:
            if inner[begun:i]:
                yield from rust_uses(m[1] + "::" + inner[begun:i])
            begun = i + 1


def end_of_item(text, at):
    """Returns where an item ends: behind its closing brace, or its `;` outside of brackets."""
    depth = 0
    for m in RUST.finditer(text, at):
        if m.lastgroup != "mark":
            continue
        depth += (m.group() in "{([") - (m.group() in "})]")
        if depth == 0 and m.group() in "};":
            return m.end()
    return len(text)


def doc_above(text, at):
    """Returns the lines of a `///` comment above an item, past its attributes."""
    lines = text[:at].split("\n")[:-1]
    while lines and lines[-1].strip().startswith(("#[", ")]")):
        lines.pop()
    doc = []
    while lines and lines[-1].strip().startswith("///"):
        doc.insert(0, lines.pop().strip())
    return doc


def rust_item(source, name):
    """Returns a declared type or trait as a word, with its `impl Model`, which says as what contracts see it."""
    if name in source.words:
        return source.words[name]
    m = re.search(rf"^{PUB}(struct|enum|trait|type|const) {re.escape(name)}\b", source.text, re.M)
    if m is None:
        return None
    word = Word("rust " + m[1], name, source, m.start(), doc_above(source.text, m.start()))
    word.spans = [(m.start(), end_of_item(source.text, m.start()))]
    for v in re.finditer(rf"^\s+{PUB}(?:ghost )?(\w+)(?=\s*[:({{,])", source.text[slice(*word.spans[0])], re.M):
        word.members.setdefault(v[1], m.start() + v.start(1))
    model = re.search(rf"^impl(?:<[^>]*>)? Model for {re.escape(name)}\b", source.text, re.M)
    if model:
        add_model(word, model.start(), end_of_item(source.text, model.start()))
    source.words[name] = word
    return word


def add_model(word, start, end):
    """Adds of an `impl Model` what says as what contracts see the type: its head, its Value and its view. How it is
    coded, and what the type keeps, no clause speaks of."""
    text = word.source.text
    word.spans.append((start, text.index("{", start) + 1))
    for m in re.compile(r"^ *ghost (?:Value|view) =", re.M).finditer(text, start, end):
        word.spans.append((m.start(), end_of_item(text, m.start())))


def functions_of(source):
    """Returns the names of the public functions of a source that have a clause."""
    names = []
    for m in FUNCTION.finditer(source.text):
        clause, body = CLAUSE.search(source.text, m.end()), BODY.search(source.text, m.end())
        if clause and body and clause.start() < body.start() and not FUNCTION.search(source.text, m.end(), clause.start()):
            names.append(m[2])
    return names


def rust_function(source, name):
    """Returns a function's head with its clauses as a word: from `pub fn` to the line of its opening brace."""
    key = name + "()"
    if key in source.words:
        return source.words[key]
    m = re.search(rf"^( *)pub fn {re.escape(name)}\b", source.text, re.M)
    stop = m and BODY.search(source.text, m.end())
    if not stop:
        raise Unplaced(f"crates/{source.crate}/{source.label}: no function {name}")
    word = Word("contract", key, source, m.end(1), doc_above(source.text, m.start()))
    word.spans = [(m.end(1), stop.start())]
    clauses = list(CLAUSE.finditer(source.text, m.end(1), stop.start()))
    for c in clauses:
        a = c.start() + len(c.group()) - len(c.group().lstrip())
        word.parts.append((c[2] or c[1], a, end_of_item(source.text, a)))
    # the head is a part too, where some clauses alone are meant
    word.parts.insert(0, ("", m.end(1), clauses[0].start() if clauses else stop.start()))
    source.words[key] = word
    return word


def does_nothing(word):
    """Whether a function's body is empty: its contract then is a law."""
    return re.match(r"\s*\{\s*\}", word.source.text[word.spans[0][1]:]) is not None


def islands_of(text, a, b):
    """Yields the parts of a Rust text that are clauses: what stands in braces behind `requires`, `ensures`, `ghost`."""
    at = a
    while m := ISLAND.search(text, at, b):
        depth, k = 0, m.end() - 1
        while k < b:
            depth += (text[k] == "{") - (text[k] == "}")
            if depth == 0:
                break
            k += 1
        yield m.end(), k
        at = k
