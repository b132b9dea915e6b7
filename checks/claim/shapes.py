"""The shape of a value: by its type, as far as that says which record a field of the value belongs to.

A shape has a head and arguments. Its head is a word, or a text: the name of a type of the library, `→` with parameters
and the result behind it, `×` with the sides of a pair, or `?A` for a type that a call decides. None is a shape of which
nothing is known.
"""
import collections
import functools
import re

from claim.names import find, library
from claim.rust import RUST, rust_item
from claim.text import Token, is_access, place_of, split_at, tokens_of
from claim.words import Lib, Member, Source, Variants, Word

Shape = collections.namedtuple("Shape", "head args")

NUMBERS = {"i8": "ℤ", "i16": "ℤ", "i32": "ℤ", "i64": "ℤ"}


# ---- types of definitions

def looks_in(source):
    """Returns what says what a name is in a file."""
    return functools.partial(find, source)


def shape_of(tokens, look, variables=()):
    """Returns the shape of a type, where `look` says what a name is."""
    while len(tokens) == 1 and tokens[0].kind == "group":
        tokens = behind_colon(tokens[0].inner)
    arrows = split_at(tokens, lambda t: t.is_word("→"))
    if arrows[1:]:
        return arrow_of(arrows, look, set(variables))
    sides = split_at(tokens, lambda t: t.is_word("×"))
    if sides[1:]:
        return Shape("×", tuple(shape_of(side, look, variables) for side in sides))
    return named(tokens, look, variables)


def arrow_of(arrows, look, variables):
    """Returns the shape of a function's type. Implicit arguments aren't parameters, but types that calls decide."""
    params = []
    for part in arrows[:-1]:
        bound = [(t, place_of(t.inner, ":")) for t in part]
        if not all(t.kind == "group" and colon for t, colon in bound):
            params.append(shape_of(part, look, variables))
            continue
        for group, colon in bound:
            if group.text == "{":
                variables.update(t.text for t in group.inner[:colon])
            else:
                params += [shape_of(group.inner[colon + 1:], look, variables)] * colon
    result = shape_of(arrows[-1], look, variables)
    return Shape("→", (*params, *(result.args if result and result.head == "→" else [result])))


def named(tokens, look, variables):
    """Returns the shape of a type that is a name with its arguments."""
    if not tokens or tokens[0].kind != "word":
        return None
    if tokens[0].text in variables:
        return Shape("?" + tokens[0].text, ())
    target = look(tokens[0].text)
    if isinstance(target, Source) and is_access(tokens, 1):
        target, tokens = target.repository.public(target, tokens[2].text), tokens[2:]
    if isinstance(target, Word) and target.kind == "function":
        return abbreviated(target)
    if isinstance(target, Word):
        return modelled(target)
    if isinstance(target, Variants):
        return Shape(target.word, ())
    if isinstance(target, Lib):
        return Shape(target.name, tuple(shape_of([t], look, variables) for t in tokens[1:]))
    return None


def abbreviated(word):
    """Returns the shape of a type with a name of its own, as `Text`, which is a list of numbers."""
    if len(word.parts) != 2:
        return None
    tokens = tokens_of(word.source.text, *word.parts[1][1:])
    return shape_of(tokens[2:], looks_in(word.source)) if tokens[1].is_word("=") else None


def behind_colon(tokens):
    """Returns what stands behind a colon, or all where there is none."""
    colon = place_of(tokens, ":")
    return tokens[colon + 1:] if colon else tokens


# ---- types of Rust

def modelled(word):
    """Returns the shape in which contracts see a type of Rust: that of its Value, or its own."""
    for a, b in word.spans[1:] if word.kind.startswith("rust") else ():
        m = re.match(r"\s*ghost Value = \{(.*)\}", word.source.text[a:b], re.S)
        if m:
            return shape_of(tokens_of(word.source.text, a + m.start(1), a + m.end(1)), looks_in(word.source))
    return Shape(word, ())


def rust_shape(text, source):
    """Returns the shape of a type as Rust writes it."""
    pieces = [m.group() for m in RUST.finditer(text) if m.lastgroup in ("word", "mark")]
    return read_rust(pieces, source)


def read_rust(pieces, source):
    """Takes a type off a list of pieces, and returns its shape."""
    while pieces and (pieces[0] in ("&", "mut", "dyn", "impl") or pieces[1:2] == ["::"]):
        del pieces[:2 if pieces[1:2] == ["::"] else 1]
    if not pieces:
        return None
    first = pieces.pop(0)
    if first in "([":
        args = read_arguments(pieces, ")]", source)
        return Shape("List", tuple(args[:1])) if first == "[" else Shape("×", tuple(args))
    args = ()
    if pieces[:1] == ["<"]:
        pieces.pop(0)
        args = tuple(read_arguments(pieces, ">", source))
    return rust_named(first, args, source)


def read_arguments(pieces, closing, source):
    """Takes types off a list of pieces, up to a closing bracket."""
    args = []
    while pieces and pieces[0] not in closing:
        if pieces[0] in (",", ";") or pieces[0].isdigit():
            pieces.pop(0)
        else:
            args.append(read_rust(pieces, source))
    del pieces[:1]
    return args


def rust_named(name, args, source):
    """Returns the shape of a type of Rust by its name."""
    word = rust_item(source, name)
    if word is None and name in source.imports:
        word = source.repository.place(*source.imports[name])
    if isinstance(word, Word):
        return modelled(word)
    if name in NUMBERS or re.fullmatch(r"u\d+|usize", name):
        return Shape(NUMBERS.get(name, "ℕ"), ())
    return Shape(name, args) if name in ("Vec", "Option", "Result", "Box") else None


def rust_fields(text, source):
    """Returns the shapes of the fields of a struct or of a variant, in their order, by their names or their places."""
    found = {}
    for k, part in enumerate(parts_of(re.sub(r"//[^\n]*|#\[[^\]]*\]", "", text))):
        name, colon, kind = part.strip().partition(":")
        key, kind = (name.split()[-1], kind) if colon and not kind.startswith(":") else (str(k), part)
        found[key] = rust_shape(re.sub(r"^\s*pub(\(\w+\))? ", "", kind), source)
    return found


def parts_of(text):
    """Splits a text at the commas outside of its brackets."""
    depth, parts = 0, [""]
    for c in text:
        depth += (c in "<({[") - (c in ">)}]")
        if c == "," and depth == 0:
            parts.append("")
        else:
            parts[-1] += c
    return [part for part in parts if part.strip()]


# ---- members

@functools.cache
def member_shape(word, name):
    """Returns the shape of a field's value."""
    text = word.source.text
    if word.kind == "record":
        a, b = next((a, b) for label, a, b in word.parts if name in label.split())
        return shape_of(behind_colon(tokens_of(text, a, b)), looks_in(word.source))
    if word.kind == "rust struct":
        body = re.search(r"[{(](.*)[})]", text[slice(*word.spans[0])], re.S)
        return rust_fields(body[1], word.source).get(name) if body else None
    return None


@functools.cache
def constructor_shape(member):
    """Returns the shape of a constructor, as that of a function."""
    word, name = member
    if name not in word.members:
        return None
    if word.kind == "data":
        a, b = next((a, b) for label, a, b in word.parts if name in label.split())
        shape = shape_of(behind_colon(tokens_of(word.source.text, a, b)), looks_in(word.source))
        args = shape.args[:-1] if shape and shape.head == "→" else ()
        return Shape("→", (*args, Shape(word, ())))
    text = word.source.text[word.members[name]:word.spans[0][1]]
    body = re.match(r"\w+\s*[({](.*?)[)}]\s*,", text, re.S)
    args = rust_fields(body[1], word.source).values() if body else ()
    return Shape("→", (*args, Shape(word, ())))


def field_of(shape, name):
    """Returns the member that a field of a value is, where it is one, and the shape of what it holds."""
    if shape is None:
        return None, None
    head, args = shape
    if isinstance(head, Word) and name in head.members:
        return Member(head, name), member_shape(head, name)
    if name in ("now", "old", "new"):
        return None, shape
    if head == "×" and name in ("0", "1"):
        return None, args[0] if name == "0" else args[1] if len(args) == 2 else Shape("×", args[1:])
    if (head, name) == ("Vec", "items"):
        return None, Shape("List", args)
    if (head, name) == ("Box", "value") and args:
        return None, args[0]
    return None, None


# ---- calls

@functools.cache
def library_shape(name):
    """Returns the shape of a word of the library, where the table has its type."""
    kind = library().get(name, ("", ""))[1]
    return shape_of(tokens_of(kind), lambda other: Lib(other, "")) if kind else None


@functools.cache
def signature_shape(word, is_inside):
    """Returns the shape of a function; from outside, the parameters of the modules around it are its first ones."""
    own = behind_colon(tokens_of(word.source.text, *word.parts[0][1:]))
    around = [] if is_inside else [t for group in word.params for t in (group, Token("word", "→", 0, 0))]
    return shape_of(around + own, looks_in(word.source))


def match(pattern, shape, known):
    """Finds the types that a call decides, by the shape of an argument."""
    if pattern is None or shape is None:
        return
    if isinstance(pattern.head, str) and pattern.head.startswith("?"):
        known.setdefault(pattern.head, shape)
    elif pattern.head == shape.head:
        for p, s in zip(pattern.args, shape.args):
            match(p, s, known)


def fill(shape, known):
    """Returns a shape with the types that a call decided."""
    if shape is None or isinstance(shape.head, str) and shape.head.startswith("?"):
        return shape and known.get(shape.head)
    return Shape(shape.head, tuple(fill(arg, known) for arg in shape.args))
