"""Resolving: what each word in a definition stands for."""
import re

from claim.names import find, find_ghost
from claim.rust import RUST, islands_of, rust_item
from claim.shapes import Shape, behind_colon, looks_in, rust_shape, shape_of, signature_shape
from claim.specs import SIGNATURE
from claim.terms import Terms, atoms_of
from claim.text import chunks_of, flat, place_of, tokens_of
from claim.words import Lib, Member, Word

# The head of an `impl`, with the type that it is for; a parameter that is a type; and one of a function.
IMPL = re.compile(r"^impl(?:<[^>]*>)? (?:[\w<>:, ]+ for )?(\w+)[^{]*", re.M)
TYPE_PARAMETER = re.compile(r"[<,]\s*([A-Z])\b\s*[:,>]")
PARAMETER = re.compile(r"[(,]\s*(?:mut )?(\w+)\s*:(?!:)\s*((?:[^,()<]|<[^()]*?>|\([^()]*\))+)")
# Types that Rust has without an import.
RUST_TYPES = ("Vec", "Option", "Result", "Box", "String", "Some", "None", "Ok", "Err")
# Names of Rust that say nothing which a reader would look up.
PASSED_BY = ("Self", "Model", "Value", "Drop", "Copy", "Sized", "Send")


def links_of(word, fields=()):
    """Returns the links of a word, or those of its head and of some of its parts."""
    if word.links is None:
        word.links = []
        Definition(word).resolve()
        word.links.sort(key=lambda link: link[0])
    if not fields:
        return word.links
    labels = {name for label, _, _ in word.parts for name in label.split()}
    if not set(fields) <= labels:
        word.source.fail(word.start, f"{word.name} lacks {' '.join(sorted(set(fields) - labels))}")
    meant = word.meant(fields)
    return [link for link in word.links if link[0] < word.spans[0][0] or any(a <= link[0] < b for a, b in meant)]


def targets(word, fields=()):
    """Yields the words that a word names, each once, in their order."""
    seen = set()
    for _, _, target in links_of(word, fields):
        target = target.word if isinstance(target, Member) else target
        if isinstance(target, Word) and target is not word and target.key not in seen:
            seen.add(target.key)
            yield target


class Definition(Terms):
    """Links the words of a definition, of each kind."""

    def resolve(self):
        env = {}
        for group in self.word.params:
            self.group(group, env)
        kinds = {"function": self.clauses, "record": self.record, "data": self.data}
        kinds.get(self.word.kind, self.rust)(env)

    def tokens(self, a, b):
        return tokens_of(self.source.text, a, b)

    # ---- functions

    def clauses(self, env):
        """A signature and its clauses."""
        for label, a, b in self.word.parts:
            tokens = self.tokens(a, b)
            if label == "":
                self.walk(behind_colon(tokens), env)
            else:
                self.clause(tokens, env, signature_shape(self.word, True), self.word.name.replace("◌", ""))

    def clause(self, tokens, env, shape, own):
        """A clause: the names of its patterns are bound behind `=`, and those of its `where` before it."""
        env = dict(env)
        where = place_of(tokens, "where")
        tokens, local = tokens[:where], tokens[where + 1:] if where else []
        equals = place_of(tokens, "=")
        if equals is None:
            self.source.fail(tokens[0].start, "a clause without =")
        params = list(shape.args) if shape and shape.head == "→" else [shape]
        for pattern in atoms_of([t for t in tokens[:equals] if not t.is_word(own)]):
            self.pattern(pattern, env, params.pop(0) if params else None)
        if local:
            self.local(local, env)
        self.walk(tokens[equals + 1:], env, params[0] if len(params) == 1 else None)

    def local(self, tokens, env):
        """The definitions of a `where`: their names are bound in all of the clause."""
        begin = self.source.text.rfind("\n", 0, tokens[0].start) + 1
        chunks = [(a, b, SIGNATURE.match(self.source.text, a, b))
                  for a, b in chunks_of(self.source.text, begin, tokens[-1].end)]
        for a, b, signature in chunks:
            if signature:
                env[signature[1]] = shape_of(behind_colon(self.tokens(a, b)), looks_in(self.source))
        for a, b, signature in chunks:
            inner = self.tokens(a, b)
            if signature:
                self.walk(inner[2:], env)
            else:
                self.clause(inner, env, env.get(inner[0].text), inner[0].text)

    # ---- types

    def head(self, tokens, env):
        """The head of a type: its parameters are bound below it."""
        for t in tokens[place_of(tokens, self.word.name) + 1:]:
            if t.kind == "group":
                self.group(t, env)
            elif not t.is_word("where"):
                self.walk([t], env)

    def record(self, env):
        """A record: parameters, then fields, each of which may speak of those before it."""
        for label, a, b in self.word.parts:
            tokens = self.tokens(a, b)
            if label == "":
                self.head(tokens, env)
            else:
                self.walk(behind_colon(tokens), env)
                shape = self.type_shape(behind_colon(tokens), env)
                env.update((name, shape) for name in label.split())

    def data(self, env):
        """A data type: parameters, then constructors; it may speak of itself."""
        for label, a, b in self.word.parts:
            tokens = self.tokens(a, b)
            self.walk(behind_colon(tokens), env) if label else self.head(tokens, env)

    # ---- Rust

    def rust(self, env):
        """What Rust declares: types by its `use` lines, and clauses as terms."""
        env = {**env, **self.rust_bound()}
        for a, b in self.word.spans:
            islands = list(islands_of(self.source.text, a, b))
            self.rust_names(a, b, islands)
            for x, y in islands:
                is_view = self.source.text[:x].endswith("ghost view = {")
                self.island(self.tokens(x, y), env, Shape("→", (Shape(self.word, ()), None)) if is_view else None)

    def rust_bound(self):
        """Names that a clause may use: parameters, `result`, those of types, and a trait's ghost names."""
        a, b = self.word.spans[0][0], self.word.spans[-1][1]
        text, head = self.source.text[a:b], self.source.text[a:self.word.parts[0][2]] if self.word.parts else ""
        above = list(IMPL.finditer(self.source.text, 0, a)) if head else []
        env = dict.fromkeys(["result", "self", "Self", *re.findall(r"ghost (\w+)", text)])
        env.update((name, None) for name in TYPE_PARAMETER.findall(text + (above[-1].group() if above else "")))
        env.update((name, None) for name in re.findall(r"(?:\(|,|^)\s*(?:mut )?(\w+)\s*:(?!:)", text, re.M))
        env.update((m[1], rust_shape(m[2], self.source)) for m in PARAMETER.finditer(head))
        result = re.search(r"->\s*(.*)", head, re.S)
        env["result"] = result and rust_shape(result[1], self.source)
        env["self"] = rust_shape(above[-1][1], self.source) if above else None
        return env

    def island(self, tokens, env, expected):
        """A clause. `F.holds` is a ghost name of the trait that bounds F, `plan b` one of a trait in scope."""
        env = dict(env)
        for t in flat(tokens):
            is_free = t.kind == "word" and t.text not in env and self.source.text[t.start - 1] != "."
            if is_free and find(self.source, t.text) is None:
                trait = find_ghost(self.source, t.text)
                if trait is not None:
                    env[t.text] = None
                    self.link(t, Member(trait, t.text))
        self.walk(tokens, env, expected)

    def rust_names(self, a, b, islands):
        """Links the types that a Rust text names, outside of its clauses."""
        text = self.source.text
        skipped = islands + [m.span() for m in re.compile(r"#\[[^\]]*\]|ghost use [^;]*;").finditer(text, a, b)]
        for m in RUST.finditer(text, a, b):
            name, at = m.group(), m.start()
            if m.lastgroup != "word" or not name[0].isupper() or any(x <= at < y for x, y in skipped):
                continue
            if name != self.word.name and self.word.members.get(name) != at:
                self.rust_name(name, at)

    def rust_name(self, name, at):
        """Links one type of a Rust text: of this file, or brought in."""
        target = rust_item(self.source, name)
        if target is None and name in self.source.imports:
            target = self.source.repository.place(*self.source.imports[name])
            if not isinstance(target, (Word, Lib)):
                self.source.fail(at, f"can't place {name!r} in {self.word.name}")
        if target is None and name in RUST_TYPES:
            target = Lib(name, "std")
        if target is not None:
            self.word.links.append((at, at + len(name), target))
        elif len(name) > 1 and name not in PASSED_BY:
            self.source.fail(at, f"can't place {name!r} in {self.word.name}")
