"""Words and the files that they stand in."""
import collections
import re

from claim.text import Unplaced

Lib = collections.namedtuple("Lib", "name path")        # a word of the library
Member = collections.namedtuple("Member", "word name")  # a constructor or a field
Variants = collections.namedtuple("Variants", "word")   # the module of a Rust type's variants

USE = re.compile(r"(pub )?(?:ghost )?use\s+([^\s{;]+?)(?:\.\{([^}]*)\}|\s+as\s+(\S+?))?\s*;?\s*$")


class Word:
    """A definition: of a function, a record, a data type, or what a Rust source declares."""

    def __init__(self, kind, name, source, start, comment):
        self.kind, self.name, self.source, self.start, self.comment = kind, name, source, start, comment
        self.spans = []        # parts of the source's text: [start, end)
        self.around = []       # heads of modules around it, whose parameters it has too
        self.parts = []        # (label, start, end): fields, constructors, clauses of a function or of a contract
        self.members = {}      # fields of a record, constructors of a data type: name -> start
        self.params = []       # bracket tokens of the modules around it
        self.links = None      # (start, end, target): found by the resolver
        self.loose = []        # fields whose record isn't known: (name, start, end)

    @property
    def key(self):
        return f"{self.source.crate}/{self.source.label}:{self.name}"

    @property
    def anchor(self):
        """Its name on a page, with that of its module, so that it stays where other words come or go."""
        return f"{self.source.crate.removeprefix('oc_')}.{self.source.module}.{self.name}"

    @property
    def place(self):
        return f"{self.source.crate}/{self.source.label}:{self.source.line_at(self.start)}"

    def text(self):
        return "\n".join(self.source.text[a:b].rstrip() for a, b in self.spans)

    def meant(self, fields):
        """The spans of the head and of these parts."""
        return [(a, b) for label, a, b in self.parts if label == "" or set(label.split()) & set(fields)]

    def lines(self, fields=()):
        """How many lines the definition has, or its head and these parts, without comments and blank lines."""
        text = "\n".join(self.source.text[a:b] for a, b in self.meant(fields)) if fields else self.text()
        return sum(1 for line in text.split("\n") if line.strip() and not re.match(r"\s*(--|//)", line))


class Source:
    """A file: its definitions, and the names that it brings in."""

    def __init__(self, repository, crate, label, path):
        self.repository, self.crate, self.label, self.path = repository, crate, label, path
        self.text = path.read_text()
        self.words = {}        # name -> Word
        self.passed_on = {}    # `pub use`: name -> (module path, name there)
        self.imports = {}      # name here -> (module path, name there, or None for a module)

    @property
    def module(self):
        """The name of its module, without the folder and the suffix."""
        return self.label.partition("/")[2].rpartition(".")[0].replace("/", ".")

    @property
    def is_specs(self):
        return self.label.endswith(".antt")

    def line_at(self, at):
        return self.text.count("\n", 0, at) + 1

    def fail(self, at, what):
        raise Unplaced(f"crates/{self.crate}/{self.label}:{self.line_at(at)}: {what}")

    def add(self, word):
        if word.name in self.words:
            self.fail(word.start, f"{word.name} is defined twice")
        self.words[word.name] = word

    def add_import(self, line, at):
        """Adds what a `use` line brings in: `use M.{a, b as c}`, `use M as c`, `use M.N`, each also with `pub`."""
        m = USE.match(" ".join(line.split()))
        if m is None:
            self.fail(at, f"not a use line: {line.strip()!r}")
        passed, path, items, alias = m.groups()
        if items is None:
            found = {alias or path.rsplit(".", 1)[1]: (path, None)}
        else:
            pairs = (item.split(" as ") for item in items.split(",") if item.strip())
            found = {pair[-1].strip(): (path, pair[0].strip()) for pair in pairs}
        self.imports.update(found)
        if passed:
            self.passed_on.update(found)
