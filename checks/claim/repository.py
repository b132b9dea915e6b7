"""The repository: where a path of modules leads."""
import pathlib

from claim.rust import functions_of, read_rust_imports, rust_function, rust_item
from claim.specs import read_specs
from claim.text import Unplaced
from claim.words import Lib, Member, Source, Variants


class Repository:
    """All sources below a folder, read when they are asked for."""

    def __init__(self, top):
        self.top = pathlib.Path(top)
        self.sources = {}

    def source(self, crate, label):
        """Returns a file, or None where there is none."""
        if (crate, label) not in self.sources:
            path = self.top / "crates" / crate / label
            if not path.is_file():
                return None
            source = self.sources[crate, label] = Source(self, crate, label, path)
            read_specs(source) if source.is_specs else read_rust_imports(source)
        return self.sources[crate, label]

    def rust_sources(self, crate="*"):
        """Yields the files of src/, of a crate or of all."""
        for path in sorted((self.top / "crates").glob(f"{crate}/src/**/*.rt")):
            crate_here, _, label = str(path.relative_to(self.top / "crates")).partition("/")
            yield self.source(crate_here, label)

    def functions(self, crate="*"):
        """Yields (source, name) of all public functions."""
        for source in self.rust_sources(crate):
            for name in functions_of(source):
                yield source, name

    def word(self, spec):
        """Returns the word of `crate/Module.Word`, of `crate/file.rt()function`, or of `crate/file.rt.Type`."""
        crate, _, rest = spec.partition("/")
        if ".rt." in rest:
            file, _, name = rest.partition(".rt.")
            return found(self.rust(crate, file.split("/"), name), spec)
        if "()" in rest:
            file, _, name = rest.partition("()")
            return rust_function(found(self.source(crate, "src/" + file), spec), name)
        module, _, name = rest.partition(".")
        return found(found(self.source(crate, f"specs/{module}.antt"), spec).words.get(name), spec)

    # ---- names of modules

    def place(self, path, name):
        """Returns what a name of a module is: a Word, a Member, a Lib, a Source, Variants, or None."""
        if path.startswith("::"):
            return self.place_rust(path[2:], name)
        parts = path.split(".")
        if parts[0] != "Rattle" or not (self.top / "crates" / parts[1]).is_dir():
            return Lib(name or parts[-1], path)
        if parts[3:4] == ["declared"]:
            return self.place_declared(parts[1], parts[4:], name)
        source = self.source(parts[1], f"specs/{'/'.join(parts[3:])}.antt")
        return source if source is None or name is None else self.public(source, name)

    def public(self, source, name):
        """Returns what a file of specs/ shows under a name: a definition, a constructor, or what it passes on."""
        if name in source.words:
            return source.words[name]
        for word in source.words.values():
            if word.kind == "data" and name in word.members:
                return Member(word, name)
        return self.place(*source.passed_on[name]) if name in source.passed_on else None

    def place_declared(self, crate, parts, name):
        """`declared.module.Type.{Type}`, `declared.module.Type.TheVariants.{A}`, or the module of variants itself."""
        if parts[-1] == "TheOpen" and name:
            # `Stmt-F` is the shape of one layer of the recursive type `Stmt`, with the same variants
            word = self.rust(crate, parts[:-2], name.removesuffix("-F"))
            return word and Variants(word)
        if parts[-1] == "TheVariants":
            word = self.rust(crate, parts[:-2], parts[-2])
            return word and (Member(word, name) if name else Variants(word))
        word = self.rust(crate, parts[:-1], parts[-1])
        return word if word is None or name in (None, word.name) else Member(word, name)

    # ---- names of Rust

    def rust(self, crate, parts, name):
        """Returns the type of this name in a module of a crate's src/."""
        inner = "/".join(parts)
        for label in [f"src/{inner}.rt", f"src/{inner}/mod.rt"] if parts else ["src/lib.rt"]:
            source = self.source(crate, label)
            word = source and rust_item(source, name)
            if word:
                return word
        return None

    def place_rust(self, path, name):
        """`oc_x::module` and a type in it; other paths are of the standard library."""
        crate, *parts = path.split("::")
        if not (self.top / "crates" / crate).is_dir():
            return Lib(name, path)
        return self.rust(crate, parts, name) or self.passed_by_rust(crate, parts, name)

    def passed_by_rust(self, crate, parts, name):
        """Returns a type that a module passes on by `pub use`."""
        source = self.source(crate, f"src/{'/'.join(parts) or 'lib'}.rt")
        path, there = source.imports.get(name, ("", None)) if source else ("", None)
        if not path.startswith("::"):
            return None
        inner = path[2:].split("::")
        if not (self.top / "crates" / inner[0]).is_dir():
            path = "::" + "::".join([crate, *parts, *inner])
        return self.place(path, there)


def found(value, what):
    """Returns what was looked for, which must be there."""
    if value is None:
        raise Unplaced(f"there is no {what}")
    return value
