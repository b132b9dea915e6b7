"""What a name stands for in a file, where nothing binds it."""
import functools
import pathlib
import re

from claim.rust import rust_item
from claim.words import Lib, Word

# Words of the language itself. The first are shown plainly, the others have a line on the page of the library.
PLAIN = set("→ : = λ Type record where let in elim as _ [ ] | ↦ ← do pub data".split())
BUILT_IN = set("Unit tt ⊥ ¬ × absurd".split())
# A proof in a definition: no promise speaks of one, and a word that uses one is named by none.
TACTICS = set("omega arith rw grind search simp cc Prim".split())


def find(source, name):
    """Returns what an unbound name stands for in a file, or None."""
    for form in (name, f"◌{name}◌", f"◌{name}", f"{name}◌"):
        target = source.repository.public(source, form) if source.is_specs else None
        if target is None and form in source.imports:
            target = source.repository.place(*source.imports[form])
            if target is None:
                source.fail(0, f"imports {form}, which isn't there")
        if target is not None:
            return target
    if not source.is_specs and rust_item(source, name):
        return rust_item(source, name)
    if name in ("if", "then", "else"):
        return Lib("if◌then◌else◌", "Rattle.std.specs.Prelude")
    return Lib(name, "") if name in BUILT_IN else None


def is_infix(source, name):
    """Whether an unbound name stands between its operands: `++`, `≡`, `>>=`."""
    if name in ("×", "→", "="):
        return True
    return f"◌{name}◌" in source.imports or f"◌{name}◌" in source.words


def find_ghost(source, name):
    """Returns the trait in scope that has this ghost name."""
    brought = [source.repository.place(path, there) for path, there in list(source.imports.values())
               if path.startswith("::") and there]
    own = [rust_item(source, trait) for trait in re.findall(r"^(?:pub )?trait (\w+)", source.text, re.M)]
    traits = (word for word in own + brought if isinstance(word, Word) and word.kind == "rust trait")
    return next((trait for trait in traits if name in trait.members), None)


@functools.cache
def library():
    """Returns the meaning of each word of the kit's library, and its type where elements go through it."""
    rows = (pathlib.Path(__file__).parent / "library.txt").read_text().splitlines()
    return {name: (meaning, "".join(kind)) for name, meaning, *kind in (row.split("\t") for row in rows)}
