"""Names in the documents: what carries a clause in docs/PROVED.md, and what shows a premise in docs/TRUSTED.md."""
import re

CODE = re.compile(r"`([^`]+)`")
CARRIED = re.compile(r"\*Carried by\* (.*)$", re.M)
# A row of a table: what is taken for granted, and what shows it.
ROW = re.compile(r"^\| .* \| (.*) \|$", re.M)
DECLARED = r"\b(?:fn|trait|struct|ensures)\s+{}\b"


def lost_names(top):
    """Yields each name of the documents that nothing has."""
    sources = "\n".join(path.read_text() for path in sorted((top / "crates").glob("*/src/**/*.rt")))
    for names in CARRIED.findall((top / "docs/PROVED.md").read_text()):
        for name in CODE.findall(names):
            if not is_declared(name, sources):
                yield f"docs/PROVED.md says that `{name}` carries something, which no crate declares"
    for shows in ROW.findall((top / "docs/TRUSTED.md").read_text()):
        for name in CODE.findall(shows):
            if not is_shown(name, top) and not is_declared(name, sources):
                yield f"docs/TRUSTED.md names `{name}`, which is no case, no table, no file, no crate and no function"


def is_declared(name, sources):
    """Whether a function, a method, a type or a clause has this name."""
    return re.search(DECLARED.format(re.escape(name.split("::")[-1])), sources) is not None


def is_shown(name, top):
    """Whether there is a case, a table, a file or a crate of this name."""
    places = (f"checks/cases/{name}", f"checks/cases/{name}.table", f"crates/{name}", name)
    return any(list(top.glob(place)) for place in places)
