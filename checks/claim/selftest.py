"""The test of claim.py: a small made-up repository with each form of the language, and what must be found in it."""
import pathlib
import shutil
import tempfile

from claim.counts import compared
from claim.documents import lost_names
from claim.examples import examples_of
from claim.files import faults_of, files_of
from claim.laws import laws_of
from claim.pages import Claim, closure
from claim.repository import Repository
from claim.resolve import links_of
from claim.text import Unplaced
from claim.words import Member

MADE_UP = pathlib.Path(__file__).parent / "made-up"
HOMES = {"p01": "oc_top/Works.Works", "read": "oc_base/Points.total"}
DECIDING = "oc_base/Points: total"
FORMS, POINTS, TOP = "crates/oc_base/specs/Forms.antt", "crates/oc_base/specs/Points.antt", "crates/oc_top/specs/Works.antt"
EXAMPLES, NONE = "crates/oc_base/specs/Examples.antt", "pub total_example_none : total [] ≡ 0\ntotal_example_none = refl"

# What a word rests on.
RESTS = {
    "oc_top/Works.IsSum": "Forest IsSum Point Tree forest_sum moved tree_sum ◌>>=◌",
    "oc_base/Forms.words": "Kind Name length_of words",
    "oc_base/Forms.is_plain": "Kind Name is_plain",
    "oc_base/Forms.text": "Kind Name Top text",
    "oc_base/Forms.hidden": "hidden",
    "oc_base/Forms.Deep": "Deep Forest Tree",
    "oc_base/Points.by_rust": "Cell Name Row by_rust",
    "oc_base/Forms.layer": "Kind Name layer",
    "oc_base/Points.by_module": "Point by_module moved",
    "oc_base/Points.even": "Point Points even odd",
    "oc_top/Counted.IsCounted": "IsCounted Point Points",
    "oc_base/reader.rt()read": "Cell MOST Name Point ReadError Reader Row Shelf point_of read()",
    "oc_base/reader.rt()count": "Counts Point Points count() total",
}
# How many lines it has, without comments.
LINES = {
    "oc_base/Forms.forest_sum": 5, "oc_base/Points.moved": 4, "oc_base/Points.Point": 2, "oc_base/Forms.text": 5,
    "oc_base/Forms.Deep": 4, "oc_top/Works.IsDone": 4, "oc_base/Points.even": 3, "oc_base/reader.rt()read": 5,
}
# Which fields stand in it, in their order, and whose they are.
FIELDS = {
    "oc_base/Points.total": "Point.x",
    "oc_base/Points.point_of": "Point.x Point.y",
    "oc_base/Points.by_pattern": "Point.x Other.x Point.y",
    "oc_base/Points.by_map": "Other.x Point.x Other.others",
    "oc_base/Points.by_option": "Other.x Point.y",
    "oc_base/Points.by_pairs": "Point.x Other.x Point.x",
    "oc_base/Points.by_rust": "Cell.pair Row.cells Row.cells",
    "oc_base/Points.by_let": "Other.x Point.y",
    "oc_base/Points.moved": "Point.x Point.x",
    "oc_base/Points.twice": "Point.y",
    "oc_base/Points.by_abbreviation": "Point.x Other.x Point.y",
    "oc_base/Points.nested": "Other.x Point.x Point.y Point.y Other.others",
    "oc_base/Points.by_where": "Other.x Point.x",
    "oc_base/Points.odd": "Point.y",
    "oc_base/Points.by_module": "Point.x",
    "oc_base/reader.rt()read": "Row.cells Shelf.holds ReadError.Memory",
    "oc_base/reader.rt()count": "Point.x",
}
# An edit (file, old, new), and what must be said of it.
REFUSED = [
    (TOP, "≡ tree_sum t", "≡ tree_summ t", "Works.antt:12: can't place 'tree_summ' in IsSum"),
    (TOP, "base.moved total", "base.move total", "Works.antt:12: 'move' isn't in specs/Points.antt"),
    (TOP, "{Tree, tree_sum,", "{Tree, tree_summ as tree_sum,", "imports tree_sum, which isn't there"),
    (FORMS, "length_of [] = 0", "length [] = 0", "a clause of no definition above: 'length [] = 0'"),
    (FORMS, "abbrev pub hidden :", "abbrev pub words :", "words is defined twice"),
    (FORMS, "  leaf : (n", "  leaf (n", "neither a field nor a constructor"),
    (FORMS, "(t : Tree) : ℕ → Type 0 where", "(t : Tree) : ℕ → Type 0", "data Deep without where"),
    ("README.md", "`whole`", "`hole`", "IsDone lacks hole"),
    ("README.md", "(`comes`)", "(`coms`)", "README.md names `coms`, which is no clause"),
    ("README.md", "`counted_once`", "`counted_twice`", "README.md names `counted_twice`, which is no clause"),
    ("README.md", "Counted.antt", "Count.antt", "there is no crates/oc_top/specs/Count.antt"),
    ("README.md", "| `read`, `count` |", "| `reads`, `count` |", "README.md has no promise or stage read"),
    ("README.md", "`count` |", "`counts` |", "README.md names the stage `counts`, but no such call rests on"),
    ("README.md", "## What is proved", "## Proved", "README.md has no promise below 'What is proved'"),
    (TOP, "  pub ends : IsDone status\n", "", "README.md names `IsDone`, which is no clause"),
    ("README.md", "(`comes`)", "(`comes`; `IsDone`: `rest`)", "no page means more of oc_top/specs/Works.antt:IsDone"),
    ("README.md", "\n\n## More", "\n| `by_row` | a row | [P](crates/oc_base/specs/Points.antt) |\n\n## More",
     "no page hands over to the stage by_row"),
    (POINTS, "abbrev pub total : Points → ℕ\ntotal ps", "abbrev pub totals : Points → ℕ\ntotals ps",
     "imports total, which isn't there"),
    ("crates/oc_top/src/top.rt", "kind: &Kind", "kind: &Kinds", "top.rt:7: can't place 'Kinds' in ocelot()"),
    (TOP, "pub counts : (ps : base.Points)", "pub counts : (n : ℕ)", "can't place 'ps' in Works"),
    ("docs/PROVED.md", "`Reader::count`", "`Reader::tally`", "says that `Reader::tally` carries something"),
    ("docs/TRUSTED.md", "| nothing |", "| the case `none` |", "docs/TRUSTED.md names `none`, which is no case"),
    ("docs/PROVED.md", "<!-- end of the counts -->\n", "", "docs/PROVED.md lacks the line <!-- end of the counts -->"),
    (EXAMPLES, NONE, NONE.replace("total_", "totals_"),
     "Examples.antt:14: totals_example_none is an example of nothing: the file brings in no totals"),
    (EXAMPLES, NONE, NONE.replace("total []", "point_of 0"), "the type of total_example_none doesn't speak of total"),
    (EXAMPLES, NONE, NONE.replace("total", "by_pattern"), "no page has oc_base/specs/Points.antt:by_pattern"),
    (EXAMPLES, "≡ 7", "≡ seven", "Examples.antt:10: can't place 'seven' in total_example"),
]

# A list of homes, and what must be said of it.
OTHER_HOMES = [
    ({**HOMES, "p01": "oc_top/Works.Works oc_top/Works.IsSum"}, "no page hands over at oc_top/specs/Works.antt:IsSum"),
    ({**HOMES, "p01": "oc_top/Works.Works oc_top/Works.IsSums"}, "there is no oc_top/Works.IsSums"),
    ({**HOMES, "p03": "oc_top/Works.IsSum"}, "README.md has no promise or stage p03"),
    ({"p01": "oc_top/Works.Works"}, "no page hands over to the stage read"),
]


def lay(top):
    """Lays the made-up repository out in a new folder. Here its sources have '.text' behind their names, since the kit
    wants no source outside of the crates."""
    shutil.copytree(MADE_UP, top)
    for path in sorted(top.rglob("*.text")):
        path.rename(path.with_suffix(""))


def faults():
    """Returns what isn't as it must be."""
    with tempfile.TemporaryDirectory() as folder:
        top = pathlib.Path(folder) / "top"
        lay(top)
        told = [*wrong_words(Repository(top)), *wrong_pages(top), *wrong_refusals()]
    if not told:
        print(f"claim: the made-up repository is read, and {len(REFUSED)} edits of it are refused")
    return told


def wrong_words(repository):
    """Yields each word that rests on others, has other lines, or other fields, than it must."""
    for spec, expected in RESTS.items():
        found = sorted(word.name for word in closure([(repository.word(spec), ())]).values())
        if found != sorted(expected.split()):
            yield f"{spec} rests on {' '.join(found)}"
    for spec, expected in LINES.items():
        if repository.word(spec).lines() != expected:
            yield f"{spec} has {repository.word(spec).lines()} lines"
    for spec, expected in FIELDS.items():
        word = repository.word(spec)
        found = [f"{target.word.name}.{target.name}" for _, _, target in links_of(word)
                 if isinstance(target, Member) and target.word.kind != "data"]
        if found != expected.split() or word.loose:
            yield f"{spec} has the fields {' '.join(found)}, and {len(word.loose)} of no known record"
    name = repository.rust("oc_base", ["kind"], "Name")
    if "invariant" in name.text() or "view" not in name.text():
        yield "Name isn't shown as contracts see it"


def made(top, homes=HOMES, deciding=DECIDING):
    """Returns the pages of a repository, and their files."""
    claim = Claim(Repository(top), homes)
    laws_of(claim.repository, list(claim.pages.values()))
    examples_of(claim, deciding)
    return claim, files_of(claim)


def wrong_pages(top):
    """Yields what isn't as it must be of the pages."""
    claim, files = made(top)
    roots = {name: [word.name + (f": {' '.join(fields)}" if fields else "") for word, fields in page.roots]
             for name, page in claim.pages.items()}
    if roots != {"p01": ["ocelot()", "Works: comes answer ends counts"], "read": ["read()", "count()"],
                 "p02": ["counted_once()", "IsDone: whole", "CountedOnce", "Alone"]}:
        yield f"the pages begin with {roots}"
    laws = {name: [law.name for law, _ in page.laws] for name, page in claim.pages.items() if page.laws}
    if laws != {"read": ["one_total()"]}:
        yield f"the laws are {laws}"
    yield from wrong_examples(claim.pages["read"], files["read.html"])
    yield from faults_of(files)
    text = files["p01.html"]
    if 'id=top.Works.IsSum' not in text or "read.html#base.Points.total" not in text or "<s>" in text:
        yield "p01.html lacks an anchor or a link"
    if "<s>  pub more" not in files["p02.html"]:
        yield "p02.html doesn't dim what it doesn't mean"
    dead = {**files, "p01.html": text.replace("read.html#base.Points.total", "read.html#total")}
    if list(faults_of(dead)) != ["p01.html: read.html#total leads nowhere"]:
        yield "a dead link is let by"
    if len(list(faults_of({**files, "lib.html": files["lib.html"] + " " * 200_000}))) != 1:
        yield "a file that is too large is let by"


def wrong_examples(page, text):
    """Yields what isn't as it must be of the examples on a page."""
    names = {key: [example.name for example in examples] for key, examples in page.examples.items()}
    if names != {"oc_base/specs/Points.antt:total": ["total_example", "total_example_none"]}:
        yield f"the examples are {names}"
    if [word.name for word in page.spoken] != ["two_points"] or any(word.name == "two_points" for word in page.words):
        yield "what an example speaks of doesn't stand at the end of the page"
    if "<p>3 and 4 are 7</p>" not in text or "href=#base.Examples.two_points" not in text or "refl" in text:
        yield "read.html doesn't show an example as it stands"


def wrong_refusals():
    """Yields each edit that is let by, or refused with other words."""
    for file, old, new, expected in REFUSED:
        said = told_of(file, old, new)
        if expected not in said:
            yield f"{file} with {new.strip()!r} in place of {old.strip()!r}: {said or 'let by'}"
    for homes, expected in OTHER_HOMES:
        said = told_of("README.md", "# Made up", "# Made", homes)
        if expected not in said:
            yield f"with the homes {homes}: {said or 'let by'}"
    said = told_of("README.md", "# Made up", "# Made", deciding=DECIDING + " point_of")
    if said != "oc_base/Points.point_of has no example":
        yield f"a definition without an example: {said or 'let by'}"
    if "differs" not in told_of("README.md", "*1 line.*", "*2 lines.*"):
        yield "a count that isn't true is let by"


def told_of(file, old, new, homes=HOMES, deciding=DECIDING):
    """Returns what is said of the made-up repository with an edit."""
    with tempfile.TemporaryDirectory() as folder:
        top = pathlib.Path(folder) / "top"
        lay(top)
        text = (top / file).read_text()
        if text.count(old) != 1:
            return f"{old!r} stands there {text.count(old)} times"
        (top / file).write_text(text.replace(old, new))
        try:
            claim, _ = made(top, homes, deciding)
            differ = compared(top, list(claim.pages.values()), False)
            return "\n".join(lost_names(top)) or ("differs" if "README.md" in differ else "")
        except Unplaced as fault:
            return str(fault)
