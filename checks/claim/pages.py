"""Pages: the words of a promise or of a stage, down to those at which another page begins."""
import re

from claim.homes import HOMES
from claim.laws import exported, named_in_ensures
from claim.promises import promises_of
from claim.repository import found
from claim.resolve import targets
from claim.rust import does_nothing, rust_function
from claim.text import Unplaced

# The function that answers for the whole, and the record that its contract promises.
TOP = "oc_top/top.rt()ocelot"


class Page:
    """A promise or a stage: its words, in the order in which they are read."""

    def __init__(self, promise):
        self.promise, self.name, self.title, self.says = promise, promise.name, promise.title, promise.says
        self.roots = []          # [word, fields that are meant, or none for all]
        self.words = []          # those shown here
        self.handed = []         # (page, word): where it hands over
        self.all = {}            # key -> word: all that it rests on
        self.laws = []           # laws about its words
        self.examples = {}       # key -> examples of a word
        self.spoken = []         # words that only examples speak of

    @property
    def is_promise(self):
        return re.fullmatch(r"p\d\d", self.name) is not None

    def fields(self, word):
        """The parts of a word that are meant here, or none for all."""
        return next((fields for root, fields in self.roots if root is word), ())

    def add_root(self, word, fields=()):
        """Adds a clause that the page begins with."""
        for k, (root, old) in enumerate(self.roots):
            if root is word:
                self.roots[k] = (word, (*old, *(f for f in fields if f not in old)) if old and fields else ())
                return
        self.roots.append((word, tuple(fields)))

    def lines(self):
        return sum(word.lines(self.fields(word)) for word in self.words)

    def all_lines(self):
        return sum(word.lines(self.fields(word)) for word in self.all.values())


def closure(roots, stops=()):
    """Returns all words that these rest on, themselves too, by their keys; below a word of `stops` it doesn't look."""
    known, todo = {}, []
    for word, fields in roots:
        known[word.key] = word
        todo += targets(word, fields)
    while todo:
        word = todo.pop()
        if word.key not in known and word.key not in stops:
            known[word.key] = word
            todo += targets(word)
    return known


class Claim:
    """All pages of a repository."""

    def __init__(self, repository, homes=None):
        self.repository = repository
        homes = HOMES if homes is None else homes
        self.readme = (repository.top / "README.md").read_text()
        self.pages = {promise.name: Page(promise) for promise in promises_of(self.readme)}
        self.top = repository.word(TOP)
        self.whole = closure([(self.top, ())])
        if unknown := set(homes) - set(self.pages):
            raise Unplaced(f"README.md has no promise or stage {', '.join(sorted(unknown))}")
        pairs = [(repository.word(spec), name) for name, specs in homes.items() for spec in specs.split()]
        self.homes = {word.key: name for word, name in pairs}
        self.home_words = {word.key: word for word, _ in pairs}
        for page in self.pages.values():
            self.add_clauses(page)
        for page in self.pages.values():
            self.add_homes(page)
        for page in self.pages.values():
            self.fill(page)
        if lost := list(self.lost()):
            raise Unplaced("\n".join(lost))

    # ---- what a page begins with

    def add_clauses(self, page):
        """Adds the clauses that README names, or the contracts of a stage's calls and of those beside them."""
        if page.name == "p01":
            page.add_root(self.top)
        for name, fields in page.promise.clauses:
            word, fields = self.clause(name, fields)
            if not any(word is other and set(fields) & set(old) for p in self.pages.values() for other, old in p.roots):
                page.add_root(word, fields)
        for path in page.promise.files if page.is_promise else ():
            for word in self.heads_of(path):
                page.add_root(word)
        for function in page.promise.functions:
            page.add_root(self.call(function, page.promise.files))
        for word in self.beside(page):
            page.add_root(word)

    def clause(self, name, fields):
        """Returns what README calls by a name: a part of the top call's record, a law, or a record."""
        works = next(word for word in targets(self.top) if word.kind == "record")
        if name in works.members and not fields:
            return works, (name,)
        for source, function in self.repository.functions(self.top.source.crate):
            if function == name:
                return rust_function(source, name), ()
        words = [word for word in self.whole.values() if word.name == name]
        if len(words) != 1:
            raise Unplaced(f"README.md names `{name}`, which is {' and '.join(w.place for w in words) or 'no clause'}")
        return words[0], fields

    def heads_of(self, path):
        """Returns the records of a file that no other word of it names."""
        crate, label = re.match(r"crates/(\w+)/(.*)", path).groups()
        words = found(self.repository.source(crate, label), path).words.values()
        named = {target.key for word in words for target in targets(word) if target is not word}
        return [word for word in words if word.kind == "record" and word.key not in named]

    def call(self, name, paths):
        """Returns the contract of a stage's call: of this name, resting on the files that README names, and on least."""
        calls = []
        for source, function in self.repository.functions():
            if function == name and source.crate != self.top.source.crate:
                word = rust_function(source, name)
                below = closure([(word, ())])
                files = {f"crates/{w.source.crate}/{w.source.label}" for w in below.values()}
                calls += [(len(below), source.path, word)] if any(path in files for path in paths) else []
        if not calls:
            raise Unplaced(f"README.md names the stage `{name}`, but no such call rests on {' or '.join(paths)}")
        return min(calls, key=lambda call: call[:2])[2]

    def beside(self, page):
        """Returns the other calls that the crates of a stage's calls show, and that answer by a word of this page."""
        homes = {key for key, name in self.homes.items() if name == page.name}
        calls = [word for word, _ in page.roots if word.kind == "contract"] if not page.is_promise else []
        for crate in dict.fromkeys(word.source.crate for word in calls):
            for word in exported(self.repository, crate):
                if word not in calls and not does_nothing(word) and homes & named_in_ensures(word):
                    yield word

    def add_homes(self, page):
        """Adds the page's own words that its clauses don't rest on; of a record what no other page means."""
        for key, name in self.homes.items():
            word = self.home_words[key]
            meant = {f for p in self.pages.values() for root, fields in p.roots if root is word for f in fields}
            if name == page.name and meant:
                rest = [label for label, _, _ in word.parts if label and not set(label.split()) & meant]
                page.add_root(word, [f for label in rest for f in label.split()] + list(page.fields(word)))
            elif name == page.name and key not in closure(page.roots, self.stops(page)):
                page.add_root(word)

    # ---- what it has

    def stops(self, page):
        """Returns the words at which a page hands over, each with the page that it stands on."""
        begun = {word.key for word, _ in page.roots}
        return {key: home for key, home in self.homes.items() if home != page.name and key not in begun}

    def fill(self, page):
        """Finds the words of a page, those that it hands over, and all that it rests on."""
        stops = self.stops(page)
        page.all = closure(page.roots)
        page.words = list(closure(page.roots, stops).values())
        named = {target.key: target for word in page.words for target in targets(word, page.fields(word))}
        page.handed = [(stops[key], word) for key, word in named.items() if key in stops]

    # ---- what would be lost

    def lost(self):
        """Yields each home that is needless, each stage that nothing leads to, and each field that no page means."""
        handed = {word.key for page in self.pages.values() for _, word in page.handed}
        led_to = {name for page in self.pages.values() for name, _ in page.handed}
        for key, name in self.homes.items():
            if key not in handed and not any(self.home_words[key] is root for root, _ in self.pages[name].roots):
                yield f"no page hands over at {key}, so checks/claim/homes.py needn't name it"
        for page in self.pages.values():
            if not page.is_promise and page.name not in led_to:
                yield f"no page hands over to the stage {page.name}: checks/claim/homes.py lacks its word"
        yield from self.unmeant()

    def unmeant(self):
        """Yields each field of a record that is split among pages, but meant by none of them."""
        for word in {root: None for page in self.pages.values() for root, fields in page.roots if fields}:
            shown = [page.fields(word) for page in self.pages.values() if word in page.words]
            meant = {f for fields in shown for f in fields}
            left = [label for label, _, _ in word.parts if label and not set(label.split()) & meant]
            if left and () not in shown:
                yield f"no page means {' '.join(left)} of {word.key}: README.md must name it at a promise"
