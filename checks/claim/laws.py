"""Calls that a crate shows, and laws: functions that do nothing, whose contracts say something about words of the claim."""
import re

from claim.resolve import links_of, targets
from claim.rust import does_nothing, functions_of, rust_function
from claim.words import Member, Word


def exported(repository, crate):
    """Yields the contracts of the functions that a crate shows: those of its public modules, and what lib.rs passes on."""
    lib = repository.source(crate, "src/lib.rt")
    shown = set(re.findall(r"^pub mod (\w+);", lib.text, re.M))
    passed = {name for name, (path, _) in lib.imports.items() if re.search(rf"^pub use [^;]*\b{name}\b", lib.text, re.M)}
    for source in repository.rust_sources(crate):
        for name in functions_of(source):
            if source is lib or source.module in shown or name in passed:
                yield rust_function(source, name)


def named_in_ensures(word):
    """Returns the keys of the words that a contract promises something of."""
    promised = [(a, b) for label, a, b in word.parts if word.source.text.startswith("ensures", a)]
    found = (t.word if isinstance(t, Member) else t for at, _, t in links_of(word) if any(a <= at < b for a, b in promised))
    return {target.key for target in found if isinstance(target, Word)}


def laws_of(repository, pages):
    """Finds for each page the laws about its words, with the words of their own. A law stands on the page that has most
    of the words that it speaks of; laws of crates that have no word on a page are steps of proofs, and on none."""
    known = {key for page in pages for key in page.all}
    for source, name in repository.functions():
        word = rust_function(source, name)
        if does_nothing(word) and not any(word is root for page in pages for root, _ in page.roots):
            own, spoken = frontier(word, known)
            homes = [page for page in pages if source.crate in crates_of(page)]
            page = max(homes, key=lambda page: sum(w.key in spoken for w in page.words), default=None)
            if page and any(w.key in spoken for w in page.words):
                page.laws.append((word, own))
                known |= {w.key for w in own}


def crates_of(page):
    """The crates that have words on a page."""
    return {word.source.crate for word in page.words}


def frontier(law, known):
    """Returns the words of a law's own, in the order in which they come, and the keys of those that it speaks of."""
    own, spoken, todo = {}, set(), [law]
    while todo:
        for word in targets(todo.pop(0)):
            if word.key in known:
                spoken.add(word.key)
            elif word.key not in own:
                own[word.key] = word
                todo.append(word)
    return list(own.values()), spoken
