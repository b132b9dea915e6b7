"""The page of a promise or of a stage."""
import collections
import re

from claim.markup import count, document, escaped, fragment, paragraphs, prose, quoted
from claim.order import reading_order
from claim.resolve import links_of, targets
from claim.text import Unplaced
from claim.words import Lib, Member

# About how many bytes a file of a page has; a page that is longer is written in parts.
PART = 160_000


class Writer:
    """Writes the pages of a claim."""

    def __init__(self, claim):
        self.pages = claim.pages
        self.used = set()        # words of the library that were named
        self.lead = {}           # key -> the page to which another one leads for a word
        for page in self.pages.values():
            page.words = reading_order(page.roots, page.words)
            page.parts = parted(page)
            for word in page.words:
                self.lead.setdefault(word.key, page)
        for key, name in claim.homes.items():
            self.lead[key] = self.pages[name]
        for page in self.pages.values():
            for word in law_words(page) + page.spoken:
                self.lead.setdefault(word.key, page)
        self.refuse_one_anchor_for_two()

    def refuse_one_anchor_for_two(self):
        keys = collections.defaultdict(set)
        for page in self.pages.values():
            for word in page.words:
                keys[word.anchor].add(word.key)
        for anchor, words in keys.items():
            if len(words) > 1:
                raise Unplaced(f"{' and '.join(sorted(words))} have one anchor, {anchor}")

    # ---- links

    def href(self, target):
        """The link from the part that is written to a target, or None where no page has it."""
        if isinstance(target, Lib):
            self.used.add(target.name)
            return "lib.html#" + fragment(target.name)
        word = target.word if isinstance(target, Member) else target
        page = self.page if word.key in self.page.parts else self.lead.get(word.key)
        if page is None:
            return None
        file = part_file(page, page.parts[word.key])
        return ("" if file == part_file(self.page, self.part) else file) + "#" + fragment(word.anchor)

    def link(self, target, text):
        href = self.href(target)
        return f"<a href={quoted(href)}>{escaped(text)}</a>" if href else escaped(text)

    # ---- definitions

    def definition(self, word, users):
        """A definition with its comment, its place, its text, what uses it, and its examples."""
        used = ", ".join(self.link(user, user.name) for user in users)
        head = f"<a href={quoted('#' + fragment(word.anchor))}>{escaped(word.name)}</a><small>{escaped(word.place)}</small>"
        return (f"<section id={quoted(word.anchor)}><h3>{head}</h3>{paragraphs(word.comment)}{self.code(word)}"
                + (f"<p class=u>used by {used}</p>" if used else "")
                + "".join(self.example(example) for example in self.page.examples.get(word.key, ())) + "</section>")

    def example(self, example):
        """What an example says, with its comment and its place."""
        links = {a: (b, target) for a, b, target in links_of(example)}
        _, a, b = example.parts[0]
        rows = [self.line(example.source.text, at, stop, 0, links, "u") for at, stop in line_spans(example.source.text, a, b)]
        return (f"<div class=e><p>for example <small>{escaped(example.place)}</small></p>{paragraphs(example.comment)}"
                f"<pre>{''.join(rows)}</pre></div>")

    def code(self, word):
        """The text of a definition as it stands, with links; parts that aren't meant on this page are dim."""
        fields, text = self.page.fields(word), word.source.text
        links = {a: (b, target) for a, b, target in links_of(word)}
        rows = []
        for a, b in word.around + word.spans:
            begin = text.rfind("\n", 0, a) + 1
            indent = a - begin if not text[begin:a].strip() else 0
            for at, stop in line_spans(text, a, b):
                tag = "s" if is_dim(word, fields, at) else "u"
                rows.append(self.line(text, at, stop, indent, links, tag))
        return f"<pre>{''.join(rows)}</pre>"

    def line(self, text, at, stop, indent, links, tag):
        """One line of a definition, without the indent of its block. Each folds with a hanging indent."""
        lead = len(text[at:stop]) - len(text[at:stop].lstrip(" "))
        at += min(lead, indent)
        if re.match(r"\s*(--|//|#\[)", text[at:stop]):
            return f"<i>{escaped(text[at:stop])}</i>"
        out = []
        while at < stop:
            end, target = links.get(at, (None, None))
            if end is None:
                end = next((e for e in range(at + 1, stop) if e in links), stop)
                out.append(escaped(text[at:end]))
            else:
                out.append(self.link(target, text[at:end]))
            at = end
        return f"<{tag}>{''.join(out)}</{tag}>"

    # ---- a page

    def files(self, page):
        """Yields the files of a page: what is promised, its counts and its clauses, and below them what they rest on,
        crate by crate, and the laws; in parts, where it is long."""
        self.page, users = page, users_on(page)
        begun, last = [word for word, _ in page.roots], max(page.parts.values())
        for part in range(last + 1):
            self.part = part
            body = [self.head() if part == 0 else small_head(page, part)]
            if part == 0:
                body.append("<h2>The clause</h2>" if len(begun) == 1 else "<h2>The clauses</h2>")
            groups = [("", begun), *by_crate(page)]
            for crate, words in groups:
                here = [word for word in words if page.parts[word.key] == part]
                if here and crate:
                    lines = count(sum(word.lines() for word in here), "line")
                    body.append(f"<h2 id={crate}>{crate} <small>{count(len(here), 'definition')}, {lines}</small></h2>")
                body += [self.definition(word, users[word.key]) for word in here]
            body += [*self.laws(), *self.spoken()]
            if part < last:
                body.append(f"<p class=l><a href={part_file(page, part + 1)}>What this rests on goes on in part {part + 2}"
                            "</a></p>")
            body = f"<main>{''.join(body)}</main>{self.contents(groups)}"
            yield part_file(page, part), document(f"{page.title} – the claim", body)

    def laws(self):
        """Laws about the words of the page, with words of their own: they are no part of what is to be read."""
        here = [word for word in law_words(self.page) if self.page.parts[word.key] == self.part]
        if here:
            yield "<h2 id=laws>Laws <small>what else is proved of these words; nothing above rests on it</small></h2>"
        yield from (self.definition(word, []) for word in here)

    def spoken(self):
        """The words that only examples speak of."""
        here = [word for word in self.page.spoken if self.page.parts[word.key] == self.part]
        if here:
            yield "<h2 id=spoken>Of examples <small>what examples speak of; nothing above rests on it</small></h2>"
        yield from (self.definition(word, []) for word in here)

    def head(self):
        """Title, sentence, counts, and where the page hands over."""
        page, order = self.page, list(self.pages)
        k = order.index(page.name)
        near = " · ".join(f"<a href={self.pages[order[j]].name}.html>{escaped(kind_of(self.pages[order[j]]))}</a>"
                          for j in (k - 1, k + 1) if 0 <= j < len(order))
        alone = sum(1 for word in page.words if sum(word in other.words for other in self.pages.values()) == 1)
        return (f"<nav><a href=index.html>The claim</a> · {near}</nav><h1><small>{escaped(short_kind(page))}</small>"
                f"{prose(page.title)}</h1><p class=l>{prose(page.says)}</p><p class=n><b>{len(page.words)}</b> definitions "
                f"<b>{page.lines():,}</b> lines <b>{alone}</b> of them on no other page</p>{examples_line(page)}{self.handed()}")

    def handed(self):
        """Where the page hands over, by which words, and how much it rests on with all of that."""
        words = collections.defaultdict(list)
        for name, word in self.page.handed:
            words[name].append(word)
        if not words:
            return ""
        rows = "".join(f"<li><a href={name}.html>{escaped(full_title(page))}</a>, by "
                       + ", ".join(f"<code>{self.link(word, word.name)}</code>" for word in words[name]) + "</li>"
                       for name, page in self.pages.items() if name in words)
        return ("<p>What stands on other pages is only named here. With all of that, it rests on "
                f"<b>{len(self.page.all):,}</b> definitions of <b>{self.page.all_lines():,}</b> lines:</p>"
                f"<ul class=h>{rows}</ul>")

    def contents(self, groups):
        """The list of words at the side, of the part that is shown."""
        rows = ""
        for crate, words in [*groups, ("Laws", law_words(self.page)), ("Of examples", self.page.spoken)]:
            here = [word for word in words if self.page.parts[word.key] == self.part]
            title = crate or ("The clauses" if words[1:] else "The clause")
            names = " ".join(f"<a href={quoted('#' + fragment(word.anchor))}>{escaped(word.name)}</a>" for word in here)
            rows += f"<p><b>{title}</b> {names}</p>" if here else ""
        return f"<aside><details open><summary>Words</summary>{rows}</details></aside>"


# ---- lines

def line_spans(text, a, b):
    """Yields the lines of a part of a text that aren't blank, as (start, end)."""
    at = a
    while at <= b:
        stop = text.find("\n", at)
        stop = b if stop < 0 or stop > b else stop
        if text[at:stop].strip():
            yield at, stop
        at = stop + 1


def is_dim(word, fields, at):
    """Whether a line belongs to a part that isn't meant; a comment belongs to the part below it."""
    if not fields or at < word.spans[0][0]:
        return False
    part = next((label for label, a, b in word.parts if at <= b), "")
    return part != "" and not set(part.split()) & set(fields)


# ---- parts and titles

def parted(page):
    """Says in which part of its page each word stands, by what its text with its links takes."""
    begun, parts, part, size = [word for word, _ in page.roots], {}, 0, 12_000
    for word in begun + [word for word in page.words if word not in begun] + law_words(page) + page.spoken:
        takes = 50 * len(list(targets(word))) + sum(map(size_of, [word, *page.examples.get(word.key, ())]))
        if size + takes > PART:
            part, size = part + 1, 12_000
        size += takes
        parts[word.key] = part
    return parts


def size_of(word):
    """About how many bytes the text of a word takes, with its comment and its links."""
    return 280 + len((word.text() + "".join(word.comment)).encode()) + 32 * len(links_of(word))


def examples_line(page):
    """Says how many examples a page has."""
    number = sum(map(len, page.examples.values()))
    return (f"<p>Below definitions stand <b>{count(number, 'example')}</b>. The prover has checked each; no promise rests on "
            "one, and none is counted.</p>") if number else ""


def law_words(page):
    """Returns the laws of a page, each with its own words behind it."""
    return [word for law, own in page.laws for word in (law, *own)]


def part_file(page, part):
    return f"{page.name}.html" if part == 0 else f"{page.name}-{part + 1}.html"


def small_head(page, part):
    return (f"<nav><a href=index.html>The claim</a> · <a href={page.name}.html>{escaped(kind_of(page))}</a></nav>"
            f"<h1><small>{escaped(short_kind(page))}, part {part + 1}</small>{prose(page.title)}</h1>")


def users_on(page):
    """Returns for each word those of the page that name it."""
    users = collections.defaultdict(list)
    for word in page.words:
        for target in targets(word, page.fields(word)):
            users[target.key].append(word)
    return users


def by_crate(page):
    """Returns each crate with its words, in the order of the page, without those that the page begins with."""
    groups, begun = {}, [word for word, _ in page.roots]
    for word in page.words:
        if word not in begun:
            groups.setdefault(word.source.crate, []).append(word)
    return groups.items()


def short_kind(page):
    return kind_of(page) if page.is_promise else "Stage"


def kind_of(page):
    return f"Promise {int(page.name[1:])}" if page.is_promise else f"Stage {page.title}"


def full_title(page):
    return f"{kind_of(page)}: {page.title}" if page.is_promise else kind_of(page)
