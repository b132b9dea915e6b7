"""The index, and the page of the library's words."""
import collections

from claim.markup import count, document, escaped, prose
from claim.names import library
from claim.order import file_order


def index_page(pages):
    """All pages with their counts, and which promise rests on which crate."""
    promises = [page for page in pages if page.is_promise]
    below = {key: word for page in promises for key, word in page.all.items()}
    total = {key: word for page in pages for key, word in page.all.items()}
    lines = sum(word.lines() for word in below.values())
    crates = list(dict.fromkeys(crate for crate, _ in file_order(list(below.values()))))
    body = [
        "<h1><small>Ocelot</small>The claim, to click through</h1><p class=l>What one must read to believe what is proved, "
        "and no line more. Each page begins with a promise and the clause that makes it; each word of the clause leads to its "
        "definition, and each word of that to its own.</p>",
        f"<p class=n><b>{len(below):,}</b> definitions <b>{lines:,}</b> lines below all promises <b>{len(total):,}</b> "
        "definitions with the stages</p>",
        "<h2>Promises</h2>", table(promises),
        "<h2>Which promise rests on which crates</h2><p>A disc's area is the number of lines of that crate that the promise "
        "rests on, with all that it hands on to other pages.</p>",
        f"<div class=m>{matrix(promises, crates)}</div>",
        "<h2>Stages</h2>", table([page for page in pages if not page.is_promise]),
        "<h2>Beside them</h2><p><a href=trusted.html>What is trusted</a>, and what shows that it holds</p>"
        "<p><a href=lib.html>Words of the library</a></p>"]
    return document("The claim", f"<main class=w>{''.join(body)}</main>")


def table(pages):
    """The counts of some pages."""
    rows = [f"<tr><td><a href={page.name}.html>{prose(numbered(page))}</a><br><span>{prose(page.says)}</span></td>"
            f"<td>{len(page.words):,}<td>{page.lines():,}<td>{len(page.all):,}<td>{page.all_lines():,}</tr>"
            for page in pages]
    return ("<table class=t><thead><tr><th><th colspan=2>on its page<th colspan=2>with all below"
            "<tr><th><th>definitions<th>lines<th>definitions<th>lines<tbody>" + "".join(rows) + "</table>")


def matrix(pages, crates):
    """An SVG: a row for each promise, a column for each crate, and a disc for the lines that it rests on there."""
    left, top, step = 236, 112, 24
    width, height = left + step * len(crates) + 24, top + step * len(pages) + 12
    out = [f"<svg viewBox='0 0 {width} {height}' width={width} height={height} role=img "
           "aria-label='Promises and crates'>"]
    for c, crate in enumerate(crates):
        x = left + step * c + step / 2
        out.append(f"<path d='M{x} {top}V{height - 12}'/><text transform='translate({x + 4} {top - 8}) rotate(-60)'>"
                   f"{crate.removeprefix('oc_')}</text>")
    for r, page in enumerate(pages):
        y = top + step * r + step / 2
        out.append(f"<path d='M{left} {y}H{width - 24}'/><a href={page.name}.html><text x={left - 12} y={y + 4} "
                   f"text-anchor=end>{escaped(shortened(numbered(page)))}</text></a>")
        lines = collections.Counter()
        for word in page.all.values():
            lines[word.source.crate] += word.lines(page.fields(word))
        out += [disc(left + step * c + step / 2, y, crate, lines[crate]) for c, crate in enumerate(crates) if lines[crate]]
    return "".join(out) + "</svg>"


def disc(x, y, crate, lines):
    size = max(1.6, min(11, (lines / 7) ** 0.5))
    return f"<circle cx={x} cy={y} r={size:.1f}><title>{crate}: {count(lines, 'line')}</title></circle>"


def numbered(page):
    return f"{int(page.name[1:])}. {page.title}" if page.is_promise else page.title


def shortened(title, most=37):
    return title if len(title) <= most else title[:most - 1].rsplit(" ", 1)[0] + " …"


def library_page(used):
    """The words of the library that some page names."""
    rows = "".join(f"<tr id=\"{escaped(name)}\"><td><code>{escaped(shown(name))}</code><td>{prose(meaning)}</tr>"
                   for name, (meaning, _) in library().items() if name in used)
    return document("Words of the library", "<main class=w><nav><a href=index.html>The claim</a></nav>"
                    "<h1>Words of the library</h1><p class=l>What the kit's own library defines, and what the language has "
                    "built in.</p>"
                    f"<table class=b>{rows}</table></main>")


def shown(name):
    return name.replace("if◌then◌else◌", "if … then … else …").replace("◌", " ").strip() or name
