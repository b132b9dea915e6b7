"""The counts that the documents have: behind each promise of the README, and as a table in docs/PROVED.md."""
from claim.markup import count
from claim.promises import COUNT, PROMISE
from claim.text import Unplaced

BEGIN, END = "<!-- begin of the counts by checks/claim.py -->\n", "<!-- end of the counts -->\n"


def table(pages):
    """Returns the table of all pages."""
    promises = {key: word for page in pages if page.is_promise for key, word in page.all.items()}
    rows = [f"| {title(page)} | {len(page.words):,} | {page.lines():,} | {len(page.all):,} | {page.all_lines():,} |"
            for page in pages]
    lines = sum(word.lines() for word in promises.values())
    return "\n".join(["| page | definitions on it | lines on it | definitions with all below | lines with all below |",
                      "|---|---|---|---|---|", *rows, f"| all promises | | | {len(promises):,} | {lines:,} |", ""])


def title(page):
    if page.is_promise:
        return f"{int(page.name[1:])}. {page.title}"
    return ", ".join(f"`{function}`" for function in page.promise.functions)


def with_table(text, pages):
    """Returns docs/PROVED.md with the table of now."""
    front, begin, rest = text.partition(BEGIN)
    _, end, behind = rest.partition(END)
    if not begin or not end:
        raise Unplaced(f"docs/PROVED.md lacks the line {(END if begin else BEGIN).strip()}")
    return front + begin + table(pages) + end + behind


def with_counts(text, pages):
    """Returns the README with the counts of now behind its promises."""
    front, head, rest = text.partition("## What is proved")
    part, line, behind = rest.partition("\n## ")
    by_number = {int(page.name[1:]): page for page in pages if page.is_promise}

    def counted(m):
        page = by_number[int(m[1])]
        below = f", {page.all_lines():,} with all below" if page.handed else ""
        return f"{m[1]}. {COUNT.sub('', m[2])} *{count(page.lines(), 'line')}{below}.*"

    return front + head + PROMISE.sub(counted, part) + line + behind


def compared(top, pages, is_written):
    """Compares both documents with the counts of now, or writes these there. Returns the names of those that differ."""
    differ = []
    for name, put in (("README.md", with_counts), ("docs/PROVED.md", with_table)):
        old = (top / name).read_text()
        new = put(old, pages)
        if new != old and is_written:
            (top / name).write_text(new)
        if new != old:
            differ.append(name)
    return differ
