"""The page of what is trusted, from docs/TRUSTED.md: a document of paragraphs, headings and tables."""
import re

from claim.markup import document, prose


def trusted_page(top):
    """Returns the page."""
    path = top / "docs/TRUSTED.md"
    title, _, text = path.read_text().partition("\n\n")
    body = "".join(block(part) for part in text.strip().split("\n\n"))
    return document("What is trusted", "<main class=w><nav><a href=index.html>The claim</a></nav>"
                    f"<h1>{prose(title.removeprefix('# '))}</h1>{body}</main>")


def block(text):
    """A heading, a table, or a paragraph."""
    if text.startswith("## "):
        return f"<h2>{prose(text[3:])}</h2>"
    if text.startswith("| "):
        head, _, *rows = [[cell.strip() for cell in row.strip("|").split(" | ")] for row in text.split("\n")]
        return f"<table class=v><thead>{row_of('th', head)}<tbody>{''.join(row_of('td', row) for row in rows)}</table>"
    return f"<p>{prose(re.sub(chr(10), ' ', text))}</p>"


def row_of(tag, cells):
    return "<tr>" + "".join(f"<{tag}>{prose(cell)}" for cell in cells) + "</tr>"
