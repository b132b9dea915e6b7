"""HTML: what is escaped, sentences, comments, and a page around its content."""
import re
import urllib.parse

ESCAPES = {"&": "&amp;", "<": "&lt;", ">": "&gt;", '"': "&quot;"}


def escaped(text):
    return re.sub(r'[&<>"]', lambda m: ESCAPES[m.group()], text)


def quoted(value):
    """An attribute's value, in quotes where HTML wants them."""
    return value if re.fullmatch(r"[\w.#/:()%-]+", value) else '"' + escaped(value) + '"'


def fragment(anchor):
    """An anchor as the part of an address behind `#`."""
    return urllib.parse.quote(anchor, safe="()")


def prose(text):
    """A sentence with Markdown's code, bold and links, as HTML. Links into the repository lose their targets."""
    text = re.sub(r"\[(.*?)\]\(.*?\)", r"\1", text)
    text = re.sub(r"`([^`]*)`", r"<code>\1</code>", escaped(text))
    return re.sub(r"\*\*(.*?)\*\*", r"<b>\1</b>", text)


def paragraphs(comment):
    """A comment as paragraphs: lines that follow each other are one, and an empty one parts them."""
    lines = [re.sub(r"^\s*(--|///?)\s?", "", line) for line in "\n".join(comment).split("\n")]
    parts = "\n".join(lines).strip().split("\n\n")
    return "".join(f"<p>{prose(' '.join(part.split()))}</p>" for part in parts if part.strip())


def count(number, word):
    return f"{number:,} {word}{'' if number == 1 else 's'}"


def document(title, body):
    """A page around its content."""
    return ("<!doctype html><html lang=en><meta charset=utf-8>"
            "<meta name=viewport content='width=device-width, initial-scale=1'>"
            f"<title>{escaped(title)}</title><link rel=stylesheet href=claim.css><body>{body}</body></html>\n")
