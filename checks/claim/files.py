"""All files of the pages, and what is wrong with them."""
import html
import pathlib
import re
import urllib.parse

from claim.index import index_page, library_page
from claim.names import library
from claim.text import Unplaced
from claim.trusted import trusted_page
from claim.writing import Writer

STYLE = pathlib.Path(__file__).parent / "claim.css"
# No file is larger, so that a page opens at once.
LARGEST = 200_000
ID = re.compile(r'\bid=(?:"([^"]*)"|([^\s>]+))')
HREF = re.compile(r'\bhref=(?:"([^"]*)"|([^\s>]+))')


def files_of(claim):
    """Returns the text of each file by its name."""
    writer = Writer(claim)
    files = {name: text for page in claim.pages.values() for name, text in writer.files(page)}
    files["index.html"] = index_page(list(claim.pages.values()))
    files["trusted.html"] = trusted_page(claim.repository.top)
    files["lib.html"] = library_page(writer.used)
    if unknown := sorted(writer.used - set(library())):
        raise Unplaced(f"checks/claim/library.txt has no meaning of {', '.join(unknown)}")
    return files


def faults_of(files):
    """Yields each link that leads nowhere, each name that a page has twice, and each file that is too large."""
    ids = {}
    for name, text in files.items():
        names = [html.unescape(a or b) for a, b in ID.findall(text)]
        ids[name] = set(names)
        yield from (f"{name}: two things are called {twice}" for twice in sorted({n for n in names if names.count(n) > 1}))
        size = len(text.encode())
        if size > LARGEST:
            yield f"{name}: {size:,} bytes, which is more than {LARGEST:,}"
    for name, text in files.items():
        for link in sorted({html.unescape(a or b) for a, b in HREF.findall(text)} - {"claim.css"}):
            file, _, anchor = link.partition("#")
            if (file or name) not in ids or anchor and urllib.parse.unquote(anchor) not in ids[file or name]:
                yield f"{name}: {link} leads nowhere"


def write(files, out):
    """Writes the files into a folder, with their style."""
    out.mkdir(parents=True, exist_ok=True)
    for name, text in files.items():
        (out / name).write_text(text)
    (out / STYLE.name).write_text(STYLE.read_text())
