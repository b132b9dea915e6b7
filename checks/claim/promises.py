"""What the README promises: its sentences, the clauses that carry them, and the table of stages."""
import re

from claim.text import Unplaced

LINK = re.compile(r"\[([^\]]*)\]\(([^)]*)\)")
PROMISE = re.compile(r"^(\d+)\. (.*)$", re.M)
# How a promise ends: how many lines are to be read so as to believe it.
COUNT = re.compile(r" \*[\d,]+ lines?(?:, [\d,]+ with all below)?\.\*$")
NAME = re.compile(r"`(\w+)`$")
STAGE = re.compile(r"^\| (`.*?) \| (.*?) \| (.*?) \|$", re.M)


class Promise:
    """A sentence of the README. `clauses` has (name, fields) for each clause that it names, `files` the files of specs/."""

    def __init__(self, name, title, says):
        self.name, self.title, self.says = name, title, says
        self.clauses, self.files, self.functions = [], [], []


def promises_of(readme):
    """Returns the numbered promises of the part 'What is proved', and the stages of its table."""
    part = readme.split("## What is proved", 1)[-1].split("\n## ", 1)[0]
    found = [promise_of(number, COUNT.sub("", text)) for number, text in PROMISE.findall(part)]
    found += [stage_of(*row) for row in STAGE.findall(part)]
    if not found:
        raise Unplaced("README.md has no promise below 'What is proved'")
    return found


def promise_of(number, text):
    """Returns a promise by its number and its line: a title, and behind it a sentence, or the rest of the title's."""
    title, rest = re.match(r"\*\*(.*?)\*\*(.*)", text).groups()
    promise = Promise(f"p{int(number):02}", title.rstrip("."), (rest if title.endswith(".") else title + rest).strip())
    plain = LINK.sub(lambda m: f"`{m[2]}`", text)
    for group in re.findall(r"\(([^()]*)\)", plain):
        add_clauses(promise, group)
    return promise


def add_clauses(promise, group):
    """Adds what a bracket names: `field`, `Record`: `field`, `field`; `law`, and links to files. `;` ends a record."""
    found = []
    for clause in group.split(";"):
        record = None
        for item in clause.split(","):
            head, colon, field = item.strip().rpartition(": ")
            if colon:
                record = NAME.match(head) and NAME.match(head)[1]
            name, file = NAME.match(field), re.match(r"`(\S+)`$", field)
            if not file or colon and not record:
                return
            found.append((file[1], ()) if not name else (record, (name[1],)) if record else (name[1], ()))
    promise.files += [name for name, _ in found if name.endswith(".antt")]
    promise.clauses += [(name, fields) for name, fields in found if re.fullmatch(r"\w+", name)]


def stage_of(names, says, where):
    """Returns a stage by the row of its table: its calls, what they answer, and where that is defined."""
    functions = re.findall(r"`(\w+)`", names)
    stage = Promise(functions[0], ", ".join(functions), says)
    stage.functions = functions
    stage.files = [target for _, target in LINK.findall(where)]
    return stage
