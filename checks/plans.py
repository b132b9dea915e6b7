"""Makes the files of the images that are written down by hand in plans.txt, whose head says how."""
import re
import struct

from program import TOP
from verifier import KINDS, MOST, OPERATORS, PROBES, SIGNS

SORTS = ["nv", "param"]
WORDS = {"bin": OPERATORS, "un": SIGNS, "probe": PROBES}


def numbers(*values):
    """Returns numbers of four bytes, the least byte first."""
    return struct.pack(f"<{len(values)}I", *(value & MOST for value in values))


def listed(elements):
    """Returns elements behind their count."""
    return numbers(len(elements)) + b"".join(elements)


def named(name, *values):
    """Returns a name behind the number of its bytes, and numbers."""
    return numbers(len(name)) + name.encode() + numbers(*values)


def instruction(site, text):
    """Returns an instruction of a statement."""
    kind, *operands = text.split(" ")
    words = WORDS.get(kind, [])
    operands = [words.index(operand) if operand in words else int(operand) for operand in operands]
    return numbers(KINDS.index(kind) + 1, site, *operands, *[0] * (2 - len(operands)))


def image(sensors, ports, variables, functions, regions, stack, code):
    """Returns the file of an image of these parts. A region is its targets, and an instruction has its statement first."""
    parts = [[named(*part) for part in kind] for kind in (sensors, ports, variables, functions)]
    parts.append([listed([numbers(*target) for target in targets]) for targets in regions])
    return b"OCELOT1\n" + b"".join(map(listed, parts)) + numbers(stack) + listed([instruction(*place) for place in code])


def planned(plan):
    """Returns the file of an image that is written down."""
    *fields, code = plan.split("; ")
    found = {}
    for field in fields:
        what, *values = field.split(" ")
        found.setdefault(what, []).append(values)
    one = lambda what, usual: found.get(what, [[usual]])[0][0]
    functions = [] if "no" in found else found.get("fn", [[0, 0, 0]])
    name = lambda number: "main" if str(number) == one("main", "0") else f"f{number}"
    return image(
        [(f"s{number}",) for number in range(int(one("sensors", 1)))],
        [(f"p{number}",) for number in range(int(one("ports", 1)))],
        [(f"v{number}", *map(int, values)) for number, values in enumerate(found.get("nv", []))],
        [(name(number), *map(int, values)) for number, values in enumerate(functions)],
        [[(SORTS.index(sort), *map(int, values)) for sort, *values in found.get("target", [])], []],
        int(one("stack", 20)),
        enumerate(code.split(", "), 1),
    )


def changed(data, changes):
    """Returns a file with these bytes in place of its own."""
    data = bytearray(data)
    for at, value in re.findall(r"byte (\d+) is (\d+)", changes):
        data[int(at) : int(at) + 1] = [int(value)]
    return bytes(data)


def lines():
    """Returns the headings, and of each file a line with its name and its bytes."""
    section, first = None, None
    for line in (TOP / "checks/plans.txt").read_text().splitlines():
        name, _, plan = line.partition(": ")
        if not line or line.startswith("#"):
            continue
        if not plan:
            section, first = line, None
        if not plan and section != "changes":
            yield section
        elif plan and section == "fields" and first is not None:
            yield f"{name}, {plan}: {changed(first, plan).hex()}"
        elif plan:
            first = planned(plan)
            yield f"{'changes of ' * (section == 'changes')}{name}: {first.hex()}"
