"""Reads and writes the files of `build --image`, and puts other regions into their code.

The format is that of docs/MACHINE.md, 'The file of an image'. `exec` runs what is written here: it verifies each file.
"""
import dataclasses

KINDS = (
    "push load store nload nstore addr naddr get put index bin un jump jfalse call ret retv drop sense emit probe enter commit halt"
).split()
OPERATORS = "add sub mul div rem eq ne lt le gt ge".split()
PROBES = "use done tag".split()
MAGIC = b"OCELOT1\n"
HEAD = "push store load push bin jfalse".split()  # how a `for` begins: push c; store i; L: load i; push d; lt; jfalse E
BACK = "load push bin store jump".split()  # and how it ends: load i; push 1; add; store i; jump L


@dataclasses.dataclass(eq=False)
class Instruction:
    """An instruction. A jump has the instruction that it goes to in `to`."""

    kind: str
    site: int
    a: int = 0
    b: int = 0
    to: "Instruction | None" = None


@dataclasses.dataclass
class Function:
    name: str
    entry: Instruction
    params: int
    frame: int


class Reader:
    """Takes the fields of a file one after the other."""

    def __init__(self, data):
        assert data.startswith(MAGIC)
        self.data, self.at = data, len(MAGIC)

    def number(self):
        self.at += 4
        return int.from_bytes(self.data[self.at - 4 : self.at], "little")

    def word(self):
        number = self.number()
        return number - 2**32 if number >= 2**31 else number

    def name(self):
        length = self.number()
        self.at += length
        return self.data[self.at - length : self.at].decode()

    def list(self, element):
        return [element() for _ in range(self.number())]

    def numbers(self, count):
        return tuple(self.number() for _ in range(count))

    def instruction(self):
        kind, site = KINDS[self.number() - 1], self.number()
        return Instruction(kind, site, self.word(), self.word())


def number(value):
    return (value % 2**32).to_bytes(4, "little")


def name(text):
    return number(len(text)) + text.encode()


def listed(elements, element):
    """Returns the bytes of a list, whose elements have the bytes that `element` gives."""
    return number(len(elements)) + b"".join(map(element, elements))


class Image:
    def __init__(self, data):
        file = Reader(data)
        self.sensors, self.ports = file.list(file.name), file.list(file.name)
        self.nonvolatile = file.list(lambda: (file.name(), file.number(), file.word()))
        functions = file.list(lambda: (file.name(), *file.numbers(3)))
        self.targets = file.list(lambda: file.list(lambda: file.numbers(3)))
        self.stack = file.number()
        self.code = file.list(file.instruction)
        for one in self.code:
            if one.kind in ("jump", "jfalse"):
                one.to = self.code[one.a]
        self.functions = [Function(called, self.code[entry], params, frame) for called, entry, params, frame in functions]

    def places(self):
        """Returns the place of each instruction, by its identity."""
        return {id(one): place for place, one in enumerate(self.code)}

    def bytes(self):
        """Returns the file of this image."""
        at = self.places()

        def variable(one):
            return name(one[0]) + number(one[1]) + number(one[2])

        def function(one):
            return name(one.name) + number(at[id(one.entry)]) + number(one.params) + number(one.frame)

        def instruction(one):
            first = at[id(one.to)] if one.to else one.a
            return b"".join(map(number, (KINDS.index(one.kind) + 1, one.site, first, one.b)))

        def target(one):
            return b"".join(map(number, one))

        head = listed(self.sensors, name) + listed(self.ports, name) + listed(self.nonvolatile, variable) + listed(self.functions, function)
        regions = listed(self.targets, lambda targets: listed(targets, target))
        return MAGIC + head + regions + number(self.stack) + listed(self.code, instruction)

    def drop(self, *kinds):
        """Takes the instructions of these kinds out. What led there leads to what stood behind."""
        instead, behind = {}, None
        for one in reversed(self.code):
            if one.kind in kinds:
                instead[id(one)] = behind
            else:
                behind = one
        self.code = [one for one in self.code if one.kind not in kinds]
        for one in self.code:
            one.to = instead.get(id(one.to), one.to)
        for function in self.functions:
            function.entry = instead.get(id(function.entry), function.entry)
        if "enter" in kinds:
            self.targets = []
        return self

    def insert(self, new, before):
        """Puts an instruction before another one. What led there leads to the new one."""
        for one in self.code:
            if one.to is before:
                one.to = new
        for function in self.functions:
            if function.entry is before:
                function.entry = new
        self.code.insert(self.places()[id(before)], new)

    def region(self, first, behind):
        """Makes a region of the code from one instruction up to, but without, another one."""
        self.targets.append([])
        self.insert(Instruction("enter", first.site, len(self.targets)), first)
        self.insert(Instruction("commit", first.site, len(self.targets)), behind)

    def extent(self, called):
        """Returns the first and the last place of a function's code."""
        at = self.places()
        entries = sorted((at[id(function.entry)], function.name) for function in self.functions)
        place = next(place for place, (_, one) in enumerate(entries) if one == called)
        return entries[place][0], (entries[place + 1][0] if place + 1 < len(entries) else len(self.code)) - 1

    def whole(self):
        """Makes a region of all of `main`."""
        first, last = self.extent("main")
        self.region(self.code[first], self.code[last])
        return self

    def turns(self):
        """Makes a region of each turn of each outermost loop `for` of `main`."""
        for body in list(self.bodies(*self.extent("main"))):
            self.region(*body)
        return self

    def bodies(self, place, last):
        """Yields the bodies of the outermost loops `for` between two places: the first instruction, and the one behind."""
        at = self.places()
        while place <= last:
            head = self.code[place : place + len(HEAD)]
            place += 1
            if [one.kind for one in head] == HEAD and len({one.site for one in head}) == 1:
                end = at[id(head[-1].to)]
                back = self.code[end - len(BACK) : end]
                if [one.kind for one in back] == BACK and back[-1].to is head[2]:
                    body = self.code[place - 1 + len(HEAD)]
                    place = end
                    if body is not back[0]:
                        yield body, back[0]
