#!/usr/bin/env python3
"""A second verifier, which finds the whole set of rules that are broken: verifier.py IMAGE

Prints the byte where a file is no image's, or the rules that the image breaks, or the report of the second machine over
two periods of power. It looks for all rules, so far as one that is broken leaves the others a meaning: nothing more is
asked of an image whose functions lie wrong, and room is asked for only where all else is kept.
"""
import pathlib
import re
import sys

from machine import Machine

WORDS = "sensor port nv fn let mut if else for in while bound return true false emit sense Fresh Consistent i32 bool atomic _".split()
KINDS = (
    "push load store nload nstore addr naddr get put index bin un jump jfalse call ret retv drop sense emit probe enter commit halt"
).split()
OPERATORS = "add sub mul div rem eq ne lt le gt ge".split()
SIGNS = ["neg", "not"]
PROBES = ["use", "done", "tag"]
BARE = ("get", "put", "drop", "halt")
MOST = 2**32 - 1
PERIODS = [(7, 2, False), (60, 0, False)]


class Bad(Exception):
    """The first bad field of a file begins at this byte."""


class Broken(Exception):
    """An instruction breaks this rule."""


class Reader:
    """The fields of a file, from the left."""

    def __init__(self, data):
        self.data, self.at, self.names = data, 0, []

    def number(self, least=0, most=MOST):
        field = self.data[self.at : self.at + 4]
        number = int.from_bytes(field, "little")
        if len(field) < 4 or not least <= number <= most:
            raise Bad(self.at)
        self.at += 4
        return number

    def word(self):
        number = self.number()
        return number - 2**32 if number >= 2**31 else number

    def name(self):
        start = self.at
        length = self.number()
        text = self.data[self.at : self.at + length]
        name = text.decode("latin-1")
        if len(text) < length or not re.fullmatch("[A-Za-z_][A-Za-z0-9_]*", name) or name in WORDS + self.names:
            raise Bad(start)
        self.at += length
        self.names.append(name)
        return name

    def many(self, one, most=MOST):
        return [one() for _ in range(self.number(0, most))]

    def instruction(self):
        kind, site = KINDS[self.number(1, len(KINDS)) - 1], self.number()
        if kind == "probe":
            operands = [PROBES[self.number(0, 2)], self.number()]
        elif kind == "push":
            operands = [self.word()]
        elif kind == "bin":
            operands = [OPERATORS[self.number(0, 10)]]
        elif kind == "un":
            operands = [SIGNS[self.number(0, 1)]]
        else:
            operands = [] if kind in BARE else [self.number()]
        for _ in range(2 - len(operands)):
            self.number(0, 0)
        return site, kind, operands


class Image:
    """What a file tells. Raises Bad where it isn't that of an image."""

    def __init__(self, data):
        if data[:8] != b"OCELOT1\n":
            raise Bad(0)
        fields = Reader(data)
        fields.at = 8
        self.sensors = fields.many(fields.name, 64)
        self.ports = fields.many(fields.name, 64)
        self.variables = fields.many(lambda: (fields.name(), fields.number(), fields.word()), 64)
        self.functions = fields.many(lambda: (fields.name(), fields.number(), fields.number(), fields.number()), 128)
        target = lambda: (fields.number(0, 1), fields.number(), fields.number())
        self.regions = fields.many(lambda: fields.many(target))
        self.stack = fields.number()
        self.code = fields.many(fields.instruction)
        if fields.at < len(data):
            raise Bad(fields.at)
        self.words = sum(words for _, words, _ in self.variables)


class Function:
    """A function of an image that is laid out: its stretch of code, and its slots where the parameters have kinds.

    A kind is 0 for a number, and else how many words there are from a place on.
    """

    def __init__(self, image, number):
        name, self.entry, self.params, self.frame = image.functions[number]
        later = image.functions[number + 1 :]
        self.end = later[0][1] if later else len(image.code)
        self.is_main = name == "main"
        self.code = range(self.entry, self.end)
        self.gives = any(image.code[at][1] == "retv" for at in self.code)
        self.kinds = None

    def kind(self, slot):
        """Returns the kind of a slot, where it is one. What is not known of parameters is taken for a number."""
        if slot < self.params:
            return self.kinds[slot] if self.kinds else 0
        is_link = not self.is_main and slot < self.params + 2
        if is_link or slot >= self.frame:
            raise Broken(3)
        return 0

    def words(self, slot):
        """Returns how many numbers there are from a slot on."""
        if self.kind(slot):
            raise Broken(3)
        if slot >= self.params:
            return self.frame - slot
        following = self.kinds[slot:] if self.kinds else []
        return next((place for place, kind in enumerate(following) if kind), self.params - slot)


class Rules:
    """Finds the rules that an image breaks, in `broken`."""

    def __init__(self, image):
        self.image, self.broken = image, set()
        if not self.is_laid_out():
            return
        self.functions = [Function(image, number) for number in range(len(image.functions))]
        self.main = next(number for number, function in enumerate(self.functions) if function.is_main)
        self.check_counts()
        for function in self.functions:
            for at in function.code:
                self.check_names(function, *image.code[at][1:])
        self.passed = [[] for _ in self.functions]
        self.reached = [{} for _ in self.functions]
        for number in self.callers_first():
            self.check_function(number)
        self.check_room()

    def is_laid_out(self):
        functions, size = self.image.functions, len(self.image.code)
        entries = [entry for _, entry, _, _ in functions]
        rise = entries[:1] == [0] and all(low < high for low, high in zip(entries, entries[1:])) and entries[-1] < size
        mains = [params for name, _, params, _ in functions if name == "main"]
        if not rise or size >= 2**31 or len(mains) != 1:
            self.broken.add(1)
            return False
        if mains[0] or any(name != "main" and frame < params + 2 for name, _, params, frame in functions):
            self.broken.add(1)
        return True

    def check_counts(self):
        lie = all(place + length <= self.image.words for region in self.image.regions for sort, place, length in region if sort == 0)
        if self.image.words > 65536 or not lie:
            self.broken.add(3)
        if self.image.stack > 65536:
            self.broken.add(11)

    def names_exist(self, function, kind, operands):
        image, (first, *_) = self.image, operands or [0]
        if kind == "enter":
            parameters = [place for sort, place, _ in image.regions[first - 1] if sort] if 1 <= first <= len(image.regions) else [MOST]
            return all(place < function.params for place in parameters)
        counts = {"sense": image.sensors, "emit": image.ports, "call": image.functions, "jump": image.code, "jfalse": image.code}
        if kind in counts:
            return first < len(counts[kind])
        if kind in ("nload", "nstore", "naddr"):
            return first < image.words
        return first <= len(image.regions) and first >= 1 if kind == "commit" else kind != "index" or first >= 1

    def check_names(self, function, kind, operands):
        """Looks at what an instruction names, and at returns."""
        if not self.names_exist(function, kind, operands):
            self.broken.add(3)
        if kind == "halt" and not function.is_main:
            self.broken.add(8)
        if kind in ("ret", "retv") and (function.is_main or operands[0] != function.params or (kind == "ret" and function.gives)):
            self.broken.add(8)

    def callees(self, function):
        calls = {self.image.code[at][2][0] for at in function.code if self.image.code[at][1] == "call"}
        return {callee for callee in calls if callee < len(self.functions)}

    def callers_first(self):
        """Returns the functions, each behind those that call it; what is in a circle comes last."""
        left = {number: self.callees(function) for number, function in enumerate(self.functions)}
        order = []
        while left:
            free = [number for number in left if not any(number in callees for callees in left.values())]
            if not free:
                self.broken.add(7)
                free = [min(left)]
            order += free
            for number in free:
                del left[number]
        return order

    def check_function(self, number):
        """Looks at the slots of a function, and walks through its code where something calls it."""
        function, passed = self.functions[number], self.passed[number]
        if passed:
            function.kinds = [self.least(kinds) for kinds in zip(*passed)]
        for at in function.code:
            _, kind, operands = self.image.code[at]
            try:
                if kind == "load":
                    function.kind(operands[0])
                elif kind in ("store", "addr"):
                    function.words(operands[0])
            except Broken as broken:
                self.broken.update(broken.args)
        if passed or number == self.main:
            self.walk(number)

    def least(self, kinds):
        """Returns the kind of a parameter that calls give these kinds."""
        if 0 in kinds and any(kinds):
            self.broken.add(6)
        return min(kinds)

    def walk(self, number):
        """Goes all ways through a function from its entry, with the kinds on its stack and the open regions."""
        function, reached = self.functions[number], self.reached[number]
        todo = [(function.entry, ((), ()))]
        while todo:
            at, pair = todo.pop()
            if at not in function.code:
                self.broken.add(2)
                continue
            pairs = reached.setdefault(at, [])
            if pair in pairs:
                continue
            if pairs:
                self.broken.add(10)
            if function.frame + len(pair[0]) > self.image.stack:
                self.broken.add(11)
            if len(pairs) < 4:
                pairs.append(pair)
                todo += self.onward(function, at, pair)

    def onward(self, function, at, pair):
        """Returns where an instruction goes on, with the pair that it leaves."""
        _, kind, operands = self.image.code[at]
        if kind not in ("jump", "jfalse") and not self.names_exist(function, kind, operands):
            return []
        stack, regions = list(pair[0]), list(pair[1])
        try:
            self.judge(function, kind, operands, stack, regions)
        except Broken as broken:
            self.broken.update(broken.args)
            return []
        targets = {"jump": operands[:1], "jfalse": [at + 1, *operands], "ret": [], "retv": [], "halt": []}.get(kind, [at + 1])
        return [(target, (tuple(stack), tuple(regions))) for target in targets]

    def judge(self, function, kind, operands, stack, regions):
        """Does to the kinds and the open regions what an instruction does to words."""

        def number():
            if not stack or stack[-1]:
                raise Broken(4)
            stack.pop()

        def place(words):
            if not stack or stack[-1] < words:
                raise Broken(4)
            stack.pop()

        if kind in ("drop", "emit", "nstore", "jfalse", "store", "retv", "bin", "un", "index"):
            number()
        if kind in ("ret", "retv", "halt") and regions:
            raise Broken(8)
        if kind in ("push", "sense", "nload"):
            stack.append(0)
        elif kind == "bin":
            number()
            stack.append(0)
        elif kind == "un":
            stack.append(0)
        elif kind == "load":
            stack.append(function.kind(operands[0]))
        elif kind == "addr":
            stack.append(function.words(operands[0]))
        elif kind == "store":
            function.words(operands[0])
        elif kind == "naddr":
            stack.append(self.image.words - operands[0])
        elif kind == "get":
            place(1)
            stack.append(0)
        elif kind == "put":
            place(1)
            number()
        elif kind == "index":
            place(operands[0])
            stack.append(1)
        elif kind == "call":
            self.call(operands[0], stack)
        elif kind == "enter":
            regions.append(operands[0])
        elif kind == "commit":
            if regions[-1:] != operands:
                raise Broken(9)
            regions.pop()

    def call(self, number, stack):
        """Takes the arguments of a call, whose first is that of slot 0."""
        callee = self.functions[number]
        if callee.params > len(stack):
            raise Broken(5)
        base = len(stack) - callee.params
        self.passed[number].append(stack[base:])
        stack[base:] = [0] if callee.gives else []

    def check_room(self):
        """Asks for room, where runs can be followed at all."""
        if not self.broken and self.needed(self.main, {}) > self.image.stack:
            self.broken.add(11)

    def needed(self, number, known):
        """Returns how many words a function holds at most, with what it calls."""
        if number not in known:
            function, most = self.functions[number], 0
            for at, [(stack, _)] in self.reached[number].items():
                held = function.frame + len(stack)
                _, kind, operands = self.image.code[at]
                inner = held - self.functions[operands[0]].params + self.needed(operands[0], known) if kind == "call" else 0
                most = max(most, held, inner)
            known[number] = most
        return known[number]


class Code:
    """The code of an image, for the second machine."""

    def __init__(self, image):
        names = {"call": [name for name, *_ in image.functions], "sense": image.sensors, "emit": image.ports}
        self.functions = {name: tuple(numbers) for name, *numbers in image.functions}
        self.code = [
            (site, [kind, *(names[kind][operand] if kind in names and operand < len(names[kind]) else str(operand) for operand in operands)])
            for site, kind, operands in image.code
        ]


def answer(data):
    """Returns the byte where a file is bad, the rules that it breaks, and its report; what there is of them."""
    try:
        image = Image(data)
    except Bad as bad:
        return bad.args[0], None, None
    broken = Rules(image).broken
    if broken:
        return None, broken, None
    machine = Machine(Code(image), [(name, [initial] * words) for name, words, initial in image.variables], lambda sensor, tick: 0)
    machine.run(PERIODS)
    return None, None, machine.report


def main():
    if len(sys.argv) != 2:
        sys.exit(__doc__)
    bad, broken, report = answer(pathlib.Path(sys.argv[1]).read_bytes())
    if report is not None:
        print("\n".join(report))
    else:
        print(f"bad byte {bad}" if broken is None else f"breaks {', '.join(map(str, sorted(broken)))}")


if __name__ == "__main__":
    main()
