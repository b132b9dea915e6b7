#!/usr/bin/env python3
"""Prints a random source with annotations in functions, loops and branches: annotated.py SEED

Some of these sources break a rule, where a call changes what stands beside it."""
import random
import sys

HEAD = "sensor s;\nsensor t;\nport p;\nnv n: i32 = 0;\nnv m: [i32; 3] = 0;\n\n"


class Writer:
    """Writes the functions of a source, callees first."""

    def __init__(self, seed):
        self.random = random.Random(seed)
        self.made, self.lines, self.functions, self.names = 0, [], [], []

    def name(self):
        self.made += 1
        return f"v{self.made}"

    def value(self, visible):
        """Returns an expression, perhaps with inputs and calls inside."""
        kind = self.random.randrange(8)
        names = visible or ["1"]
        if kind < 3:
            return self.random.choice(names)
        if kind == 3:
            return f"{self.random.choice(names)} + {self.random.choice([*names, 'n', 'm[1]', '7'])}"
        if kind == 4:
            return f"sense({self.random.choice('st')}) + {self.random.choice(names)}"
        return self.call(visible) if kind == 5 and self.functions else f"sense({self.random.choice('st')})" if kind < 7 else "3"

    def call(self, visible):
        """Returns a call of a function that is there, with a variable that may be changed where one is lent."""
        name, lends = self.random.choice(self.functions)
        lent = [x for x in visible if x in self.changing]
        if lends:
            return f"{name}(&mut {self.random.choice(lent)}, 4)" if lent else "5"
        return f"{name}({self.random.choice([*visible, 'sense(t)', '2'])})"

    def statements(self, indent, visible, depth):
        """Writes a block's statements."""
        visible, own = list(visible), []
        for _ in range(self.random.randrange(2, 6)):
            kind = self.random.randrange(12)
            pad = "    " * indent
            if kind < 4 or not own:
                name, change = self.name(), self.random.random() < 0.4
                self.lines.append(f"{pad}let {'mut ' * change}{name} = {self.value(visible)};")
                self.changing |= {name} if change else set()
                own.append(name)
                visible.append(name)
            elif kind < 6:
                note = self.random.choice(["Fresh({})", "Fresh({})", "Consistent({}, 1)", "Consistent({}, 2)"])
                self.lines.append(f"{pad}{note.format(self.random.choice(own))};")
            elif kind == 6:
                target = self.random.choice([*(x for x in visible if x in self.changing), "n", "m[2]"])
                self.lines.append(f"{pad}{target} = {self.value(visible)};")
            elif kind < 9:
                self.lines.append(f"{pad}emit(p, {self.value(visible)});")
            elif depth > 0:
                self.inner(indent, visible, depth)

    def inner(self, indent, visible, depth):
        """Writes a statement with a block, or with two."""
        pad, kind = "    " * indent, self.random.randrange(3)
        loop = self.name()
        head = ["if {} > 1 {{", "for {1} in 0..3 {{", "while {} < 9 bound 3 {{"][kind]
        self.lines.append(pad + head.format(self.random.choice(visible), loop))
        self.statements(indent + 1, [*visible, loop] if kind == 1 else visible, depth - 1)
        if kind == 0 and self.random.random() < 0.5:
            self.lines.append(f"{pad}}} else {{")
            self.statements(indent + 1, visible, depth - 1)
        self.lines.append(f"{pad}}}")

    def function(self, name, parameters, result):
        self.changing = set()
        self.lines.append(f"fn {name}({parameters}){' -> i32' * result} {{")
        visible = ["a"] if parameters.startswith("a: i32") else ["b"] if parameters else []
        taken = [called for called, lends in self.functions if not lends]
        if visible and taken:
            self.lines.append(f"    emit(p, {self.random.choice(taken)}({visible[0]}));")
        if visible and self.random.random() < 0.3:
            name = self.name()
            self.lines.append(f"    let {name} = {visible[0]} + 1;\n    Fresh({name});\n    emit(p, {name});")
        self.statements(1, visible, 2)
        if parameters.startswith("r"):
            self.lines.append(f"    *r = {self.value(visible)} + *r;")
        self.lines += ["    return n + " + (visible or ["1"])[0] + ";"] * result
        self.lines.append("}\n")

    def program(self):
        texts = []
        for number in range(self.random.randrange(1, 6)):
            lends = self.random.random() < 0.4
            self.function(f"f{number}", "r: &mut i32, b: i32" if lends else "a: i32", True)
            self.functions.append((f"f{number}", lends))
            texts.append(self.lines)
            self.lines = []
        self.function("main", "", False)
        texts.append(self.lines)
        self.random.shuffle(texts)
        return HEAD + "\n".join(line for lines in texts for line in lines)


def source(seed):
    """Returns the source of a number."""
    return Writer(seed).program()


if __name__ == "__main__":
    print(source(int(sys.argv[1])), end="")
