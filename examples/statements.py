"""Reads the statements of a source that './ocelot' accepts, with the numbers that reports and listings show.

Each input and each call inside an expression is a statement of its own, just before the one in which it stands
(docs/LANGUAGE.md, 'What a program does'). A block after `atomic` is read as that of an `if`.
"""
import re

TOKEN = re.compile(r"//[^\n]*|[A-Za-z_][A-Za-z0-9_]*|[0-9][0-9_]*|->|==|!=|<=|>=|&&|\|\||\.\.|\S")
NAME = re.compile(r"[A-Za-z_]")
BLOCKS = ("if", "while", "for", "atomic")


class Variable:
    """A variable: its name, what it is ('nv', 'parameter', 'result' or 'let') and the statement that declares it."""

    def __init__(self, name, kind, lends=False, declared=None):
        self.name, self.kind, self.lends, self.declared = name, kind, lends, declared


class Call:
    """A call: the function's name, and of each argument the variables named there and the one that it is, if any."""

    def __init__(self, name, arguments):
        self.name, self.arguments = name, arguments


class Statement:
    """A statement: its number, its line and text, where it stands, and what it does to variables.

    `first` is the number of the first statement that was made of it, `last` that of the last one inside it, and
    `around` has the statements around it, the innermost first.
    """

    def __init__(self, line, text, block, around):
        self.line, self.text, self.block, self.around = line, text, block, around
        self.number = self.first = self.last = 0
        self.is_loop = False
        self.named, self.sources = [], []
        self.target = self.sensor = self.call = self.note = None


class Function:
    """A function: its name, its parameters, the variable of its result, and its statements in order."""

    def __init__(self, name, parameters):
        self.name, self.parameters = name, parameters
        self.result = Variable("the result", "result")
        self.statements = []

    def variables(self):
        return [*self.parameters, self.result, *(s.target for s in self.statements if s.target and s.target.declared is s)]


def closing(words, at):
    """Returns the place of the bracket that closes the one at a place."""
    depth = 0
    for place in range(at, len(words)):
        depth += (words[place] in "([") - (words[place] in ")]")
        if depth == 0:
            return place


def parted(words, mark):
    """Returns the parts of these words between such marks that stand in no bracket."""
    parts, depth = [[]], 0
    for word in words:
        depth += (word in "([") - (word in ")]")
        if word == mark and depth == 0:
            parts.append([])
        else:
            parts[-1].append(word)
    return [part for part in parts if part]


def bare(words):
    """Returns an expression without brackets around all of it."""
    while words[:1] == ["("] and closing(words, 0) == len(words) - 1:
        words = words[1:-1]
    return words


def is_call(words):
    """Says whether these words are just an input or a call."""
    return len(words) > 1 and bool(NAME.match(words[0])) and words[1] == "(" and closing(words, 1) == len(words) - 1


class Reader:
    """Reads a source: its nonvolatile variables and its functions."""

    def __init__(self, source):
        self.source = source
        self.tokens = [token for token in TOKEN.finditer(source) if not token.group().startswith("//")]
        self.words = [token.group() for token in self.tokens]
        self.at, self.number = 0, 0
        tops = [place for place, word in enumerate(self.words) if word == "nv"]
        self.nonvolatile = {self.words[place + 1]: Variable(self.words[place + 1], "nv") for place in tops}
        self.functions = {}
        while self.at < len(self.words):
            if self.words[self.at] == "fn":
                self.function()
            else:
                self.at += 1

    def until(self, *ends):
        """Goes on to the next such word that stands in no bracket, and returns the words before it."""
        start, depth = self.at, 0
        while depth > 0 or self.words[self.at] not in ends:
            depth += (self.words[self.at] in "([") - (self.words[self.at] in ")]")
            self.at += 1
        return self.words[start : self.at]

    def function(self):
        head = self.until("{")
        parameters = parted(head[3 : closing(head, 2)], ",")
        made = [Variable(part[0], "parameter", lends="mut" in part) for part in parameters]
        self.here = self.functions[head[1]] = Function(head[1], made)
        self.block([], {variable.name: variable for variable in made})

    def block(self, around, scope):
        """Reads a block: the statements around it, the innermost first, and the variables that are visible."""
        block, scope = object(), dict(scope)
        self.at += 1
        while self.words[self.at] != "}":
            self.statement(block, around, scope)
        self.at += 1

    def statement(self, block, around, scope):
        start, head = self.at, self.words[self.at]
        words = self.until("{" if head in BLOCKS else ";")
        self.at += head not in BLOCKS
        first, end = self.tokens[start].start(), self.tokens[self.at - (head not in BLOCKS)].end()
        line = self.source.count("\n", 0, first) + 1
        text = " ".join(re.sub("//[^\n]*", "", self.source[first:end]).split())
        made = Statement(line, text, block, around)
        made.first = self.number + 1
        self.fill(made, words, scope)
        self.add(made)
        if head in BLOCKS:
            self.inside(made, words, scope)
        elif head == "let":
            scope[made.target.name] = made.target
        made.last = self.number

    def add(self, statement):
        self.number += 1
        statement.number = statement.last = self.number
        self.here.statements.append(statement)

    def inside(self, made, words, scope):
        """Reads the blocks of a statement."""
        around = [made, *made.around]
        turn = {words[1]: Variable(words[1], "let", declared=made)} if words[0] == "for" else {}
        self.block(around, scope | turn)
        if words[0] == "if" and self.words[self.at] == "else":
            self.at += 1
            if self.words[self.at] == "if":
                self.statement(object(), around, scope)
            else:
                self.block(around, scope)

    def fill(self, made, words, scope):
        """Puts down what a statement does, by its words, and first the statements that are made of its expressions."""
        head = words[0]
        if head in ("Fresh", "Consistent"):
            made.note = (head.lower(), self.variable(words[2], scope), *(words[4:5]))
        elif head in ("for", "atomic"):
            made.is_loop = head == "for"
        elif head in ("if", "while"):
            made.is_loop = head == "while"
            made.named = self.names(parted(words[1:], "bound")[0], made, scope)
        elif head == "emit":
            made.named = self.names(words[4:-1], made, scope)
        elif head == "return":
            made.named = made.sources = self.names(words[1:], made, scope)
            made.target = self.here.result
        elif "=" in words:
            self.fill_set(made, words, scope)
        elif head != "sense":
            made.call = self.call(words, made, scope)
            made.named = self.named_by(made.call)

    def fill_set(self, made, words, scope):
        """The same for a statement that sets a variable."""
        equals = words.index("=")
        left, right = words[:equals], bare(words[equals + 1 :])
        index = self.names(left[2:-1], made, scope) if left[1:2] == ["["] else []
        if left[0] == "let":
            made.target = Variable(left[2] if left[1] == "mut" else left[1], "let", declared=made)
        else:
            made.target = self.variable(left[1] if left[0] == "*" else left[0], scope)
        made.sources = list(index)
        if is_call(right) and right[0] == "sense":
            made.sensor, value = right[2], []
        elif is_call(right):
            made.call = self.call(right, made, scope)
            value = self.named_by(made.call)
        else:
            value = self.names(right, made, scope)
            made.sources += value
        made.named = index + value

    def variable(self, name, scope):
        return scope.get(name) or self.nonvolatile.get(name)

    def named_by(self, call):
        return [variable for named, _ in call.arguments for variable in named]

    def call(self, words, made, scope):
        """Returns a call, by its words."""
        arguments = []
        for part in parted(words[2:-1], ","):
            plain = bare([word for word in part if word not in ("&", "mut")])
            alone = self.variable(plain[0], scope) if len(plain) == 1 else None
            arguments.append((self.names(part, made, scope), alone))
        return Call(words[0], arguments)

    def names(self, words, made, scope):
        """Returns the variables that an expression names once its inputs and calls stand before it."""
        found, place = [], 0
        while place < len(words):
            word, start = words[place], place
            place += 1
            if NAME.match(word) and words[place : place + 1] == ["("]:
                place = closing(words, place) + 1
                found.append(self.pull(words[start:place], made, scope))
            elif NAME.match(word):
                found += [variable for variable in [self.variable(word, scope)] if variable]
        return found

    def pull(self, words, made, scope):
        """Adds the statement that is made of an input or call in an expression, and returns its variable."""
        text = "".join(words).replace(",", ", ").replace("&mut", "&mut ")
        pulled = Statement(made.line, text, made.block, made.around)
        pulled.first = made.first
        if words[0] == "sense":
            pulled.sensor = words[2]
        else:
            pulled.call = self.call(words, made, scope)
            pulled.named = self.named_by(pulled.call)
        pulled.target = Variable(text, "let", declared=pulled)
        self.add(pulled)
        return pulled.target
