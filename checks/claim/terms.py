"""Terms: what each word in one stands for, and the shape of what it gives."""
from claim.names import PLAIN, TACTICS, find, find_ghost, is_infix
from claim.shapes import Shape, constructor_shape, field_of, fill, library_shape, match, shape_of, signature_shape
from claim.text import is_access, place_of, split_at
from claim.words import Lib, Member, Source, Variants, Word

# Lower-case constructors of the library: in a pattern they aren't bound.
PATTERNS = set("zero suc true false [] ∷ pos negsuc tt refl , ◌∷◌".split())
# Fields of the library's types: a vector's items, a box's value, states before and after a call, sides of a pair.
LIBRARY_FIELDS = set("items value now old new entry now_ 0 1 2 3 4 5".split())
# What of a value a constructor of the library holds, by its place among the arguments of the value's type.
HELD = {"Some": 0, "Ok": 0, "Err": 1}


class Terms:
    """Walks through the terms of a word. `env` has what is bound there, each with its shape or None."""

    def __init__(self, word):
        self.word, self.source = word, word.source

    def link(self, token, target):
        self.word.links.append((token.start, token.end, target))

    # ---- names

    def name(self, token, env):
        """Links a name, and returns the shape of its value, or the module that it names."""
        text = token.text
        if text in env:
            return env[text]
        target = find(self.source, text)
        if text in TACTICS and target is None:
            return self.word.loose.append((text, token.start, token.end))
        if text in PLAIN or text.isdigit() or text[0] in "'#⟦" or text[-1] == "⟧":
            return None
        if target is None:
            self.source.fail(token.start, f"can't place {text!r} in {self.word.name}")
        if isinstance(target, (Source, Variants)):
            return target
        self.link(token, target)
        # a variant stands behind the name of its Rust type too
        is_enum = isinstance(target, Word) and target.kind == "rust enum"
        return Variants(target) if is_enum else self.value_shape(target)

    def value_shape(self, target):
        """The shape of what a name stands for."""
        if isinstance(target, Lib):
            return library_shape(target.name)
        if isinstance(target, Member):
            return constructor_shape(target)
        if target.kind == "function":
            return signature_shape(target, target.params == self.word.params and target.source is self.source)
        return None

    def member(self, token, owner):
        """Links a name behind a dot, and returns the shape of its value."""
        name = token.text
        if isinstance(owner, Variants):
            self.link(token, Member(owner.word, name))
            return constructor_shape(Member(owner.word, name))
        if isinstance(owner, Source):
            target = self.source.repository.public(owner, name)
            if target is None:
                self.source.fail(token.start, f"{name!r} isn't in {owner.label}")
            self.link(token, target)
            return self.value_shape(target)
        field, shape = field_of(owner, name)
        trait = None if field or shape or self.source.is_specs else find_ghost(self.source, name)
        if field or trait:
            self.link(token, field or Member(trait, name))
        elif shape is None and name not in LIBRARY_FIELDS:
            self.word.loose.append((name, token.start, token.end))
        return shape

    # ---- lists of tokens

    def walk(self, tokens, env, expected=None):
        """Walks through a term, and returns the shape of its value where that is plain."""
        env, shapes, operators, i = dict(env), [], [], 0
        while i < len(tokens):
            t = tokens[i]
            if t.is_word("λ"):
                return self.function(tokens, i + 1, env, expected)
            if t.is_word("let"):
                i = self.binding(tokens, i, env)
            elif i + 1 < len(tokens) and tokens[i + 1].is_word("←"):
                env[t.text] = None
                i += 2
            elif self.is_between(t, env):
                operators.append(t.text)
                if t.kind == "word":
                    self.name(t, env)
                i += 1
            else:
                shape, i = self.call(tokens, i, env, expected)
                shapes.append(shape)
        return joined(shapes, operators)

    def is_between(self, t, env):
        """Whether a token stands between terms, and is part of none."""
        if t.kind == "mark":
            return True
        return t.kind == "word" and t.text not in env and (
            t.text in ("then", "else", "if", "in", "=", ":") or is_infix(self.source, t.text))

    def function(self, tokens, i, env, expected):
        """`λ x y. e`: binds the names, each with the shape that is expected of it."""
        params = list(expected.args[:-1]) if expected and expected.head == "→" else []
        bound = []
        while not tokens[i].is_mark("."):
            if tokens[i].kind == "group":
                self.group(tokens[i], env)
            else:
                bound.append(params.pop(0) if params else None)
                env[tokens[i].text] = bound[-1]
            i += 1
        return Shape("→", (*bound, self.walk(tokens[i + 1:], env)))

    def binding(self, tokens, i, env):
        """`let x = e in`: binds the name behind it, with the shape of its term."""
        end = next((k for k in range(i, len(tokens)) if tokens[k].is_word("in")), i + 2)
        env[tokens[i + 1].text] = self.walk(tokens[i + 3:end], env) if end > i + 2 else None
        return end + 1 if end > i + 2 else end

    # ---- calls

    def call(self, tokens, i, env, expected):
        """A value with arguments behind it: returns the shape of what it gives, and the place behind them."""
        atoms, k = [], i
        while k < len(tokens) and not (atoms and self.is_between(tokens[k], env)):
            if tokens[k].is_word("λ"):
                atoms.append((k, len(tokens)))
                k = len(tokens)
                break
            end = k + 1
            while is_access(tokens, end):
                end += 2
            atoms.append((k, end))
            k = end
        parts = [tokens[a:b] for a, b in atoms]
        if parts[0][0].is_word("record"):
            return self.record_term(parts[1:], env, expected), k
        head = self.atom(parts[0], env, expected if len(parts) == 1 else None)
        return (self.applied(head, parts[1:], env) if parts[1:] else head), k

    def applied(self, head, arguments, env):
        """Walks through arguments: functions last, since what the others are says what these take."""
        plain = [a for a in arguments if not (a[0].kind == "group" and a[0].text == "{")]
        head = head if isinstance(head, Shape) and head.head == "→" else Shape("→", (None,) * (len(plain) + 1))
        params, known = list(head.args[:-1]), {}
        params += [None] * (len(plain) - len(params))
        for argument in arguments:
            if argument not in plain:
                self.atom(argument, env, None)
        for is_late in (False, True):
            for argument, param in zip(plain, params):
                if is_function(argument) == is_late:
                    match(param, self.atom(argument, env, fill(param, known)), known)
        if len(plain) < len(head.args) - 1:
            return fill(Shape("→", head.args[len(plain):]), known)
        return fill(head.args[-1], known) if len(plain) == len(head.args) - 1 else None

    def atom(self, tokens, env, expected):
        """A name or a bracket, with fields behind it."""
        first = tokens[0]
        if first.is_word("λ"):
            return self.walk(tokens, env, expected)
        if first.kind == "group":
            owner = self.group(first, env, expected)
        else:
            owner = self.name(first, env) if first.kind == "word" else None
        for token in tokens[2::2]:
            owner = self.member(token, owner)
        return owner if isinstance(owner, Shape) else None

    # ---- brackets

    def group(self, group, env, expected=None):
        """A bracket: `(x y : A)` binds its names behind it, `{f = e; ..}` has labels, and else it is a term."""
        inner = group.inner
        colon = place_of(inner, ":")
        if colon and all(t.kind == "word" for t in inner[:colon]):
            self.walk(inner[colon + 1:], env)
            shape = self.type_shape(inner[colon + 1:], env)
            env.update((t.text, shape) for t in inner[:colon])
            return None
        if group.text == "{":
            return self.labels(inner, env, None)
        return self.walk(inner, env, expected)

    def labels(self, inner, env, owner):
        """`{ f = e; g = e; }`: the names before `=` are fields of `owner`, or else implicit arguments."""
        for part in split_at(inner, lambda t: t.is_mark(";")):
            if len(part) > 1 and part[0].kind == "word" and part[1].is_word("="):
                field, shape = field_of(owner, part[0].text)
                if field:
                    self.link(part[0], field)
                self.walk(part[2:], env, shape)
            else:
                self.walk(part, env)

    def record_term(self, parts, env, expected):
        """`record { f = e; .. }` has the shape that is expected, and `record s { .. }` that of `s`."""
        shape = expected
        for part in parts[:-1]:
            shape = self.atom(part, env, None)
        if parts and parts[-1][0].kind == "group":
            self.labels(parts[-1][0].inner, env, shape)
        return shape

    def type_shape(self, tokens, env):
        """The shape of a type in a term; a name that is bound has none."""
        return shape_of(tokens, lambda name: None if name in env else find(self.source, name))

    # ---- patterns

    def pattern(self, tokens, env, shape):
        """A pattern: a constructor is linked, and any other name is bound, with its shape."""
        if len(tokens) == 1 and tokens[0].kind == "group":
            return self.pattern(tokens[0].inner, env, shape)
        for mark, shapes in ((",", sides_of(shape)), ("∷", elements_of(shape))):
            parts = split_at(tokens, lambda t: t.is_mark(mark) or t.is_word(mark))
            if parts[1:]:
                for t in tokens:
                    if t.is_word(mark):
                        self.link(t, find(self.source, mark) or Lib("◌∷◌", ""))
                for k, part in enumerate(parts):
                    self.pattern(part, env, shapes(k, len(parts)))
                return None
        return self.constructor(tokens, env, shape) if tokens else None

    def constructor(self, tokens, env, shape):
        """A constructor with what it holds, or a name alone."""
        first, end = tokens[0], 1
        while is_access(tokens, end):
            end += 2
        held = []
        if end > 1:
            owner = self.name(first, {})
            for token in tokens[2:end:2]:
                owner = self.member(token, owner)
            held = held_by(owner)
        elif first.kind == "word" and not first.text.isdigit():
            held = self.constructor_name(first, env, shape)
        elif first.kind == "group":
            self.pattern([first], env, None)
        for k, part in enumerate(atoms_of(tokens[end:])):
            self.pattern(part, env, held[k] if k < len(held) else None)

    def constructor_name(self, token, env, shape):
        """Links or binds the first name of a pattern, and returns the shapes of what it holds."""
        target = find(self.source, token.text)
        if isinstance(target, Member) and target.word.kind in ("data", "rust enum", "rust struct"):
            self.link(token, target)
            return held_by(constructor_shape(target))
        if isinstance(target, Lib) and (token.text in PATTERNS or token.text[:1].isupper()):
            self.link(token, target)
            place = HELD.get(token.text)
            return [shape.args[place]] if shape and place is not None and place < len(shape.args) else []
        env[token.text] = shape
        return []


def atoms_of(tokens):
    """Splits a list of tokens into names and brackets, each with the fields behind it."""
    atoms = []
    for k, t in enumerate(tokens):
        if is_access(tokens, k) or is_access(tokens, k - 1):
            atoms[-1].append(t)
        else:
            atoms.append([t])
    return atoms


def is_function(argument):
    """Whether an argument is a function that is written in its place."""
    first = argument[0]
    return first.is_word("λ") or first.kind == "group" and bool(first.inner) and first.inner[0].is_word("λ")


def held_by(shape):
    """The shapes of a constructor's parameters."""
    return shape.args[:-1] if isinstance(shape, Shape) and shape.head == "→" else []


def sides_of(shape):
    """Says the shape of each side of a pair."""
    args = shape.args if shape and shape.head == "×" else ()
    return lambda k, _count: args[k] if k < len(args) else None


def elements_of(shape):
    """Says the shape of each part of a list: elements, and the rest of the list behind the last `∷`."""
    element = shape.args[0] if shape and shape.head == "List" and shape.args else None
    return lambda k, count: shape if k + 1 == count else element


def joined(shapes, operators):
    """The shape of terms with operators between them: of lists that are joined, of the sides of an `if`, or of one."""
    known = [shape for shape in shapes if shape]
    if not operators and len(shapes) == 1:
        return shapes[0]
    if operators and set(operators) == {"if", "then", "else"}:
        return shapes[-1] or next(iter(shapes[1:]), None)
    if operators and set(operators) == {"++"}:
        return known[0] if known else None
    if operators and set(operators) == {"∷"}:
        return shapes[-1] or (shapes[0] and Shape("List", (shapes[0],)))
    return None
