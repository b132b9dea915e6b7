"""Finds the sites that annotations tie together in a program: docs/ANALYSIS.md, 'Flow' to 'Requirements'."""
import collections


class Site:
    """A statement that a requirement holds, and in words why."""

    def __init__(self, statement, why):
        self.statement, self.why = statement, why


class Analysis:
    """What is worked out of a program, each question once for each function."""

    def __init__(self, program):
        self.functions = program.functions
        self.nonvolatile = list(program.nonvolatile.values())
        self.known_steps, self.known_reach, self.known_brought, self.known_inputs = {}, {}, {}, {}

    def variables(self, function):
        return [*self.nonvolatile, *function.variables()]

    def begins(self, call, callee, inner):
        """Returns the caller's variables that stand for a variable of the callee where a flow begins."""
        if inner.kind == "nv":
            return [inner]
        return call.arguments[callee.parameters.index(inner)][0] if inner.kind == "parameter" else []

    def ends(self, statement, callee, inner):
        """Returns the caller's variables that stand for a variable of the callee where a flow ends."""
        if inner.kind == "nv":
            return [inner]
        if inner.kind == "result":
            return [statement.target] if statement.target else []
        lent = statement.call.arguments[callee.parameters.index(inner)][1] if inner.kind == "parameter" and inner.lends else None
        return [lent] if lent else []

    def steps(self, function):
        """Returns for each variable of a function those to which one step leads."""
        if function.name not in self.known_steps:
            found = collections.defaultdict(dict)
            for statement in function.statements:
                for source in statement.sources if statement.target else []:
                    found[source][statement.target] = None
                for source, target in self.steps_of_call(statement):
                    found[source][target] = None
            self.known_steps[function.name] = found
        return self.known_steps[function.name]

    def steps_of_call(self, statement):
        if not statement.call:
            return
        callee = self.functions[statement.call.name]
        for inner in [*self.nonvolatile, *callee.parameters]:
            for source in self.begins(statement.call, callee, inner):
                for last in self.reach(callee, inner):
                    for target in self.ends(statement, callee, last):
                        yield source, target

    def reach(self, function, variable):
        """Returns the variables into which a variable flows, each with the one before it on a shortest way."""
        key = function.name, variable
        if key not in self.known_reach:
            found, waiting = {variable: None}, collections.deque([variable])
            while waiting:
                at = waiting.popleft()
                for following in self.steps(function)[at]:
                    if following not in found:
                        found[following] = at
                        waiting.append(following)
            self.known_reach[key] = found
        return self.known_reach[key]

    def chain(self, function, first, last):
        """Returns the names of the variables on a shortest way, joined."""
        before, names = self.reach(function, first), []
        while last is not None:
            names.append(last.name)
            last = before[last]
        return " > ".join(reversed(names))

    def brought(self, statement):
        """Returns the variables into which a statement brings input, each with the words for how."""
        if statement not in self.known_brought:
            found = {}
            if statement.sensor and statement.target:
                found[statement.target] = f"reads {statement.sensor}"
            for variable, words in self.brought_by_call(statement):
                found.setdefault(variable, words)
            self.known_brought[statement] = found
        return self.known_brought[statement]

    def brought_by_call(self, statement):
        if not statement.call:
            return
        callee = self.functions[statement.call.name]
        for inner in callee.statements:
            for taken, words in self.brought(inner).items():
                for last in self.reach(callee, taken):
                    for variable in self.ends(statement, callee, last):
                        yield variable, f"calls {callee.name}, which in line {inner.line} {words}"

    def loop_of(self, function, statement, first, last):
        """Returns the outermost loop out of which an input is carried, if there is one."""
        loops = [outer for outer in reversed(statement.around) if outer.is_loop]
        carriers = [w for w in self.reach(function, first) if last in self.reach(function, w)] if loops else []
        for loop in loops:
            if any(w.declared is None or loop not in w.declared.around for w in carriers):
                return loop
        return None

    def inputs(self, function, variable):
        """Returns the sites of the inputs that go into a variable, in its function."""
        key = function.name, variable
        if key not in self.known_inputs:
            self.known_inputs[key] = list(self.found_inputs(function, variable))
        return self.known_inputs[key]

    def found_inputs(self, function, variable):
        for statement in function.statements:
            sites = {}
            for first, words in self.brought(statement).items():
                if variable not in self.reach(function, first):
                    continue
                loop = self.loop_of(function, statement, first, variable)
                if (loop or statement) not in sites:
                    way = f"{words}: {self.chain(function, first, variable)}"
                    sites[loop or statement] = f"carries from turn to turn what line {statement.line} brings, which {way}" if loop else way
            yield from (Site(statement, words) for statement, words in sites.items())


class Policy:
    """What annotations of a function ask for: 'fresh' of a variable, or 'consistent' of a set."""

    def __init__(self, function, kind, key):
        self.function, self.kind, self.key = function, kind, key
        self.notes = []

    def variables(self):
        return list(dict.fromkeys(note.note[1] for note in self.notes))

    def held(self):
        """Returns the sites that must be held together with the inputs."""
        if self.kind == "consistent":
            return [Site(note, f"takes {note.note[1].name} into the set {self.key}") for note in self.notes]
        return [Site(s, f"uses {self.key.name}") for s in self.function.statements if self.key in s.named]

    def name(self):
        return f"{self.kind} {self.function.name} {self.key.name if self.kind == 'fresh' else self.key}"


def policies(functions):
    """Returns the policies of a program, in the order of their first annotations."""
    found = {}
    for function in functions.values():
        for statement in function.statements:
            if statement.note:
                kind, variable, *number = statement.note
                key = int(number[0].replace("_", "")) if number else variable
                found.setdefault((function.name, kind, key), Policy(function, kind, key)).notes.append(statement)
    return list(found.values())


def needs(analysis, policy):
    """Returns for each function the parameters and nonvolatile variables that a policy needs of its callers."""
    given = lambda function: [*analysis.nonvolatile, *function.parameters]
    needed = {function.name: set() for function in analysis.functions.values()}
    if policy.held():
        own = policy.variables()
        needed[policy.function.name] = {w for w in given(policy.function) if any(x in analysis.reach(policy.function, w) for x in own)}
    grown = True
    while grown:
        grown = False
        for function in analysis.functions.values():
            ends = [v for s in function.statements for v, _ in needed_at(analysis, needed, s)]
            more = {w for w in given(function) if any(v in analysis.reach(function, w) for v in ends)}
            grown = grown or not more <= needed[function.name]
            needed[function.name] |= more
    return needed


def needed_at(analysis, needed, statement):
    """Returns the variables that are needed at a statement, each with the callee's for which it stands."""
    if not statement.call:
        return []
    callee = analysis.functions[statement.call.name]
    inner = [x for x in [*analysis.nonvolatile, *callee.parameters] if x in needed[callee.name]]
    return [(v, x) for x in inner for v in analysis.begins(statement.call, callee, x)]


def requirements(analysis, policy):
    """Yields what a policy ties together: a function, and the sites there, in order."""
    needed = needs(analysis, policy)
    for function in analysis.functions.values():
        if function is policy.function:
            yield from tied(analysis, function, policy.variables(), policy.held())
        for statement in function.statements:
            pairs = needed_at(analysis, needed, statement)
            if pairs:
                names = ", ".join(dict.fromkeys(inner.name for _, inner in pairs))
                call = Site(statement, f"calls {statement.call.name}, where {policy.name()} needs {names}")
                yield from tied(analysis, function, list(dict.fromkeys(v for v, _ in pairs)), [call])


def tied(analysis, function, variables, others):
    """Yields the sites of the inputs of these variables together with others, where there are both."""
    inputs = [site for variable in variables for site in analysis.inputs(function, variable)]
    if inputs and others:
        yield function, sorted([*inputs, *others], key=lambda site: site.statement.number)
