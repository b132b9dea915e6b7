#!/usr/bin/env python3
"""Prints a source within the limits that is hard to answer: worst.py KIND N

N says how large it is; worst.py alone lists the kinds and the greatest N that is accepted.
"""
import sys

NAMES = range(64)
HEAD = "sensor s;\nport r;\n" + "".join(f"nv n{k}: i32 = 0;\n" for k in NAMES)


def function(name, lines, head="", tail=""):
    return f"fn {name}() {{\n" + head + "".join(f"    {line}\n" for line in lines) + tail + "}\n"


def fresh_lines(count=64):
    return [f"let x{k} = n{k}; Fresh(x{k}); emit(r, x{k});" for k in range(count)]


def inputs_into_names():
    return [f"let a{k} = sense(s); n{k} = a{k} + n{(k * 7 + 1) % 64};" for k in range(26)]


def fan(n):
    """64 fresh variables of a function that N others call, eight times each (126)"""
    others = [function(f"f{f}", inputs_into_names() + ["f0();"] * 8) for f in range(1, n + 1)]
    return HEAD + function("f0", fresh_lines()) + "".join(others) + function("main", [f"f{n}();"])


def chain(n):
    """the same, where each function also calls the one before it (126)"""
    others = [function(f"f{f}", [*inputs_into_names(), f"f{f - 1}();", *["f0();"] * 7]) for f in range(1, n + 1)]
    return HEAD + function("f0", fresh_lines()) + "".join(others) + function("main", [f"f{n}();"])


def tied(n):
    """the same, where the first function makes each nonvolatile variable flow into each other one (126)"""
    tie = [f"n{(k + 1) % 64} = n{k} + sense(s);" for k in NAMES]
    lines = [f"let a{k} = sense(s); n{k} = a{k};" for k in range(26)]
    others = [function(f"f{f}", [*lines, f"f{f - 1}();", *["f0();"] * 7]) for f in range(1, n + 1)]
    return HEAD + function("f0", tie + fresh_lines()) + "".join(others) + function("main", [f"f{n}();"])


def loops(n):
    """64 fresh variables that are tied so, called by N functions, twelve times each, inside 28 loops (79)"""
    tie = [f"n{(k + 1) % 64} = n{k} + sense(s);" for k in NAMES]
    lines = [f"let a{k} = sense(s); n{k} = a{k};" for k in range(26)] + ["f0();"] * 12
    around = "    " + "".join(f"for i{d} in 0..1 {{ " for d in range(28)) + "\n"
    others = [function(f"f{f}", lines, around, "    " + "} " * 28 + "\n") for f in range(1, n + 1)]
    return HEAD + function("f0", tie + fresh_lines()) + "".join(others) + function("main", [f"f{n}();"])


def variables(n):
    """a chain of N functions with 250 variables each, of which two are a consistent set (31)"""
    functions = []
    for f in range(n):
        lines = ["let a0 = sense(s) + n0;"] + [f"let a{k} = a{k - 1} + n{k % 64};" for k in range(1, 250)]
        lines += [f"Consistent(a{100 + k}, {k});" for k in range(2)] + ["n1 = a249;"] + [f"f{f - 1}();"] * (f > 0)
        functions.append(function(f"f{f}", lines))
    return HEAD + "".join(functions) + function("main", [f"f{n - 1}();"])


def sums(n):
    """N functions, each of 16 sums of 256 numbers (120)"""
    line = "emit(r, " + "+".join(["1"] * 256) + ");"
    return "port r;\n" + "".join(function(f"f{f}", [line] * 16) for f in range(n)) + function("main", [])


def pulls(n):
    """N functions, each with ten calls inside expressions that name every nonvolatile variable (100)"""
    every = " + ".join(f"n{k}" for k in NAMES)
    functions = [function(f"f{f}", [f"let a{k} = g() + {every};" for k in range(10)]) for f in range(n)]
    return HEAD + "fn g() -> i32 { return 1; }\n" + "".join(functions) + function("main", [f"f{n - 1}();"])


def references(n):
    """N functions, each with 16 calls that pass eight nonvolatile variables by reference, and 40 sums (63)"""
    callee = "fn g(" + ", ".join(f"p{k}: &i32" for k in range(8)) + ") { }\n"
    lines = ["g(" + ", ".join(f"&n{(j * 8 + k) % 64}" for k in range(8)) + ");" for j in range(16)]
    lines += ["emit(r, " + " + ".join(["1"] * 20) + ");"] * 40
    return HEAD + callee + "".join(function(f"f{f}", lines) for f in range(n)) + function("main", [f"f{n - 1}();"])


def names(n):
    """N functions of 120 variables whose names differ in their last letters alone (32)"""
    long = "a" * 40
    lines = [f"let {long}{k:03} = {k};" for k in range(120)]
    lines += [f"emit(r, {long}119 + {long}118 + {long}117);"] * 120
    return "port r;\n" + "".join(function(f"f{f}", lines) for f in range(n)) + function("main", [])


def regions(n):
    """N functions with eight regions each (126)"""
    lines = ["if true { let x = sense(s); show(x); }"] * 8
    functions = "".join(function(f"f{f}", lines) for f in range(n))
    shown = "fn show(v: i32) { let x = v; Fresh(x); emit(r, x); }\n"
    return "sensor s;\nport r;\n" + shown + functions + function("main", [f"f{n - 1}();"])


BLOCK = "atomic { let x = sense(s); show(x); }"


def blocks(n, last=BLOCK):
    """N functions with twenty blocks each, which suffice (48)"""
    shown = "fn show(v: i32) { let x = v; Fresh(x); emit(r, x); }\n"
    functions = "".join(function(f"f{f}", [BLOCK] * 19 + [last if f == n - 1 else BLOCK]) for f in range(n))
    return "sensor s;\nport r;\n" + shown + functions + function("main", [f"f{f}();" for f in range(n)])


def gap(n):
    """the same, but for the last block, in place of which its statements stand (48)"""
    return blocks(n, "let y = sense(s);\n    show(y);")


def usual_functions(n, callee):
    """N functions of a hundred statements and a fresh variable, each of which calls what `callee` gives"""
    functions = []
    for f in range(n):
        lines = ["let x = sense(s);", "Fresh(x);", "emit(r, x);"]
        for k in range(31):
            value = "sense(s)" if k % 8 == 0 else f"n{(k + f) % 64} + {k}"
            lines += [f"let a{k} = {value};", f"n{(k * 7 + f) % 64} = a{k} * 3 + 1;", f"if a{k} > 5 {{ emit(r, a{k}); }}"]
        functions.append(function(f"f{f}", lines + [f"{g}();" for g in callee(f)]))
    return HEAD + "".join(functions)


def usual(n):
    """no hard one: N functions of a hundred statements and a fresh variable, which main calls (64)"""
    return usual_functions(n, lambda f: []) + function("main", [f"f{f}();" for f in range(n)])


def called(n):
    """the same, where each function calls the one before it (64)"""
    return usual_functions(n, lambda f: [f"f{f - 1}"] * (f > 0)) + function("main", [f"f{n - 1}();"])


def statements(n):
    """N statements, of which 8,192 are accepted (8,192; up to 100,000 are refused)"""
    return "sensor s;\nfn main() {\n" + "sense(s);\n" * n + "}\n"


def declared(n):
    return "".join(f"nv b{k}:i32=0;" for k in range(n))


def nonvolatile(n):
    """N statements with a call inside, and as many nonvolatile variables, of which 64 are accepted (64; up to 36,000)"""
    calls = "fn g() -> i32 { return 1; }\nfn h(x: i32) { }\nfn main() { " + "h(g()+1);" * n + " }\n"
    return calls + declared(n)


def parameters(n, kind):
    return ",".join(f"p{k}:{kind}" for k in range(n))


def passed(n, way="&"):
    """a call that passes N nonvolatile variables by `&`, all declared behind it (8; up to 28,000)"""
    arguments = ",".join(f"{way}b{k}" for k in range(n))
    return f"fn main() {{ g({arguments}); }}\nfn g({parameters(n, way + 'i32')}) {{ }}\n" + declared(n)


def lent(n):
    """the same by `&mut` (8; up to 23,000)"""
    return passed(n, "&mut ")


def inner(n):
    """N calls inside a statement that pass one such variable each (8; up to 27,000)"""
    calls = ",".join(f"g(&b{k})" for k in range(n))
    callees = f"fn g(x: &i32) -> i32 {{ return 1; }}\nfn h({parameters(n, 'i32')}) {{ }}\n"
    return f"fn main() {{ h({calls}); }}\n" + callees + declared(n)


def beside(n):
    """N such variables beside calls, 250 in a statement (64; up to 44,000)"""
    sums = ["+".join(f"b{k}" for k in range(first, min(first + 250, n))) for first in range(0, n, 250)]
    return "fn g() -> i32 { return 1; }\n" + function("main", [f"b0=g()+{line};" for line in sums]) + declared(n)


KINDS = [fan, chain, tied, loops, variables, sums, pulls, references, names, regions, blocks, gap, usual, called, statements, nonvolatile]
KINDS += [passed, lent, inner, beside]


def main():
    if len(sys.argv) != 3:
        sys.exit("\n".join([__doc__.strip(), *(f"    {kind.__name__}: {kind.__doc__}" for kind in KINDS)]))
    print({kind.__name__: kind for kind in KINDS}[sys.argv[1]](int(sys.argv[2])), end="")


if __name__ == "__main__":
    main()
