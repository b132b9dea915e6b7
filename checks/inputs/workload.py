#!/usr/bin/env python3
"""Prints a source that runs long: workload.py KIND N; workload.py alone lists the kinds."""
import sys


def arithmetic(n):
    """N turns of a loop of arithmetic"""
    return f"""sensor s;
port r;
fn main() {{
    let mut a = 1;
    let mut b = 7;
    for i in 0..{n} {{
        for j in 0..100 {{
            a = a * 31 + b - i % 17;
            b = b + a / 3;
        }}
    }}
    emit(r, a);
}}
"""


def turns(n):
    """N times 1,000 turns of an empty loop"""
    return f"sensor s;\nfn main() {{ for i in 0..{n} {{ for j in 0..1000 {{ }} }} }}\n"


def calls(n):
    """N times 100 calls that work on a nonvolatile array"""
    return f"""sensor s;
port r;
nv ring: [i32; 16] = 0;
nv head: i32 = 0;
fn push(v: i32) {{
    ring[head] = v;
    head = (head + 1) % 16;
}}
fn main() {{
    for i in 0..{n} {{
        for j in 0..100 {{
            push(i);
        }}
    }}
    emit(r, ring[0]);
}}
"""


def regions(n):
    """N regions that log two words each"""
    return f"""sensor s;
port r;
nv sum: i32 = 0;
nv count: i32 = 0;
fn main() {{
    for i in 0..{n} {{
        let x = sense(s);
        Fresh(x);
        sum = sum + x;
        count = count + 1;
        emit(r, x);
    }}
}}
"""


def straight(n):
    """N sums of eight numbers, one behind the other"""
    lines = "    emit(r, 1 + 2 + 3 + 4 + 5 + 6 + 7 + 8);\n" * n
    return "sensor s;\nport r;\nfn main() {\n" + lines + "}\n"


def one(_):
    """one statement, whatever N is"""
    return "sensor s;\nfn main() {\n    sense(s);\n}\n"


KINDS = [arithmetic, turns, calls, regions, straight, one]


def main():
    if len(sys.argv) != 3:
        sys.exit("\n".join([__doc__.strip(), *(f"    {kind.__name__}: {kind.__doc__}" for kind in KINDS)]))
    print({kind.__name__: kind for kind in KINDS}[sys.argv[1]](int(sys.argv[2])), end="")


if __name__ == "__main__":
    main()
