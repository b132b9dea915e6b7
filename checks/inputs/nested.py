#!/usr/bin/env python3
"""Prints a source of one deep statement: nested.py BLOCKS BRACKETS OPERATORS

In so many blocks inside that of main stands a call that stands in another, so many in one another, and each is
followed by so many additions."""
import sys

blocks, brackets, operators = map(int, sys.argv[1:])
print("fn f(v: i32) -> i32 { return v; }")
print("fn main() {" + "if true {" * blocks)
print("let x = " + "f(" * brackets + "1")
print("\n".join([")" + " + 1" * operators] * brackets) + ";")
print("}" * (blocks + 1))
