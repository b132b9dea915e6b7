#!/usr/bin/env python3
"""Prints lines over and over, up to so many bytes: filled.py BYTES [FIRST-LINE LINE]

Without lines these are spaces; the last line is left out where it doesn't fit."""
import sys

room, lines = int(sys.argv[1]), sys.argv[2:]
if lines:
    first, line = (text + "\n" for text in lines)
    print(first + line * ((room - len(first)) // len(line)), end="")
else:
    print(" " * room, end="")
