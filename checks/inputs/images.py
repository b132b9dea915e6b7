#!/usr/bin/env python3
"""Prints an image of up to N bytes that is hard to look through: images.py SHAPE N

images.py alone lists the shapes. N is 60,000 at least. An image that is let through has a run that ends.
"""
import math
import struct
import sys

PUSH, LOAD, STORE, NLOAD, NSTORE, NADDR, BIN, JUMP, JFALSE, CALL, RET, DROP = 1, 2, 3, 4, 5, 7, 11, 13, 14, 15, 16, 18
SENSE, EMIT, ENTER, COMMIT, HALT = 19, 20, 22, 23, 24
GREATEST_STACK = 65536
# What an image takes at most besides its code, but for its regions and for names of more than 8 bytes.
HEAD = 12000


def numbers(*values):
    return struct.pack(f"<{len(values)}I", *values)


def step(kind, operand=0):
    return numbers(kind, 0, operand, 0)


def listed(elements):
    return numbers(len(elements)) + b"".join(elements)


def named(name, *values):
    return numbers(len(name)) + name + numbers(*values)


def size(code):
    return len(code) // 16


def many(n):
    """Returns how many instructions fit into N bytes."""
    return (n - HEAD) // 16


def image(code, functions=(), frame=0, names=((), (), ()), regions=numbers(0), stack=GREATEST_STACK):
    """Returns an image of this code, which begins with that of `main`; `regions` is a list's bytes."""
    sensors, ports, variables = map(listed, names)
    main = named(b"main", 0, 0, frame)
    return b"OCELOT1\n" + sensors + ports + variables + listed([main, *functions]) + regions + numbers(stack, size(code)) + code


def skipped(code):
    """Returns the code of a `main` that goes through this code or, as all its runs do, past it."""
    return step(PUSH) + step(JFALSE, 2 + size(code)) + code + step(HALT)


def sums(count, slot=0):
    """Returns so many sums into a slot."""
    return (step(LOAD, slot) + step(PUSH, 1) + step(BIN) + step(STORE, slot)) * count


def straight(n):
    """the greatest code"""
    return image(sums(many(n) // 4) + step(HALT), frame=1)


def deep(n):
    """operand stacks as deep as the machine's, over and over"""
    depth = min(GREATEST_STACK, many(n) // 2)
    return image((step(PUSH) * depth + step(DROP) * depth) * (many(n) // (2 * depth)) + step(HALT))


def deepest(n):
    """an operand stack as deep as the code is long, refused"""
    return image(step(PUSH) * many(n) + step(HALT))


def naming(n, length):
    """Returns an image with all names that there may be, which differ at their ends; each is used over and over."""
    names = [b"x" * (length - 3) + b"%03d" % number for number in range(64 * 3 + 127)]
    variables = [named(name, 1, 0) for name in names[128:192]]
    use = b"".join(step(SENSE, k) + step(NSTORE, k) + step(NLOAD, k) + step(EMIT, k) for k in range(64))
    use += b"".join(step(CALL, k) for k in range(1, 128))
    code = skipped(use * (many(n) // size(use)))
    functions = [named(name, size(code) + k, 0, 2) for k, name in enumerate(names[192:])]
    return image(code + step(RET) * 127, functions, names=([*map(named, names[:64])], [*map(named, names[64:128])], variables))


def names(n):
    """the most names"""
    return naming(n, 8)


def longest(n):
    """the longest names"""
    return naming(HEAD + 32768, (n - HEAD - 32768) // 320)


def functions(n):
    """the most functions, each called by the one before"""
    each = sums((many(n) - 256) // 128 // 4, 2)
    bodies = [each + step(CALL, k + 1) + step(HALT if k == 0 else RET) for k in range(127)]
    heads = [named(b"f%03d" % k, (k + 1) * size(bodies[0]), 0, 3) for k in range(127)]
    return image(b"".join(bodies) + each + step(RET), heads, frame=3)


def ranks(n):
    """the most calls, of the first of 127 functions that call each other"""
    code = skipped(step(CALL, 1) * (many(n) - 256))
    heads = [named(b"f%03d" % k, size(code) + 2 * k, 0, 2) for k in range(127)]
    return image(code + b"".join(step(CALL, k + 1) + step(RET) for k in range(1, 127)) + step(RET), heads)


def passing(n, depth, count, parameters):
    """Returns an image with calls of so many functions, of so many parameters each, from one stack of this depth."""
    places = range((many(n) - depth - count - 1) // 4)
    ways = [step(PUSH) + step(JFALSE, depth + 4 * place + 4) + step(CALL, 1 + place % count) + step(HALT) for place in places]
    code = step(PUSH) * depth + b"".join(ways) + step(HALT)
    heads = [named(b"f%03d" % k, size(code) + k, parameters, parameters + 2) for k in range(count)]
    return image(code + step(RET, parameters) * count, heads)


def calls(n):
    """the most calls of 127 functions with 64 parameters"""
    return passing(n, 64, 127, 64)


def apart(n):
    """the most calls of 127 functions that differ in what is below"""
    each = step(PUSH) + b"".join(step(CALL, k) for k in range(1, 128))
    depth = min(GREATEST_STACK - 2, (many(n) - 127) // size(each))
    code = each * depth
    heads = [named(b"f%03d" % k, size(code) + 1 + k, 0, 2) for k in range(127)]
    return image(code + step(HALT) + step(RET) * 127, heads)


def wide(n):
    """the most calls with as many parameters as the machine's stack has words"""
    depth = min(GREATEST_STACK - 2, many(n) // 2)
    return passing(n, depth, 1, depth)


def product(n):
    """127 functions with as many parameters as the code is long, refused from 1 MiB on"""
    depth = many(n) - 5 * 127 - 1
    return passing(n, depth, 127, depth)


def called(code, count, parameters):
    """Returns an image of this code of `main`, which calls so many functions, and where 65,536 words are nonvolatile."""
    heads = [named(b"f%03d" % k, size(code) + k, parameters, parameters + 2) for k in range(count)]
    return image(code + step(RET, parameters) * count, heads, names=((), (), [named(b"v", GREATEST_STACK, 0)]))


def way(start, code):
    """Returns code at this address that goes through the given code, which ends, and past it."""
    return step(PUSH) + step(JFALSE, start + 2 + size(code)) + code


def pair(n):
    """127 functions with half as many parameters, each called with two stacks that differ below, refused from 1 MiB on"""
    count = (many(n) - 127) // 2
    depth = count - 4 - 127 * 4

    def half(start, bottom):
        code = step(NADDR, bottom) + step(PUSH) * depth
        for k in range(127):
            code += way(start + size(code), step(CALL, 1 + k) + step(HALT))
        return code + step(HALT)

    first = way(0, half(2, 0))
    return called(first + half(size(first), 1), 127, depth + 1)


def others(n):
    """the most calls that each pass another stack of 4,000 words, alike below"""
    depth = 4000
    places = range((many(n) - depth - 2) // 6)
    ways = [way(depth + 6 * k, step(NADDR, k % 65536) + step(NADDR, k // 65536) + step(CALL, 1) + step(HALT)) for k in places]
    return called(step(PUSH) * depth + b"".join(ways) + step(HALT), 1, depth)


def windows(n):
    """the most calls that each pass other words of a stack as deep as the machine's, half of it"""
    depth = min((GREATEST_STACK - 4) // 2, many(n) // 8)
    turns = min(127, (many(n) - depth - 128) // (6 * depth))
    code = [step(PUSH) * depth]
    for turn in range(turns):
        start = depth + 6 * depth * turn
        code += [step(PUSH) + way(start + 5 * k + 1, step(CALL, 1 + turn) + step(HALT)) for k in range(depth)]
        code.append(step(DROP) * depth)
    return called(b"".join(code) + step(HALT), turns, depth)


def entering(regions):
    return image(step(ENTER, 1) + step(COMMIT, 1) + step(HALT), regions=regions, names=((), (), [named(b"v", 1, 0)]))


def regions(n):
    """the most regions"""
    count = (n - HEAD) // 4
    return entering(numbers(count) + bytes(4 * count))


def targets(n):
    """the most regions with a target"""
    count = (n - HEAD) // 16
    return entering(numbers(count) + numbers(1, 0, 0, 1) * count)


def region(n):
    """a region with the most targets"""
    count = (n - HEAD) // 12
    return entering(numbers(1, count) + numbers(0, 0, 1) * count)


def nested(n):
    """the most regions in one another"""
    count = many(n) // 2
    return image(step(ENTER, 1) * count + step(COMMIT, 1) * count + step(HALT), regions=numbers(1, 0))


def jumps(n):
    """the most jumps, each far away"""
    count = many(n)
    far = next(far for far in range(count * 5 // 13, count) if math.gcd(far, count) == 1)
    last = -far % count
    code = b"".join(step(JUMP, (place + far) % count) for place in range(count))
    return image(code[: 16 * last] + step(HALT) + code[16 * (last + 1) :])


def joins(n):
    """the most jumps that meet, above a stack as deep as the machine's"""
    depth = min(GREATEST_STACK - 2, many(n) // 2)
    count = (many(n) - depth) // 2
    return image(step(PUSH) * depth + (step(PUSH) + step(JFALSE, depth + 2 * count)) * count + step(HALT))


def words(n):
    """the most nonvolatile words"""
    variables = [named(b"v%02d" % k, 1024, k) for k in range(64)]
    code = b"".join(step(NLOAD, 65535 - k) + step(NSTORE, k) for k in range(min(65536, many(n) // 2)))
    return image(code * (many(n) // size(code)) + step(HALT), names=((), (), variables))


def byte(n):
    """a byte behind the greatest code, bad"""
    return straight(n - 1) + b"\0"


def rule(n):
    """the greatest code, where the last address breaks the last rule, refused"""
    return image(sums(many(n) // 4 - 1) + step(PUSH) * 3 + step(HALT), frame=1, stack=3)


SHAPES = [straight, deep, deepest, names, longest, functions, ranks, calls, apart, wide, product, pair, others, windows, regions, targets, region, nested, jumps, joins, words, byte, rule]

if len(sys.argv) == 3:
    shape = {made.__name__: made for made in SHAPES}[sys.argv[1]]
    sys.stdout.buffer.write(shape(int(sys.argv[2])))
else:
    for made in SHAPES:
        print(f"{made.__name__:<10} {made.__doc__}")
