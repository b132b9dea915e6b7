"""The order in which the words of a page are read."""
import collections
import sys

from claim.resolve import targets


def reading_order(roots, words):
    """Returns words from the clauses down: file by file, each behind all files whose words name its own, and in a file
    each behind those that name it, where they don't name each other in a circle."""
    after, seen, known = [], set(), {word.key for word in words}

    def visit(word, fields=()):
        seen.add(word.key)
        for target in targets(word, fields):
            if target.key in known and target.key not in seen:
                visit(target)
        after.append(word)

    sys.setrecursionlimit(20000)
    for word, fields in reversed(roots):
        if word.key not in seen:
            visit(word, fields)
    order = list(reversed(after))
    rank = {file: k for k, file in enumerate(file_order(order))}
    return sorted(order, key=lambda word: rank[file_of(word)])


def file_of(word):
    return word.source.crate, word.source.label


def file_order(words):
    """Returns the files of words, crate by crate, so that a crate, and in it a file, stands behind those that name it."""
    crates = below([word.source.crate for word in words], words, lambda word: word.source.crate)
    files = below([file_of(word) for word in words], words, file_of)
    return sorted(files, key=lambda file: crates.index(file[0]))


def below(groups, words, group_of):
    """Returns groups of words so that each stands behind those whose words name its own. Of a circle, it takes the one
    first that fewest of those left name."""
    above = collections.defaultdict(set)
    left, order = list(dict.fromkeys(groups)), []
    for word in words:
        for target in targets(word):
            if group_of(target) != group_of(word):
                above[group_of(target)].add(group_of(word))
    while left:
        order.append(min(left, key=lambda group: len(above[group] & set(left))))
        left.remove(order[-1])
    return order
