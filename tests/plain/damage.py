# Every single change of a few small good memories, and what the audit says to each.
#
#     python3 damage.py --all
#     python3 damage.py --sample 200 --seed 1 --crafted --lengths
#
# --all writes every change, --sample K at most K for each memory, chosen by --seed. --crafted adds memories laid out
# by hand, --lengths adds the `lent` lines, --only NAME keeps one memory.

import argparse
import random
import sys

from audit import broken_rules, is_tree
from crafted import CRAFTED
from memory import Memory, NODE_WORDS
from samples import GOOD

FORMAT = """\
# Lent memory and whether it is a tree. Numbers are decimal, fields are separated by one space.
#   memory N C              a new memory of N nodes and C cells, all zero; N and C are at most 256
#   set SLICE INDEX VALUE   one word or byte of it; SLICE is nodes, cells or bytes
#   is VERDICT              what the audit says to it now: 1 a tree, 0 not
#   try SLICE INDEX VALUE VERDICT
#                           the same with this one word or byte changed; the change is undone after it
#   lent A B C VERDICT      the same with only the first A words of nodes, B words of cells and C bytes lent
# Lines that begin with # are remarks."""

TOP = (1 << 64) - 1
BITS = (1 << 2, 1 << 3, 1 << 8, 1 << 33, 1 << 60, 1 << 63)
SLICES = ("nodes", "cells", "bytes")


# A word with two of its four-bit digits changed over.
def digits_changed_over(word, one, two):
    a, b = word >> 4 * one & 15, word >> 4 * two & 15
    return word ^ (a ^ b) << 4 * one ^ (a ^ b) << 4 * two


# The values to try in place of a word; near are some other words of the same memory.
def other_words(old, near):
    values = [0, 1, 2, 9, 10, (old + 1) & TOP, (old - 1) & TOP, TOP] + [old ^ bit for bit in BITS] + near
    values += [digits_changed_over(old, one, two) for one, two in ((1, 2), (14, 15), (1, 15))]
    return [value for value in dict.fromkeys(values) if value != old]


# The values to try in place of a byte.
def other_bytes(old):
    return [value for value in dict.fromkeys((0, old ^ 1, 255)) if value != old]


# All the single changes of a memory, as (slice, index, value).
def changes_of(memory):
    for name in ("nodes", "cells"):
        row = getattr(memory, name)
        for index, old in enumerate(row):
            near = [row[index - 1], row[(index + 1) % len(row)], row[(index + NODE_WORDS) % len(row)]]
            for value in other_words(old, near):
                yield name, index, value
    for index, old in enumerate(memory.bytes):
        for value in other_bytes(old):
            yield "bytes", index, value


# What the judge says to a memory with one change, which is undone.
def judged(memory, change, judge):
    name, index, value = change
    row = getattr(memory, name)
    old, row[index] = row[index], value
    answer = judge(memory)
    row[index] = old
    return answer


# Some of the changes, in their order: half of them in nodes, the rest in cells and bytes.
def some_of(changes, count, rng):
    chosen = []
    for name, part in zip(SLICES, (count - count // 2, count // 4, count // 4)):
        these = [change for change in changes if change[0] == name]
        picked = sorted(rng.sample(range(len(these)), min(part, len(these))))
        chosen += [these[i] for i in picked]
    return chosen


# Lengths to lend, right and wrong ones.
def lengths_of(memory):
    n, c = memory.node_count(), memory.cell_count()
    a, b, d = len(memory.nodes), len(memory.cells), len(memory.bytes)
    return [(a, b, d), (a - 1, b, d), (a - 45, b, d), (a - 47, b, d), (2, b, d), (1, b, d), (0, b, d), (a, b - 1, d),
            (a, b - 2, d), (a, b, d - 1), (a, b, d - 256), (a, b - 2, d - 256), (a, 0, 0), (a, b, 0), (0, 0, 0),
            (2 + 47 * (n - 2), b, d), (a, 2 * (c - 1), 256 * (c - 1) + 1)]


# The memory with only the first so many of each slice.
def cut_to(memory, lengths):
    a, b, c = lengths
    return Memory.of(memory.nodes[:a], memory.cells[:b], memory.bytes[:c])


# The lines that build a memory and say what it is.
def lines_of(name, memory):
    yield "# %s" % name
    yield "memory %d %d" % (memory.node_count(), memory.cell_count())
    for part in SLICES:
        for index, value in enumerate(getattr(memory, part)):
            if value:
                yield "set %s %d %d" % (part, index, value)
    yield "is %d" % is_tree(memory)


# The lines for one good memory: its contents, then the changes chosen, then the lengths.
def damage_lines(name, memory, options):
    yield from lines_of(name, memory)
    changes = list(changes_of(memory))
    if not options.all:
        changes = some_of(changes, options.sample, random.Random("%d %s" % (options.seed, name)))
    for change in changes:
        yield "try %s %d %d %d" % (*change, judged(memory, change, is_tree))
    if options.lengths:
        for lengths in lengths_of(memory):
            yield "lent %d %d %d %d" % (*lengths, is_tree(cut_to(memory, lengths)))


# For each change of a memory, and for each of the lengths lent, the set of the rules it breaks.
def rules_broken_by_damage(memory):
    for change in changes_of(memory):
        yield judged(memory, change, broken_rules)
    for lengths in lengths_of(memory):
        yield broken_rules(cut_to(memory, lengths))


# Reads what is asked for on the command line.
def options_from(arguments):
    parser = argparse.ArgumentParser(description="single changes of small good memories, with verdicts")
    parser.add_argument("--all", action="store_true")
    parser.add_argument("--sample", type=int, default=200)
    parser.add_argument("--seed", type=int, default=1)
    parser.add_argument("--crafted", action="store_true")
    parser.add_argument("--lengths", action="store_true")
    parser.add_argument("--only")
    return parser.parse_args(arguments)


# All the lines of the test file.
def file_lines(options):
    yield from FORMAT.split("\n")
    for name, make in GOOD:
        if options.only in (None, name):
            yield from damage_lines(name, make(), options)
    if options.crafted:
        for name, _, make in CRAFTED:
            yield from lines_of(name, make())


if __name__ == "__main__":
    for text in file_lines(options_from(sys.argv[1:])):
        print(text)
