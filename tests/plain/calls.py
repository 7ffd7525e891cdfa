# Calls on lent memory, the answer to each, and a sum of the whole memory after it.
#
#     python3 calls.py --count 200 --seed 1
#
# --count is the number of calls on each memory.

import argparse
import random
import sys

import index
from damage import SLICES, changes_of
from memory import Memory
from samples import GOOD

FORMAT = """\
# Calls on lent memory. Numbers are decimal, keys are lower-case hex or - for the empty key, one space between fields.
# NUMBER is 0 for accepted, else the refusal; where a call is refused, the fields after NUMBER are 0 and -.
#   memory N C              a new memory of N nodes and C cells, all zero
#   set SLICE INDEX VALUE   one word or byte of it; SLICE is nodes, cells or bytes
#   clear NUMBER
#   put KEY FRAME NUMBER
#   del KEY NUMBER
#   find KEY NUMBER FRAME
#   kth K NUMBER KEY FRAME
#   sum VALUE               from 14695981039346656037, for each word of nodes, of cells, and each byte, in this order:
#                           exclusive or with it, then times 1099511628211, modulo 2^64
# Lines that begin with # are remarks."""

SIZES = [(1, 1), (1, 20), (2, 20), (3, 20), (4, 17), (5, 40), (8, 12), (20, 40), (34, 6)]
START, FACTOR, TOP = 14695981039346656037, 1099511628211, (1 << 64) - 1


# The sum of a whole memory.
def sum_of(memory):
    total = START
    for part in SLICES:
        for value in getattr(memory, part):
            total = (total ^ value) * FACTOR & TOP
    return total


# How a key is written.
def shown(key):
    return key.hex() if key else "-"


# A key that often shares its beginning with others, now and then of the longest or too long.
def random_key(rng):
    stem = rng.choice((b"", b"", b"", b"abcdefgh", b"abcdefghABCDEFGH", bytes(8), bytes(24)))
    key = stem + bytes(rng.choice(b"\0\0\1b\xff") for _ in range(rng.randrange(0, 11)))
    long = key.ljust(rng.choice((255, 256, 256, 257)), b"q")[:rng.choice((256, 257))]
    return rng.choice((key, key, key, key, rng.randrange(3000).to_bytes(2, "big"), long))


# The line of a put: with 14 the nodes lacking stand behind the number, with 0 the slots that rest.
def put_line(key, frame, answer):
    told = answer.lacking if answer.number else answer.resting
    return "put %s %d %d" % (shown(key), frame, answer.number) + ("" if told is None else " %d" % told)


# Makes one random call and gives its line.
def random_call(rng, memory, stored):
    key = rng.choice(sorted(stored)) if stored and rng.random() < 0.35 else random_key(rng)
    kind = rng.choice(("put",) * 6 + ("del",) * 3 + ("find", "kth"))
    if kind == "put":
        frame = rng.choice((0, TOP, rng.randrange(1 << 64)))
        answer = index.put(memory, key, frame)
        stored.update({key} if answer.number == 0 else ())
        return put_line(key, frame, answer)
    if kind == "del":
        number = index.remove(memory, key).number
        stored.difference_update({key} if number == 0 else ())
        return "del %s %d" % (shown(key), number)
    if kind == "find":
        answer = index.find(memory, key)
        return "find %s %d %d" % (shown(key), answer.number, answer.frame or 0)
    k = rng.choice((0, rng.randrange(len(stored) + 2), TOP))
    answer = index.kth(memory, k)
    return "kth %d %d %s %d" % (k, answer.number, shown(answer.key), answer.frame or 0)


# The lines that build a memory that is not zero.
def setting(memory):
    for part in SLICES:
        for i, value in enumerate(getattr(memory, part)):
            if value:
                yield "set %s %d %d" % (part, i, value)


# Some random calls, each followed by the sum.
def calls_on(memory, rng, count):
    stored = set(key for key, _ in index.listing(memory)) if index.is_tree(memory) else set()
    for i in range(count):
        yield random_call(rng, memory, stored)
        yield "sum %d" % sum_of(memory)
        if i % 10 == 9:
            answer = index.count(memory)
            yield "count %d %d" % (answer.number, answer.count or 0)


# A cleared memory of each size.
def on_cleared(rng, count):
    for n, c in SIZES:
        memory = Memory(n, c)
        yield "memory %d %d" % (n, c)
        yield "clear %d" % index.clear(memory).number
        yield from calls_on(memory, rng, count)


# One layer, at the top or below links, that grows to three levels, or for want of one node does not.
def on_growing(rng, count):
    for stem, n, step in ((b"", 19, 1), (b"", 20, -1), (b"", 20, 1), (bytes(16), 22, 1), (bytes(16), 21, -1)):
        memory = Memory(n, 140)
        yield "memory %d 140" % n
        yield "clear %d" % index.clear(memory).number
        for i, number in enumerate(range(1, 142)[::step]):
            key = stem + number.to_bytes(2, "big")
            yield put_line(key, i, index.put(memory, key, i))
            if i % 10 == 0 or i > 130:
                yield "sum %d" % sum_of(memory)


# Each sample: some calls, then one change of it at random, calls on that, and clear.
def on_samples(rng, count):
    for name, make in GOOD:
        for damaged in (False, True):
            memory = make()
            yield "# %s%s" % (name, ", changed" if damaged else "")
            yield "memory %d %d" % (memory.node_count(), memory.cell_count())
            if damaged:
                part, i, value = rng.choice(list(changes_of(memory)))
                getattr(memory, part)[i] = value
            yield from setting(memory)
            yield from calls_on(memory, rng, count // 10)
            yield "clear %d" % index.clear(memory).number
            yield "sum %d" % sum_of(memory)


# All the lines of the test file.
def file_lines(seed, count):
    yield from FORMAT.split("\n")
    for lines in (on_cleared, on_growing, on_samples):
        yield from lines(random.Random(seed), count)


# Prints the test file.
def main(arguments):
    parser = argparse.ArgumentParser(description="calls on lent memory with answers and sums")
    parser.add_argument("--count", type=int, default=200)
    parser.add_argument("--seed", type=int, default=1)
    options = parser.parse_args(arguments)
    for line in file_lines(options.seed, options.count):
        print(line)


if __name__ == "__main__":
    main(sys.argv[1:])
