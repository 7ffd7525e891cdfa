# Random calls on the plain index, and seasons of calls that fill and empty layers, their answers, and a sum of the whole memory after
# each, in the fixed lines that crate replay_index reads.
#
#     python3 calls.py --memories 9 --calls 30 --seed 1 > ../crates/replay_index/stdin
#
# A line has 570 bytes: the call (m a new memory of zeros, c clear, p put, d remove, f find, k k-th, n count), its number in two hex
# digits, a frame number in sixteen, a number in sixteen (k for k-th; the number of entries for a count; for a put the slots that rest, with
# 14 the nodes lacking, with another refusal 0; for m eight digits N and eight C), the sum in sixteen, the key's length in four, the key in
# 514 filled up with zeros, and a line feed. For k-th the key is the entry's. The sum begins with 1 and takes, for each word of nodes, of
# cells and each byte, three times itself and the number, modulo 2^64.

import argparse
import os
import random
import sys

sys.path.insert(0, os.path.join(os.path.dirname(os.path.abspath(__file__)), "plain"))

import index
from memory import Memory
from seasons import SEASONS

TOP = (1 << 64) - 1
SIZES = [(1, 1), (2, 20), (3, 20), (5, 40), (20, 40), (34, 6), (40, 128), (64, 128), (255, 255)]


# The sum of a whole memory.
def sum_of(memory):
    total = 1
    for part in (memory.nodes, memory.cells, memory.bytes):
        for value in part:
            total = (3 * total + value) & TOP
    return total


# One fixed line.
def line(call, number=0, frame=0, value=0, total=0, key=b""):
    return "%s%02x%016x%016x%016x%04x%s\n" % (call, number, frame, value, total, len(key), key.hex().ljust(514, "0"))


# Keys of one kind: short ones of few letters, numbers, long ones with a common beginning, zeros, and any.
def key_of(rng, kind):
    if kind == 0:
        return bytes(rng.choice(b"ab\0") for _ in range(rng.randint(0, 12)))
    if kind == 1:
        return rng.randint(0, 600).to_bytes(8, "big")
    if kind == 2:
        return b"A" * rng.choice([8, 16, 24, 200, 240, 248]) + bytes(rng.choice(b"xy") for _ in range(rng.randint(0, 9)))
    if kind == 3:
        return bytes(rng.randint(0, 30))
    return bytes(rng.randint(0, 255) for _ in range(rng.choice([3, 8, 9, 17, 256, 257])))


# A put, made on the memory, as a line.
def put_line(memory, key, frame):
    answer = index.put(memory, key, frame, audited=True)
    return line("p", answer.number, frame, answer.lacking or answer.resting or 0, sum_of(memory), key)


# A removal, made on the memory, as a line.
def remove_line(memory, key):
    return line("d", index.remove(memory, key, audited=True).number, 0, 0, sum_of(memory), key)


# A count, made on the memory, as a line.
def count_line(memory):
    answer = index.count(memory)
    return line("n", answer.number, 0, answer.count or 0, sum_of(memory))


# One random call, made on the memory, as a line.
def random_call(rng, memory, kind, growing):
    key = key_of(rng, kind if kind < 5 else rng.randrange(5))
    call = rng.choice("pppppppfdk" if growing else "ppfdddk")
    if call == "p":
        frame = rng.choice((0, TOP, rng.getrandbits(64)))
        return put_line(memory, key, frame)
    if call == "d":
        return remove_line(memory, key)
    if call == "f":
        answer = index.find(memory, key, audited=True)
        return line("f", answer.number, answer.frame or 0, 0, sum_of(memory), key)
    k = rng.choice((0, rng.randint(0, 40), rng.randint(0, 260)))
    answer = index.kth(memory, k, audited=True)
    return line("k", answer.number, answer.frame or 0, k, sum_of(memory), answer.key or b"")


# Two keys of 256 bytes that differ in the last byte: the second put needs 31 nodes, and gets 14 with 1 lacking where one fewer is free.
def long_pair(nodes):
    memory = Memory(nodes, 2)
    yield line("m", 0, 0, (nodes << 32) + 2)
    yield line("c", index.clear(memory).number, 0, 0, sum_of(memory))
    for last in (b"a", b"b"):
        yield put_line(memory, b"k" * 255 + last, 7)


# Labels filed and taken out again, season after season, and a count at the end.
def season_calls(size, calls):
    memory = Memory(*size)
    yield line("m", 0, 0, (size[0] << 32) + size[1])
    yield line("c", index.clear(memory).number, 0, 0, sum_of(memory))
    for key, frame in calls:
        yield remove_line(memory, key) if frame is None else put_line(memory, key, frame)
    yield count_line(memory)


# All calls on one memory.
def calls_on(rng, size, kind, count):
    memory = Memory(*size)
    yield line("m", 0, 0, (size[0] << 32) + size[1])
    yield line("c", index.clear(memory).number, 0, 0, sum_of(memory))
    for i in range(count):
        yield random_call(rng, memory, kind, i < 2 * count // 3)
        if i % 10 == 9:
            yield count_line(memory)


def main():
    options = argparse.ArgumentParser()
    options.add_argument("--memories", type=int, default=12)
    options.add_argument("--calls", type=int, default=30)
    options.add_argument("--seed", type=int, default=1)
    chosen = options.parse_args()
    rng = random.Random(chosen.seed)
    for i in range(chosen.memories):
        for text in calls_on(rng, SIZES[i % len(SIZES)], i % 7, chosen.calls):
            sys.stdout.write(text)
    for nodes in (32, 31):
        for text in long_pair(nodes):
            sys.stdout.write(text)
    for _, size, calls in SEASONS:
        for text in season_calls(size, calls):
            sys.stdout.write(text)


main()
