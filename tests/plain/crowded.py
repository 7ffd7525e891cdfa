# Memories as full as they get, made by calls: what the audit is measured on.

import random

import index
from samples import fresh

LENGTHS = (8, 16, 64, 256)
DEEP_STEMS = 7
MISSES = 1000


# Some random bytes, of a length up to one of four.
def tail(rng):
    return bytes(rng.randrange(256) for _ in range(rng.randint(0, rng.choice(LENGTHS))))


# A random key. Where layers are wanted it begins as one that is stored.
def key_for(keys, layers, rng):
    key = tail(rng)
    if layers and keys:
        other = rng.choice(keys)
        key = other[:8 * rng.randint(1, 1 + len(other) // 8)] + key
    return key[:256]


# Random keys of mixed lengths until the cells run out, or nearly: new layers while more nodes than cells are free.
def crowded(n, c):
    rng = random.Random("%d %d" % (n, c))
    memory, keys, misses = fresh(n, c), [], 0
    while memory.free_cells() and misses < MISSES:
        key = key_for(keys, len(memory.free_nodes()) > len(memory.free_cells()), rng)
        if index.put(memory, key, rng.randrange(1 << 64), audited=True).number:
            misses += 1
        else:
            keys.append(key)
    return memory


# Keys of 256 bytes that differ in the first eight or the last eight only: chains of 31 links, and the cells below them.
def deep(n, c):
    rng = random.Random("%d %d" % (n, c))
    memory = fresh(n, c)
    stems = [bytes([i]) + bytes(rng.randrange(256) for _ in range(247)) for i in range(DEEP_STEMS)]
    for i in range(c):
        last = bytes(rng.randrange(256) for _ in range(8))
        index.put(memory, stems[i % DEEP_STEMS] + last, rng.randrange(1 << 64), audited=True)
    return memory


KINDS = {"cleared": fresh, "crowded": crowded, "deep": deep}
