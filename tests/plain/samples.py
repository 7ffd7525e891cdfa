# A few small good memories of one to three layers and more, each made by calls, and one laid out by hand. Where keys were taken out, it was
# before empty layers were given back, so that some have such layers.

import index
import nodes
from keys import LINK, LONGER
from memory import Memory


# A cleared memory.
def fresh(n, c):
    memory = Memory(n, c)
    index.clear(memory)
    return memory


# Makes calls that must all be accepted: (key, frame) puts, (key, None) takes the key out and gives no layer back.
def run(memory, calls):
    for key, frame in calls:
        if frame is None:
            index.take_out(memory, index.locate(memory, key))
            continue
        answer = index.put(memory, key, frame)
        if answer.number:
            raise ValueError("refused %d" % answer.number)
    return memory


# Calls that leave a link with an emptied layer below it, and no cell.
def emptied_layer(prefix):
    return [(prefix + b"a", 1), (prefix + b"bc", 2), (prefix + b"a", None), (prefix + b"bc", None)]


# Calls that split a leaf with ten cells only: six links to emptied layers, then ten short keys.
def split_calls():
    calls = []
    for i in range(6):
        calls += emptied_layer(b"layer-%02d" % (2 * i))
    return calls + [(b"m%c" % (97 + i), 1000 + i) for i in range(10)]


# Just cleared.
def cleared():
    return fresh(8, 4)


# A leaf that was split, and the internode above it.
def split():
    return run(fresh(10, 10), split_calls())


# Keys that share forty bytes, in a chain of layers, with one leaving it half way.
def chain():
    stem = bytes(range(1, 41))
    return run(fresh(10, 5), [
        (stem + b"one", 1), (stem + b"two, longer than eight", 2 ** 64 - 1), (stem[:20], 3), (b"", 0)])


# A split leaf whose right half was emptied again.
def emptied():
    last = [(b"m%c" % (97 + i), None) for i in range(2, 10)]
    return run(fresh(9, 10), split_calls() + last + [(b"Again", 5)])


# Removals and reuse in three layers: slots, cells and frees in mixed order.
def reuse():
    words = [b"", b"\0", b"\0\0", b"abcdefgh", b"abcdefgh\0", b"abcdefghijklmnop", b"abcdefghijklmnopq"]
    calls = [(word, 10 + i) for i, word in enumerate(words)]
    calls += [(b"\0", None), (b"abcdefgh\0", None), (b"abcdefghijklmnopr", 30), (b"zz", 31), (b"", None), (b"a", 0)]
    return run(fresh(9, 8), calls)


# Ten entries of one ikey beside a cut that moved out of their way.
def ten_equal():
    calls = [(bytes(i), i) for i in range(10)] + [(b"\1%c" % i, 50 + i) for i in range(6)]
    return run(fresh(4, 16), calls)


# As deep as it goes: two keys of 256 bytes that differ in the last.
def deepest():
    stem = bytes(255)
    return run(fresh(33, 3), [(stem + b"\1", 1), (stem + b"\2", 2)])


# Three levels in the layer below a link, laid out by hand: few entries, so that it stays small.
def tall():
    memory = Memory(10, 8)
    memory.nodes[0] = 3
    nodes.write_leaf(memory, 3, [(7, 8, 0), (9, LINK, 0)])
    nodes.write_internode(memory, 0, [1 << 40], [1, 2])
    nodes.write_internode(memory, 1, [0, 1 << 32], [4, 5, 6])
    nodes.write_internode(memory, 2, [1 << 56], [7, 8])
    nodes.write_leaf(memory, 4, [])
    place_keys(memory, 5, [(1, 0, b"\0"), (2, 1 << 31, b"\0\0\0\0\x80\0\0\0")])
    place_keys(memory, 6, [(5, 1 << 32, b"\0\0\0\1\0\0\0\0 and more")])
    place_keys(memory, 7, [(4, 1 << 40, b"\0\0\1")])
    place_keys(memory, 8, [(3, 1 << 56, b"\1"), (6, 2 << 56, b"\2\0\0\0\0\0\0\0\0")])
    memory.set_cell(0, (7).to_bytes(8, "big"), 70)
    return memory


# Writes a leaf below the link of ikey 9, and the cells of its keys; each is (cell, ikey, rest of the key).
def place_keys(memory, leaf, keys):
    nodes.write_leaf(memory, leaf, [(ikey, min(len(rest), LONGER), cell) for cell, ikey, rest in keys])
    for cell, _, rest in keys:
        memory.set_cell(cell, (9).to_bytes(8, "big") + rest, 100 + cell)


# All of them by name.
GOOD = [("cleared", cleared), ("split", split), ("chain", chain), ("emptied", emptied), ("reuse", reuse),
        ("ten equal", ten_equal), ("tall", tall), ("deepest", deepest)]
