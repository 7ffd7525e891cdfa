# Keys and frames in order, by walking a good memory.

import nodes
from keys import LINK
from memory import LEAF


# Everything below a node: leaf entries in order, and at a link the whole layer below it.
def walk(memory, node):
    if memory.word(node, 0) == LEAF:
        for _, kind, number in nodes.entries_of(memory, node):
            if kind == LINK:
                yield from walk(memory, number)
            else:
                yield memory.key(number), memory.frame(number)
    else:
        for child in nodes.internode_of(memory, node)[1]:
            yield from walk(memory, child)


# The list of (key, frame) in key order.
def listing(memory):
    return list(walk(memory, memory.nodes[0]))
