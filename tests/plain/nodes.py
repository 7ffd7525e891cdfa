# Nodes as lists: a leaf is its entries (ikey, class, number) in order, an internode its ikeys and children.

import words
from memory import LEAF, INTERNODE

WIDTH = 15
IKEYS, CLASSES, NUMBERS = 2, 17, 32
CHILDREN = 17


# The entry in a slot.
def entry_at(memory, leaf, slot):
    return tuple(memory.word(leaf, column + slot) for column in (IKEYS, CLASSES, NUMBERS))


# Writes the entry in a slot.
def set_entry(memory, leaf, slot, entry):
    for column, value in zip((IKEYS, CLASSES, NUMBERS), entry):
        memory.set_word(leaf, column + slot, value)


# The entries of a leaf, in order.
def entries_of(memory, leaf):
    return [entry_at(memory, leaf, slot) for slot in words.in_use(memory.word(leaf, 1))]


# Writes a leaf anew: the entries in slots 0 and on, zeros in the others.
def write_leaf(memory, leaf, entries):
    memory.set_node(leaf, [LEAF, words.make_sorted(WIDTH, len(entries))])
    for slot, entry in enumerate(entries):
        set_entry(memory, leaf, slot, entry)


# Puts an entry at a position of a leaf with room.
def add_entry(memory, leaf, position, entry):
    word = words.insert_from_back(memory.word(leaf, 1), WIDTH, position)
    memory.set_word(leaf, 1, word)
    set_entry(memory, leaf, words.slot_at(word, position), entry)


# Takes the entry at a position out of a leaf and zeroes its slot.
def drop_entry(memory, leaf, position):
    word = memory.word(leaf, 1)
    set_entry(memory, leaf, words.slot_at(word, position), (0, 0, 0))
    memory.set_word(leaf, 1, words.remove(word, WIDTH, position))


# The ikeys and the children of an internode.
def internode_of(memory, node):
    row, n = memory.node(node), memory.word(node, 1)
    return row[IKEYS:IKEYS + n], row[CHILDREN:CHILDREN + n + 1]


# Writes an internode anew, zeros in the places not in use.
def write_internode(memory, node, ikeys, children):
    memory.set_node(node, [INTERNODE, len(ikeys)] + ikeys + [0] * (WIDTH - len(ikeys)) + children)
