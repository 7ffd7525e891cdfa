# Memories laid out by hand to test one sentence of the rules each, good and bad.

import nodes
import words
from keys import LINK
from memory import Memory, INTERNODE
from samples import chain, fresh, reuse, run, split

SHORT = 2


# The ikey of a two-byte key.
def short_ikey(number):
    return number << 48


# Cell i holds the two-byte key of number i + 1, for the first few cells.
def with_cells(n, c, used):
    memory = Memory(n, c)
    for cell in range(used):
        memory.set_cell(cell, (cell + 1).to_bytes(2, "big"), cell)
    return memory


# The entry for the two-byte key in a cell.
def short(cell):
    return short_ikey(cell + 1), SHORT, cell


# One leaf whose entries stand in the order given.
def leaf_with(entries, cells=4):
    memory = with_cells(3, cells, cells)
    nodes.write_leaf(memory, 0, entries)
    return memory


# An internode over two leaves, cells 0 and 1 to the left and 2 and 3 to the right of its ikey.
def two_leaves(ikey, left=(0, 1), right=(2, 3)):
    memory = with_cells(4, 4, 4)
    nodes.write_internode(memory, 0, [ikey], [1, 2])
    nodes.write_leaf(memory, 1, [short(cell) for cell in left])
    nodes.write_leaf(memory, 2, [short(cell) for cell in right])
    return memory


# Internodes without ikeys over one another, then a leaf.
def tower(height):
    memory = with_cells(height + 1, 1, 1)
    for node in range(height):
        nodes.write_internode(memory, node, [], [node + 1])
    nodes.write_leaf(memory, height, [short(0)])
    return memory


# Links one below the other, and an empty layer at the end.
def links(count):
    memory = Memory(count + 1, 1)
    for node in range(count):
        nodes.write_leaf(memory, node, [(node, LINK, node + 1)])
    nodes.write_leaf(memory, count, [])
    return memory


# A link to a second layer that holds this key at this class.
def below_link(key, ikey, kind):
    memory = Memory(2, 1)
    nodes.write_leaf(memory, 0, [(0, LINK, 1)])
    nodes.write_leaf(memory, 1, [(ikey, kind, 0)])
    memory.set_cell(0, key, 3)
    return memory


# An internode over internodes, with these ikeys in the three of them and all leaves empty.
def nested(top, left, right):
    memory = Memory(7, 1)
    nodes.write_internode(memory, 0, [top], [1, 2])
    nodes.write_internode(memory, 1, [left], [3, 4])
    nodes.write_internode(memory, 2, [right], [5, 6])
    for leaf in range(3, 7):
        nodes.write_leaf(memory, leaf, [])
    return memory


# A root with a leaf on one side and a leaf one deeper on the other.
def uneven():
    memory = Memory(4, 1)
    nodes.write_internode(memory, 0, [5], [1, 2])
    nodes.write_internode(memory, 2, [], [3])
    for leaf in (1, 3):
        nodes.write_leaf(memory, leaf, [])
    return memory


# A full internode, its ikeys in the order given.
def wide(ikeys):
    memory = Memory(17, 1)
    nodes.write_internode(memory, 16, ikeys, list(range(16)))
    memory.nodes[0] = 16
    for leaf in range(16):
        nodes.write_leaf(memory, leaf, [])
    return memory


# An internode with sixteen ikeys and seventeen children: child 0 doubles as the last ikey, nothing else is amiss.
def sixteen_ikeys():
    memory = Memory(21, 1)
    memory.nodes[0] = 1
    memory.set_node(1, [INTERNODE, 16] + list(range(15)) + [20] + list(range(2, 17)) + [0])
    for leaf in [0, 20] + list(range(2, 17)):
        nodes.write_leaf(memory, leaf, [])
    return memory


# Two links to one layer.
def shared_layer():
    memory = Memory(2, 1)
    nodes.write_leaf(memory, 0, [(1, LINK, 1), (2, LINK, 1)])
    nodes.write_leaf(memory, 1, [])
    return memory


# An internode that is its own child, or a leaf that links to itself.
def circle(kind):
    memory = Memory(2, 1)
    if kind == INTERNODE:
        nodes.write_internode(memory, 0, [], [0])
    else:
        nodes.write_leaf(memory, 0, [(1, LINK, 0)])
    return memory


# A longer key and a link of one ikey in one leaf.
def twins():
    memory = Memory(2, 1)
    memory.set_cell(0, bytes(9), 0)
    nodes.write_leaf(memory, 0, [(0, 9, 0), (0, LINK, 1)])
    nodes.write_leaf(memory, 1, [])
    return memory


# A good memory with one leaf's slots spread out: order kept, other slots used.
def other_slots():
    memory = run(fresh(1, 3), [(b"a", 1), (b"b", 2), (b"c", 3)])
    entries = nodes.entries_of(memory, 0)
    memory.set_node(0, [1, words.packed(3, [14, 3, 9] + [s for s in range(15) if s not in (14, 3, 9)])])
    for slot, entry in zip((14, 3, 9), entries):
        nodes.set_entry(memory, 0, slot, entry)
    return memory


# One leaf with one entry, no cell in use.
def lone_entry(entry):
    memory = Memory(2, 2)
    nodes.write_leaf(memory, 0, [entry])
    return memory


# A memory changed in several places: each is (list, index, value).
def changed(memory, changes):
    for name, index, value in changes:
        getattr(memory, name)[index] = value
    return memory


# The numbers of two cells change places in a leaf, or the cells do so too.
def swapped_cells(both):
    memory = run(fresh(1, 2), [(b"a", 1), (b"b", 2)])
    one, two = nodes.entries_of(memory, 0)
    nodes.write_leaf(memory, 0, [one[:2] + two[2:], two[:2] + one[2:]])
    if both:
        memory.set_cell(0, b"b", 2)
        memory.set_cell(1, b"a", 1)
    return memory


# Name, verdict and maker of each.
CRAFTED = [
    ("entries in order", 1, lambda: leaf_with([short(0), short(1), short(2), short(3)])),
    ("entries out of order", 0, lambda: leaf_with([short(0), short(2), short(1), short(3)])),
    ("one entry twice", 0, lambda: leaf_with([short(0), short(1), short(1), short(2), short(3)])),
    ("a cell without an entry", 0, lambda: leaf_with([short(0), short(1), short(2)])),
    ("separator at the right half's first", 1, lambda: two_leaves(short_ikey(3))),
    ("separator just above the left half's last", 1, lambda: two_leaves(short_ikey(2) + 1)),
    ("separator at the left half's last", 0, lambda: two_leaves(short_ikey(2))),
    ("separator above the right half's first", 0, lambda: two_leaves(short_ikey(3) + 1)),
    ("halves changed over", 0, lambda: two_leaves(short_ikey(3), (2, 3), (0, 1))),
    ("left half empty", 1, lambda: two_leaves(0, (), (0, 1, 2, 3))),
    ("right half empty", 1, lambda: two_leaves(2 ** 64 - 1, (0, 1, 2, 3), ())),
    ("one internode without ikeys", 1, lambda: tower(1)),
    ("a tower of internodes", 1, lambda: tower(9)),
    ("the tallest tower", 1, lambda: tower(254)),
    ("31 links", 1, lambda: links(31)),
    ("32 links", 0, lambda: links(32)),
    ("the most links nodes allow", 0, lambda: links(254)),
    ("key that goes on below a link", 1, lambda: below_link(bytes(9), 0, 1)),
    ("key that ends at a link", 0, lambda: below_link(bytes(8), 0, 0)),
    ("key with another ikey than the link", 0, lambda: below_link(b"\1" + bytes(8), 0, 1)),
    ("class below that of the key", 0, lambda: below_link(bytes(10), 0, 1)),
    ("longer key below a link", 1, lambda: below_link(bytes(17), 0, 9)),
    ("key of 256 bytes in the second layer", 1, lambda: below_link(bytes(8) + b"\xff" * 248, 2 ** 64 - 1, 9)),
    ("ikeys between those above", 1, lambda: nested(10, 0, 11)),
    ("ikey at the one to its left", 0, lambda: nested(10, 0, 10)),
    ("ikey at the one to its right", 0, lambda: nested(10, 10, 11)),
    ("ikey below the one to its left", 0, lambda: nested(10, 5, 9)),
    ("largest ikey at the right edge", 1, lambda: nested(10, 9, 2 ** 64 - 1)),
    ("leaves of two depths", 0, uneven),
    ("full internode", 1, lambda: wide(list(range(15)))),
    ("full internode with two equal ikeys", 0, lambda: wide(list(range(14)) + [13])),
    ("layer below two links", 0, shared_layer),
    ("internode in a circle", 0, lambda: circle(INTERNODE)),
    ("link in a circle", 0, lambda: circle(LINK)),
    ("longer key and link of one ikey", 0, twins),
    ("other slots in use", 1, other_slots),
    ("cell numbers changed over", 0, lambda: swapped_cells(False)),
    ("cells changed over with them", 1, lambda: swapped_cells(True)),
    ("free slots in another order", 1, lambda: changed(fresh(1, 1), [("nodes", 3, 0x123456789ABCDE00)])),
    ("free cell with a frame", 0, lambda: changed(fresh(1, 1), [("cells", 1, 5)])),
    ("free cell with a mark and an empty key", 0, lambda: changed(fresh(1, 1), [("cells", 0, 1)])),
    ("free node with the kind of a leaf", 0, lambda: changed(fresh(2, 1), [("nodes", 49, 1)])),
    ("empty leaf no one reaches", 0, lambda: changed(
        fresh(2, 1), [("nodes", 49, 1), ("nodes", 50, words.empty(15))])),
    ("root in another place", 1, lambda: changed(
        fresh(2, 1), [("nodes", 0, 1), ("nodes", 2, 0), ("nodes", 3, 0), ("nodes", 49, 1),
                      ("nodes", 50, words.empty(15))])),
    ("255 nodes and cells", 1, lambda: fresh(255, 255)),
    ("256 nodes", 0, lambda: changed(Memory(256, 1), [("nodes", 2, 1), ("nodes", 3, words.empty(15))])),
    ("256 cells", 0, lambda: changed(Memory(1, 256), [("nodes", 2, 1), ("nodes", 3, words.empty(15))])),
    ("all zero", 0, lambda: Memory(2, 2)),
    ("root that is no node", 0, lambda: changed(Memory(2, 2), [("nodes", 0, 2)])),
    ("child that is no node", 0, lambda: changed(Memory(2, 2), [("nodes", 2, INTERNODE), ("nodes", 19, 2)])),
    ("link to no node", 0, lambda: lone_entry((5, LINK, 2 ** 32))),
    ("class beyond a link's", 0, lambda: lone_entry((5, 11, 0))),
    ("largest class", 0, lambda: lone_entry((5, 2 ** 64 - 1, 0))),
    ("cell beyond those lent", 0, lambda: lone_entry((5, 8, 2))),
    ("cell that is free", 0, lambda: lone_entry((0, 0, 1))),
    ("mark over 257", 0, lambda: changed(lone_entry((0, 9, 0)), [("cells", 0, 258), ("nodes", 1, 1)])),
    ("mark of 257", 1, lambda: changed(lone_entry((0, 9, 0)), [("cells", 0, 257), ("nodes", 1, 1)])),
    ("count of an entry that is not there", 0, lambda: changed(fresh(1, 1), [("nodes", 1, 1)])),
    ("count of no entry where there are some", 0, lambda: changed(split(), [("nodes", 1, 0)])),
    ("largest count", 0, lambda: changed(split(), [("nodes", 1, 2 ** 64 - 1)])),
    ("internode with 16 ikeys", 0, lambda: changed(wide(list(range(15))), [("nodes", 2 + 47 * 16 + 1, 16)])),
    ("16 ikeys, else in order", 0, sixteen_ikeys),
    ("word behind the children", 0, lambda: changed(two_leaves(short_ikey(3)), [("nodes", 2 + 33, 1)])),
    ("last word of an internode", 0, lambda: changed(two_leaves(short_ikey(3)), [("nodes", 2 + 46, 1)])),
    ("child beyond those in use", 0, lambda: changed(two_leaves(short_ikey(3)), [("nodes", 2 + 19, 3)])),
    ("child 15 not in use", 0, lambda: changed(two_leaves(short_ikey(3)), [("nodes", 2 + 32, 1)])),
    ("ikey beyond those in use", 0, lambda: changed(two_leaves(short_ikey(3)), [("nodes", 2 + 3, 2 ** 60)])),
    ("ikey 14 not in use", 0, lambda: changed(two_leaves(short_ikey(3)), [("nodes", 2 + 16, 2 ** 60)])),
    ("ikey in a free slot", 0, lambda: changed(fresh(1, 1), [("nodes", 2 + 16, 1)])),
    ("class in a free slot", 0, lambda: changed(fresh(1, 1), [("nodes", 2 + 17, 1)])),
    ("number in a free slot", 0, lambda: changed(fresh(1, 1), [("nodes", 2 + 46, 1)])),
    ("last word of a free node", 0, lambda: changed(fresh(2, 1), [("nodes", 2 + 47 + 46, 1)])),
    ("largest frame", 1, lambda: changed(reuse(), [("cells", 1, 2 ** 64 - 1)])),
    ("two faults far apart", 0, lambda: changed(split(), [("nodes", 1, 1), ("bytes", 2559, 1)])),
    ("last byte of a free cell", 0, lambda: changed(chain(), [("bytes", 1279, 1)])),
]
