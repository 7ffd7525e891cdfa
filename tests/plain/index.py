# The index over lent memory: clear, put, find, remove, the k-th entry and the count.
#
# Every call answers Answer(number, key, frame, lacking, count, resting): number 0 is accepted, else the refusal; with 14 the nodes
# lacking; of an accepted put the slots that rest in the key's leaf.

from collections import namedtuple

import nodes
from audit import is_tree
from keys import LINK, LONGER, LONGEST, class_at, ikey_at, rank
from listing import listing
from memory import LEAF

TOO_LONG, NOT_A_TREE, STORED, NOT_STORED, NO_CELL, FEW_NODES = 7, 10, 11, 12, 13, 14
FOUND, CONFLICT, ABSENT = "found", "conflict", "absent"
WIDTH = nodes.WIDTH

Answer = namedtuple("Answer", "number key frame lacking count resting", defaults=(None, None, None, None, None))

# Where a key belongs. links: the links on the way, from the top, each as its leaf, its slot there and the root that it leads to. path: the
# internodes on the way down in the last layer. leaf, position: the entry found or in conflict, or the place for a new one.
Place = namedtuple("Place", "kind links path leaf position")

ACCEPTED = Answer(0)


# Everything becomes zero but node 0, which is an empty leaf and the root.
def clear(memory):
    if not memory.right_lengths():
        return Answer(NOT_A_TREE)
    memory.nodes[:] = [0] * len(memory.nodes)
    memory.cells[:] = [0] * len(memory.cells)
    memory.bytes[:] = bytes(len(memory.bytes))
    nodes.write_leaf(memory, 0, [])
    return ACCEPTED


# Stores a new key. With audited=True the caller vouches for the memory.
def put(memory, key, frame, audited=False):
    refused = refusal_before(memory, key, audited)
    if refused:
        return refused
    place = locate(memory, key)
    if place.kind == FOUND:
        return Answer(STORED)
    free_cells = memory.free_cells()
    if not free_cells:
        return Answer(NO_CELL)
    lacking = nodes_needed(memory, place, key) - len(memory.free_nodes())
    if lacking > 0:
        return Answer(FEW_NODES, lacking=lacking)
    memory.set_cell(free_cells[0], key, frame)
    if place.kind == CONFLICT:
        grow_layers(memory, place, key, free_cells[0])
    else:
        add_to_leaf(memory, place, key, free_cells[0])
    return Answer(0, resting=slots_resting(memory, key))


# How many slots rest in the leaf where a stored key is, looked up anew.
def slots_resting(memory, key):
    return WIDTH - len(nodes.entries_of(memory, locate(memory, key).leaf))


# Gives the frame number of a stored key.
def find(memory, key, audited=False):
    refused = refusal_before(memory, key, audited)
    if refused:
        return refused
    place = locate(memory, key)
    if place.kind != FOUND:
        return Answer(NOT_STORED)
    return Answer(0, key, memory.frame(cell_at(memory, place)))


# Takes a stored key out; its cell is free again, and so are the layers that this empties.
def remove(memory, key, audited=False):
    refused = refusal_before(memory, key, audited)
    if refused:
        return refused
    place = locate(memory, key)
    if place.kind != FOUND:
        return Answer(NOT_STORED)
    take_out(memory, place)
    give_back(memory, place.links)
    return ACCEPTED


# Takes an entry out, with its cell.
def take_out(memory, place):
    memory.zero_cell(cell_at(memory, place))
    nodes.drop_entry(memory, place.leaf, place.position)


# From the last of these links upward: where the layer below is an empty leaf and nothing else, its node becomes free and the link goes.
def give_back(memory, links):
    for leaf, slot, root in reversed(links):
        if memory.word(root, 0) != LEAF or nodes.entries_of(memory, root):
            return
        memory.set_node(root, [])
        nodes.drop_entry(memory, leaf, nodes.words.in_use(memory.word(leaf, 1)).index(slot))


# Gives the count as it stands in the header; only the lent lengths are looked at.
def count(memory):
    if not memory.right_lengths():
        return Answer(NOT_A_TREE)
    return Answer(0, count=memory.count())


# Gives key and frame of the entry with k entries before it.
def kth(memory, k, audited=False):
    refused = refusal_before(memory, b"", audited)
    if refused:
        return refused
    entries = listing(memory)
    return Answer(0, *entries[k]) if k < len(entries) else Answer(NOT_STORED)


# The refusals that come before the key is looked for: 7, then 10.
def refusal_before(memory, key, audited):
    if len(key) > LONGEST:
        return Answer(TOO_LONG)
    if not audited and not is_tree(memory):
        return Answer(NOT_A_TREE)
    return None


# The cell of the entry found.
def cell_at(memory, place):
    return nodes.entries_of(memory, place.leaf)[place.position][2]


# The internodes on the way down from a layer's root, and the leaf they lead to.
def descend(memory, root, ikey):
    path, node = [], root
    while memory.word(node, 0) != LEAF:
        path.append(node)
        ikeys, children = nodes.internode_of(memory, node)
        node = children[sum(1 for other in ikeys if other <= ikey)]
    return path, node


# Goes down, layer by layer, to where a key is or belongs.
def locate(memory, key):
    links, root = [], memory.nodes[0]
    while True:
        wanted = ikey_at(key, len(links)), class_at(key, len(links))
        path, leaf = descend(memory, root, wanted[0])
        entries = nodes.entries_of(memory, leaf)
        position = sum(1 for ikey, kind, _ in entries if rank(ikey, kind) < wanted)
        if position == len(entries) or rank(*entries[position][:2]) != wanted:
            return Place(ABSENT, links, path, leaf, position)
        _, kind, number = entries[position]
        if kind != LINK:
            found = FOUND if memory.key(number) == key else CONFLICT
            return Place(found, links, path, leaf, position)
        links.append((leaf, slot_of(memory, leaf, position), number))
        root = number


# The slot that holds the entry at a position.
def slot_of(memory, leaf, position):
    return nodes.words.slot_at(memory.word(leaf, 1), position)


# How many nodes a put at this place takes.
def nodes_needed(memory, place, key):
    if place.kind == CONFLICT:
        return shared_layers(key, memory.key(cell_at(memory, place)), len(place.links) + 1) + 1
    if len(nodes.entries_of(memory, place.leaf)) < WIDTH:
        return 0
    full = 0
    while full < len(place.path) and memory.word(place.path[-1 - full], 1) == WIDTH:
        full += 1
    return 1 + full + (1 if full == len(place.path) else 0)


# From a layer on, how many layers in a row show equal ikeys with both keys longer.
def shared_layers(one, other, layer):
    count = 0
    while (ikey_at(one, layer + count) == ikey_at(other, layer + count)
           and class_at(one, layer + count) == class_at(other, layer + count) == LONGER):
        count += 1
    return count


# Replaces the entry in conflict by a link, and builds the new layers with both keys below it.
def grow_layers(memory, place, key, cell):
    slot = slot_of(memory, place.leaf, place.position)
    ikey, _, other_cell = nodes.entry_at(memory, place.leaf, slot)
    other = memory.key(other_cell)
    layer = len(place.links) + 1
    shared = shared_layers(key, other, layer)
    taken = memory.free_nodes()[:shared + 1]
    nodes.set_entry(memory, place.leaf, slot, (ikey, LINK, taken[0]))
    for step in range(shared):
        link = ikey_at(key, layer + step), LINK, taken[step + 1]
        nodes.write_leaf(memory, taken[step], [link])
    bottom = layer + shared
    nodes.write_leaf(memory, taken[shared], sorted([
        (ikey_at(key, bottom), class_at(key, bottom), cell),
        (ikey_at(other, bottom), class_at(other, bottom), other_cell)]))


# Adds an entry to its leaf, which is split if it is full.
def add_to_leaf(memory, place, key, cell):
    layer = len(place.links)
    entry = ikey_at(key, layer), class_at(key, layer), cell
    entries = nodes.entries_of(memory, place.leaf)
    if len(entries) < WIDTH:
        nodes.add_entry(memory, place.leaf, place.position, entry)
        return
    entries.insert(place.position, entry)
    cut = cut_of([ikey for ikey, _, _ in entries])
    right = memory.free_nodes()[0]
    nodes.write_leaf(memory, place.leaf, entries[:cut])
    nodes.write_leaf(memory, right, entries[cut:])
    add_to_parents(memory, place, entries[cut][0], right)


# Where sixteen entries are cut: between different ikeys, nearest to the middle, the lower on a tie.
def cut_of(ikeys):
    cuts = [cut for cut in range(1, 16) if ikeys[cut - 1] != ikeys[cut]]
    return min(cuts, key=lambda cut: (abs(cut - 8), cut))


# Hands a new ikey and the node to its right up the path; full internodes are split, at the top comes a new root.
def add_to_parents(memory, place, ikey, right):
    left = place.leaf
    for node in reversed(place.path):
        ikeys, children = nodes.internode_of(memory, node)
        spot = sum(1 for other in ikeys if other < ikey)
        ikeys.insert(spot, ikey)
        children.insert(spot + 1, right)
        if len(ikeys) <= WIDTH:
            nodes.write_internode(memory, node, ikeys, children)
            return
        left, right, ikey = node, memory.free_nodes()[0], ikeys[8]
        nodes.write_internode(memory, node, ikeys[:8], children[:9])
        nodes.write_internode(memory, right, ikeys[9:], children[9:])
    root = memory.free_nodes()[0]
    nodes.write_internode(memory, root, [ikey], [left, right])
    set_layer_root(memory, place.links, root)


# Writes a layer's new root into the link above it, or into the header.
def set_layer_root(memory, links, root):
    if links:
        leaf, slot, _ = links[-1]
        memory.set_word(leaf, nodes.NUMBERS + slot, root)
    else:
        memory.nodes[0] = root
