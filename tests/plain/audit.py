# Whether lent memory is a tree by the rules, and which rules it breaks.
#
# The walk keeps a list of nodes still to visit, so that neither depth nor a circle can hurt it.

from collections import namedtuple

import words
from keys import LINK, LONGEST, class_at, ikey_at, rank
from memory import CELL_BYTES, INTERNODE, LEAF, NODE_WORDS

WIDTH = 15
IKEYS, CLASSES, NUMBERS, CHILDREN, AFTER_CHILDREN = 2, 17, 32, 17, 33
MOST_LINKS = 31
ZERO_NODE = [0] * NODE_WORDS
ZERO_CELL = bytes(CELL_BYTES)

# The rules that can be broken, by name.
RULES = {
    "lengths": "the three lists have the lengths of 1 to 255 nodes and cells",
    "count": "the count in the header is the number of entries with a cell",
    "node number": "root, children and links are numbers of nodes",
    "reached once": "no node is reached twice",
    "kind": "a node reached is a leaf or an internode",
    "slot word": "a leaf's word is valid at width 15",
    "class": "an entry's class is 0 to 10",
    "leaf order": "a leaf's entries rise strictly",
    "unused place": "slots, ikeys and children beyond those in use are zero",
    "ikey count": "an internode has at most 15 ikeys",
    "ikey order": "an internode's ikeys rise strictly",
    "entry bounds": "an entry is not less than the nearest ikey on its left, and less than the nearest on its right",
    "ikey bounds": "an internode's ikeys stay inside the gap it hangs in, both ends left out",
    "equal depth": "every leaf of a layer stands at the same depth",
    "link depth": "the lowest layer is reached by 31 links at most",
    "cell number": "an entry's cell is one of those lent",
    "cell once": "no cell belongs to two entries",
    "mark": "the cell of an entry holds a key of 0 to 256 bytes",
    "ikeys above": "a key goes on past the links above it and has their ikeys",
    "own ikey": "a key has the ikey of its entry",
    "own class": "a key has the length class of its entry",
    "key's end": "a cell is zero behind its key",
    "free node": "a node that the walk leaves out is 47 zeros",
    "free cell": "a cell that the walk leaves out is zero in words and bytes",
}

# One node to visit. layer: a serial number. depth: internodes above it in its layer. low, high: the ikeys beside
# the way down, or None. above: the ikeys of the links above.
Visit = namedtuple("Visit", "node layer depth low high above")


class Audit:
    # Walks the whole memory; self.broken is then the set of the rules it breaks.
    def __init__(self, memory):
        self.memory = memory
        self.broken = set()
        if memory.right_lengths():
            self.walk()
        else:
            self.broken.add("lengths")

    # Adds a rule to those broken, unless it holds.
    def demand(self, rule, holds):
        if not holds:
            self.broken.add(rule)
        return holds

    # Visits all that can be reached from the root, then looks at the rest.
    def walk(self):
        self.reached, self.cells, self.leaf_depths, self.layers = set(), set(), {}, 1
        self.waiting = [Visit(self.memory.nodes[0], 0, 0, None, None, ())]
        while self.waiting:
            self.visit(self.waiting.pop())
        self.demand("count", self.memory.count() == len(self.cells))
        self.look_at_the_rest()

    # Judges one node as what its kind says.
    def visit(self, visit):
        if not self.demand("node number", visit.node < self.memory.node_count()):
            return
        if not self.demand("reached once", visit.node not in self.reached):
            return
        self.reached.add(visit.node)
        row = self.memory.node(visit.node)
        if row[0] == LEAF:
            self.leaf(visit, row)
        elif row[0] == INTERNODE:
            self.internode(visit, row)
        else:
            self.broken.add("kind")

    # Judges a leaf: depth, slot word, places not in use, order, and each entry.
    def leaf(self, visit, row):
        depth = self.leaf_depths.setdefault(visit.layer, visit.depth)
        self.demand("equal depth", depth == visit.depth)
        if not self.demand("slot word", words.valid(row[1], WIDTH)):
            return
        used = words.in_use(row[1])
        self.demand("unused place", not any(
            row[column + slot] for slot in range(WIDTH) if slot not in used for column in (IKEYS, CLASSES, NUMBERS)))
        entries = [(row[IKEYS + slot], row[CLASSES + slot], row[NUMBERS + slot]) for slot in used]
        ranks = [rank(ikey, kind) for ikey, kind, _ in entries]
        self.demand("leaf order", all(a < b for a, b in zip(ranks, ranks[1:])))
        for entry in entries:
            self.entry(visit, *entry)

    # Judges one entry of a leaf.
    def entry(self, visit, ikey, kind, number):
        self.demand("entry bounds", (visit.low is None or visit.low <= ikey)
                    and (visit.high is None or ikey < visit.high))
        if not self.demand("class", kind <= LINK):
            return
        if kind != LINK:
            self.cell(visit.above, ikey, kind, number)
        else:
            self.demand("link depth", len(visit.above) < MOST_LINKS)
            self.waiting.append(Visit(number, self.layers, 0, None, None, visit.above + (ikey,)))
            self.layers += 1

    # Judges the cell of an entry: its number, its mark, its key and what stands behind the key.
    def cell(self, above, ikey, kind, number):
        if not self.demand("cell number", number < self.memory.cell_count()):
            return
        self.demand("cell once", number not in self.cells)
        self.cells.add(number)
        mark = self.memory.mark(number)
        if not self.demand("mark", 1 <= mark <= LONGEST + 1):
            return
        data, layer = self.memory.cell_bytes(number), len(above)
        key = data[:mark - 1]
        self.demand("key's end", not any(data[mark - 1:]))
        self.demand("ikeys above", layer == 0 or len(key) > 8 * layer)
        self.demand("ikeys above", all(ikey_at(key, i) == link for i, link in enumerate(above)))
        self.demand("own ikey", ikey_at(key, layer) == ikey)
        self.demand("own class", class_at(key, layer) == kind)

    # Judges an internode, and sends its children to be visited between their ikeys.
    def internode(self, visit, row):
        n = row[1]
        if not self.demand("ikey count", n <= WIDTH):
            return
        ikeys, children = row[IKEYS:IKEYS + n], row[CHILDREN:CHILDREN + n + 1]
        unused = row[IKEYS + n:IKEYS + WIDTH] + row[CHILDREN + n + 1:AFTER_CHILDREN] + row[AFTER_CHILDREN:]
        self.demand("unused place", not any(unused))
        self.demand("ikey order", all(a < b for a, b in zip(ikeys, ikeys[1:])))
        self.demand("ikey bounds", all((visit.low is None or visit.low < ikey)
                                       and (visit.high is None or ikey < visit.high) for ikey in ikeys))
        fences = [visit.low] + ikeys + [visit.high]
        for child, low, high in zip(children, fences, fences[1:]):
            self.waiting.append(Visit(child, visit.layer, visit.depth + 1, low, high, visit.above))

    # What no walk came to must be free and zero.
    def look_at_the_rest(self):
        memory = self.memory
        self.demand("free node", all(
            memory.node(node) == ZERO_NODE for node in range(memory.node_count()) if node not in self.reached))
        self.demand("free cell", all(
            memory.mark(cell) == 0 == memory.frame(cell) and memory.cell_bytes(cell) == ZERO_CELL
            for cell in range(memory.cell_count()) if cell not in self.cells))


# The names of the rules that a memory breaks.
def broken_rules(memory):
    return Audit(memory).broken


# Whether a memory is a tree by the rules.
def is_tree(memory):
    return not broken_rules(memory)
