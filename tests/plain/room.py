# How many nodes an index would have left, and slots in a leaf, counted without nodes: a second opinion on refusal 14 and on the slots that
# rest after a put.
#
# A layer is a set of entries, and a row of separators between its leaves, each with a height: those of height 1
# stand just above the leaves. The separators of one height between two higher ones are one internode.

from keys import LONGER, class_at, ikey_at

FULL = 15


class Layer:
    # An empty layer: one leaf.
    def __init__(self):
        self.entries = {}      # (ikey, class) to the key, or to the layer below
        self.separators = []   # (ikey, height), rising
        self.height = 0

    # The entries of the leaf where an ikey belongs, in order.
    def leaf_of(self, ikey):
        low = max((s for s, _ in self.separators if s <= ikey), default=-1)
        high = min((s for s, _ in self.separators if s > ikey), default=1 << 64)
        return sorted(entry for entry in self.entries if low <= entry[0] < high)

    # Separators, height and number of new nodes once an entry is added.
    def with_entry(self, entry):
        leaf = self.leaf_of(entry[0])
        if len(leaf) < FULL:
            return self.separators, self.height, 0
        return grown(self.separators, self.height, split_ikey(sorted(leaf + [entry])))


# The first ikey of the right half of sixteen entries.
def split_ikey(entries):
    for distance in range(8):
        for cut in (8 - distance, 8 + distance):
            if entries[cut - 1][0] < entries[cut][0]:
                return entries[cut][0]
    raise ValueError("sixteen entries of one ikey")


# The separators of one height that stand in one internode with an ikey.
def run_with(separators, level, ikey):
    low = max((s for s, h in separators if h > level and s < ikey), default=-1)
    high = min((s for s, h in separators if h > level and s > ikey), default=1 << 64)
    return [s for s, h in separators if h == level and low < s < high]


# Adds a separator above the leaves and raises the ninth of every internode that overflows.
def grown(separators, height, ikey):
    separators, level, used = dict(separators), 1, 1
    separators[ikey] = 1
    while level <= height:
        run = run_with(separators.items(), level, ikey)
        run.sort()
        if len(run) <= FULL:
            return sorted(separators.items()), height, used
        ikey, level, used = run[8], level + 1, used + 1
        separators[ikey] = level
    return sorted(separators.items()), height + 1, used + 1


class Room:
    # An index just cleared, with this many nodes.
    def __init__(self, nodes):
        self.top = Layer()
        self.free = nodes - 1

    # The layer where a key's own entry is or belongs, and that layer's number.
    def layer_of(self, key):
        layer, number = self.top, 0
        while True:
            below = layer.entries.get((ikey_at(key, number), class_at(key, number)))
            if not isinstance(below, Layer):
                return layer, number
            layer, number = below, number + 1

    # How many nodes a new key takes.
    def need(self, key):
        layer, number = self.layer_of(key)
        entry = ikey_at(key, number), class_at(key, number)
        if entry in layer.entries:
            return len(common_parts(key, layer.entries[entry], number + 1)) + 1
        return layer.with_entry(entry)[2]

    # Takes a new key in.
    def put(self, key):
        self.free -= self.need(key)
        layer, number = self.layer_of(key)
        entry = ikey_at(key, number), class_at(key, number)
        if entry in layer.entries:
            part_ways(layer, entry, number, key)
        else:
            layer.separators, layer.height, _ = layer.with_entry(entry)
            layer.entries[entry] = key

    # How many slots rest in the leaf where a stored key is.
    def resting(self, key):
        layer, number = self.layer_of(key)
        return FULL - len(layer.leaf_of(ikey_at(key, number)))

    # Takes a stored key out, and each layer below the first that has no entry then and was never split.
    def remove(self, key):
        way, number = [self.top], 0
        while True:
            below = way[-1].entries.get((ikey_at(key, number), class_at(key, number)))
            if not isinstance(below, Layer):
                break
            way, number = way + [below], number + 1
        del way[-1].entries[ikey_at(key, number), class_at(key, number)]
        while number and not way[number].entries and not way[number].separators:
            number -= 1
            del way[number].entries[ikey_at(key, number), LONGER]
            self.free += 1


# From a layer on, the ikeys that two keys share while both go on.
def common_parts(one, other, number):
    parts = []
    while (one[8 * number:8 * number + 8] == other[8 * number:8 * number + 8]
           and min(len(one), len(other)) > 8 * number + 8):
        parts.append(ikey_at(one, number))
        number += 1
    return parts


# Puts new layers below an entry, down to the one where its key and the new one differ.
def part_ways(layer, entry, number, key):
    other = layer.entries[entry]
    for part in [entry[0]] + common_parts(key, other, number + 1):
        below = layer.entries[part, LONGER] = Layer()
        layer, number = below, number + 1
    for one in (key, other):
        layer.entries[ikey_at(one, number), class_at(one, number)] = one
