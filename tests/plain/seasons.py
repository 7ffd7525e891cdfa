# Seasons of labels: filed in layers below the first and all taken out again, in memory so small that the next season gets 14 where emptied
# layers keep their nodes.
#
# Each is a name, the nodes and cells of its memory, and its calls: (key, frame) puts, (key, None) takes out.

from itertools import permutations


# These keys put, in this order, and taken out in that one.
def season(keys, out):
    return [(key, frame) for frame, key in enumerate(keys)] + [(key, None) for key in out]


# Two keys of 256 bytes that differ in the last: 31 layers below the first, given back at once by the second removal.
def deepest():
    calls = []
    for mark in b"abc":
        pair = [bytes([mark]) * 255 + last for last in (b"1", b"2")]
        calls += season(pair, pair if mark == ord("b") else pair[::-1])
    return calls


# Five layers, and a key that leaves them at the second: taken out in every order, so that each time another removal gives back what part.
def branched():
    calls = []
    for mark, order in enumerate(permutations(range(3))):
        stem = bytes([65 + mark]) * 40
        keys = [stem + b"one", stem + b"two", stem[:17]]
        calls += season(keys, [keys[i] for i in order])
    return calls


# Links among other entries of a leaf: a link's slot is free again, and goes to the next label; the leaf keeps its other entries.
def among_others():
    calls = [(b"l%d" % i, i) for i in range(6)]
    for mark in b"abc":
        stem = b"label-" + bytes([mark]) * 2
        calls += season([stem + b"x", stem + b"y"], [stem + b"x", stem + b"y"]) + [(stem[:7], 90)]
    return calls + [(b"l%d" % i, None) for i in range(6)] + [(b"again", 1), (b"label-zz one", 2), (b"label-zz two", 3)]


# A layer that was split keeps its three nodes, though it is empty, and so does the layer above it with the link; 14 comes then.
def split():
    keys = [b"0123456701234567" + bytes([mark]) for mark in range(16)]
    return season(keys, keys[::-1]) + season([b"other-01a", b"other-01b"], [])


# All of them, with the memory that is just enough.
SEASONS = [("deepest", (32, 2), deepest()), ("branched", (6, 3), branched()), ("among others", (2, 12), among_others()),
           ("split", (5, 17), split())]
