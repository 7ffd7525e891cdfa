# What a key shows at one layer: eight bytes as a number, and how much is left.

LONGEST = 256
LONGER = 9
LINK = 10


# The eight bytes of a key at a layer as a big-endian number, zeros where the key has ended.
def ikey_at(key, layer):
    return int.from_bytes(key[8 * layer:8 * layer + 8].ljust(8, b"\0"), "big")


# How many bytes are left at a layer: 0 to 8, or 9 for more.
def class_at(key, layer):
    return min(max(len(key) - 8 * layer, 0), LONGER)


# The place of an entry in the order of a leaf: a link stands where a longer key would.
def rank(ikey, kind):
    return ikey, min(kind, LONGER)
