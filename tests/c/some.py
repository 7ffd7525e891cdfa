# Random calls on slot words, keys, internodes and frame labels, each with the line to ask and the answer it must get: valid and invalid,
# at edges and far beyond them.

import bank
import editions
import internodes
import layers
import words

TOP = (1 << 64) - 1
FAR = [0, 1, 15, 16, 17, 64, 1 << 32, 1 << 60, TOP - 7, TOP - 1, TOP]

# How many arguments each takes behind the word and the width, or the width alone.
MAKES = {"empty": 0, "make_sorted": 1}
ASKS = {"size": 0, "get": 1, "back": 0, "back_at_offset": 1}
CHANGES = {"set_size": 1, "swap_free_slots": 2, "insert_from_back": 1, "insert_first_free": 1, "remove": 1, "remove_to_back": 1,
           "remove_slot": 1, "exchange": 2, "rotate": 2}
SLOT_CALLS = ["empty", "make_sorted", "from_value", "size", "get", "back", "back_at_offset", "set_size", "swap_free_slots",
              "insert_from_back", "insert_first_free", "remove", "remove_to_back", "remove_slot", "exchange", "rotate"]
KEY_CALLS = ["read_ikey", "compare_keys", "key_new", "key_shift", "key_shift_by", "key_unshift", "key_unshift_all", "key_compare",
             "key_compare_suffix"]
NODE_CALLS = ["find_insert_position", "compare_key", "child_for", "insert_key_and_child"]
LABEL_CALLS = ["label_build_first", "label_build_second", "label_read", "label_read_first"]


# What stands in a lent number before.
def before(rng):
    return rng.getrandbits(64)


# The value, or what stood there before.
def or_else(value, old):
    return old if value is None else value


# ---- slot words

# A width, mostly a right one.
def some_width(rng):
    return rng.choice((0, 16, 17, 1 << 32, TOP)) if rng.random() < 0.04 else rng.randint(1, 15)


# A word, mostly valid at this width; else with a digit or a bit changed, or any number.
def some_word(rng, width):
    width = width if 1 <= width <= 15 else 15
    slots = rng.sample(range(width), width)
    word = words.packed(rng.randint(0, width), slots)
    kind = rng.random()
    if kind < 0.06:
        return (word ^ rng.randint(1, 15) << 4 * rng.randrange(16)) & TOP
    if kind < 0.10:
        return word ^ 1 << rng.randrange(64)
    return rng.getrandbits(64) if kind < 0.12 else word


# A position or size: mostly up to the width and one more.
def some_place(rng, width):
    return rng.choice(FAR) if rng.random() < 0.08 else rng.randint(0, min(width, 15) + 1)


# The arguments of a call; for pairs often in order, and free positions.
def some_places(rng, count, width, word):
    places = [some_place(rng, width) for _ in range(count)]
    if count == 2 and rng.random() < 0.5:
        places.sort()
    if count == 2 and rng.random() < 0.3:
        places = [rng.randint(words.size_of(word), 15) % max(1, min(width, 15)) for _ in places]
    return places


# One call on a slot word: its words in the line, and its answer.
def slot_call(rng, name):
    width = some_width(rng)
    word, old = some_word(rng, width), before(rng)
    if name in MAKES:
        places = some_places(rng, MAKES[name], width, 0)
        number, left, _ = getattr(bank, name)(width, *places)
        return (width, *places, old), (number, or_else(left, old))
    if name == "from_value":
        number, left, _ = bank.from_value(word, width)
        return (word, width, old), (number, or_else(left, old))
    places = some_places(rng, ASKS.get(name, CHANGES.get(name)), width, word)
    number, left, told = getattr(bank, name)(word, width, *places)
    if name in ASKS:
        return (word, width, *places, old), (number, or_else(told, old))
    if name == "insert_from_back":
        rested = old ^ TOP
        return (word, width, *places, old, rested), (number, or_else(left, word), *or_else(told, (old, rested)))
    return (word, width, *places), (number, or_else(left, word))


# ---- keys

# Any key: of few letters, of zeros, of a long common beginning, of any bytes; of 0 to 257 bytes.
def some_key(rng):
    length = rng.choice((0, 1, 7, 8, 9, 15, 16, 17, 24, 25, 255, 256, 257, rng.randint(0, 40), rng.randint(0, 257)))
    kind = rng.randrange(4)
    if kind == 0:
        return bytes(rng.choice(b"ab\0") for _ in range(length))
    if kind == 1:
        return bytes(length)
    if kind == 2:
        return (b"A" * max(0, length - rng.randint(0, 3))).ljust(length, bytes([rng.choice(b"AB\0")]))
    return bytes(rng.getrandbits(8) for _ in range(length))


# A key that is close to another: cut, made longer, or with one byte changed.
def near_key(rng, key):
    kind = rng.randrange(5)
    if kind == 0:
        return key
    if kind == 1:
        return key[:rng.randint(0, len(key))]
    if kind == 2:
        return key + bytes(rng.randint(1, 3))
    if kind == 3 and key:
        at = rng.choice((len(key) - 1, rng.randrange(len(key))))
        return key[:at] + bytes([key[at] ^ rng.randint(1, 255)]) + key[at + 1:]
    return some_key(rng)


# The three numbers of a key, mostly those of one of its layers; else one of them is another.
def some_numbers(rng, key):
    last = max(0, (len(key) - 1) // 8)
    numbers = list(layers.numbers_at(key, rng.choice((0, last, rng.randint(0, last)))))
    if rng.random() < 0.15:
        which = rng.randrange(3)
        numbers[which] = rng.choice((numbers[which] ^ 1, numbers[which] + 1 & TOP, rng.choice(FAR)))
    if rng.random() < 0.05:
        shifts = last + rng.randint(0, 2)
        numbers = list(layers.numbers_at(key, shifts))
    return numbers


# By how many bytes to shift.
def some_shift(rng):
    return rng.choice((8 * rng.randint(0, 4), 8 * rng.randint(0, 33), rng.randint(0, 300), rng.choice(FAR)))


# One call on a key.
def key_call(rng, name):
    key = some_key(rng)
    if name == "read_ikey":
        offset = rng.choice((0, rng.randint(0, len(key) + 9), rng.choice(FAR)))
        return (offset, key), (layers.read_ikey(key, offset),)
    if name == "compare_keys":
        other, old = near_key(rng, key), before(rng)
        number, values = layers.compare_keys(key, other)
        return (old, key, other), (number, *or_else(values, (old,)))
    numbers = some_numbers(rng, key)
    if name == "key_new":
        numbers = [before(rng) for _ in numbers]
        number, values = layers.new(key)
    elif name == "key_shift_by":
        by = some_shift(rng)
        number, values = layers.shift_by(key, numbers, by)
        return (*numbers, by, key), (number, *or_else(values, numbers))
    elif name.startswith("key_compare"):
        return compare_call(rng, name, key, numbers)
    else:
        number, values = getattr(layers, name[len("key_"):])(key, numbers)
    return (*numbers, key), (number, *or_else(values, numbers))


# One comparison at a layer, or of a suffix.
def compare_call(rng, name, key, numbers):
    old = before(rng)
    if name == "key_compare":
        ikey = rng.choice((numbers[0], numbers[0] ^ 1 << rng.randrange(64), rng.getrandbits(64)))
        length = rng.choice((rng.randint(0, 10), len(key), rng.choice(FAR)))
        number, values = layers.compare(key, numbers, ikey, length)
        return (*numbers, ikey, length, old, key), (number, *or_else(values, (old,)))
    other = near_key(rng, key[numbers[2]:])
    other += bytes(300) if rng.random() < 0.05 else b""
    number, values = layers.compare_suffix(key, numbers, other)
    return (*numbers, old, key, other), (number, *or_else(values, (old,)))


# ---- internodes

# An internode: mostly rising ikeys, close together or far apart, any numbers behind them; else n too large, or two ikeys that do not rise.
def some_node(rng):
    n = rng.choice((0, 1, 2, 14, 15, rng.randint(0, 15)))
    ikeys = sorted(rng.sample(range(40), n)) if rng.random() < 0.6 else sorted(rng.getrandbits(64) for _ in range(n))
    kind = rng.random()
    if kind < 0.08 and n > 1:
        at = rng.randrange(n - 1)
        ikeys[at + 1] = ikeys[at] - rng.randint(0, 1) & TOP
    ikeys += [rng.choice((0, rng.getrandbits(64))) for _ in range(15 - n)]
    if kind > 0.95:
        n = rng.choice((16, 17, TOP))
    return n, ikeys, [rng.getrandbits(64) for _ in range(16)]


# An ikey to look for: one that is there, a neighbour of it, an edge, or any.
def some_target(rng, ikeys):
    near = rng.choice(ikeys)
    return rng.choice((near, near + 1 & TOP, near - 1 & TOP, 0, TOP, rng.randint(0, 41), rng.getrandbits(64)))


# One call on an internode.
def node_call(rng, name):
    n, ikeys, children = node = some_node(rng)
    target, old = some_target(rng, ikeys), before(rng)
    line = (n, *ikeys, *children)
    if name == "insert_key_and_child":
        right = sum(1 for ikey in ikeys[:min(n, 15)] if ikey < target)
        p = rng.choice((right, right, right, rng.randint(0, 17), rng.choice(FAR)))
        number, left = internodes.insert_key_and_child(*node, p, target, old)
        n, ikeys, children = or_else(left, node)
        return (*line, p, target, old), (number, n, *ikeys, *children)
    if name == "compare_key":
        p = rng.choice((rng.randint(0, 16), rng.randrange(max(1, min(n, 15))), rng.choice(FAR)))
        number, told = internodes.compare_key(*node, target, p)
        return (*line, target, p, old), (number, or_else(told, old))
    number, told = getattr(internodes, name)(*node, target)
    return (*line, target, old), (number, or_else(told, old))


# ---- frame labels

# Any fields of an edition, each often at an edge.
def some_fields(rng, edition):
    sizes = (16, 32, 8 * editions.FRAME_BYTES[edition])
    return [rng.choice((0, 1, (1 << size) - 1, 1 << rng.randrange(size), rng.getrandbits(size), rng.getrandbits(size))) for size in sizes]


# A label of either edition, mostly as it is; else with another first byte, cut short or made longer, or any bytes.
def some_label(rng):
    edition = rng.choice((editions.FIRST, editions.SECOND))
    label = editions.build(edition, *some_fields(rng, edition))
    kind = rng.randrange(8)
    if kind == 0:
        return bytes([rng.choice((0, 1, 2, 3, rng.randrange(256)))]) + label[1:]
    if kind == 1:
        return label[:rng.randrange(len(label))]
    if kind == 2:
        return label + bytes(rng.choice((1, 2, 255, 256)))
    return some_key(rng) if kind == 3 else label


# One call that builds a label, or reads one: what is lent is as it was where nothing is told.
def label_call(rng, name):
    if name.startswith("label_build"):
        edition = editions.FIRST if name.endswith("first") else editions.SECOND
        fields = some_fields(rng, edition)
        return fields, (editions.build(edition, *fields).hex(),)
    label, old = some_label(rng), before(rng)
    known, sizes = ((editions.FIRST,), (16, 32, 8)) if name.endswith("first") else ((editions.FIRST, editions.SECOND), (8, 16, 32, 16))
    lent = [rng.getrandbits(size) for size in sizes]
    number, told = editions.read(label, known)
    if number:
        return (*lent, old, label), (number, *lent, told)
    return (*lent, old, label), (0, *told[-len(lent):], old)
