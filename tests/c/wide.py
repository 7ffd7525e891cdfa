# Random calls on wide banks, each with the line to ask and the answer it must get: valid and invalid, at edges and far beyond them.

import wides
from some import FAR, TOP, before, or_else

# How many arguments each takes behind the bank and the width, or the width alone.
MAKES = {"wide_empty": 0, "wide_make_sorted": 1}
ASKS = {"wide_size": 0, "wide_get": 1, "wide_back": 0}
CHANGES = {"wide_insert_from_back": 1, "wide_insert_first_free": 1, "wide_remove": 1, "wide_remove_to_back": 1, "wide_remove_slot": 1,
           "wide_exchange": 2, "wide_rotate": 2}
WIDE_CALLS = [*MAKES, "wide_from_bytes", *ASKS, *CHANGES]


# A width, mostly a right one.
def some_width(rng):
    return rng.choice((0, 1, 15, 25, 26, 1 << 32, TOP)) if rng.random() < 0.04 else rng.randint(16, 24)


# A bank, mostly valid at this width; else with a byte changed, or any bytes.
def some_bank(rng, width):
    width = width if 16 <= width <= 24 else 24
    bank = wides.packed(rng.randint(0, width), rng.sample(range(width), width))
    kind = rng.random()
    if kind < 0.08:
        bank[rng.randrange(25)] = rng.choice((0, width, width + 1, 255, rng.randrange(256)))
    return bytes(rng.getrandbits(8) for _ in bank) if kind > 0.98 else bytes(bank)


# A position, size or slot: mostly up to the width and one more.
def some_place(rng, width):
    return rng.choice(FAR) if rng.random() < 0.08 else rng.randint(0, min(width, 24) + 1)


def some_places(rng, count, width):
    places = [some_place(rng, width) for _ in range(count)]
    return sorted(places) if rng.random() < 0.5 else places


# The bank afterwards: the new one, or the one of before.
def left_of(after, bank):
    return bank if after is None else bytes(after)


# One call on a wide bank: its words in the line, and its answer.
def wide_call(rng, name):
    width, old = some_width(rng), before(rng)
    bank, other = some_bank(rng, width), bytes(rng.getrandbits(8) for _ in range(25))
    call = getattr(wides, name[len("wide_"):])
    if name in MAKES:
        places = some_places(rng, MAKES[name], width)
        number, after, _ = call(width, *places)
        return (width, *places, other), (number, left_of(after, other))
    if name == "wide_from_bytes":
        number, after, _ = call(list(bank), width)
        return (width, bank, other), (number, bank, left_of(after, other))
    places = some_places(rng, ASKS.get(name, CHANGES.get(name)), width)
    number, after, told = call(list(bank), width, *places)
    if name in ASKS:
        return (width, *places, old, bank), (number, bank, or_else(told, old))
    if name == "wide_insert_from_back":
        rested = old ^ TOP
        return (width, *places, old, rested, bank), (number, left_of(after, bank), *or_else(told, (old, rested)))
    return (width, *places, bank), (number, left_of(after, bank))
