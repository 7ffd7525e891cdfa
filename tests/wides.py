# The list of crate replay_wide: calls on wide banks with the answers of plain/wides.py, and before them a bank of width 16 through thirty
# calls, written out by hand.
#
#     python3 wides.py > ../crates/replay_wide/stdin
#
# A line has 169 bytes with its line feed, all in lower-case hex:
#
#     KIND CALL NUMBER WIDTH BANK A B AFTER TOLD RESTING
#
# KIND is h for a line by hand and m for one of the model; CALL the call's place in CALLS; NUMBER 0 or the refusal; BANK 25 bytes; AFTER the
# bank afterwards, as given where the call is refused or only asks, zeros where one was to be made; TOLD the number told, or 0; RESTING
# how many are free after an insertion from the back, or 0.

import os
import random
import sys

sys.path.insert(0, os.path.join(os.path.dirname(os.path.abspath(__file__)), "plain"))
import wides

FAR = (1 << 64) - 1
CALLS = ["empty", "make_sorted", "from_bytes", "size", "get", "back", "insert_from_back", "insert_first_free", "remove", "remove_to_back",
         "remove_slot", "exchange", "rotate"]
ARGUMENTS = {"empty": 0, "from_bytes": 0, "size": 0, "back": 0, "exchange": 2, "rotate": 2}
ZEROS = [0] * 25


# What a call tells as two numbers, 0 where there is none.
def both(told):
    return told if isinstance(told, tuple) else (told or 0, 0)


def line(kind, name, width, bank, places, number, after, told):
    a, b = (list(places) + [0, 0])[:2]
    return "%s %x %x %016x %s %016x %016x %s %04x %04x\n" % (
        kind, CALLS.index(name), number, width, bytes(bank).hex(), a, b, bytes(after).hex(), *both(told))


# A call as the model answers it.
def asked(name, width, bank, *places):
    call = getattr(wides, name)
    makes = name in ("empty", "make_sorted")
    number, after, told = call(width, *places) if makes else call(bank, width, *places)
    return line("m", name, width, ZEROS if makes else bank, places, number, after or (ZEROS if makes else bank), told)


# A bank of width 16, by hand: the call, its places, the refusal, the number told (of an accepted insertion from the back the slot, and how
# many are free after it), and the size and positions that it leaves. Each line begins where the one before ended.
BY_HAND = [
    ("empty", (), 0, 0, "00 0f 0e 0d 0c 0b 0a 09 08 07 06 05 04 03 02 01 00"),
    ("insert_from_back", (0,), 0, (0, 15), "01 00 0f 0e 0d 0c 0b 0a 09 08 07 06 05 04 03 02 01"),
    ("insert_from_back", (0,), 0, (1, 14), "02 01 00 0f 0e 0d 0c 0b 0a 09 08 07 06 05 04 03 02"),
    ("insert_from_back", (1,), 0, (2, 13), "03 01 02 00 0f 0e 0d 0c 0b 0a 09 08 07 06 05 04 03"),
    ("insert_from_back", (4,), 4, 0, "03 01 02 00 0f 0e 0d 0c 0b 0a 09 08 07 06 05 04 03"),
    ("insert_from_back", (3,), 0, (3, 12), "04 01 02 00 03 0f 0e 0d 0c 0b 0a 09 08 07 06 05 04"),
    ("size", (), 0, 4, "04 01 02 00 03 0f 0e 0d 0c 0b 0a 09 08 07 06 05 04"),
    ("get", (15,), 0, 4, "04 01 02 00 03 0f 0e 0d 0c 0b 0a 09 08 07 06 05 04"),
    ("get", (16,), 4, 0, "04 01 02 00 03 0f 0e 0d 0c 0b 0a 09 08 07 06 05 04"),
    ("back", (), 0, 4, "04 01 02 00 03 0f 0e 0d 0c 0b 0a 09 08 07 06 05 04"),
    ("remove", (0,), 0, 0, "03 02 00 03 01 0f 0e 0d 0c 0b 0a 09 08 07 06 05 04"),
    ("insert_first_free", (0,), 0, 0, "04 01 02 00 03 0f 0e 0d 0c 0b 0a 09 08 07 06 05 04"),
    ("remove_slot", (0,), 0, 0, "03 01 02 03 00 0f 0e 0d 0c 0b 0a 09 08 07 06 05 04"),
    ("remove_slot", (0,), 6, 0, "03 01 02 03 00 0f 0e 0d 0c 0b 0a 09 08 07 06 05 04"),
    ("insert_first_free", (4,), 4, 0, "03 01 02 03 00 0f 0e 0d 0c 0b 0a 09 08 07 06 05 04"),
    ("insert_first_free", (2,), 0, 0, "04 01 02 00 03 0f 0e 0d 0c 0b 0a 09 08 07 06 05 04"),
    ("remove_to_back", (3,), 0, 0, "03 01 02 00 0f 0e 0d 0c 0b 0a 09 08 07 06 05 04 03"),
    ("remove_to_back", (1,), 0, 0, "02 01 00 0f 0e 0d 0c 0b 0a 09 08 07 06 05 04 03 02"),
    ("remove_to_back", (2,), 4, 0, "02 01 00 0f 0e 0d 0c 0b 0a 09 08 07 06 05 04 03 02"),
    ("exchange", (0, 15), 0, 0, "02 02 00 0f 0e 0d 0c 0b 0a 09 08 07 06 05 04 03 01"),
    ("exchange", (7, 7), 0, 0, "02 02 00 0f 0e 0d 0c 0b 0a 09 08 07 06 05 04 03 01"),
    ("exchange", (0, 16), 4, 0, "02 02 00 0f 0e 0d 0c 0b 0a 09 08 07 06 05 04 03 01"),
    ("rotate", (2, 15), 0, 0, "02 02 00 01 0f 0e 0d 0c 0b 0a 09 08 07 06 05 04 03"),
    ("rotate", (0, 2), 0, 0, "02 01 0f 0e 0d 0c 0b 0a 09 08 07 06 05 04 03 02 00"),
    ("rotate", (16, 16), 0, 0, "02 01 0f 0e 0d 0c 0b 0a 09 08 07 06 05 04 03 02 00"),
    ("rotate", (3, 2), 4, 0, "02 01 0f 0e 0d 0c 0b 0a 09 08 07 06 05 04 03 02 00"),
    ("from_bytes", (), 0, 0, "02 01 0f 0e 0d 0c 0b 0a 09 08 07 06 05 04 03 02 00"),
    ("make_sorted", (16,), 0, 0, "10 00 01 02 03 04 05 06 07 08 09 0a 0b 0c 0d 0e 0f"),
    ("insert_from_back", (0,), 5, 0, "10 00 01 02 03 04 05 06 07 08 09 0a 0b 0c 0d 0e 0f"),
    ("make_sorted", (5,), 0, 0, "05 00 01 02 03 04 0f 0e 0d 0c 0b 0a 09 08 07 06 05"),
    ("remove_slot", (2,), 0, 0, "04 00 01 03 04 02 0f 0e 0d 0c 0b 0a 09 08 07 06 05"),
]


def by_hand():
    lines, bank = [], ZEROS
    for name, places, number, told, text in BY_HAND:
        after = list(bytes.fromhex(text)) + [0] * 8
        given = ZEROS if name in ("empty", "make_sorted") else bank
        lines.append(line("h", name, 16, given, places, number, after, told))
        bank = after
    return lines


# Any valid bank of this size.
def some_bank(rng, width, size):
    return wides.packed(size, rng.sample(range(width), width))


# Every call on one bank, at the edges of its size and of the width.
def at_edges(rng, width, size):
    bank = some_bank(rng, width, size)
    places = sorted({0, size // 2, max(size, 1) - 1, size, size + 1, width - 1, width})
    lines = [asked(name, width, bank) for name in ("from_bytes", "size", "back")]
    for name in ("get", "insert_from_back", "insert_first_free", "remove", "remove_to_back", "remove_slot"):
        lines += [asked(name, width, bank, i) for i in places + [FAR]]
    for name in ("exchange", "rotate"):
        pairs = [(rng.choice(places), rng.choice(places)) for _ in range(5)] + [(0, width), (size, FAR), (width, width)]
        lines += [asked(name, width, bank, i, j) for i, j in pairs]
    return lines


# Refusals 1 and 2: wrong widths; a slot twice, a slot or a size beyond the width, a byte behind the last position that is not zero.
def refused(rng, width):
    good = some_bank(rng, width, width // 2)
    bad = [[width + 1] + good[1:], [255] + good[1:], good[:1] + [good[2]] + good[2:], good[:1] + [width] + good[2:],
           good[:width] + [255] + good[width + 1:], [0] * 25, [255] * 25]
    bad += [good[:k] + [1] + good[k + 1:] for k in {width + 1, 24} if k <= 24 and k > width]
    lines = []
    for name in CALLS[2:]:
        places = [FAR] * ARGUMENTS.get(name, 1)
        lines += [asked(name, width, bank, *places) for bank in bad]
    return lines


def wrong_widths():
    good = wides.packed(0, range(16))
    lines = []
    for width in (0, 1, 15, 25, FAR):
        for name in CALLS:
            lines.append(asked(name, width, good, *[0] * ARGUMENTS.get(name, 1)))
    return lines


# Calls one after the other, each on the bank that the one before left.
def some_run(rng, width, count):
    bank, lines = some_bank(rng, width, width // 2), []
    for _ in range(count):
        name = rng.choice(CALLS[2:])
        places = [rng.randint(0, width) for _ in range(ARGUMENTS.get(name, 1))]
        lines.append(asked(name, width, bank, *places))
        bank = getattr(wides, name)(bank, width, *places)[1] or bank
    return lines


def recorded(seed):
    rng = random.Random(seed)
    lines = by_hand() + wrong_widths()
    for width in range(16, 25):
        lines += [asked("empty", width, ZEROS)] + [asked("make_sorted", width, ZEROS, n) for n in (0, 1, width // 2, width, width + 1, FAR)]
        for size in sorted({0, 1, width // 2, width - 1, width}):
            lines += at_edges(rng, width, size)
        lines += some_run(rng, width, 24)
    for width in (16, 23, 24):
        lines += refused(rng, width)
    return lines


# The lines by hand are what the model says too.
def hold_by_hand():
    bank = ZEROS
    for name, places, number, told, text in BY_HAND:
        after = list(bytes.fromhex(text)) + [0] * 8
        got = getattr(wides, name)(*([16] if name in ("empty", "make_sorted") else [bank, 16]), *places)
        assert got[0] == number and (got[1] or bank) == after and both(got[2]) == both(told), (name, places, got)
        bank = after


hold_by_hand()
sys.stdout.writelines(recorded(1))
