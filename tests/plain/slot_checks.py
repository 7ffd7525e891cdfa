# Slot words and wide banks held to worked examples and to each other: what selftest.py checks of them.

import random

import bank
import wides
import words


# Fails with what was got and what was expected.
def same(got, expected, what):
    if got != expected:
        raise AssertionError("%s: got %r, expected %r" % (what, got, expected))


# Slot words: worked examples, and validity over random walks at every width.
def check_words(scale):
    p2 = words.insert_from_back(words.empty(15), 15, 0)
    p3 = words.insert_from_back(p2, 15, 0)
    same(words.empty(15), 0x0123456789ABCDE0, "empty")
    same((p2, p3), (0x123456789ABCDE01, 0x23456789ABCDE012), "insert twice")
    same(words.remove(p3, 15, 0), 0x23456789ABCDE101, "remove")
    same(words.make_sorted(15, 15), 0xEDCBA9876543210F, "full")
    same(words.insert_from_back(0x1201, 3, 1), 0x2102, "width 3")
    rng = random.Random(5)
    for width in range(1, 16):
        word = words.empty(width)
        for _ in range(40 * scale):
            size = words.size_of(word)
            grow = size == 0 or (size < width and rng.random() < 0.6)
            if grow:
                word = words.insert_from_back(word, width, rng.randrange(size + 1))
            else:
                word = words.remove(word, width, rng.randrange(size))
            same(words.valid(word, width), True, "valid")
        same(words.valid(word | 1 << 63 | 1 << 60, width) and width < 15, False, "high bits")
    return "widths 1 to 15"


# The calls on slot words: document 01's examples and refusals, and on random walks the moves of words.py; both removals undo an insertion,
# and what was removed goes back.
def check_bank(scale):
    p1, p2, p3 = 0x0123456789ABCDE0, 0x123456789ABCDE01, 0x23456789ABCDE012
    same(bank.empty(15), (0, p1, None), "P1")
    same((bank.insert_from_back(p1, 15, 0), bank.insert_from_back(p2, 15, 0)), ((0, p2, (0, 14)), (0, p3, (1, 13))), "P2 and P3")
    same((bank.remove(p3, 15, 0), bank.remove_to_back(p3, 15, 0)), ((0, 0x23456789ABCDE101, None), (0, p2, None)), "P4 and P5")
    same((bank.insert_first_free(0x23456789ABCDE101, 15, 0), bank.insert_first_free(p1, 15, 1)[0]), ((0, p3, None), 4), "P4 taken back")
    same(bank.make_sorted(15, 15), (0, 0xEDCBA9876543210F, None), "P6")
    same((bank.insert_from_back(0x1201, 3, 1), bank.rotate(0x2102, 3, 0, 1)), ((0, 0x2102, (1, 1)), (0, 0x0212, None)), "P7 and P8")
    same([bank.get(p1, 16, 99)[0], bank.get(0, 3, 99)[0], bank.get(p1, 15, 15)[0]], [1, 2, 4], "the lowest number")
    full = bank.make_sorted(4, 4)[1]
    same([bank.insert_from_back(full, 4, 4)[0], bank.insert_from_back(full, 4, 5)[0], bank.remove_slot(0x3210, 3, 7)[0]], [5, 4, 2], "full")
    rng = random.Random(6)
    for _ in range(400 * scale):
        width = rng.randint(2, 15)
        word = words.packed(rng.randint(1, width - 1), rng.sample(range(width), width))
        i = rng.randrange(words.size_of(word))
        same(bank.remove(word, width, i)[1], words.remove(word, width, i), "remove")
        more, (slot, resting) = bank.insert_from_back(word, width, i)[1:]
        same((more, slot), (words.insert_from_back(word, width, i), bank.back(word, width)[2]), "insert")
        same(resting, sum(bank.back_at_offset(more, width, k)[0] == 0 for k in range(width)), "as many rest")
        same(bank.remove_to_back(more, width, i)[1], word, "withdrawn")
        same(bank.remove_slot(more, width, slot), bank.remove(more, width, i), "by slot")
        fewer = bank.remove(word, width, i)[1]
        same((bank.back_at_offset(fewer, width, width - words.size_of(word))[2], bank.insert_first_free(fewer, width, i)[1]),
             (words.slot_at(word, i), word), "the removed slot goes back")
    return "P1 to P8"


# Wide banks: every call keeps a valid bank, and a run withdrawn last first gives it back.
def check_wides(scale):
    rng, runs = random.Random(24), 0
    for width in range(16, 25):
        for _ in range(20 * scale):
            start = wides.packed(rng.randint(0, width), rng.sample(range(width), width))
            bank, back = start, []
            for _ in range(30):
                name, a = rng.choice(("insert_from_back", "remove", "remove_slot")), rng.randint(0, width)
                number, after, told = getattr(wides, name)(bank, width, a)
                if number:
                    continue
                same(wides.judged(after, width), 0, "valid")
                if name == "insert_from_back":
                    same(told, (after[a + 1], len(bank[bank[0] + 1:width])), "the slot, and one rests less")
                at = bank[1:].index(a) if name == "remove_slot" else a
                back.append(("remove_to_back" if name == "insert_from_back" else "insert_first_free", at))
                bank = after
            for name, a in reversed(back):
                bank = getattr(wides, name)(bank, width, a)[1]
            same(bank, start, "withdrawn")
            runs += 1
    return "%d runs" % runs
