# The calls on wide banks, straight from document 02: a bank is 25 numbers, the size and then a slot for each position, zeros behind the
# last. The rules of document 01 for positions are written out here once more, on lists, and share nothing with bank.py.
#
# Every call answers (number, bank, told): number 0 is accepted, else the refusal; bank is the bank afterwards, None where the call makes or
# leaves none; told is the number told, or None. An insertion from the back tells two: the slot, and how many are free after it.

WIDTH, BANK, POSITION, FULL, UNUSED = 1, 2, 4, 5, 6
BYTES = 25


# A bank of this size with these slots.
def packed(size, slots):
    return [size] + list(slots) + [0] * (BYTES - 1 - len(slots))


# 1 for a width that is not 16 to 24; 2 where the size is over the width, the positions do not hold each slot once, or a byte behind them
# is not zero.
def judged(bank, width):
    if width < 16 or width > 24:
        return WIDTH
    taken = [False] * width
    for slot in bank[1:width + 1]:
        if slot >= width or taken[slot]:
            return BANK
        taken[slot] = True
    return BANK if bank[0] > width or any(bank[width + 1:]) else 0


def refused(number):
    return number, None, None


def from_bytes(bank, width):
    number = judged(bank, width)
    return refused(number) if number else (0, list(bank), None)


def make_sorted(width, n):
    if width < 16 or width > 24:
        return refused(WIDTH)
    if n > width:
        return refused(POSITION)
    slots = []
    for i in range(width):
        slots.append(i if i < n else width - 1 - (i - n))
    return 0, packed(n, slots), None


def empty(width):
    return make_sorted(width, 0)


def size(bank, width):
    number = judged(bank, width)
    return refused(number) if number else (0, None, bank[0])


def get(bank, width, i):
    number = judged(bank, width) or (0 if i < width else POSITION)
    return refused(number) if number else (0, None, bank[i + 1])


def back(bank, width):
    number = judged(bank, width)
    return refused(number) if number else (0, None, bank[width])


# The slot at one position is taken out and put in at another, and the size changes by so much.
def moved(bank, width, at, to, more):
    slots = list(bank[1:width + 1])
    slots.insert(to, slots.pop(at))
    return packed(bank[0] + more, slots)


def insertion(bank, width, i):
    return judged(bank, width) or (POSITION if i > bank[0] else FULL if bank[0] == width else 0)


def insert_from_back(bank, width, i):
    number = insertion(bank, width, i)
    if number:
        return refused(number)
    after = moved(bank, width, width - 1, i, 1)
    return 0, after, (bank[width], width - after[0])


def insert_first_free(bank, width, i):
    number = insertion(bank, width, i)
    return refused(number) if number else (0, moved(bank, width, bank[0], i, 1), None)


def remove(bank, width, i):
    number = judged(bank, width) or (0 if i < bank[0] else POSITION)
    return refused(number) if number else (0, moved(bank, width, i, bank[0] - 1, -1), None)


def remove_to_back(bank, width, i):
    number = judged(bank, width) or (0 if i < bank[0] else POSITION)
    return refused(number) if number else (0, moved(bank, width, i, width - 1, -1), None)


def remove_slot(bank, width, slot):
    number = judged(bank, width) or (0 if slot in bank[1:bank[0] + 1] else UNUSED)
    return refused(number) if number else remove(bank, width, bank[1:].index(slot))


def exchange(bank, width, i, j):
    number = judged(bank, width) or (0 if i < width and j < width else POSITION)
    if number:
        return refused(number)
    after = list(bank)
    after[i + 1], after[j + 1] = bank[j + 1], bank[i + 1]
    return 0, after, None


def rotate(bank, width, i, j):
    number = judged(bank, width) or (0 if i <= j <= width else POSITION)
    if number:
        return refused(number)
    slots = bank[1:width + 1]
    return 0, packed(bank[0], slots[:i] + slots[j:] + slots[i:j]), None
