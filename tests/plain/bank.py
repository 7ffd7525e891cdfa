# The calls on slot words, straight from document 01: lists of slots, and the refusals by rising number.
#
# Every call answers (number, word, told): number 0 is accepted, else the refusal; word is the word afterwards, None where the call makes or
# leaves none; told is the number told, or None. An insertion from the back tells two: the slot, and how many are free after it.

import words

WIDTH, WORD, POSITION, FULL, UNUSED = 1, 2, 4, 5, 6


# The refusals of every call on a word: 1, then 2 for a word that is not valid without what strays above the width.
def judged(word, width):
    if not 1 <= width <= 15:
        return WIDTH
    return 0 if words.valid(words.cleared(word, width), width) else WORD


# A call on a valid word: refused where a rule (number, holds) fails, else answered by `then` of its size and slots.
def on_word(word, width, rules, then):
    number = judged(word, width)
    if number:
        return number, None, None
    size, slots = words.size_of(word), words.slots_of(word, width)
    for number, holds in rules(size):
        if not holds:
            return number, None, None
    return (0, *then(size, slots))


# A word of these slots, and nothing told.
def left(size, slots):
    return words.packed(size, slots), None


def empty(width):
    return make_sorted(width, 0)


def make_sorted(width, n):
    if not 1 <= width <= 15:
        return WIDTH, None, None
    if n > width:
        return POSITION, None, None
    return 0, words.packed(n, list(range(n)) + [width - 1 - k for k in range(width - n)]), None


def from_value(value, width):
    return on_word(value, width, lambda size: [], left)


def size(word, width):
    return on_word(word, width, lambda size: [], lambda size, slots: (None, size))


def get(word, width, i):
    return on_word(word, width, lambda size: [(POSITION, i < width)], lambda size, slots: (None, slots[i]))


def back(word, width):
    return on_word(word, width, lambda size: [], lambda size, slots: (None, slots[-1]))


def back_at_offset(word, width, offset):
    return on_word(word, width, lambda size: [(POSITION, size + offset < width)], lambda size, slots: (None, slots[width - 1 - offset]))


def set_size(word, width, n):
    return on_word(word, width, lambda size: [(POSITION, n <= width)], lambda size, slots: left(n, slots))


# The slots with two of them in each other's place.
def swapped(slots, i, j):
    slots[i], slots[j] = slots[j], slots[i]
    return slots


def exchange(word, width, i, j):
    return on_word(word, width, lambda size: [(POSITION, i < width and j < width)], lambda size, slots: left(size, swapped(slots, i, j)))


def swap_free_slots(word, width, i, j):
    return on_word(word, width, lambda size: [(POSITION, size <= i < width and size <= j < width)],
                   lambda size, slots: left(size, swapped(slots, i, j)))


def insert_from_back(word, width, i):
    return on_word(word, width, lambda size: [(POSITION, i <= size), (FULL, size < width)],
                   lambda size, slots: (words.packed(size + 1, slots[:i] + slots[-1:] + slots[i:-1]), (slots[-1], len(slots[size + 1:]))))


# The slot at position size goes to i, and positions i to size-1 move up one.
def insert_first_free(word, width, i):
    return on_word(word, width, lambda size: [(POSITION, i <= size), (FULL, size < width)],
                   lambda size, slots: left(size + 1, slots[:i] + [slots[size]] + slots[i:size] + slots[size + 1:]))


# Positions i+1 to size-1 move down one, and the slot comes to rest at size-1.
def without(size, slots, i):
    return left(size - 1, slots[:i] + slots[i + 1:size] + [slots[i]] + slots[size:])


def remove(word, width, i):
    return on_word(word, width, lambda size: [(POSITION, i < size)], lambda size, slots: without(size, slots, i))


def remove_slot(word, width, slot):
    return on_word(word, width, lambda size: [(UNUSED, slot in words.in_use(word))],
                   lambda size, slots: without(size, slots, slots.index(slot)))


def remove_to_back(word, width, i):
    return on_word(word, width, lambda size: [(POSITION, i < size)],
                   lambda size, slots: left(size - 1, slots[:i] + slots[i + 1:] + [slots[i]]))


def rotate(word, width, i, j):
    return on_word(word, width, lambda size: [(POSITION, i <= j <= width)],
                   lambda size, slots: left(size, slots[:i] + slots[j:] + slots[i:j]))


# ---- a run of calls, withdrawn

# The opposite of an accepted call of a run, as its name and its argument; the word is the one before the call.
def opposite(name, word, a):
    if name == "insert_from_back":
        return "remove_to_back", a
    return "insert_first_free", a if name == "remove" else words.in_use(word).index(a)


# The calls of a run, first to last, and then the opposites of those that were accepted, last first: each as its name, the word before
# it, its argument and its answer.
def withdrawn(word, width, run):
    told, back = [], []
    for name, a in run:
        answer = globals()[name](word, width, a)
        told.append((name, word, a, answer))
        if answer[0] == 0:
            back.append(opposite(name, word, a))
            word = answer[1]
    for name, a in reversed(back):
        answer = globals()[name](word, width, a)
        told.append((name, word, a, answer))
        word = answer[1]
    return told
