# Slot words: a size and a row of slots, four bits each, in one number.


# The four bits of a position.
def slot_at(word, position):
    return word >> (4 * position + 4) & 15


# The size of a word.
def size_of(word):
    return word & 15


# All the slots of a word, position 0 first.
def slots_of(word, width):
    return [slot_at(word, position) for position in range(width)]


# The slots in use, in order.
def in_use(word):
    return [slot_at(word, position) for position in range(size_of(word))]


# The word with this size and these slots.
def packed(size, slots):
    return size + sum(slot << (4 * position + 4) for position, slot in enumerate(slots))


# Whether a word is valid at a width.
def valid(word, width):
    return (1 <= width <= 15 and size_of(word) <= width and word >> (4 * width + 4) == 0
            and sorted(slots_of(word, width)) == list(range(width)))


# A word from outside without its bits above the width; at width 15 it has none.
def cleared(word, width):
    return word & (1 << 4 * width + 4) - 1


# The word of size n whose slots in use are 0, 1 and on; the free ones count down to the back.
def make_sorted(width, n):
    return packed(n, list(range(n)) + list(range(width - 1, n - 1, -1)))


# The word with nothing in use.
def empty(width):
    return make_sorted(width, 0)


# The slot at the back comes into use at position i.
def insert_from_back(word, width, i):
    slots = slots_of(word, width)
    slots.insert(i, slots.pop())
    return packed(size_of(word) + 1, slots)


# The slot at position i goes out of use and becomes the first of the free ones.
def remove(word, width, i):
    slots, size = slots_of(word, width), size_of(word)
    slots.insert(size - 1, slots.pop(i))
    return packed(size - 1, slots)
