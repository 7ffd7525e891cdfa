# The calls on keys, straight from document 01: bytes, cut and compared as Python does it.
#
# A call answers (number, values): 0 and the values, or the refusal and None. A key is its bytes, and at a layer three numbers: ikey, shift
# count and suffix start.

from keys import LONGEST

KEY, SHIFT = 7, 8
LESS, EQUAL, GREATER = 0, 1, 2


# The eight bytes from an offset on as a number, zeros behind the last.
def read_ikey(key, offset):
    return int.from_bytes(key[offset:offset + 8].ljust(8, b"\0"), "big")


# How one value stands to another.
def order(one, other):
    return LESS if one < other else GREATER if one > other else EQUAL


# The three numbers of a key that was shifted so often.
def numbers_at(key, shifts):
    return read_ikey(key, 8 * shifts), shifts, min(8 * shifts + 8, len(key))


# Whether these are the numbers of a key at a layer that it has.
def fits(key, numbers):
    shifts = numbers[1]
    return len(key) <= LONGEST and (shifts == 0 or 8 * shifts < len(key)) and tuple(numbers) == numbers_at(key, shifts)


def compare_keys(one, other):
    if max(len(one), len(other)) > LONGEST:
        return KEY, None
    return 0, (order(one, other),)


def new(key):
    return (KEY, None) if len(key) > LONGEST else (0, numbers_at(key, 0))


# A key moved: 7 unless it fits, 8 unless the move is allowed, else the numbers of the layer it comes to.
def moved(key, numbers, allowed, to):
    if not fits(key, numbers):
        return KEY, None
    return (0, numbers_at(key, to)) if allowed else (SHIFT, None)


def shift(key, numbers):
    return moved(key, numbers, len(key) - 8 * numbers[1] > 8, numbers[1] + 1)


# As many shifts as that, each of a key with a suffix; all or none.
def shift_by(key, numbers, by):
    count, rest = divmod(by, 8)
    return moved(key, numbers, rest == 0 and (count == 0 or len(key) > 8 * (numbers[1] + count)), numbers[1] + count)


def unshift(key, numbers):
    return moved(key, numbers, numbers[1] > 0, numbers[1] - 1)


def unshift_all(key, numbers):
    return moved(key, numbers, True, 0)


# At one layer: the ikey, then the length left, where all above 8 are one.
def compare(key, numbers, ikey, length):
    if not fits(key, numbers):
        return KEY, None
    return 0, (order((numbers[0], min(len(key) - 8 * numbers[1], 9)), (ikey, min(length, 9))),)


def compare_suffix(key, numbers, other):
    return (0, (order(key[numbers[2]:], other),)) if fits(key, numbers) else (KEY, None)
