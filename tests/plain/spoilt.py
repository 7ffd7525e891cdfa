# Images damaged in the ways of a card, of a bus and of a wrong writer; image.py says what reading each must tell.
#
#     python3 spoilt.py --count 20000 --seed 1
#
# prints how many of each kind there are, and what they tell. spoilt(count, seed) gives them one by one, as (kind, image): many from the
# same entries in a row. Where a wrong writer is meant, the checks are those of what it wrote, so that it is the stream that is judged.

import argparse
import random
import sys
from collections import Counter

from image import BLOCK, HELD, entry_bytes, image_of, in_blocks, read, stream_of

TOP = (1 << 64) - 1
IN_A_ROW = 100
LONG_ONES = 40
COUNTS = (0, 1, 254, 255, 256, 257, 511, 65536, 1 << 24, 1 << 31, (1 << 32) - 1)
LENGTHS = (0, 1, 255, 256, 257, 258, 511, 512, 65280, 65535)


# ---- entries

# A key of one kind: of few letters, of eight or nine bytes, of any length, of the longest, with a common beginning.
def some_key(rng, kind):
    if kind == 0:
        return bytes(rng.choice(b"ab\0\xff") for _ in range(rng.randint(0, 6)))
    if kind == 1:
        return rng.randrange(1 << 16).to_bytes(rng.choice((8, 9)), "big")
    if kind == 2:
        return bytes(rng.getrandbits(8) for _ in range(rng.randint(0, 60)))
    if kind == 3:
        return rng.randrange(1 << 16).to_bytes(2, "big").ljust(rng.choice((254, 255, 256, 256)), b"k")
    return b"k" * rng.choice((7, 8, 16, 240)) + bytes(rng.choice(b"xyz") for _ in range(rng.randint(0, 9)))


# Entries in key order: mostly a few, so that images are of one to four blocks; now and then as many as there may be.
def some_entries(rng, many):
    kind = rng.randrange(5)
    count = 255 if many else rng.choice((0, 1, 1, 2, 2, 3, 3, 4, 6, 9, 20, 40) if kind != 3 else (1, 2, 3, 4, 5, 6))
    keys = {some_key(rng, kind if rng.random() < 0.9 else rng.randrange(5)) for _ in range(2 * count)}
    return [(key, rng.choice((0, TOP, rng.getrandbits(64)))) for key in sorted(rng.sample(sorted(keys), min(count, len(keys))))]


# Where the length of each key starts in the stream.
def lengths_at(entries):
    return [len(unfilled(entries[:k])) for k in range(len(entries))]


# The stream without its fill.
def unfilled(entries):
    return len(entries).to_bytes(4, "little") + b"".join(entry_bytes(*entry) for entry in entries)


# ---- what a card or a bus does

# The bytes with some of them replaced.
def replaced(data, at, part):
    return data[:at] + part + data[at + len(part):]


# One bit.
def bit(rng, entries, turn):
    image = image_of(entries)
    at = rng.randrange(len(image))
    return replaced(image, at, bytes([image[at] ^ 1 << rng.randrange(8)]))


# One aligned word, by a little, by a bit or by anything.
def word(rng, entries, turn):
    image = image_of(entries)
    at = 4 * (turn % (len(image) // 4))
    old = int.from_bytes(image[at:at + 4], "little")
    new = rng.choice((old + 1, old - 1, old ^ 1 << rng.randrange(32), old + rng.randrange(1, 1 << 32))) % (1 << 32)
    return replaced(image, at, new.to_bytes(4, "little"))


# Two words, one by as much more as the other by less.
def two_words(rng, entries, turn):
    image = image_of(entries)
    one, other = rng.randrange(len(image) // 4), rng.randrange(len(image) // 4)
    by = rng.choice((1, 255, 1 << 31, rng.getrandbits(32)))
    for at, change in ((4 * one, by), (4 * other, -by)):
        image = replaced(image, at, ((int.from_bytes(image[at:at + 4], "little") + change) % (1 << 32)).to_bytes(4, "little"))
    return image


# Another length: cut anywhere, at a block's edge too, or with zeros or anything behind it.
def length(rng, entries, turn):
    image = image_of(entries)
    kind = rng.randrange(4)
    if kind == 0:
        return image[:rng.randrange(len(image))]
    if kind == 1:
        return image[:BLOCK * rng.randrange(len(image) // BLOCK)]
    more = rng.choice((1, 4, 504, 511, 512, 513, 1024, rng.randint(1, 1100)))
    return image + (bytes(more) if kind == 2 else rng.getrandbits(8 * more).to_bytes(more, "little"))


# Blocks changed over, doubled, left out, or put back as those of another image.
def blocks(rng, entries, turn):
    image = image_of(entries)
    rows = [image[at:at + BLOCK] for at in range(0, len(image), BLOCK)]
    one, other = rng.randrange(len(rows)), rng.randrange(len(rows))
    kind = rng.randrange(4)
    if kind == 0:
        rows[one], rows[other] = rows[other], rows[one]
    elif kind == 1:
        rows.insert(one, rows[other])
    elif kind == 2:
        del rows[one]
    else:
        rows[one] = image_of(some_entries(rng, False))[:BLOCK]
    return b"".join(rows)


# ---- what a wrong writer does

# One byte of the stream: every place in turn.
def stream_byte(rng, entries, turn):
    stream = stream_of(entries)
    at = turn % len(stream)
    new = rng.choice((stream[at] ^ 1 << rng.randrange(8), stream[at] + 1, stream[at] - 1)) % 256
    return in_blocks(replaced(stream, at, bytes([new])))


# Another count: one more or less, at the limit, or far beyond it.
def count(rng, entries, turn):
    new = rng.choice((len(entries) + 1, len(entries) - 1, rng.choice(COUNTS), rng.randint(0, 300))) % (1 << 32)
    return in_blocks(replaced(stream_of(entries), 0, new.to_bytes(4, "little")))


# Another length of one key.
def key_length(rng, entries, turn):
    stream = stream_of(entries)
    if not entries:
        return count(rng, entries, turn)
    at = lengths_at(entries)[turn % len(entries)]
    old = int.from_bytes(stream[at:at + 2], "little")
    new = rng.choice((old + 1, old - 1, old + 256, old ^ 1 << rng.randrange(16), rng.choice(LENGTHS))) % 65536
    return in_blocks(replaced(stream, at, new.to_bytes(2, "little")))


# A key that is not above the one before: the two changed over, the same again, or a beginning of it.
def order(rng, entries, turn):
    if len(entries) < 2:
        return count(rng, entries, turn)
    wrong, at = list(entries), 1 + turn % (len(entries) - 1)
    before = wrong[at - 1][0]
    kind = rng.randrange(3)
    if kind == 0:
        wrong[at - 1], wrong[at] = wrong[at], wrong[at - 1]
    elif kind == 1 or not before:
        wrong[at] = before, wrong[at][1]
    else:
        wrong[at] = before[:rng.randrange(len(before))], wrong[at][1]
    return image_of(wrong)


# Blocks missing at the end of the stream.
def stream_cut(rng, entries, turn):
    stream = stream_of(entries)
    if len(stream) == HELD:
        return at_end(rng, entries, turn)
    return in_blocks(stream[:HELD * rng.randrange(1, len(stream) // HELD)])


# Up to 24 bytes are left of a block, by one or two keys that are as long as that takes: the next entry is cut there, or there is none.
def at_end(rng, entries, turn):
    if len(entries) > 252:
        return stream_cut(rng, entries, turn)
    room = (HELD - len(unfilled(entries)) - 10 - turn % 24) % HELD
    longer = entries + ([(b"\xfe" * 245, 1)] if room > 255 else [])
    longer = longer + [(b"\xff" * (room - 255 if room > 255 else room), rng.getrandbits(64))]
    stream = stream_of(longer + [(b"\xff" * 256, 2)] if rng.random() < 0.7 else longer)
    return in_blocks(stream[:len(stream_of(longer))])


# A byte in the fill: every place in turn.
def fill(rng, entries, turn):
    stream, end = stream_of(entries), len(unfilled(entries))
    if end == len(stream):
        return left_over(rng, entries, turn)
    at = end + turn % (len(stream) - end)
    return in_blocks(replaced(stream, at, bytes([rng.choice((1, 128, 255))])))


# Blocks left over: of zeros, of anything, as the first one.
def left_over(rng, entries, turn):
    stream = stream_of(entries)
    more = rng.choice((bytes(HELD), rng.getrandbits(8 * HELD).to_bytes(HELD, "little"), stream[:HELD], bytes(2 * HELD)))
    return in_blocks(stream + more)


# Anything behind the count, in good blocks.
def anything(rng, entries, turn):
    size = HELD * rng.randint(1, 3)
    return in_blocks(replaced(bytes(rng.choice((0, 0, 0, 1, 2, rng.getrandbits(8))) for _ in range(size)), 1, bytes(3)))


# A wrong stream, and a bad check beside it or behind it.
def both(rng, entries, turn):
    image = rng.choice(WRITERS)(rng, entries, turn)
    at = rng.randrange(len(image))
    return replaced(image, at, bytes([image[at] ^ 1 << rng.randrange(8)]))


# Nothing is wrong.
def untouched(rng, entries, turn):
    return image_of(entries)


WRITERS = [stream_byte, count, key_length, order, stream_cut, at_end, fill, left_over, anything]
KINDS = [untouched, bit, bit, word, word, two_words, length, length, blocks, blocks, both] + 2 * WRITERS


# So many damaged images, each with its kind, the same ones for a seed. Some that are as written stand among them and are not counted.
def spoilt(total, seed):
    rng, made, damaged = random.Random(seed), 0, 0
    while damaged < total:
        if made % IN_A_ROW == 0:
            entries = some_entries(rng, made // IN_A_ROW % LONG_ONES == LONG_ONES - 1)
        kind, turn = KINDS[made % len(KINDS)], made // len(KINDS)
        image = kind(rng, entries, turn)
        made += 1
        damaged += image != image_of(entries)
        yield kind.__name__, image


# Counts the kinds, and what they tell.
def main(arguments):
    parser = argparse.ArgumentParser(description="damaged images, and what reading them tells")
    parser.add_argument("--count", type=int, default=20000)
    parser.add_argument("--seed", type=int, default=1)
    options = parser.parse_args(arguments)
    told, kinds, places = Counter(), Counter(), set()
    for kind, image in spoilt(options.count, options.seed):
        answer = read(image)[0]
        told[answer.number] += 1
        kinds[kind, answer.number] += 1
        places.update({answer.told} if answer.number == 17 else ())
    for (kind, number), many in sorted(kinds.items()):
        print("%-12s %2d: %d" % (kind, number, many))
    print(", ".join("%d: %d" % pair for pair in sorted(told.items())), "and %d places of 17" % len(places))


if __name__ == "__main__":
    main(sys.argv[1:])
