# Images laid out by hand, each with what reading it must tell, worked out from the request and not by the reader beside it.

import struct

from image import BLOCK, HELD, Told, check_of, entry_bytes, image_of, in_blocks

TOP = (1 << 64) - 1
FOUR = [(b"", 1), (b"eight by", 2), (b"eight bye", TOP), (b"k" * 256, 1 << 63)]
EDGES = range(20)


# A stream that begins with a count and then has these bytes, filled up with zeros, in good blocks: in so many, or in as many as it takes.
def laid(count, *parts, blocks=1):
    stream = (struct.pack("<I", count) + b"".join(parts)).ljust(HELD * blocks, b"\0")
    return in_blocks(stream + bytes(-len(stream) % HELD))


# Three entries, the last with a key of nine bytes: it begins so many bytes before the first block's end. With 19 it ends there too.
def at_edge(before):
    return [(b"a" * 256, 1), (b"b" * (224 - before), 2), (b"c" * 9, TOP - 3)]


# Where the field starts that the first block's end cuts, or before which it stands.
def cut_field(before):
    start = HELD - before
    return start if before < 2 else start + 2 if before < 11 else start + 11


# An image with some of its bytes replaced.
def with_bytes(image, at, data):
    return image[:at] + data + image[at + len(data):]


# An image with the word at a place changed by a number.
def with_word(image, at, by):
    word = int.from_bytes(image[at:at + 4], "little")
    return with_bytes(image, at, ((word + by) % (1 << 32)).to_bytes(4, "little"))


# The blocks of an image in another order.
def ordered(image, *numbers):
    return b"".join(image[BLOCK * number:BLOCK * (number + 1)] for number in numbers)


# One block that says it is another.
def numbered(image, number, other):
    held = image[BLOCK * number:BLOCK * number + HELD]
    return with_bytes(image, BLOCK * number + HELD, check_of(other, held))


# Entries with keys of one byte, 0 and on.
def short_entries(count):
    return [(bytes([i]), 1000 + i) for i in range(count)]


# Images of none, one and 255 entries, in one block and in six; of two and three blocks; of one that its entries fill.
EMPTY, ONE, MANY = image_of([]), image_of([(b"a", 7)]), image_of(short_entries(255))
TWO, THREE, WHOLE = image_of(at_edge(10)), image_of(short_entries(120)), image_of(at_edge(19))

ACCEPTED = [
    ("no entry", Told(0, 0), EMPTY),
    ("one entry", Told(0, 1), ONE),
    ("the empty key and nothing but zeros behind the count", Told(0, 1), laid(1)),
    ("keys of 0, 8, 9 and 256 bytes", Told(0, 4), image_of(FOUR)),
    ("255 entries", Told(0, 255), MANY),
    ("a key that goes on where the one before ends", Told(0, 3), image_of([(b"", 0), (b"\0", 0), (b"\0\0", 0)])),
    ("bytes above 127", Told(0, 2), image_of([(b"\x7f\xff", 0), (b"\x80", 0)])),
] + [("an entry that begins %d bytes before an edge" % before, Told(0, 3), image_of(at_edge(before))) for before in EDGES]

LENGTHS = [("%d bytes" % size, Told(15), (WHOLE + TWO)[:size]) for size in (0, 1, 511, 513, 1023, 1025)]
LENGTHS += [
    ("a byte behind the last block", Told(15), ONE + b"\0"),
    ("no whole block, and a bad check", Told(15), with_word(ONE, 0, 1)[:511]),
]

CHECKS = [
    ("zeros alone", Told(16, 0), bytes(BLOCK)),
    ("the first word", Told(16, 0), with_word(ONE, 0, 1)),
    ("the last word of the stream", Told(16, 0), with_word(ONE, 500, 1 << 31)),
    ("a", Told(16, 0), with_word(ONE, 504, -1)),
    ("b", Told(16, 0), with_word(ONE, 508, 1)),
    ("one bit of the middle block", Told(16, 1), with_word(THREE, BLOCK + 252, 1 << 7)),
    ("a of the middle block", Told(16, 1), with_word(THREE, BLOCK + 504, 1 << 16)),
    ("b of the last block", Told(16, 2), with_word(THREE, 2 * BLOCK + 508, -1)),
    ("the last word of the last block's stream", Told(16, 2), with_word(THREE, 2 * BLOCK + 500, 1)),
    ("two bad blocks", Told(16, 1), with_word(with_word(THREE, 2 * BLOCK, 1), BLOCK + 4, 1)),
    ("a word made more, the next as much less", Told(16, 0), with_word(with_word(ONE, 0, 1), 4, -1)),
    ("a and b changed over", Told(16, 0), with_bytes(ONE, 504, ONE[508:] + ONE[504:508])),
    ("first blocks changed over", Told(16, 0), ordered(THREE, 1, 0, 2)),
    ("last blocks changed over", Told(16, 1), ordered(THREE, 0, 2, 1)),
    ("a block twice", Told(16, 2), ordered(THREE, 0, 1, 1, 2)),
    ("a block left out", Told(16, 1), ordered(THREE, 0, 2)),
    ("the first block counted from 1", Told(16, 0), numbered(ONE, 0, 1)),
    ("the last block counted as the first", Told(16, 1), numbered(TWO, 1, 0)),
    ("a bad check behind a wrong stream", Told(16, 1), with_word(laid(256, blocks=2), BLOCK, 1)),
    ("a bad check in a block left over", Told(16, 1), ONE + bytes(BLOCK)),
]

COUNTS = [
    ("count of 256", Told(17, 0), laid(256)),
    ("count of 65,536", Told(17, 0), laid(65536)),
    ("largest count", Told(17, 0), laid((1 << 32) - 1)),
    ("count of 256 with its entries", Told(17, 0), image_of(short_entries(256))),
]

FIELDS = [
    ("length of 257", Told(17, 4), laid(1, b"\x01\x01")),
    ("largest length", Told(17, 4), laid(1, b"\xff\xff")),
    ("length of 257 in the second entry", Told(17, 15), laid(2, entry_bytes(b"a", 7), b"\x01\x01")),
    ("length of 257 whose key would run past the end", Told(17, 494), laid(
        3, entry_bytes(b"a" * 256, 1), entry_bytes(b"b" * 214, 2), b"\x01\x01")),
    ("the empty key twice", Told(17, 16), laid(2)),
    ("a key twice", Told(17, 17), laid(2, entry_bytes(b"a", 7), entry_bytes(b"a", 8))),
    ("a key below the one before", Told(17, 17), laid(2, entry_bytes(b"b", 7), entry_bytes(b"a", 8))),
    ("the empty key behind another", Told(17, 17), laid(2, entry_bytes(b"\0", 7), entry_bytes(b"", 8))),
    ("a key that the one before goes on from", Told(17, 19), laid(2, entry_bytes(b"abc", 7), entry_bytes(b"ab", 8))),
    ("a key that differs in the last of 256 bytes", Told(17, 272), laid(
        2, entry_bytes(b"k" * 255 + b"b", 7), entry_bytes(b"k" * 255 + b"a", 8))),
    ("the last of 255 keys not above", Told(17, 4 + 11 * 254 + 2), image_of(short_entries(254) + [(b"\xfd", 0)])),
    ("a key not above whose frame would run past the end", Told(17, 500), laid(
        3, entry_bytes(b"a" * 256, 1), entry_bytes(b"b" * 218, 2), b"\1\0b")),
    ("an empty key at the end, not above", Told(17, 504), laid(3, entry_bytes(b"a" * 256, 1), entry_bytes(b"b" * 222, 2))),
]

ENDS = [
    ("an entry that begins %d bytes before the end, cut there" % before, Told(17, cut_field(before)), image_of(at_edge(before))[:BLOCK])
    for before in EDGES[:-1]
] + [
    ("a key of 256 bytes that runs past the end", Told(17, 272), laid(2, entry_bytes(b"a" * 256, 1), b"\0\1")),
    ("one entry fewer than counted", Told(17, 504), laid(4, *(entry_bytes(*entry) for entry in at_edge(19)))),
    ("the last of six blocks left out", Told(17, 4 + 11 * 228 + 3), MANY[:5 * BLOCK]),
]

FILLS = [
    ("the first byte of the fill", Told(17, 4), laid(0, b"\1")),
    ("the second byte of the fill", Told(17, 5), laid(0, b"\0\x80")),
    ("the last byte of the fill", Told(17, 503), laid(0, bytes(499), b"\1")),
    ("the first of two bytes", Told(17, 100), laid(0, bytes(96), b"\2", bytes(50), b"\1")),
    ("one entry more than counted", Told(17, 15), laid(1, entry_bytes(b"a", 7), entry_bytes(b"b", 8))),
    ("the last byte of the fill of six blocks", Told(17, 3023), laid(
        255, *(entry_bytes(*entry) for entry in short_entries(255)), bytes(214), b"\1")),
]

LEFT_OVER = [
    ("a block of zeros left over", Told(17, 504), laid(0, blocks=2)),
    ("a block with anything left over", Told(17, 504), laid(0, bytes(500), bytes(range(252)) * 2)),
    ("a good image left over", Told(17, 504), ONE + numbered(ONE, 0, 1)),
    ("two blocks left over", Told(17, 504), laid(1, entry_bytes(b"a", 7), blocks=3)),
    ("a block left over where there is no fill", Told(17, 504), WHOLE + numbered(EMPTY, 0, 1)),
    ("a block left over behind two", Told(17, 1008), TWO + numbered(EMPTY, 0, 2)),
    ("a byte of the fill, and a block left over", Told(17, 503), laid(0, bytes(499), b"\1", blocks=2)),
]

# All of them: a name, what must be told, the image.
CRAFTED_IMAGES = ACCEPTED + LENGTHS + CHECKS + COUNTS + FIELDS + ENDS + FILLS + LEFT_OVER
