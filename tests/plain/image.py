# The index on a card: an image of blocks, and the two calls that write and read one.
#
# The stream is the number of entries in four bytes, then for each entry in key order the length of its key in two, the key, and its frame
# number in eight; numbers have their lowest byte first, and zeros fill it up to a multiple of 504. A block is 504 bytes of the stream and
# two words that check them, 512 bytes in all. Entries are pairs of key and frame number.
#
# Answers are Told(number, told): 0 and how many blocks or entries there are, or a refusal and what it carries, None where that is nothing.

import struct
from collections import namedtuple

import index
from audit import is_tree
from listing import listing

BLOCK, HELD = 512, 504
MOST_ENTRIES, LONGEST_KEY = 255, 256
NOT_A_TREE, BAD_LENGTH, BAD_CHECK, BAD_STREAM, TOO_SHORT = 10, 15, 16, 17, 18

Told = namedtuple("Told", "number told", defaults=(None,))


# A part of a stream is not as the writer makes it; place is where that part starts.
class Wrong(Exception):
    def __init__(self, place):
        super().__init__(place)
        self.place = place


# ---- writing

# The two words behind the 504 bytes of a block: the sum of its words and its number and 1, and the sum of the sums on the way.
def check_of(number, held):
    a, b = number + 1, 0
    for (word,) in struct.iter_unpack("<I", held):
        a = (a + word) % (1 << 32)
        b = (b + a) % (1 << 32)
    return struct.pack("<II", a, b)


# The bytes of one entry.
def entry_bytes(key, frame):
    return struct.pack("<H", len(key)) + key + struct.pack("<Q", frame)


# The stream, filled up.
def stream_of(entries):
    stream = struct.pack("<I", len(entries)) + b"".join(entry_bytes(*entry) for entry in entries)
    return stream + bytes(-len(stream) % HELD)


# A stream in blocks, each with its check. The stream may be anything that fills its blocks.
def in_blocks(stream):
    parts = [stream[at:at + HELD] for at in range(0, len(stream), HELD)]
    return b"".join(part + check_of(number, part) for number, part in enumerate(parts))


# The image of entries that are in key order.
def image_of(entries):
    return in_blocks(stream_of(entries))


# ---- reading

# The blocks of an image.
def blocks_of(image):
    return [image[at:at + BLOCK] for at in range(0, len(image), BLOCK)]


# The stream that the blocks of an image hold.
def stream_in(image):
    return b"".join(block[:HELD] for block in blocks_of(image))


class Fields:
    # A stream whose fields are taken one after the other.
    def __init__(self, stream):
        self.stream, self.place = stream, 0

    # The start of the next field, and its bytes. One that runs past the end is wrong.
    def take(self, size):
        start = self.place
        if start + size > len(self.stream):
            raise Wrong(start)
        self.place += size
        return start, self.stream[start:self.place]

    # The start of the next field, and the number it is.
    def number(self, size):
        start, field = self.take(size)
        return start, int.from_bytes(field, "little")


# Stops at a place, unless the part that starts there is right.
def demand(right, place):
    if not right:
        raise Wrong(place)


# The next entry. Each field is judged once all of it is there: so the key, before its frame is found to run past the end.
def next_entry(fields, before):
    start, length = fields.number(2)
    demand(length <= LONGEST_KEY, start)
    start, key = fields.take(length)
    demand(before is None or before < key, start)
    return key, fields.number(8)[1]


# The entries of a stream; Wrong where it is not one that the writer makes.
def entries_in(stream):
    fields, entries = Fields(stream), []
    start, count = fields.number(4)
    demand(count <= MOST_ENTRIES, start)
    for _ in range(count):
        entries.append(next_entry(fields, entries[-1][0] if entries else None))
    end = fields.place + -fields.place % HELD
    for place in range(fields.place, end):
        demand(stream[place] == 0, place)
    demand(len(stream) == end, end)
    return entries


# What an image holds: Told(0) and its entries, or the refusal and None.
def read(image):
    if not image or len(image) % BLOCK:
        return Told(BAD_LENGTH), None
    for number, block in enumerate(blocks_of(image)):
        if check_of(number, block[:HELD]) != block[HELD:]:
            return Told(BAD_CHECK, number), None
    try:
        entries = entries_in(stream_in(image))
    except Wrong as wrong:
        return Told(BAD_STREAM, wrong.place), None
    return Told(0, len(entries)), entries


# ---- the calls

# Writes the image of the index in a memory into out, a bytearray; what stands behind the last block stays.
def save(memory, out):
    if not is_tree(memory):
        return Told(NOT_A_TREE)
    image = image_of(listing(memory))
    if len(out) < len(image):
        return Told(TOO_SHORT)
    out[:len(image)] = image
    return Told(0, len(image) // BLOCK)


# Reads an image into a memory that may hold anything: a clear, and a put for each entry. Where a put is refused, the clear alone stays.
def load(memory, image):
    if not memory.right_lengths():
        return Told(NOT_A_TREE)
    told, entries = read(image)
    if told.number:
        return told
    index.clear(memory)
    for key, frame in entries:
        answer = index.put(memory, key, frame, audited=True)
        if answer.number:
            index.clear(memory)
            return Told(answer.number, answer.lacking)
    return told
