# The whole output the program must give to a script, from a plain map and its own count of room.
#
#     python3 answers.py < script

import sys

from room import Room

NODES, CELLS = 64, 128
LONGEST_KEY, LONGEST_LINE = 256, 1200
FRAME_LIMIT = 1 << 64
HEX = b"0123456789abcdef"


class PlainMap:
    # An empty map, with a count of the nodes an index would have left.
    def __init__(self, nodes=NODES, cells=CELLS):
        self.frames, self.cells, self.room = {}, cells, Room(nodes)

    # 0, or the refusal.
    def put(self, key, frame):
        if len(key) > LONGEST_KEY:
            return 7
        if key in self.frames:
            return 11
        if len(self.frames) == self.cells:
            return 13
        if self.lacking(key) > 0:
            return 14
        self.room.put(key)
        self.frames[key] = frame
        return 0

    # How many nodes a new key lacks; 0 or less where none.
    def lacking(self, key):
        return self.room.need(key) - self.room.free

    # How many slots rest in the leaf of a stored key.
    def resting(self, key):
        return self.room.resting(key)

    # 0 and the frame, or the refusal and None.
    def find(self, key):
        if len(key) > LONGEST_KEY:
            return 7, None
        return (0, self.frames[key]) if key in self.frames else (12, None)

    # 0, or the refusal.
    def remove(self, key):
        if len(key) > LONGEST_KEY:
            return 7
        if key not in self.frames:
            return 12
        self.room.remove(key)
        del self.frames[key]
        return 0

    # Keys and frames in key order.
    def listing(self):
        return sorted(self.frames.items())


# The lines of a script: a line feed ends a line, and the last one may lack it.
def lines_of(script):
    lines = script.split(b"\n")
    return lines[:-1] if lines[-1] == b"" else lines


# The key a field stands for, or None.
def key_of(field):
    if field == b"-":
        return b""
    if not field or len(field) % 2 or any(digit not in HEX for digit in field):
        return None
    return bytes.fromhex(field.decode())


# The frame number a field stands for, or None.
def frame_of(field):
    if not field or any(digit not in b"0123456789" for digit in field):
        return None
    if (field[:1] == b"0" and field != b"0") or len(field) > 20 or int(field) >= FRAME_LIMIT:
        return None
    return int(field)


# A well-formed line as a tuple (word, key, frame) with what it has of them, or None for a bad line.
def request_of(line):
    if len(line) > LONGEST_LINE:
        return None
    if line == b"list":
        return (b"list",)
    fields = line.split(b" ")
    word, values = fields[0], []
    if word == b"put" and len(fields) == 3:
        values = [key_of(fields[1]), frame_of(fields[2])]
    elif word in (b"find", b"del") and len(fields) == 2:
        values = [key_of(fields[1])]
    return (word, *values) if values and None not in values else None


# How a key is printed.
def shown(key):
    return key.hex() or "-"


# The lines printed for one request.
def answer_to(store, request):
    if request is None:
        return ["bad line"]
    if request[0] == b"list":
        entries = store.listing()
        return ["%d entries" % len(entries)] + ["%s %d" % (shown(key), frame) for key, frame in entries]
    if request[0] == b"find":
        number, frame = store.find(request[1])
        return ["refused %d" % number if number else str(frame)]
    number = store.put(*request[1:]) if request[0] == b"put" else store.remove(request[1])
    return ["refused %d" % number if number else "ok"]


# The whole output for a script.
def output_for(script, store=None):
    store = store or PlainMap()
    printed = [text for line in lines_of(script) for text in answer_to(store, request_of(line))]
    return "".join(text + "\n" for text in printed).encode()


if __name__ == "__main__":
    sys.stdout.buffer.write(output_for(sys.stdin.buffer.read()))
