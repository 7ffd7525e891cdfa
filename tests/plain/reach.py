# What a script reaches: an index that answers it, and the names of the events it is made for.

import index
from answers import CELLS, NODES, PlainMap, lines_of, request_of
from audit import broken_rules
from keys import class_at, ikey_at
from listing import listing
from samples import fresh


class IndexStore:
    # The program's index, for answering scripts; it is audited now and then, and at every listing.
    def __init__(self):
        self.memory, self.calls = fresh(NODES, CELLS), 0

    # Fails unless the memory is a tree.
    def must_be_a_tree(self):
        broken = broken_rules(self.memory)
        if broken:
            raise AssertionError("not a tree in a script: %s" % sorted(broken))

    # Counts a call, and audits at every thirtieth.
    def tick(self):
        self.calls += 1
        if self.calls % 30 == 0:
            self.must_be_a_tree()

    # As the plain map's.
    def put(self, key, frame):
        self.tick()
        return index.put(self.memory, key, frame, audited=True).number

    # As the plain map's.
    def find(self, key):
        self.tick()
        answer = index.find(self.memory, key, audited=True)
        return answer.number, answer.frame

    # As the plain map's.
    def remove(self, key):
        self.tick()
        return index.remove(self.memory, key, audited=True).number

    # As the plain map's.
    def listing(self):
        self.must_be_a_tree()
        return listing(self.memory)


# Whether a new key joins a leaf; if not, it is in conflict with a stored one.
def joins_leaf(room, key):
    layer, number = room.layer_of(key)
    return (ikey_at(key, number), class_at(key, number)) not in layer.entries


# Makes a put on the map, and names what it came to: cells or nodes that ran out, splits, chains of layers.
def put_reaches(plain, key, frame):
    if len(key) > 256 or key in plain.frames:
        return {"put %d" % plain.put(key, frame)}
    need, free, full = plain.room.need(key), plain.room.free, len(plain.frames) == CELLS
    name = ("split of %d" if joins_leaf(plain.room, key) else "chain of %d") % need
    number = plain.put(key, frame)
    if number == 0:
        return {"put 0", name} | ({name + " just fits"} if need == free else set())
    return {"put %d" % number, "no cell" if full else name + " short by %d" % (need - free)}


# All that a script comes to.
def reached_by(script):
    plain, reached = PlainMap(), set()
    for request in map(request_of, lines_of(script)):
        if request is None:
            reached.add("bad line")
        elif request[0] == b"put":
            reached |= put_reaches(plain, *request[1:])
        elif request[0] == b"del":
            plain.remove(request[1])
    return reached


# What the scripts together must reach.
WANTED = {"bad line", "no cell", "put 0", "put 7", "put 11", "put 13", "put 14", "chain of 1", "chain of 31",
          "chain of 1 short by 1", "chain of 1 just fits"}
WANTED |= {"split of %d%s" % (need, how) for need in (1, 2, 3) for how in ("", " just fits", " short by 1")}
