# Random calls on the index in lent memory, with the answers of the plain index and audit; of undamaged memory also with those of a sorted
# map and of the count of room without nodes (room.py), which must agree before anything is asked.

import zlib
from array import array

import damage
import image
import index
import spoilt
from audit import is_tree
from memory import Memory
from room import Room
from some import FAR, TOP, before, near_key, or_else, some_key

# How many nodes and cells, and how many calls. Most are small, so that they fill up.
SIZES = [((1, 1), 1500), ((1, 3), 1500), ((1, 20), 2500), ((2, 20), 4000), ((3, 20), 4000), ((4, 40), 4000), ((6, 8), 4000),
         ((12, 30), 4000), ((34, 6), 3000), ((33, 3), 2000), ((40, 60), 3000), ((64, 128), 2500), ((255, 3), 400), ((3, 255), 600),
         ((255, 255), 1200)]
RISING = 6  # the kind of keys that makes the most leaves: eight stay in each
FILL = (6364136223846793005, 1442695040888963407)
CARD = 140 * image.BLOCK


# The sum of all memory that the program prints.
def sum_of(memory):
    total = 0
    for part in (array("Q", memory.nodes), array("Q", memory.cells), memory.bytes):
        total = zlib.crc32(part, total)
    return total


# The lengths of a memory.
def lengths_of(memory):
    return len(memory.nodes), len(memory.cells), len(memory.bytes)


# The cell of a stored key.
def cell_of(memory, key):
    return next(cell for cell in range(memory.cell_count()) if memory.mark(cell) and memory.key(cell) == key)


class Lent:
    # Memory of this size and a card on both sides, all zero.
    def __init__(self, talk, rng, size):
        self.talk, self.rng = talk, rng
        self.memory = Memory(*size)
        talk.note("memory", *lengths_of(self.memory))
        self.map, self.room = {}, None
        self.card = bytearray(CARD)
        self.kind, self.growing, self.last = 0, True, 1000
        self.clears = 5 / (20 + size[1])  # large memories are to fill up as well

    # So many calls and a few more: first on anything, then from a clear on, with damage and wrong lengths among them.
    def session(self, count):
        self.fill()
        for name in ("audit", "put", "find", "remove_key", "kth", "count", "lengths", "save", "load"):
            self.call(name)
        self.clear()
        for k in range(count):
            if k % 150 == 0:
                self.kind, self.growing = self.rng.randrange(7), self.rng.random() < 0.75
            if k < 600 and self.memory.cell_count() > 50:
                self.kind, self.growing = RISING, True
            self.any_step()
        self.talk.dump(self.memory)

    # One call, or a few on damaged memory.
    def any_step(self):
        chance = self.rng.random()
        if chance < 0.02:
            self.damaged()
        elif chance < 0.05:
            self.otherwise_lent("clear" if self.rng.random() < self.clears else self.some_name())
        elif chance < 0.05 + self.clears / 50:
            self.clear()
        else:
            self.call(self.some_name())

    # A call's name; more puts where memory is to fill up.
    def some_name(self):
        names = ["put"] * (12 if self.growing else 3) + ["remove_key"] * (2 if self.growing else 6)
        return self.rng.choice(names + ["find"] * 3 + ["kth"] * 3 + ["count", "save", "load"] * 2 + ["audit", "lengths"])

    # A key: one that is stored, one near to it, or one of the kind that is being put.
    def some_key(self):
        if self.map and self.rng.random() < 0.45:
            key = self.rng.choice(sorted(self.map))
            return key if self.rng.random() < 0.6 else near_key(self.rng, key)[:257]
        if self.kind == 0:
            return bytes(self.rng.choice(b"ab\0") for _ in range(self.rng.randint(0, 12)))
        if self.kind == 1:
            return self.rng.randint(0, 600).to_bytes(8, "big")
        if self.kind == 2:
            rest = bytes(self.rng.choice(b"xy") for _ in range(self.rng.randint(0, 9)))
            return b"A" * self.rng.choice((8, 16, 24, 200, 240, 248)) + rest
        if self.kind == 3:
            return bytes(self.rng.randint(0, 30))
        if self.kind == RISING:
            self.last += 1
            return self.last.to_bytes(8, "big")
        return some_key(self.rng)

    # Anything in all of memory.
    def fill(self):
        x = seed = self.rng.getrandbits(64)
        numbers = []
        for _ in range(sum(lengths_of(self.memory))):
            x = (x * FILL[0] + FILL[1]) & TOP
            numbers.append(x)
        a, b, _ = lengths_of(self.memory)
        self.memory = Memory.of(numbers[:a], numbers[a:a + b], [number >> 56 for number in numbers[a + b:]])
        self.talk.note("fill", seed)

    # An empty index, whatever stood there.
    def clear(self):
        self.call("clear")
        self.map, self.room = {}, Room(self.memory.node_count())

    # Calls on memory with one word or byte changed, which is undone; where that is still a tree, those that change nothing.
    def damaged(self):
        which = self.rng.choice((0, 0, 1, 2))
        row = (self.memory.nodes, self.memory.cells, self.memory.bytes)[which]
        used = [k for k in range(len(row)) if row[k]]
        at = self.rng.choice(used) if used and self.rng.random() < 0.7 else self.rng.randrange(len(row))
        old = row[at]
        row[at] = self.rng.choice(damage.other_bytes(old) if which == 2 else damage.other_words(old, [row[at - 1]]))
        self.talk.note("set", which, at, row[at])
        names = ["find", "kth", "count", "save", "audit", "lengths"] + ([] if is_tree(self.memory) else ["put", "remove_key"])
        room, self.room = self.room, None
        for _ in range(4):
            self.call(self.rng.choice(names))
        row[at], self.room = old, room
        self.talk.note("set", which, at, old)

    # A call with other lengths, some of which are right ones too. Where something was cleared, or the whole is no tree now, begin anew.
    def otherwise_lent(self, name):
        changed = self.call(name, self.rng.choice(damage.lengths_of(self.memory)))
        if not is_tree(self.memory) or (name in ("clear", "load") and changed):
            self.clear()

    # One call of this name with the memory, or with only so much of it lent: whether it must change something.
    def call(self, name, lengths=None):
        whole = lengths is None
        lent = self.memory if whole else damage.cut_to(self.memory, lengths)
        old = lent.copy()
        words, number, values = getattr(self, "ask_" + name)(lent)
        if whole and self.room is not None and name in ("put", "remove_key", "find"):
            self.agree(name, words[-1], number, values)
        self.follow(name, words[-1:], number, values)
        if not whole:
            self.memory = Memory.of(*(part + every[len(part):] for part, every in (
                (lent.nodes, self.memory.nodes), (lent.cells, self.memory.cells), (lent.bytes, self.memory.bytes))))
        state = "kept" if lent.same(old) else "changed"
        self.talk.call(name, lengths_of(lent) + tuple(words), (number, *values, state, sum_of(self.memory)))
        return state == "changed"

    # The map's own answer, with room counted without nodes.
    def agree(self, name, key, number, values):
        stored = key in self.map
        if len(key) > 256:
            said = 7
        elif name == "put":
            full = len(self.map) == self.memory.cell_count()
            lacking = 0 if stored else self.room.need(key) - self.room.free
            said = 11 if stored else 13 if full else 14 if lacking > 0 else 0
            assert said != 14 or values[1] == lacking, (key, values, lacking)
        else:
            said = 0 if stored else 12
        assert said == number, (name, key, said, number)
        assert name != "find" or number or values == (self.map[key],), (key, values)

    # What an accepted call does to the map and its room; a put tells the slots that rest by its count too.
    def follow(self, name, key, number, values):
        if number == 0 and name == "put" and self.room is not None:
            self.map[key[0]] = self.frame
            self.room.put(key[0])
            assert values[0] == self.room.resting(key[0]), (key, values)
        if number == 0 and name == "remove_key" and self.room is not None:
            del self.map[key[0]]
            self.room.remove(key[0])

    # Each gives the words behind the lengths, the number, and the lent numbers afterwards.
    def ask_lengths(self, lent):
        olds = before(self.rng), before(self.rng)
        right = lent.right_lengths()
        return olds, 0 if right else 10, (lent.node_count(), lent.cell_count()) if right else olds

    def ask_clear(self, lent):
        return (), index.clear(lent).number, ()

    def ask_put(self, lent):
        key, self.frame = self.some_key(), self.rng.choice((0, TOP, self.rng.getrandbits(64)))
        olds = before(self.rng), before(self.rng)
        answer = index.put(lent, key, self.frame)
        return (self.frame, *olds, key), answer.number, (or_else(answer.resting, olds[0]), or_else(answer.lacking, olds[1]))

    def ask_remove_key(self, lent):
        key = self.some_key()
        return (key,), index.remove(lent, key).number, ()

    def ask_find(self, lent):
        key, old = self.some_key(), before(self.rng)
        answer = index.find(lent, key)
        return (old, key), answer.number, (or_else(answer.frame, old),)

    def ask_kth(self, lent):
        k = self.rng.choice((0, self.rng.randint(0, len(self.map) + 1), self.rng.choice(FAR)))
        olds = before(self.rng), before(self.rng), before(self.rng)
        answer = index.kth(lent, k)
        if answer.number:
            return (k, *olds), answer.number, olds
        if self.room is not None:
            assert sorted(self.map.items())[k] == (answer.key, answer.frame), (k, answer)
        return (k, *olds), 0, (cell_of(lent, answer.key), len(answer.key), answer.frame)

    def ask_count(self, lent):
        old = before(self.rng)
        answer = index.count(lent)
        if self.room is not None and lent is self.memory:
            assert answer.count == len(self.map), (answer, len(self.map))
        return (old,), answer.number, (or_else(answer.count, old),)

    def ask_audit(self, lent):
        return (), 0 if is_tree(lent) else 10, ()

    # ---- the card

    # The image of the stored entries or of others; mostly damaged, so that the index stays.
    def some_image(self):
        entries = sorted(self.map.items()) if self.rng.random() < 0.7 else spoilt.some_entries(self.rng, False)
        if self.rng.random() < 4 * self.clears:
            return image.image_of(entries)
        return self.rng.choice(spoilt.KINDS)(self.rng, entries, self.rng.randrange(1000))

    # Brings these bytes to the start of the card: those from the first to the last that are others now.
    def bring(self, data):
        others = [at for at in range(len(data)) if data[at] != self.card[at]]
        if others:
            self.talk.note("card", others[0], data[others[0]:others[-1] + 1])
        self.card[:len(data)] = data

    # Both give the sum of what is lent of the card behind the lent numbers.
    def ask_save(self, lent):
        needed, most = len(image.image_of(sorted(self.map.items()))), len(image.image_of([(bytes(256), 0)] * lent.cell_count()))
        length = min(CARD, self.rng.choice((0, needed - 1, needed, needed, needed + self.rng.randint(1, 600), most)))
        old, out = before(self.rng), self.card[:length]
        answer = image.save(lent, out)
        assert length != most or answer.number != 18, (length, answer)
        self.card[:length] = out
        return (length, old), answer.number, (or_else(answer.told, old), zlib.crc32(out))

    def ask_load(self, lent):
        data, olds = self.some_image(), (before(self.rng), before(self.rng))
        self.bring(data)
        answer = image.load(lent, data)
        if lent is self.memory and answer.number in (0, 13, 14):
            assert self.refill(image.read(data)[1]) == answer, (answer, data.hex())
        told = (olds[0], or_else(answer.told, olds[1])) if answer.number else (answer.told, olds[1])
        return (len(data), *olds), answer.number, (*told, zlib.crc32(data))

    # The map after a clear and these entries one by one, with room counted without nodes; empty where one finds none. What that tells.
    def refill(self, entries):
        self.map, self.room = {}, Room(self.memory.node_count())
        for key, frame in entries:
            lacking = self.room.need(key) - self.room.free
            if len(self.map) == self.memory.cell_count() or lacking > 0:
                full = len(self.map) == self.memory.cell_count()
                self.map, self.room = {}, Room(self.memory.node_count())
                return image.Told(13) if full else image.Told(14, lacking)
            self.room.put(key)
            self.map[key] = frame
        return image.Told(0, len(entries))
