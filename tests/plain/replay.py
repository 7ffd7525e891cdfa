# Reads a test file of damage.py or calls.py line by line and holds audit and index to it.
#
#     python3 replay.py < FILE

import sys

import index
from audit import is_tree
from calls import sum_of
from damage import cut_to, judged
from memory import Memory


# The key a field stands for.
def key_of(field):
    return b"" if field == "-" else bytes.fromhex(field)


class Replay:
    # No memory yet.
    def __init__(self):
        self.memory, self.counts = None, {}

    # A new memory, all zero.
    def do_memory(self, n, c):
        self.memory = Memory(int(n), int(c))

    # One word or byte.
    def do_set(self, part, i, value):
        getattr(self.memory, part)[int(i)] = int(value)

    # The verdict on the memory as it stands.
    def do_is(self, verdict):
        return is_tree(self.memory) == int(verdict)

    # The verdict with one change.
    def do_try(self, part, i, value, verdict):
        return judged(self.memory, (part, int(i), int(value)), is_tree) == int(verdict)

    # The verdict with less of it lent.
    def do_lent(self, a, b, c, verdict):
        return is_tree(cut_to(self.memory, (int(a), int(b), int(c)))) == int(verdict)

    # A clear and its answer.
    def do_clear(self, number):
        return index.clear(self.memory).number == int(number)

    # A put and its answer.
    def do_put(self, key, frame, number, told=None):
        answer = index.put(self.memory, key_of(key), int(frame))
        return (answer.number, answer.lacking if answer.number else answer.resting) == (int(number), told and int(told))

    # A removal and its answer.
    def do_del(self, key, number):
        return index.remove(self.memory, key_of(key)).number == int(number)

    # A find and its answer.
    def do_find(self, key, number, frame):
        answer = index.find(self.memory, key_of(key))
        return (answer.number, answer.frame or 0) == (int(number), int(frame))

    # A question for the k-th and its answer.
    def do_kth(self, k, number, key, frame):
        answer = index.kth(self.memory, int(k))
        return (answer.number, answer.key or b"", answer.frame or 0) == (int(number), key_of(key), int(frame))

    # A count and its answer.
    def do_count(self, number, value):
        answer = index.count(self.memory)
        return (answer.number, answer.count or 0) == (int(number), int(value))

    # The sum of the whole memory.
    def do_sum(self, value):
        return sum_of(self.memory) == int(value)

    # Does one line; False if it does not hold.
    def line(self, text):
        if text.startswith("#"):
            return True
        word, *fields = text.split(" ")
        self.counts[word] = self.counts.get(word, 0) + 1
        return getattr(self, "do_" + word)(*fields) is not False


# Does all the lines; gives the number of each kind, or fails at the first line that does not hold.
def replayed(lines):
    replay = Replay()
    for number, line in enumerate(lines, 1):
        if not replay.line(line.rstrip("\n")):
            raise AssertionError("line %d does not hold: %s" % (number, line))
    return replay.counts


if __name__ == "__main__":
    print(" ".join("%s %d" % pair for pair in sorted(replayed(sys.stdin).items())))
