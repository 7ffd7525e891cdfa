# Calls that save an index and load an image, with the answers of plain/image.py, in the fixed lines that crate replay_card reads.
#
#     python3 cards.py > ../crates/replay_card/stdin
#     python3 cards.py --spoilt 20000 --seed 1 > FILE
#
# With --spoilt it writes so many damaged images of plain/spoilt.py instead, each loaded into one of several memories.
#
# The program has room for a memory of 256 nodes and cells, for the bytes that are on a card, and for those that are written out. A line has
# 156 bytes: what it does, and in hex a number (2 digits), the lent words of nodes, words of cells and bytes (8 each), a place (8), a
# length (8), what is told (16), a frame number (16), a sum (16), 32 bytes (64), and a line feed.
#
#   m  all words of the memory become what is told, all its bytes the first of the line's bytes
#   w  a word of nodes (number 0), a word of cells (1) or a byte (2), at a place, becomes what is told
#   b  up to 32 bytes come on the card, at a place; the length says how many
#   r  the first of the bytes comes on the card so many times, from a place on
#   o  the same where it is written out
#   t  so many bytes that were written out come on the card, at its start
#   c  clear
#   p  put, with the frame number, the key that stands on the card at a place
#   d  remove that key
#   s  save, with so many bytes to write out; the frame number is the sum of these after it
#   l  load what is on the card, from its start, of this length
#
# c, p, d, s and l are calls, on as much of the memory as is lent: the number is the one they answer, and what is told stands behind it (0
# for nothing), then the sum of what is lent. A sum begins with 1 and takes, for each word of nodes, of cells and each byte, three times
# itself and the number, modulo 2^64.

import argparse
import os
import random
import sys

sys.path.insert(0, os.path.join(os.path.dirname(os.path.abspath(__file__)), "plain"))

import image
import index
from card_cases import recorded
from memory import Memory
from spoilt import spoilt

TOP = (1 << 64) - 1
ROOM = 140 * image.BLOCK
IN_LINE = 32


# A sum that goes on over these numbers.
def summed(total, numbers):
    for number in numbers:
        total = (3 * total + number) & TOP
    return total


# One fixed line.
def line(does, number=0, lent=(0, 0, 0), place=0, length=0, told=0, frame=0, total=0, data=b""):
    return "%s%02x%08x%08x%08x%08x%08x%016x%016x%016x%s\n" % (
        does, number, *lent, place, length, told, frame, total, data.hex().ljust(2 * IN_LINE, "0"))


class Script:
    # The program before its first line: everything is zero, and nothing is lent. Lines go to write.
    def __init__(self, write):
        self.memory, self.lent = Memory(256, 256), (0, 0, 0)
        self.card, self.out = bytearray(ROOM), bytearray(ROOM)
        self.write = write

    # From now on memory of so many nodes and cells is lent; all of memory holds this word and this byte.
    def new(self, n, c, word=0, byte=0):
        lent = Memory(n, c)
        self.lend(len(lent.nodes), len(lent.cells), len(lent.bytes))
        self.memory.nodes[:] = [word] * len(self.memory.nodes)
        self.memory.cells[:] = [word] * len(self.memory.cells)
        self.memory.bytes[:] = bytes([byte]) * len(self.memory.bytes)
        self.write(line("m", told=word, data=bytes([byte])))

    # From now on these lengths are lent.
    def lend(self, *lengths):
        self.lent = lengths

    # One word or byte of memory; row is nodes, cells or bytes.
    def set(self, row, at, value):
        getattr(self.memory, row)[at] = value
        self.write(line("w", ("nodes", "cells", "bytes").index(row), place=at, told=value))

    # Brings these bytes on the card, by lines for what is not there yet.
    def lay(self, data):
        at = 0
        while at < len(data):
            if self.card[at] == data[at]:
                at += 1
                continue
            run = len(data[at:]) - len(data[at:].lstrip(data[at:at + 1]))
            part = data[at:at + IN_LINE] if run <= IN_LINE else data[at:at + run]
            self.write(line("b" if run <= IN_LINE else "r", place=at, length=len(part), data=part[:IN_LINE if run <= IN_LINE else 1]))
            self.card[at:at + len(part)] = part
            at += len(part)

    # All of the card becomes this byte.
    def cover(self, byte):
        self.card[:] = byte * ROOM
        self.write(line("r", length=ROOM, data=byte))

    # All that is written out becomes this byte.
    def blank(self, byte):
        self.out[:] = bytes([byte]) * ROOM
        self.write(line("o", length=ROOM, data=bytes([byte])))

    # What was written out comes on the card.
    def take(self, length):
        self.card[:length] = self.out[:length]
        self.write(line("t", length=length))

    # A call on what is lent: ask makes it and gives the number and what is told; the line has these and the sums.
    def call(self, does, ask, **fields):
        a, b, c = self.lent
        lent = Memory.of(self.memory.nodes[:a], self.memory.cells[:b], self.memory.bytes[:c])
        number, told = ask(lent)
        self.memory.nodes[:a], self.memory.cells[:b], self.memory.bytes[:c] = lent.nodes, lent.cells, lent.bytes
        total = summed(summed(summed(1, lent.nodes), lent.cells), lent.bytes)
        if does == "s":
            fields["frame"] = summed(1, self.out[:fields["length"]])
        self.write(line(does, number, self.lent, told=told or 0, total=total, **fields))
        return number

    def clear(self):
        return self.call("c", lambda lent: (index.clear(lent).number, 0))

    # The key is the one at a place of the card.
    def put_at(self, place, length, frame):
        def ask(lent):
            answer = index.put(lent, bytes(self.card[place:place + length]), frame)
            return answer.number, answer.lacking or answer.resting
        return self.call("p", ask, place=place, length=length, frame=frame)

    def remove_at(self, place, length):
        key = bytes(self.card[place:place + length])
        return self.call("d", lambda lent: (index.remove(lent, key).number, 0), place=place, length=length)

    # The key is brought on the card first.
    def put(self, key, frame):
        self.lay(key)
        return self.put_at(0, len(key), frame)

    def remove(self, key):
        self.lay(key)
        return self.remove_at(0, len(key))

    # Saves with so many bytes to write out.
    def save(self, length):
        def ask(lent):
            out = self.out[:length]
            told = image.save(lent, out)
            self.out[:length] = out
            return told
        return self.call("s", ask, length=length)

    # Loads an image, or what is on the card already.
    def load(self, data):
        self.lay(data)
        return self.call("l", lambda lent: image.load(lent, data), length=len(data))


MEMORIES = [(1, 1), (1, 20), (3, 20), (5, 8), (12, 60), (33, 6), (40, 255)]


# Damaged images loaded into memories of several sizes that hold anything at first, now and then with wrong lengths lent.
def spoilt_lines(script, total, seed):
    rng = random.Random(seed)
    for made, (_, data) in enumerate(spoilt(total, seed)):
        if made % 50 == 0:
            script.new(*rng.choice(MEMORIES), rng.getrandbits(64), rng.getrandbits(8))
        right = script.lent
        if rng.random() < 0.02:
            script.lend(*(length - rng.choice((0, 1)) for length in right))
        script.load(data)
        script.lend(*right)


def main():
    options = argparse.ArgumentParser()
    options.add_argument("--spoilt", type=int, default=0)
    options.add_argument("--seed", type=int, default=1)
    chosen = options.parse_args()
    script = Script(sys.stdout.write)
    if chosen.spoilt:
        spoilt_lines(script, chosen.spoilt, chosen.seed)
    else:
        recorded(script)


if __name__ == "__main__":
    main()
