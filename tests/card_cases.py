# The calls that cards.py records: saved and loaded images of every kind that the request names, each at its smallest.

import random

from crafted_images import CRAFTED_IMAGES, FOUR, MANY, ONE, TWO, at_edge, image_of, laid, short_entries, with_word
from image import BLOCK, in_blocks, stream_of
from samples import tall

ANYTHING = 0xA5A5A5A5A5A5A5A5, 0x5A
LONG = [(b"k" * 255 + b"a", 1), (b"k" * 255 + b"b", 2)]


# An empty index, and memory that is none: too short a buffer, one that fits, and one that is longer.
def saved_empty(script):
    script.new(1, 1, *ANYTHING)
    script.blank(0x77)
    for length in (600, 0):
        script.save(length)
    script.clear()
    for length in (0, 1, 511, 512, 513, 1400):
        script.save(length)
    script.take(512)
    script.load(image_of([]))


# Every image laid out by hand: into memory that holds anything, then into what the ones before left; 255 entries find room only later.
def crafted(script):
    script.new(4, 8, *ANYTHING)
    by_size = sorted(CRAFTED_IMAGES, key=lambda made: len(made[2]))
    for _, told, data in by_size:
        if told.number:
            script.load(data)
    for _, told, data in by_size:
        if not told.number:
            script.load(data)
            script.load(with_word(data, len(data) - 4, 1))
    script.new(40, 255, *ANYTHING)
    for data in (MANY, MANY[:5 * BLOCK], ONE, MANY):
        script.load(data)


# Wrong lengths come before anything that is wrong with the image.
def wrong_lengths(script):
    script.new(3, 2, *ANYTHING)
    a, b, c = script.lent
    for lengths in ((a - 1, b, c), (a + 1, b, c), (2, b, c), (0, b, c), (a, b - 1, c), (a, b, c - 1), (a, b, c + 256), (a, 0, 0),
                    (2 + 47 * 256, b, c), (a, 2 * 256, 256 * 256)):
        script.lend(*lengths)
        for data in (ONE, b"", ONE[:511], with_word(ONE, 0, 1), laid(256)):
            script.load(data)
        script.save(512)
    script.lend(a, b, c)
    script.load(ONE)


# No cell, or too few nodes: what a clear leaves, also of an index with entries. What is wrong with the image comes first.
def without_room(script):
    sixteen = short_entries(16)
    for n, c, entries in ((1, 1, FOUR), (2, 3, FOUR), (1, 15, sixteen), (1, 16, sixteen), (2, 16, sixteen), (3, 16, sixteen),
                          (1, 2, LONG), (30, 2, LONG), (31, 2, LONG), (32, 2, LONG), (1, 1, LONG), (1, 2, LONG + [(b"z", 3)])):
        script.new(n, c, *ANYTHING)
        script.load(ONE)
        wrong = in_blocks(stream_of(entries)[:-1] + b"\1")
        for data in (wrong, with_word(wrong, 0, 1), wrong[:-1], image_of(entries)):
            script.load(data)


# Entries put in another order than that of their keys, some of them removed again: saved, loaded back, and saved once more.
def saved_scattered(script):
    entries = [(bytes([i, 255 - i]), i << 50) for i in range(100)]
    laid_out = b"".join(key for key, _ in entries)
    script.new(20, 100)
    script.clear()
    script.lay(laid_out)
    order = list(range(100))
    random.Random(1).shuffle(order)
    for i in order:
        script.put_at(2 * i, 2, entries[i][1])
    saved_and_loaded(script, entries)
    script.lay(laid_out)
    for i in order[:40]:
        script.remove_at(2 * i, 2)
    saved_and_loaded(script, [entries[i] for i in sorted(order[40:])])


# As many entries as there may be, all of the longest: 135 blocks.
def longest(script):
    entries = [(bytes([i]) + b"k" * 255, i) for i in range(255)]
    data = image_of(entries)
    script.new(40, 255, *ANYTHING)
    script.cover(b"k")
    for block in (134, 70, 0):
        script.load(with_word(data, BLOCK * block + 4 * (block % 128), 1))
    script.load(data[:134 * BLOCK])
    script.load(data)
    for length in (len(data) - 1, len(data) + 1):
        script.save(length)


# Saves into a buffer that is a byte short, that fits, and that is longer; loads what was saved over the index, and saves that.
def saved_and_loaded(script, entries):
    data = image_of(entries)
    script.blank(0x33)
    for length in (len(data) - 1, len(data), len(data) + 700):
        script.save(length)
    script.take(len(data))
    script.load(data)
    script.blank(0x44)
    script.save(len(data))


# Layers: keys that share beginnings, and layers that are emptied; keys of 0, 8, 9 and 256 bytes; an edge in each field of an entry.
def saved_layers(script):
    stem = bytes(range(1, 41))
    some = [(stem + b"one", 1), (stem + b"two, longer than eight", 2), (stem[:20], 3), (b"", 4), (stem[:8], 5), (stem[:16] + b"x", 6)]
    script.new(12, 8)
    script.clear()
    for key, frame in some + [(b"ab%d" % i, i) for i in range(2)]:
        script.put(key, frame)
    for key in (stem + b"one", stem + b"two, longer than eight", b"ab0"):
        script.remove(key)
    saved_and_loaded(script, sorted(some[2:] + [(b"ab1", 1)]))
    script.clear()
    for key, frame in FOUR[::-1]:
        script.put(key, frame)
    saved_and_loaded(script, FOUR)
    for before in (0, 1, 2, 6, 11, 15, 19):
        script.load(image_of(at_edge(before)))
        script.blank(0x22)
        script.save(1024)


# An index that no calls have made: its root elsewhere, three levels below a link, an emptied leaf. One word or byte changed, it is no tree.
def saved_tall(script):
    memory = tall()
    script.new(10, 8)
    for row in ("nodes", "cells", "bytes"):
        for at, value in enumerate(getattr(memory, row)):
            if value:
                script.set(row, at, value)
    script.blank(0x66)
    for length in (511, 512, 640):
        script.save(length)
    for row, at, value in (("nodes", 0, 4), ("nodes", 1, 6), ("cells", 0, 258), ("cells", 15, 1), ("bytes", 8, 1), ("nodes", 4, 1)):
        old = getattr(memory, row)[at]
        script.set(row, at, value)
        script.save(512)
        script.save(0)
        script.set(row, at, old)
    script.save(511)
    script.save(512)
    script.load(TWO)


# All of them, in one order.
def recorded(script):
    for part in (saved_empty, crafted, wrong_lengths, without_room, saved_layers, saved_scattered, saved_tall, longest):
        part(script)
