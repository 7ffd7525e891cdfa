# Random scripts for the program, each fixed by its seed, and the output each must give.
#
#     python3 scripts.py --seed 7                   one script to standard output
#     python3 scripts.py --count 300 --out FOLDER   NNN-kind.in and NNN-kind.out for seeds 0 to 299

import argparse
import os
import random
import sys

from answers import PlainMap, output_for, shown

TOP_FRAME = (1 << 64) - 1


class Script:
    # A script under way, with a plain map beside it that knows what is stored and what room is left.
    def __init__(self, rng):
        self.rng, self.lines, self.map = rng, [], PlainMap()

    # Adds a line as it stands.
    def say(self, line):
        self.lines.append(line if isinstance(line, bytes) else line.encode())

    # A frame number: small, large or one of the two ends.
    def frame(self):
        return self.rng.choice((0, TOP_FRAME, self.rng.randrange(1 << 64), self.rng.randrange(1000)))

    # Adds a put, and makes it on the map.
    def put(self, key):
        frame = self.frame()
        self.say("put %s %d" % (shown(key), frame))
        return self.map.put(key, frame)

    # Adds a del, and makes it on the map.
    def remove(self, key):
        self.say("del %s" % shown(key))
        return self.map.remove(key)

    # Adds a find.
    def find(self, key):
        self.say("find %s" % shown(key))

    # Adds a list.
    def list(self):
        self.say("list")

    # A stored key, or the empty one.
    def some_key(self):
        keys = sorted(self.map.frames)
        return self.rng.choice(keys) if keys else b""

    # How many nodes are left.
    def free(self):
        return self.map.room.free

    # The whole as bytes, now and then without its last line feed.
    def text(self):
        return b"\n".join(self.lines) + (b"\n" if self.rng.random() < 0.7 else b"")


# Random bytes, few of them different, so that keys share beginnings.
def few_bytes(rng, length):
    return bytes(rng.choice(b"\0\0\1a\xff") for _ in range(length))


# Any calls at all on keys that often agree.
def mixed(script):
    rng = script.rng
    stems = [b""] + [few_bytes(rng, 8 * rng.randrange(1, 5)) for _ in range(3)]
    for _ in range(rng.randrange(100, 350)):
        key = rng.choice(stems) + few_bytes(rng, rng.randrange(0, 11))
        if rng.random() < 0.3:
            key = script.some_key()
        rng.choice((script.put, script.put, script.put, script.remove, script.find))(key)
    script.list()


# Many keys of one layer, rising, falling or shuffled, until cells run out by one, then reuse.
def many(script):
    rng = script.rng
    width = rng.randrange(2, 9)
    keys = [number.to_bytes(width, "big") for number in rng.sample(range(60000), 140)]
    order = rng.randrange(3)
    keys = sorted(keys, reverse=order == 1) if order < 2 else keys
    refused = [key for key in keys if script.put(key) in (13, 14)]
    for key in refused[:3]:
        script.remove(script.some_key())
        script.put(key)
        script.put(rng.choice(keys))
    script.list()
    for key in rng.sample(keys, 60):
        rng.choice((script.find, script.remove))(key)
    script.list()


# One layer grown to three levels: keys rise or fall and the oldest are taken out to make room.
def tall(script):
    rng = script.rng
    stem = few_bytes(rng, 8 * rng.randrange(0, 3))
    if stem:
        script.put(stem + b"zzzzzzzzz")
    numbers = list(range(1, rng.randrange(180, 260)))
    if rng.random() < 0.5:
        numbers.reverse()
    kept = []
    for number in numbers:
        kept.append(stem + (number * 251).to_bytes(rng.choice((2, 2, 3)), "big") + b"k")
        script.put(kept[-1])
        if len(kept) > 100 and rng.random() < 0.8:
            script.remove(kept.pop(rng.randrange(10)))
    script.list()
    fill_gaps(script, kept)


# More puts and finds among keys that are there.
def fill_gaps(script, kept):
    for key in script.rng.sample(kept, min(30, len(kept))):
        script.find(key)
        script.put(key + b"\0")
        script.remove(key)
    script.list()


# Two keys that part after so many layers: the second takes that many nodes.
def pair(rng, layers, mark):
    stem = bytes([mark]) + few_bytes(rng, 8 * layers - 1)
    return stem + b"\1" + few_bytes(rng, rng.randrange(0, 7)), stem + b"\2" + few_bytes(rng, rng.randrange(0, 7))


# Chains of layers until nodes run out by exactly one, then exactly not.
def chains(script):
    rng, mark = script.rng, 1
    target = rng.randrange(0, 25)
    while script.free() > target:
        for key in pair(rng, min(rng.randrange(1, 32), script.free() - target), mark):
            script.put(key)
        mark += 1
    free = script.free()
    for layers in (free + 1, free, 1):
        if layers:
            for key in pair(rng, layers, mark):
                script.put(key)
            mark += 1
    script.list()
    reuse_layers(script)


# Takes keys out of layers and puts others into the same ones.
def reuse_layers(script):
    for _ in range(20):
        key = script.some_key()
        script.remove(key)
        script.put(key[:-1] + few_bytes(script.rng, 1))
        script.put(key)
    script.list()


# Takes nodes away, by chains of layers, until only so many are left.
def exhaust(script, target):
    rng, mark = script.rng, 0xE0
    while script.free() > target and mark < 0x100:
        first = bytes([mark]) + few_bytes(rng, 255)
        mark += 1
        script.put(first)
        layers = min(rng.randrange(8, 32), script.free() - target)
        if layers > 0:
            script.put(first[:8 * layers] + b"b" + few_bytes(rng, rng.randrange(0, 7)))


# Leaves fill up when few nodes are left: splits are refused; links and conflicts in a full leaf are judged apart.
def last_node(script):
    rng = script.rng
    for _ in range(rng.choice((0, 0, 20, 50))):
        script.put(bytes([rng.randrange(200)]) + few_bytes(rng, rng.randrange(0, 4)))
    long_keys = [bytes([rng.randrange(200)]) + few_bytes(rng, 8) for _ in range(3)]
    for key in long_keys:
        script.put(key)
    exhaust(script, rng.randrange(0, 4))
    for _ in range(40):
        script.put(bytes([rng.randrange(200)]) + few_bytes(rng, rng.randrange(0, 4)))
        if rng.random() < 0.2:
            script.put(rng.choice(long_keys)[:8] + few_bytes(rng, 3))
    for _ in range(10):
        script.remove(script.some_key())
        script.put(bytes([rng.randrange(200)]) + few_bytes(rng, 2))
    script.list()


# A layer grows until a put would take one, two or three nodes; then one too few is left for it, or just enough.
def brink(script):
    rng = script.rng
    wanted, short_by = rng.randrange(1, 4), rng.randrange(2)
    stem = few_bytes(rng, 8)
    script.put(stem + b"\xff")
    kept = []
    for number in range(1, 220):
        key = stem + (number * 200).to_bytes(2, "big") + few_bytes(rng, 1)
        if script.map.room.need(key) == wanted and (wanted == 2 or number > 20):
            exhaust(script, wanted - short_by)
            script.list()
            break
        script.put(key)
        kept.append(key)
        if len(kept) > 90:
            script.remove(kept.pop(rng.randrange(5)))
    for more in (key, key, kept[-1] + b"\0", stem + b"\0", stem + b"\xff\1"):
        script.put(more)
        script.find(more)
    script.remove(kept[-1])
    script.put(key)
    script.list()


# Keys of nothing but zero bytes share one ikey; others around them move the cut.
def equal_ikeys(script):
    rng = script.rng
    stem = few_bytes(rng, rng.choice((0, 0, 8)))
    low = stem + (b"\1" if rng.random() < 0.5 else b"")
    zeros = [low + bytes(count) for count in range(0, 10 - len(low) % 8)]
    below = [stem + b"\0%c" % rng.randrange(1, 255) for _ in range(rng.randrange(0, 9))]
    above = [stem + b"\2%c" % rng.randrange(256) for _ in range(rng.randrange(3, 12))]
    keys = zeros + list(dict.fromkeys(below + above))
    rng.shuffle(keys)
    for key in keys:
        script.put(key)
    script.list()
    for key in rng.sample(keys, len(keys) // 2):
        script.remove(key)
    for key in keys:
        script.find(key)
        script.put(key)
    script.list()


# Keys around the longest: 255 to 258 bytes, and pairs that part in the last byte.
def longest(script):
    rng = script.rng
    stem = few_bytes(rng, 255)
    for key in (stem + b"a", stem + b"b", stem, stem + b"aa", stem[:248], stem[:247], stem + b"abc", stem[:-1] + b"c"):
        script.put(key)
        script.find(key)
    script.list()
    script.remove(stem + b"a")
    script.put(stem + b"c")
    script.remove(stem + b"abc")
    script.list()


# Lines of every bad kind, and lines beside them that are just good.
def bad_lines(rng):
    digits = few_bytes(rng, rng.randrange(1, 12)).hex()
    long = "ab" * 597
    return [
        "", " ", "put", "put ", "put 61", "put 61 ", "put  61 7", "put 61  7", " put 61 7", "put 61 7 ", "put 61 7 8",
        "put\t61\t7", "put 61\t7", "put 61 7\r", "put 616 7", "put 6 7", "put 6A 7", "put AB 7", "put 6g 7",
        "put 0x61 7",
        "put -- 7", "put -61 7", "put 61- 7", "put %s 07" % digits, "put 61 00", "put 61 +7", "put 61 -7", "put 61 -",
        "put 61 7.0", "put 61 0x7", "put 61 a", "put 61 18446744073709551616", "put 61 99999999999999999999",
        "put 61 100000000000000000000", "put 61 018446744073709551615", "put 61 " + "9" * 60, "put - ", "put  7",
        "PUT 61 7",
        "Put 61 7", "puts 61 7", "pu 61 7", "insert 61 7", "find", "find ", "find 61 ", "find  61", "find 61 7",
        "find 6",
        "find 6A", "Find 61", "find\t61", "del", "del ", "del 61 ", "del 61 7", "del  61", "del 616", "del 6G",
        "remove 61",
        "list ", " list", "list 61", "List", "LIST", "lis", "lists", "list\r", "list\t", "-", "61", "ok", "#", "\0",
        "put 61\0 7", "put 61 7\0", "list\0", "put é 7", "find ６１",
        "put %s 7" % ("00" * 257), "find %s" % ("00" * 257), "del %s" % ("ff" * 300), "put %s 07" % ("00" * 257),
        "put %s 18446744073709551616" % ("00" * 300), "put %s" % ("00" * 257), "put %s0 7" % ("00" * 256),
        "find %s 7" % ("00" * 257), "find %s " % ("00" * 257), "put %sA0 7" % ("00" * 257),
        "put %s 7" % long, "put %s 77" % long, "find %s" % long, "find %s" % (long + "ab"), "del %s" % (long + "ab"),
        "del %s" % (long + "abab"), "put 61 " + "1" * 1193, "put 61 " + "1" * 1194, " " * 1200, " " * 1201,
        "x" * 5000, "list" + " " * 1197, "find " + "61" * 40000,
        "put %s 0" % ("00" * 256), "find %s" % ("00" * 256), "del %s" % ("00" * 256), "put - 0", "find -", "del -",
        "put 61 18446744073709551615", "put 61 0", "find 61", "del 61", "list",
    ]


# All of these lines in any order, with good ones between.
def malformed(script):
    lines = bad_lines(script.rng) + [b"put \xff 7", b"\xff\xfe", b"find \x80\x81"]
    script.rng.shuffle(lines)
    for line in lines:
        script.say(line)
        if script.rng.random() < 0.2:
            script.put(few_bytes(script.rng, script.rng.randrange(0, 20)))
    script.list()


# Ends of input: nothing at all, line feeds only, a line cut short, a last line without its line feed.
def endings(script):
    rng = script.rng
    for key in (b"a", b"a\0", few_bytes(rng, rng.randrange(0, 30))):
        script.put(key)
    script.text = lambda lines=script.lines: rng.choice((
        b"", b"\n", b"\n\n\n", b"list", b"list\n", b"put 61", b"\nlist", b"list\n\n", b"list\n ",
        b"\n".join(lines) + b"\nlist", b"\n".join(lines) + b"\nlist\nfin", b"\n".join(lines) + b"\r\nlist\r\n",
        b"\n".join(lines) + b"\n" + b"x" * 1200, b"\n".join(lines) + b"\n" + b"x" * 1201 + b"\nlist"))


KINDS = [mixed, many, tall, chains, last_node, brink, equal_ikeys, longest, malformed, endings]


# The name of a script's kind.
def kind_of(seed):
    return KINDS[seed % len(KINDS)].__name__


# The script of a seed; the kinds take turns.
def script_of(seed):
    script = Script(random.Random(seed))
    KINDS[seed % len(KINDS)](script)
    return script.text()


# Writes scripts and outputs into a folder.
def write_all(count, folder):
    os.makedirs(folder, exist_ok=True)
    for seed in range(count):
        script = script_of(seed)
        for ending, content in (("in", script), ("out", output_for(script))):
            with open(os.path.join(folder, "%03d-%s.%s" % (seed, kind_of(seed), ending)), "wb") as file:
                file.write(content)


# Reads what is asked for on the command line.
def main(arguments):
    parser = argparse.ArgumentParser(description="scripts for the program and their outputs")
    parser.add_argument("--seed", type=int)
    parser.add_argument("--count", type=int, default=300)
    parser.add_argument("--out", default="scripts")
    options = parser.parse_args(arguments)
    if options.seed is not None:
        sys.stdout.buffer.write(script_of(options.seed))
    else:
        write_all(options.count, options.out)


if __name__ == "__main__":
    main(sys.argv[1:])
