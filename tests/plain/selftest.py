# Holds every part of this folder to the others and to worked examples.
#
#     python3 selftest.py          prints one line for each check, and fails on the first that does not hold
#     python3 selftest.py --long   more calls, more scripts

import random
import sys
import time

import calls
import damage
import image
import index
import internodes
import layers
import nodes
import samples
import words
from answers import PlainMap, output_for
from audit import RULES, broken_rules, is_tree
from crafted import CRAFTED
from crafted_images import CRAFTED_IMAGES, MANY, TWO
from image import BLOCK, HELD, Told
from keys import LINK, class_at, ikey_at
from listing import listing
from memory import INTERNODE, LEAF, Memory, dump, load
from reach import WANTED, IndexStore, reached_by
from replay import replayed
from samples import GOOD, fresh, run
from scripts import KINDS, script_of
from seasons import SEASONS
from slot_checks import check_bank, check_wides, check_words, same
from spoilt import some_entries, spoilt

# A key fits one entry only, so a cell with two entries always breaks another rule too.
NEVER_ALONE = {"cell once"}
SIZES = [(1, 1), (1, 2), (1, 20), (2, 2), (2, 20), (3, 20), (4, 17), (5, 40), (6, 8), (12, 30), (40, 60), (64, 128),
         (255, 255), (255, 3), (3, 255)]


# The calls on keys and on internodes: document 01's examples and refusals.
def check_layers(scale):
    same((layers.read_ikey(b"a", 0), layers.read_ikey(b"a\0", 0), layers.read_ikey(b"", 0)), (0x61 << 56, 0x61 << 56, 0), "P9 and P10")
    same((layers.compare_keys(b"a", b"a\0"), layers.compare_keys(b"a", bytes(257))), ((0, (0,)), (7, None)), "P9, order")
    key = bytes(range(256))
    same((layers.new(key)[0], layers.new(key + b"x")[0]), (0, 7), "256 and 257 bytes")
    numbers = layers.new(key)[1]
    for shifts in range(31):
        same(layers.shift_by(key, layers.new(key)[1], 8 * shifts), (0, numbers), "shifted at once")
        number, numbers = layers.shift(key, numbers)
        same(number, 0, "shift")
    same((layers.shift(key, numbers)[0], layers.shift_by(key, numbers, 8)[0], layers.shift_by(key, numbers, 4)[0]), (8, 8, 8), "the 32nd")
    same((layers.unshift_all(key, numbers), layers.unshift(key, layers.new(key)[1])[0]), (layers.new(key), 8), "back")
    same(layers.compare(b"abcdefghi", layers.new(b"abcdefghi")[1], layers.read_ikey(b"abcdefgh", 0), 300), (0, (1,)), "two longer ones")
    node = 3, [10, 20, 30] + [0] * 12, [7, 8, 9, 11] + [0] * 12
    same([internodes.find_insert_position(*node, target)[1] for target in (20, 21, 31)], [1, 2, 3], "P11")
    same([internodes.child_for(*node, target)[1] for target in (9, 10, 20, 31)], [7, 8, 9, 11], "descent")
    same(internodes.insert_key_and_child(*node, 1, 15, 99), (0, (4, [10, 15, 20, 30] + [0] * 11, [7, 8, 99, 9, 11] + [0] * 11)), "insert")
    same([internodes.insert_key_and_child(*node, p, 15, 99)[0] for p in (0, 2, 4)], [9, 9, 4], "order and place")
    return "P9 to P11, 31 shifts"


# Keys: worked examples.
def check_keys(scale):
    same((ikey_at(b"a", 0), ikey_at(b"a\0", 0)), (0x61 << 56, 0x61 << 56), "ikeys of 61 and 6100")
    same((ikey_at(b"", 0), class_at(b"", 0)), (0, 0), "empty key")
    same([class_at(bytes(n), 1) for n in (0, 8, 9, 16, 17, 256)], [0, 0, 1, 8, 9, 9], "classes")
    return "examples"


# Text form: what is dumped can be loaded, whatever its lengths.
def check_text(scale):
    memories = [make() for _, make in GOOD] + [Memory(0, 0), Memory.of([1, 0], [5], b"\0\1\0")]
    for memory in memories:
        same(load(dump(memory)).same(memory), True, "text form")
    return "%d memories" % len(memories)


# The longest keys: 31 nodes for the second of two that differ in the last byte, and not with 30 free.
def check_longest(scale):
    one, two = b"x" * 255 + b"1", b"x" * 255 + b"2"
    for n, expected in ((31, (14, 1, None)), (32, (0, None, 13))):
        memory = run(fresh(n, 2), [(one, 1)])
        before = memory.copy()
        answer = index.put(memory, two, 2)
        same((answer.number, answer.lacking, answer.resting), expected, "second long key")
        same(memory.same(before), answer.number != 0, "refused means unchanged")
    same(memory.free_nodes(), [], "31 nodes taken")
    same([words.in_use(memory.word(node, 1)) for node in (0, 30, 31)], [[0], [0], [0, 1]], "chain of leaves")
    links = [nodes.entry_at(memory, node, 0)[1:] for node in range(31)]
    same(links, [(LINK, node + 1) for node in range(31)], "top down")
    same(index.put(memory, bytes(257), 0).number, 7, "257 bytes")
    return "with 30 and 31 nodes free"


# Numbers: leaf upward, then the root; lowest first; halves, slots, and the root in the link above.
def check_numbers(scale):
    memory = run(fresh(5, 40), [(b"k%c" % i, i) for i in range(16)])
    same((memory.nodes[0], memory.free_nodes()), (2, [3, 4]), "first split")
    same(nodes.internode_of(memory, 2), ([ikey_at(b"k\x08", 0)], [0, 1]), "new root")
    same([memory.word(leaf, 1) for leaf in (0, 1)], [words.make_sorted(15, 8)] * 2, "sorted words")
    stem = b"eightby."
    memory = run(fresh(6, 40), [(stem + b"%c" % i, i) for i in range(16)])
    same((memory.nodes[0], nodes.entries_of(memory, 0)), (0, [(ikey_at(stem, 0), LINK, 3)]), "root below a link")
    same(nodes.internode_of(memory, 3)[1], [1, 2], "halves below a link")
    memory = run(fresh(1, 3), [(b"a", 1), (b"b", 2), (b"c", 3), (b"a", None), (b"d", 4)])
    same(nodes.entries_of(memory, 0)[2], (ikey_at(b"d", 0), 1, 0), "cell used again")
    same(words.in_use(memory.word(0, 1)), [1, 2, 3], "freed slot is not the next")
    same(index.cut_of([1] + [2] * 10 + [3] * 5), 11, "cut above ten")
    same(index.cut_of([1] * 3 + [2] * 10 + [3] * 3), 3, "the lower on a tie")
    return "splits, layers, cells, cuts"


# The numbers of the puts of a season, and the memory left; with keep=True no layer is given back.
def season_puts(size, season, keep=False):
    memory, numbers = fresh(*size), []
    for key, frame in season:
        if frame is not None:
            numbers.append(index.put(memory, key, frame).number)
        elif not keep:
            index.remove(memory, key)
        elif index.find(memory, key).number == 0:
            index.take_out(memory, index.locate(memory, key))
        same(broken_rules(memory), set(), "a tree in a season")
    return numbers, memory


# Empty layers are given back: no season gets 14 but the one with a split layer, and each would without. Those that a memory has from before
# stay until a removal empties their leaf anew.
def check_seasons(scale):
    for name, size, season in SEASONS:
        numbers, memory = season_puts(size, season)
        same((set(numbers[:-1]), numbers[-1]), ({0}, 14 if name == "split" else 0), name)
        same(14 in season_puts(size, season, keep=True)[0], True, "14 without giving back, " + name)
    same([memory.word(node, 0) for node in range(5)], [LEAF, LEAF, LEAF, LEAF, INTERNODE], "a split layer keeps its nodes")
    memory = samples.split()
    before = memory.free_nodes()
    same((index.remove(memory, b"ma").number, memory.free_nodes()), (0, before), "empty layers from before stay")
    same((index.put(memory, b"layer-04a", 1).number, index.remove(memory, b"layer-04a").number), (0, 0), "one of them is filled again")
    same(len(memory.free_nodes()), len(before) + 1, "and given back")
    same(index.find(memory, b"layer-04a").number, 12, "its link is gone")
    return "%d seasons" % len(SEASONS)


# Three levels: 8 ikeys, the ninth up, 7; numbers from the leaf upward, then the root.
def check_levels(scale):
    for step in (1, -1):
        numbers = list(range(1, 137))[::step]
        memory = run(fresh(20, 136), [(number.to_bytes(2, "big"), number) for number in numbers[:-1]])
        same((memory.nodes[0], memory.free_nodes()), (2, [17, 18, 19]), "sixteen leaves")
        ikeys = nodes.internode_of(memory, 2)[0]
        run(memory, [(numbers[-1].to_bytes(2, "big"), 0)])
        same((memory.nodes[0], memory.free_nodes()), (19, []), "three levels")
        (up,), halves = nodes.internode_of(memory, 19)
        left, others = (nodes.internode_of(memory, half) for half in halves)
        same((halves, len(left[0]), len(others[0])), ([2, 18], 8, 7), "halves")
        same(17 in left[1] + others[1], True, "the leaf took the first number")
        same(set(ikeys) < set(left[0] + [up] + others[0]), True, "ikeys kept")
    return "rising and falling"


# The separators of a layer by height, read from its internodes, leaves at height 0.
def separators_in(memory, node):
    if memory.word(node, 0) == LEAF:
        return 0, []
    ikeys, children = nodes.internode_of(memory, node)
    below = [separators_in(memory, child) for child in children]
    height = below[0][0] + 1
    return height, sorted([(ikey, height) for ikey in ikeys] + [pair for _, pairs in below for pair in pairs])


# Keys that fill one layer: rising, falling, shuffled, or many of few ikeys so that cuts move.
def layer_keys(rng, kind):
    if kind < 3:
        keys = [number.to_bytes(2, "big") for number in range(200)]
        rng.shuffle(keys)
        return keys if kind == 2 else sorted(keys, reverse=kind == 1)
    stems = [number.to_bytes(rng.choice((1, 2)), "big") for number in range(1, 40)]
    keys = sorted({stem + bytes(rng.randrange(0, 9)) for stem in stems for _ in range(9)})
    rng.shuffle(keys)
    return keys[:200]


# The count of room sees the same shape as the index has: separators and their heights, after every put.
def check_shapes(scale):
    levels = set()
    for seed in range(8 * scale):
        rng, memory, plain = random.Random(seed), fresh(60, 200), PlainMap(60, 200)
        for key in layer_keys(rng, seed % 4):
            answer = index.put(memory, key, 1, audited=True)
            same((answer.number, answer.resting), (plain.put(key, 1), None if answer.number else plain.resting(key)), "put")
            top = plain.room.top
            same(separators_in(memory, memory.nodes[0]), (top.height, list(top.separators)), "separators")
            if rng.random() < 0.1:
                gone = rng.choice(sorted(plain.frames))
                same(index.remove(memory, gone, audited=True).number, plain.remove(gone), "remove")
        levels.add(top.height + 1)
        same((broken_rules(memory), listing(memory)), (set(), plain.listing()), "tree and listing")
    same(3 in levels, True, "three levels")
    return "%d layers" % (8 * scale)


# Refusals: the lowest number first, and nothing changed.
def check_refusals(scale):
    good = run(fresh(1, 1), [(b"a", 1)])
    bad, short = good.copy(), good.copy()
    bad.nodes[1] = 2
    short.bytes.pop()
    long, k = bytes(257), b"a"
    cases = [(good, 11, 12, 0), (bad, 10, 10, 10), (short, 10, 10, 10)]
    for memory, put, absent, found in cases:
        before = memory.copy()
        same(index.put(memory, k, 5).number, put, "put stored")
        same(index.put(memory, b"b", 5).number, 13 if memory is good else 10, "put without a cell")
        same([call(memory, b"b").number for call in (index.find, index.remove)], [absent] * 2, "not stored")
        same((index.find(memory, k).number, index.kth(memory, 0).number), (found, found), "stored")
        same(index.kth(memory, 1).number, absent, "k too large")
        same([index.put(memory, long, 1).number, index.find(memory, long).number, index.remove(memory, long).number],
             [7] * 3, "too long first")
        same(memory.same(before), True, "nothing changed")
    crowded = run(fresh(1, 2), [(b"a" * 8 + b"1", 1)])
    before = crowded.copy()
    same(index.put(crowded, b"a" * 8 + b"2", 2), index.Answer(14, lacking=1), "put with a cell and no node")
    same(crowded.same(before), True, "nothing changed")
    same((index.clear(short).number, index.clear(bad).number), (10, 0), "clear")
    same(bad.same(fresh(1, 1)), True, "cleared")
    return "7, 10, 11, 12, 13, 14"


# A key out of few bytes, so that beginnings agree.
def random_key(rng):
    stem = rng.choice((b"", b"", b"", b"abcdefgh", b"abcdefghABCDEFGH", bytes(8), bytes(24)))
    key = stem + bytes(rng.choice(b"\0\0\1b\xff") for _ in range(rng.randrange(0, 11)))
    return rng.choice((key, key, key, rng.randrange(3000).to_bytes(2, "big"), key.ljust(256, b"q")))


# One random call on memory and map alike; its number, and whether it changed anything it should not.
def random_call(rng, memory, plain):
    stored = plain.listing()
    key = rng.choice(stored)[0] if stored and rng.random() < 0.3 else random_key(rng)
    kind = rng.choice(("put",) * 5 + ("remove",) * 3 + ("find", "kth"))
    before = memory.copy()
    if kind == "put":
        frame = rng.randrange(1 << 64)
        lacking = plain.lacking(key) if len(key) <= 256 and key not in plain.frames else 0
        number = plain.put(key, frame)
        resting = plain.resting(key) if number == 0 else None
        answer, expected = index.put(memory, key, frame), index.Answer(number, lacking=lacking if number == 14 else None, resting=resting)
    elif kind == "remove":
        answer, expected = index.remove(memory, key), index.Answer(plain.remove(key))
    elif kind == "find":
        number, frame = plain.find(key)
        answer, expected = index.find(memory, key), index.Answer(number, None if number else key, frame)
    else:
        k = rng.randrange(len(stored) + 2)
        answer = index.kth(memory, k)
        expected = index.Answer(0, *stored[k]) if k < len(stored) else index.Answer(12)
    same(answer, expected, kind)
    if answer.number or kind in ("find", "kth"):
        same(memory.same(before), True, "nothing changed by " + kind)
    return answer.number


# The index against a plain map, a tree after every call, for memories of many sizes.
def check_calls(scale):
    counts = {}
    for n, c in SIZES:
        rng = random.Random(1000 * n + c)
        memory, plain = fresh(n, c), PlainMap(n, c)
        for _ in range((1000 if n * c < 5000 else 400) * scale):
            number = random_call(rng, memory, plain)
            counts[number] = counts.get(number, 0) + 1
            if number == 0:
                same(broken_rules(memory), set(), "a tree after the call")
                same(len(memory.free_nodes()), plain.room.free, "free nodes")
        same(listing(memory), plain.listing(), "listing")
    return "answers " + ", ".join("%d: %d" % pair for pair in sorted(counts.items()))


# Calls on good memories that no calls have made: internodes without ikeys, bounds at the edges, roots elsewhere.
def check_calls_on_crafted(scale):
    made = 0
    for name, make in GOOD + [(name, make) for name, verdict, make in CRAFTED if verdict]:
        rng = random.Random(name)
        memory = make()
        frames = dict(listing(memory))
        for _ in range(12 * scale):
            key = rng.choice(sorted(frames)) if frames and rng.random() < 0.3 else random_key(rng)
            if rng.random() < 0.7:
                number = index.put(memory, key, 1).number
                same(number in ((11,) if key in frames else (0, 13, 14)), True, name)
                frames.update({key: 1} if number == 0 else {})
            else:
                same(index.remove(memory, key).number, 0 if frames.pop(key, None) is not None else 12, name)
            same((broken_rules(memory), listing(memory)), (set(), sorted(frames.items())), name)
            made += 1
    return "%d calls" % made


# Memories laid out by hand have the verdict written beside them.
def check_crafted(scale):
    for name, verdict, make in CRAFTED:
        same(is_tree(make()), bool(verdict), name)
    return "%d memories" % len(CRAFTED)


# Every rule is broken by some single change, and by some change or layout that breaks nothing else.
def check_damage(scale):
    broken, alone, tried = set(), set(), 0
    for name, make in GOOD:
        memory = make()
        sets = list(damage.rules_broken_by_damage(memory))
        same((broken_rules(memory), set() in sets), (set(), True), "undone, and some changes do no harm")
        tried += len(sets)
        broken = broken.union(*sets)
        alone = alone.union(*(rules for rules in sets if len(rules) == 1))
    same(set(RULES) - broken, set(), "rules never broken by a single change")
    sets = [broken_rules(make()) for _, _, make in CRAFTED]
    alone = alone.union(*(rules for rules in sets if len(rules) == 1))
    same(set(RULES) - alone, NEVER_ALONE, "rules never broken alone")
    return "%d changes, %d rules" % (tried, len(RULES))


# The test files read back: every line holds, and there are some of each kind.
def check_files(scale):
    options = damage.options_from(["--sample", str(60 * scale), "--crafted", "--lengths"])
    counts = replayed(damage.file_lines(options))
    counts.update(replayed(calls.file_lines(1, 40 * scale)))
    same(set(counts), {"memory", "set", "is", "try", "lent", "clear", "put", "del", "find", "kth", "count", "sum"}, "kinds")
    return "%d lines" % sum(counts.values())


# Scripts: the plain map and the index answer alike, and together they reach what they were made for.
def check_scripts(scale):
    example = b"put 61 7\nput 6100 9\nfind 61\ndel 62\nlist"
    expected = b"ok\nok\n7\nrefused 12\n2 entries\n61 7\n6100 9\n"
    same((output_for(example), output_for(example + b"\n", IndexStore())), (expected, expected), "example")
    reached, count = set(), 12 * len(KINDS) * scale
    for seed in range(count):
        script = script_of(seed)
        same(script_of(seed), script, "the same script again")
        same(output_for(script, IndexStore()), output_for(script), "script %d" % seed)
        reached |= reached_by(script)
    same(WANTED - reached, set(), "not reached")
    return "%d scripts" % count


# Images: two worked out, those laid out by hand, what is read is what was written, a change of every word, every byte of a fill, damage.
def check_images(scale):
    same(image.image_of([]), bytes(504) + bytes.fromhex("01000000" "7e000000"), "no entry")
    same(image.image_of([(b"a", 7)]), bytes.fromhex("01000000" "0100" "61" "0700000000000000").ljust(504, b"\0")
         + (0x07610003).to_bytes(4, "little") + ((2 + 125 * 0x07610003) % (1 << 32)).to_bytes(4, "little"), "one entry")
    for name, told, data in CRAFTED_IMAGES:
        same(image.read(data)[0], told, name)
    rng = random.Random(3)
    for turn in range(100 * scale):
        entries = some_entries(rng, turn % 20 == 0)
        same(image.read(image.image_of(entries)), (Told(0, len(entries)), entries), "read back")
    for data in (TWO, MANY):
        for at in range(0, len(data), 4):
            new = (int.from_bytes(data[at:at + 4], "little") + rng.randrange(1, 1 << 32)) % (1 << 32)
            same(image.read(data[:at] + new.to_bytes(4, "little") + data[at + 4:]), (Told(16, at // BLOCK), None), "one word")
    for place in range(4, HELD):
        same(image.read(image.in_blocks(bytes(place) + b"\1" + bytes(HELD - 1 - place))), (Told(17, place), None), "fill")
    told = [image.read(data)[0] for _, data in spoilt(2000 * scale, 1)]
    same({number for number, _ in told}, {0, 15, 16, 17}, "told by damaged images")
    return "%d by hand, %d damaged, %d places of 17" % (len(CRAFTED_IMAGES), len(told), len({t for t in told if t.number == 17}))


# Saving and loading: an index is only read, what is refused keeps every byte, a load is a clear and its puts, or where one fails the clear.
def check_cards(scale):
    counts = {}
    for name, make in GOOD + [(name, make) for name, verdict, make in CRAFTED if verdict]:
        memory, entries = make(), listing(make())
        size = len(image.image_of(entries))
        for room, told in ((0, Told(18)), (size - 1, Told(18)), (size, Told(0, size // BLOCK)), (size + 99, Told(0, size // BLOCK))):
            out = bytearray(b"x" * room)
            same((image.save(memory, out), memory.same(make())), (told, True), name)
            same(bytes(out), (b"" if told.number else image.image_of(entries)).ljust(room, b"x"), name)
        for n, c in ((memory.node_count(), memory.cell_count()), (1, 255), (255, 1), (255, 255)):
            loaded_as_put(n, c, entries, counts)
    bad, short = fresh(1, 1), fresh(1, 1)
    bad.nodes[1], short.bytes = 1, bytearray(255)
    for memory in (bad, short):
        before = memory.copy()
        same((image.save(memory, bytearray()), memory.same(before)), (Told(10), True), "10 before 18")
    same((image.load(short, b""), image.load(bad, image.image_of([]))), (Told(10), Told(0, 0)), "lengths alone are looked at")
    same(bad.same(fresh(1, 1)), True, "loaded over anything")
    for name, told, data in CRAFTED_IMAGES:
        memory = Memory.of([5] * 49, [6] * 2, [7] * 256)
        if told.number:
            same((image.load(memory, data), memory.same(Memory.of([5] * 49, [6] * 2, [7] * 256))), (told, True), name)
    same({number for number, _ in counts}, {0, 13, 14}, "loads")
    return "loads " + ", ".join("%d: %d" % (n, sum(v for k, v in counts.items() if k[0] == n)) for n in (0, 13, 14))


# A load into such a memory with anything in it, held to puts one by one, each of which looks at all of it first.
def loaded_as_put(n, c, entries, counts):
    memory, plain = Memory(n, c), fresh(n, c)
    memory.nodes, memory.bytes = [1 << 60] * len(memory.nodes), bytearray(b"?" * len(memory.bytes))
    expected = Told(0, len(entries))
    for key, frame in entries:
        answer = index.put(plain, key, frame)
        if answer.number:
            plain, expected = fresh(n, c), Told(answer.number, answer.lacking)
            break
    same((image.load(memory, image.image_of(entries)), memory.same(plain)), (expected, True), "load")
    counts[expected] = counts.get(expected, 0) + 1


CHECKS = [check_words, check_bank, check_wides, check_keys, check_layers, check_text, check_longest, check_numbers, check_levels,
          check_shapes, check_seasons, check_refusals, check_crafted, check_calls, check_calls_on_crafted, check_images, check_cards,
          check_scripts, check_files, check_damage]


# Runs all the checks.
def main(arguments):
    scale = 4 if "--long" in arguments else 1
    for check in CHECKS:
        start = time.time()
        result = check(scale)
        print("%-24s %5.1f s  %s" % (check.__name__[6:].replace("_", " "), time.time() - start, result), flush=True)
    print("all checks hold")


if __name__ == "__main__":
    main(sys.argv[1:])
