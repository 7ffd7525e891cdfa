# Random calls through C, held to the plain implementations of tests/plain. tests/c/run builds the program calls and runs this.
#
#     python3 compare.py [--seed 1] [--scale 1] [--images 0] [--keep FILE] COMMAND ..
#
# COMMAND runs the program of calls.c. All lines are written first, with the answer that each must get; then the program answers them, and
# every line that differs is shown. It ends with a table of calls and refusals, and status 1 where anything differs. With --images the calls
# are loads of so many damaged images.

import argparse
import random
import subprocess
import sys
from collections import Counter

from some import SLOT_CALLS, KEY_CALLS, NODE_CALLS, LABEL_CALLS, key_call, label_call, node_call, slot_call
from images import load_damaged
from lent import SIZES, Lent
from wide import WIDE_CALLS, wide_call

SHOWN = 10
INDEX_CALLS = ["lengths", "clear", "put", "remove_key", "find", "kth", "count", "audit", "save", "load"]
FUNCTIONS = SLOT_CALLS + WIDE_CALLS + KEY_CALLS + NODE_CALLS + INDEX_CALLS + LABEL_CALLS
NEVER_REFUSED = ("dump", "read_ikey", "label_build_first", "label_build_second")


class Talk:
    # The lines to ask, and the name and the answer of each that is answered.
    def __init__(self):
        self.lines, self.answers = [], []

    # A line that gets no answer.
    def note(self, *words):
        self.lines.append(line_of(words))

    # A call, and what must be answered.
    def call(self, name, words, answer):
        self.lines.append(line_of((name,) + tuple(words)))
        self.answers.append((name, line_of(answer), self.lines[-1]))

    # All of lent memory, which must be this.
    def dump(self, memory):
        self.lines.append("dump")
        self.answers.append(("dump", line_of(["dump"] + memory.nodes + memory.cells) + " " + memory.bytes.hex(), "dump"))


# Names as they are, numbers in hex, keys as x and hex.
def line_of(words):
    return " ".join(word if isinstance(word, str) else "x" + word.hex() if isinstance(word, bytes) else "%x" % word for word in words)


# Every call to be made, in one order for a seed.
def talked(seed, scale):
    talk, rng = Talk(), random.Random(seed)
    for names, some in ((SLOT_CALLS, slot_call), (KEY_CALLS, key_call), (NODE_CALLS, node_call)):
        for _ in range(3000 * scale):
            for name in names:
                talk.call(name, *some(rng, name))
    for size, count in SIZES:
        Lent(talk, rng, size).session(count * scale)
    for _ in range(8000 * scale):
        for name in WIDE_CALLS:
            talk.call(name, *wide_call(rng, name))
    for _ in range(3000 * scale):
        for name in LABEL_CALLS:
            talk.call(name, *label_call(rng, name))
    return talk


# Loads of so many damaged images.
def talked_images(seed, count):
    talk = Talk()
    load_damaged(talk, seed, count)
    return talk


# Compares, and shows what differs: how many answers do.
def differing(answers, printed):
    differ = 0
    for k, (name, expected, line) in enumerate(answers):
        got = printed[k] if k < len(printed) else "nothing"
        if got != expected:
            differ += 1
            if differ <= SHOWN:
                print("differs: %.300s\n  expected %.300s\n  got      %.300s" % (line, expected, got))
    return differ + max(0, len(printed) - len(answers))


# How often each function was called, and what was refused.
def report(answers):
    calls, refused = Counter(), {}
    for name, expected, _ in answers:
        calls[name] += 1
        number = int(expected.split()[0], 16) if name not in NEVER_REFUSED else 0
        refused.setdefault(name, Counter())[number] += 1
    for name in [name for name in FUNCTIONS if calls[name]]:
        numbers = ", ".join("%d: %d" % pair for pair in sorted(refused[name].items()) if pair[0])
        print("%-22s %6d calls%s" % (name, calls[name], ", refused " + numbers if numbers else ""))
    return sum(calls[name] for name in FUNCTIONS), calls["dump"], len([name for name in FUNCTIONS if calls[name]])


def main():
    options = argparse.ArgumentParser()
    options.add_argument("--seed", type=int, default=1)
    options.add_argument("--scale", type=int, default=1)
    options.add_argument("--images", type=int, default=0)
    options.add_argument("--keep")
    options.add_argument("command", nargs=argparse.REMAINDER)
    chosen = options.parse_args()
    talk = talked_images(chosen.seed, chosen.images) if chosen.images else talked(chosen.seed, chosen.scale)
    text = "\n".join(talk.lines) + "\n"
    if chosen.keep:
        open(chosen.keep, "w").write(text)
    done = subprocess.run(chosen.command, input=text.encode(), stdout=subprocess.PIPE)
    differ = differing(talk.answers, done.stdout.decode().split("\n")[:-1])
    calls, dumps, functions = report(talk.answers)
    print("%d calls of %d functions through C, and %d times all of memory: differ %d" % (calls, functions, dumps, differ))
    if done.returncode:
        print("the program ended with status %d" % done.returncode)
    return 1 if differ or done.returncode else 0


sys.exit(main())
