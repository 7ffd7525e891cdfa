# The part of crate replay_slots' list that the Rust has no answer for: insert_first_free, and runs of calls that are withdrawn, on words
# with bits above the width too. The answers are those of plain/bank.py.
#
#     (../oracle/slots/run FOLDER record; python3 slots.py) > ../crates/replay_slots/stdin
#     python3 slots.py --runs 100000 --seed 2      hold plain/bank.py to itself on so many runs, and print nothing but their count
#
# A line is as oracle/README.md has it, of kind m. The calls of a run stand one under the other, each on the word that the one before
# left, and behind them those that withdraw it; the last leaves the word that the first was given, without what strayed above the width.

import argparse
import os
import random
import sys

sys.path.insert(0, os.path.join(os.path.dirname(os.path.abspath(__file__)), "plain"))
import bank
import words

FAR = (1 << 64) - 1
CODES = {"insert_from_back": 9, "remove": 10, "remove_to_back": 11, "remove_slot": 12, "insert_first_free": 15}


# One line: a call and its answer; refused, the word as given. Of these calls only an insertion from the back tells anything.
def line(name, width, word, a, answer):
    number, left, told = answer
    return "m %x %x %016x %016x %016x %016x %016x %04x %04x\n" % (
        CODES[name], number, width, word, a, 0, word if number else left, *(told or (0, 0)))


# Any valid word of this size.
def some_word(rng, width, size):
    return words.packed(size, rng.sample(range(width), width))


# insert_first_free at the edges of the size, on words with no, one, half, all but one and all slots in use.
def at_edges(rng, width):
    lines = []
    for size in sorted({0, 1, width // 2, width - 1, width}):
        for _ in range(2):
            word = some_word(rng, width, size)
            for i in sorted({0, size // 2, max(size, 1) - 1, size, size + 1, FAR}):
                lines.append(line("insert_first_free", width, word, i, bank.insert_first_free(word, width, i)))
    return lines


# Refusals 1 and 2: wrong widths; a slot twice, a slot or a size beyond the width, and such with bits above it, which come back too.
def refused(width):
    good = words.packed(width // 2, list(range(width)))
    bad = [good | 15, good ^ 1 << 4, good ^ 8 << 4 * width, FAR]
    if width < 15:
        bad += [good ^ 1 << 4 | 1 << 4 * width + 4, good | 15 | 1 << 63]
    calls = [(width, word) for word in bad if bank.judged(word, width)] + [(wrong, good) for wrong in (0, 16, FAR)]
    return [line("insert_first_free", w, word, i, bank.insert_first_free(word, w, i)) for w, word in calls for i in (0, FAR)]


# Any bits above the width.
def strays(rng, width):
    return rng.getrandbits(64) >> 4 * width + 4 << 4 * width + 4


# insert_first_free on a word with bits above it, at the edges of the size.
def on_strays(rng, width):
    size = rng.randint(0, width)
    word = some_word(rng, width, size) | strays(rng, width)
    return [line("insert_first_free", width, word, i, bank.insert_first_free(word, width, i)) for i in (0, size, size + 1)]


# A run of calls from some valid word, with bits above it now and then: positions and slots that are there and some that are not.
def some_run(rng, width, stray=False):
    names = ("insert_from_back", "insert_from_back", "remove", "remove_slot")
    calls = [(rng.choice(names), rng.randint(0, width)) for _ in range(rng.randint(1, 2 * width))]
    return bank.withdrawn(some_word(rng, width, rng.randint(0, width)) | (strays(rng, width) if stray else 0), width, calls)


# Whether each call that withdraws was accepted, and the last left the word that the first was given, without what strayed if any call
# was accepted.
def came_back(told, width):
    name, word, a, answer = told[-1]
    back = [one for one in told if one[0] in ("remove_to_back", "insert_first_free")]
    given = words.cleared(told[0][1], width) if back else told[0][1]
    return (word if answer[0] else answer[1]) == given and all(one[3][0] == 0 for one in back)


# The lines of a run that came back.
def run_lines(width, told):
    assert came_back(told, width)
    return [line(name, width, word, a, answer) for name, word, a, answer in told]


# The whole list: each width's edges and runs, the refusals of some, and words with bits above the width.
def recorded(seed):
    rng = random.Random(seed)
    lines = []
    for width in range(1, 16):
        lines += at_edges(rng, width)
        for _ in range(2):
            lines += run_lines(width, some_run(rng, width))
    for width in (1, 7, 14, 15):
        lines += refused(width)
    for width in range(1, 15):
        lines += on_strays(rng, width)
        lines += run_lines(width, some_run(rng, width, stray=True))
    return lines


# So many runs, at every width: how many came back, and how many calls were refused and withdrawn.
def held(runs, seed):
    rng = random.Random(seed)
    counts = {"runs": 0, "calls": 0, "refused": 0, "withdrawn": 0, "not as before": 0}
    for k in range(runs):
        width = 1 + k % 15
        told = some_run(rng, width, stray=k % 2 == 1)
        back = sum(one[0] in ("remove_to_back", "insert_first_free") for one in told)
        counts["runs"] += 1
        counts["calls"] += len(told) - back
        counts["withdrawn"] += back
        counts["refused"] += sum(one[3][0] != 0 for one in told)
        counts["not as before"] += not came_back(told, width)
    return counts


parser = argparse.ArgumentParser()
parser.add_argument("--runs", type=int)
parser.add_argument("--seed", type=int, default=1)
arguments = parser.parse_args()
if arguments.runs:
    print(", ".join("%d %s" % (count, name) for name, count in held(arguments.runs, arguments.seed).items()))
else:
    sys.stdout.writelines(recorded(arguments.seed))
