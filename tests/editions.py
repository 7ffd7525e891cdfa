# The list of crate replay_labels: frame labels of both editions, built and read. The answers are those of plain/editions.py.
#
#     python3 editions.py > ../crates/replay_labels/stdin
#     python3 editions.py --pairs 100000 --seed 2      hold plain/editions.py to itself on so many pairs of labels, and print their count
#
# A line has 65 bytes with the line feed, numbers in lower-case hex at fixed places:
#
#     0   the call: 0 builds a label of edition 1, 1 one of edition 2, 2 reads either, 3 reads edition 1 alone
#     2   the number answered, 0 or 13, which is 19
#     5   the edition: what a reader of both tells of a label, and either of what is none; else 0
#     8   station, burst (13) and frame (22): handed to a builder, told by a reader; 0 where a reader tells none
#     27  the length of the label
#     32  its first 16 bytes, with zeros behind the last; those behind the 16th are 0

import argparse
import os
import random
import sys

sys.path.insert(0, os.path.join(os.path.dirname(os.path.abspath(__file__)), "plain"))
from editions import FIRST, SECOND, build, read

STATIONS = (0, 1, 0xFF, 0x100, 0x8001, 0xFFFF)
BURSTS = (0, 1, 0xFF, 0x100, 0xFFFF, 0x10000, 0xFFFFFF, 0x1000000, 0x80000001, 0xFFFFFFFE, 0xFFFFFFFF)
FRAMES = {FIRST: (0, 1, 0x7F, 0x80, 0xFF), SECOND: (0, 1, 0xFF, 0x100, 0x102, 0x7FFF, 0x8000, 0xFFFF)}
SOME = {FIRST: (0x0102, 0x03040506, 0x07), SECOND: (0x0102, 0x03040506, 0x0708)}


# One line.
def line(call, number, edition, fields, label):
    assert not any(label[16:])
    numbers = (call, number, edition, *fields, len(label))
    return "%x %02x %02x %04x %08x %04x %04x " % numbers + label[:16].hex().ljust(32, "0") + "\n"


# A label read by both readers.
def read_lines(label):
    lines = []
    for call, known in ((2, (FIRST, SECOND)), (3, (FIRST,))):
        number, told = read(label, known)
        if number:
            lines.append(line(call, number, told, (0, 0, 0), label))
        else:
            lines.append(line(call, 0, told[0] if call == 2 else 0, told[1:], label))
    return lines


# A label built, and read by both readers.
def built_lines(edition, fields):
    label = build(edition, *fields)
    return [line(edition - 1, 0, 0, fields, label)] + read_lines(label)


# Fields that are each at an edge in turn.
def at_edges(edition):
    station, burst, frame = SOME[edition]
    return (
        [SOME[edition]]
        + [(value, burst, frame) for value in STATIONS]
        + [(station, value, frame) for value in BURSTS]
        + [(station, burst, value) for value in FRAMES[edition]]
    )


# Any fields.
def some_fields(rng, edition):
    return rng.randrange(1 << 16), rng.randrange(1 << 32), rng.randrange(1 << 8 * edition)


# What is no label, or one that is cut short or goes on: every kind of first byte with lengths about the right ones, and lengths that are
# right in their low byte alone.
def no_labels(rng):
    labels = [b""]
    for byte in (0, 1, 2, 3, 0x10, 0x81, 0xFF):
        labels += [bytes([byte]) + bytes(rng.randrange(256) for _ in range(length - 1)) for length in (1, 2, 7, 8, 9, 10, 16)]
    for byte in (1, 2):
        labels += [(bytes([byte]) + bytes(range(2, 17))).ljust(length, b"\0") for length in (17, 256 + 8, 256 + 9, 300)]
    return labels


# The whole list.
def recorded(seed):
    rng = random.Random(seed)
    lines = []
    for edition in (FIRST, SECOND):
        for fields in at_edges(edition) + [some_fields(rng, edition) for _ in range(10)]:
            lines += built_lines(edition, fields)
    for label in no_labels(rng):
        lines += read_lines(label)
    return lines


# Fields near others, so that pairs agree in some.
def near(rng, edition, fields):
    return tuple(other if rng.random() < 0.5 else value for value, other in zip(fields, some_fields(rng, edition)))


# Holds labels to their fields on so many pairs: read back, and ordered by bytes as by edition, station, burst and frame.
def hold(pairs, seed):
    rng = random.Random(seed)
    for _ in range(pairs):
        one, other = rng.choice((FIRST, SECOND)), rng.choice((FIRST, SECOND))
        fields = some_fields(rng, FIRST)
        a, b = (one,) + near(rng, one, fields), (other,) + near(rng, other, fields)
        assert read(build(*a)) == (0, a) and read(build(*b)) == (0, b)
        assert (build(*a) < build(*b)) == (a < b)
    print("%d pairs" % pairs)


if __name__ == "__main__":
    parser = argparse.ArgumentParser()
    parser.add_argument("--pairs", type=int, default=0)
    parser.add_argument("--seed", type=int, default=1)
    arguments = parser.parse_args()
    if arguments.pairs:
        hold(arguments.pairs, arguments.seed)
    else:
        sys.stdout.writelines(recorded(arguments.seed))
