# Random scripts saved and random images listed by ../card, beside plain/image.py: every answer, and every byte of a saved file.
#
#     python3 card_files.py [--count 100] [--seed 1]
#
# Prints how many files were saved and listed, how many images got each refusal, and each case that differs; ends with status 1 if any does.

import argparse
import collections
import os
import random
import subprocess
import sys
import tempfile

HERE = os.path.dirname(os.path.abspath(__file__))
sys.path.insert(0, os.path.join(HERE, "plain"))
from answers import PlainMap, output_for, shown  # noqa: E402
from image import BLOCK, HELD, check_of, image_of, in_blocks, read, stream_of  # noqa: E402
from scripts import script_of  # noqa: E402

CARD = os.path.join(HERE, "..", "card")
FILE = "labels.card"


# What ../card prints.
def card(command, given=b""):
    return subprocess.run([CARD, command, FILE], input=given, stdout=subprocess.PIPE, check=True).stdout


# What is listed of an image: its entries filed in 255 nodes and cells, or the refusal.
def listed(image):
    number, told = read(image)[0].number, read(image)[1]
    store = PlainMap(255, 255)
    for key, frame in told if number == 0 else ():
        number = number or store.put(key, frame)
    if number:
        return number, b"refused %d\n" % number
    lines = ["%d entries" % len(told)] + ["%s %d" % (shown(key), frame) for key, frame in told]
    return 0, "".join(line + "\n" for line in lines).encode()


# A key: few different bytes, so that keys are often above one another by little; now and then one of the longest.
def key(rng):
    size = rng.choice((rng.randrange(4), rng.randrange(20), rng.randrange(20), 256, rng.randrange(250, 257)))
    return bytes(rng.choice(b"\0\1a\xff") for _ in range(size))


# Entries in key order.
def entries(rng):
    size = rng.choice((rng.randrange(5), rng.randrange(60), rng.randrange(256)))
    return sorted({key(rng): rng.randrange(1 << 64) for _ in range(size)}.items())


# Every check made right again.
def checked(image):
    blocks = [image[at:at + HELD] for at in range(0, len(image), BLOCK)]
    return b"".join(held + check_of(number, held) for number, held in enumerate(blocks))


# An image with one thing wrong, or right by chance, of the entries given.
def spoiled(rng, kept):
    stream = stream_of(kept)
    image = bytearray(in_blocks(stream))
    at = rng.randrange(len(image))
    kind = rng.randrange(8)
    if kind == 0:
        return image[:at]
    if kind == 1:
        image[at] ^= 1 << rng.randrange(8)
        return image
    if kind == 2:
        image[at] = rng.choice((0, 1, 255, rng.randrange(256)))
        return checked(image)
    if kind == 3:
        rng.shuffle(kept)
        return image_of(kept)
    if kind == 4:
        return in_blocks(stream + bytes(HELD))
    if kind == 5:
        return image_of([(b"%04d" % i, i) for i in range(rng.randrange(250, 260))])
    if kind == 6:
        return image[:max(BLOCK, at // BLOCK * BLOCK)]
    return image_of(kept + [(b"\xff" * rng.randrange(254, 260), 0)])


# An image with many layers, so that the nodes run out: pairs of keys that differ late.
def deep(rng):
    made = {}
    for _ in range(rng.randrange(2, 60)):
        start = bytes(rng.choice(b"ab") for _ in range(rng.randrange(8, 255)))
        made[start + b"x"], made[start + b"y"] = 1, 2
    return image_of(sorted(made.items()))


def main(arguments):
    asked = argparse.ArgumentParser()
    asked.add_argument("--count", type=int, default=100)
    asked.add_argument("--seed", type=int, default=1)
    asked = asked.parse_args(arguments)
    rng = random.Random(asked.seed)
    seen, differ, saved = collections.Counter(), 0, 0
    os.chdir(tempfile.mkdtemp())
    for turn in range(asked.count):
        script = script_of(asked.seed * 1000 + turn)
        store = PlainMap()
        expected = output_for(script, store)
        image = image_of(store.listing())
        expected += b"%d blocks\n" % (len(image) // BLOCK)
        saved += 1
        if card("save", script) != expected or open(FILE, "rb").read() != image or os.listdir() != [FILE]:
            differ += 1
            print("differs: script %d saved" % (asked.seed * 1000 + turn))
        for image in (image, image_of(entries(rng)), spoiled(rng, entries(rng)), spoiled(rng, entries(rng)), deep(rng)):
            number, expected = listed(bytes(image))
            seen[number] += 1
            with open(FILE, "wb") as file:
                file.write(image)
            if card("list") != expected:
                differ += 1
                print("differs: turn %d, an image that gets %d" % (turn, number))
    os.remove(FILE)
    told = ", ".join("%d refused %d" % (seen[n], n) if n else "%d read" % seen[n] for n in sorted(seen))
    print("%d files saved; images listed: %s; %d differ" % (saved, told, differ))
    return 1 if differ else 0


if __name__ == "__main__":
    sys.exit(main(sys.argv[1:]))
