# The files that the programs card and replay_card_file are run on in the gate, written anew.
#
#     python3 card_data.py

import os
import sys

HERE = os.path.dirname(os.path.abspath(__file__))
CRATES = os.path.join(HERE, "..", "crates")
sys.path.insert(0, os.path.join(HERE, "plain"))
from image import image_of  # noqa: E402


def write(crate, name, image):
    with open(os.path.join(CRATES, crate, "data", name), "wb") as file:
        file.write(image)


# A line of a listing as an entry.
def entry(line):
    key, frame = line.split()
    return (b"" if key == "-" else bytes.fromhex(key)), int(frame)


# What card must list, as an image.
with open(os.path.join(CRATES, "card", "stdout")) as listing:
    write("card", "labels.card", image_of([entry(line) for line in list(listing)[1:]]))

# A good image, but: a byte too short, a bit changed, its keys in the wrong order; and one of nine pairs of keys that differ in the last of
# 256 bytes, more than 255 nodes hold.
two = [(b"a", 7), (b"fox", 8)]
pairs = [(bytes([first]) * 255 + last, 1) for first in range(9) for last in (b"a", b"b")]
good = image_of(two)
write("replay_card_file", "cut.card", good[:-1])
write("replay_card_file", "damaged.card", good[:10] + bytes([good[10] ^ 1]) + good[11:])
write("replay_card_file", "unsorted.card", image_of(two[::-1]))
write("replay_card_file", "crowded.card", image_of(pairs))
