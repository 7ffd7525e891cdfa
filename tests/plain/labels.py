# Labels as a camera may be given, for measuring: the same ones in every run.

import random


# A label: a few words and letters, or any bytes.
def label(rng):
    kind = rng.randrange(3)
    if kind == 0:
        return b"deer-" + bytes(rng.choice(b"abcdefgh") for _ in range(rng.randint(1, 6)))
    if kind == 1:
        return b"night-" + bytes(rng.choice(b"xyz") for _ in range(rng.randint(4, 14)))
    return bytes(rng.randint(0, 255) for _ in range(rng.randint(1, 20)))


# So many labels, no two the same; the frame of each is its number in the list, from 1 on.
def labels(count):
    rng = random.Random(5)
    made = []
    while len(made) < count:
        key = label(rng)
        if key not in made:
            made.append(key)
    return made
