# Damaged images, and some that are as written, loaded through C into memories of several sizes, which hold anything at first.

import random

import damage
from lent import Lent
from spoilt import spoilt

MEMORIES = [(1, 1), (1, 20), (2, 3), (3, 20), (5, 8), (12, 60), (33, 6), (40, 255)]
IN_ONE = 50


class Loading(Lent):
    # Memory into which the image that is set is loaded.
    def some_image(self):
        return self.image

    # Loads an image; now and then with other lengths.
    def load(self, data):
        self.image = data
        lengths = self.rng.choice(damage.lengths_of(self.memory)) if self.rng.random() < 0.02 else None
        self.call("load", lengths)


# Loads of so many damaged images; all of memory is looked at behind each row of them.
def load_damaged(talk, seed, count):
    rng, lent = random.Random(seed), None
    for made, (_, data) in enumerate(spoilt(count, seed)):
        if made % IN_ONE == 0:
            if lent is not None:
                talk.dump(lent.memory)
            lent = Loading(talk, rng, rng.choice(MEMORIES))
            lent.fill()
        lent.load(data)
    talk.dump(lent.memory)
