"""Pseudo-random choices that come out the same with every Python 3."""

import random


class Chance:
    def __init__(self, seed):
        self.source = random.Random(seed)

    def below(self, limit):
        # Of the library's methods only random() is promised to keep its
        # sequence from version to version.
        return int(self.source.random() * limit)

    def one_of(self, choices):
        return choices[self.below(len(choices))]

    def bytes(self, length):
        return bytes(self.below(256) for _ in range(length))

    def letters(self, length):
        return bytes(0x20 + self.below(64) for _ in range(length))
