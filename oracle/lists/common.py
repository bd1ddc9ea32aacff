"""Numbers, and the text of a request."""
import random
from functools import partial

BIG = 1 << 32  # the first number over 32 bits
MAX = (1 << 64) - 1
EDGES = [0, 1, 2, 3, 0x7F, 0x80, 0xFF, 0x100, 0x7FFFFFFF, 0x80000000, BIG - 1, BIG, MAX >> 1, 1 << 63, MAX,
         0x5555555555555555, 0xAAAAAAAAAAAAAAAA]


class Random:
    """splitmix64: the lists must not depend on the version of Python."""

    def __init__(self, seed):
        self.state = seed

    def word(self):
        self.state = (self.state + 0x9E3779B97F4A7C15) & MAX
        z = self.state
        z = ((z ^ (z >> 30)) * 0xBF58476D1CE4E5B9) & MAX
        z = ((z ^ (z >> 27)) * 0x94D049BB133111EB) & MAX
        return z ^ (z >> 31)

    def below(self, bound):
        return self.word() % bound

    def pick(self, items):
        return items[self.below(len(items))]

    def any_size(self):
        """A word of any number of bits, small ones as often as large ones."""
        return self.word() >> self.below(64)


class Quick(Random):
    """For long runs, which are not stored: many times as fast."""

    def __init__(self, seed):
        own = random.Random(seed)
        self.word = partial(own.getrandbits, 64)
        self.part = own.random

    def below(self, bound):
        return int(self.part() * bound)

    def pick(self, items):
        return items[int(self.part() * len(items))]


def listed(numbers):
    """A space before each."""
    return " %x" * len(numbers) % tuple(numbers)


def request(name, *lists):
    """A name and its lists, with ` /` before each but the first."""
    return name + " /".join(map(listed, lists))


def rounds(size, more):
    """What `more` makes again and again, at most so many bytes of it."""
    lines = []
    while True:
        made = more()
        size -= sum(map(len, made)) + len(made)
        if size < 0:
            return lines
        lines += made


def calls(names, words):
    return [request(name, words) for name in names]
