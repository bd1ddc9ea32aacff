"""Requests to the values of trees of one width, and to the check that a tree is one."""
from .build import ADD, CONSTANT, NOT, balanced, damaged, left_chain, right_chain, some_size
from .common import BIG, EDGES, MAX, request, rounds
from .typed import KEEPING, SAME_WIDTH, Place, spoiled, uniform

WIDTHS = [1, 2, 3, 8, 31, 32, 33, 63, 64]
SHR = 9
X, Y = [1, 0], [1, 1]


def value(words, width, setting, listed=()):
    return request("value", [width], listed, setting, words)


def one_width(words, width, listed=()):
    return request("check_one_width", [width], listed, words)


def near(width):
    """Words about the bounds of a width, with bits above it too."""
    top = 1 << width
    return [n & MAX for n in (0, 1, top >> 1, (top >> 1) - 1, top - 1, top, top + 1, MAX - 1)]


def single_leaves():
    lines = []
    for width in WIDTHS:
        for word in dict.fromkeys(EDGES + near(width)):
            lines += [value([0, word], width, []), value([1, 1], width, [0, word])]
    return lines


def single_nodes(rng):
    """A variable and a constant, on either side; and a variable with itself."""
    lines = []
    for width in WIDTHS:
        words = near(width)
        for kind in SAME_WIDTH:
            for word in words:
                lines.append(value([kind, 0] + X + [0, rng.pick(words)], width, [word]))
            lines += [value([kind, 0] + [0, rng.word()] + X, width, [rng.word()]) for _ in range(3)]
            lines += [value([kind, 0] + X + Y, width, [rng.word(), rng.word()]), value([kind, 0] + X + X, width, [rng.word()])]
        for kind in KEEPING[:2]:
            lines += [value([kind, 0] + X, width, [word]) for word in words]
            lines += [value([kind, 0, 0, rng.word()], width, [])]
    return lines


def shifts(rng):
    lines = []
    for width in WIDTHS:
        for amount in dict.fromkeys([0, 1, width - 1, width, width + 1, 31, 32, 33, 63, 64, 65, 256, 1 << 31, BIG - 1]):
            for word in (MAX, rng.word()):
                lines.append(value([SHR, amount] + X, width, [word]))
            lines.append(value([SHR, amount, 0, rng.word()], width, []))
        lines += [value([SHR, 1, SHR, rng.below(width + 1)] + NOT + X, width, [rng.word()]) for _ in range(2)]
    return lines


# Random trees

def leaf_below(count):
    """Constants of any size and the first variables."""
    def leaf(rng):
        if count and rng.below(3):
            return [1, rng.below(count)]
        return [0, rng.below(16) if rng.below(2) else rng.pick([rng.pick(EDGES), rng.any_size()])]
    return leaf


def needed(words):
    """How many words a setting must have."""
    return max([words[i + 1] + 1 for i in range(0, len(words), 2) if words[i] == 1], default=0)


def random_values(rng, turns):
    """Settings as long as needed, longer, and one word short; lists that are empty, short, exact and long."""
    lines = []
    for turn in range(turns):
        width = WIDTHS[turn % 9] if turn % 5 else 1 + rng.below(64)
        words = uniform(rng, some_size(rng, 55), leaf_below(rng.below(5)))
        count = needed(words)
        short = turn % 20 == 7 and count > 0
        setting = [rng.any_size() for _ in range(count - 1 if short else count + rng.pick([0, 0, 0, 1, 3]))]
        listed = [width] * rng.pick([0, 0, 0, 1, count])
        if turn % 10 == 3:
            listed = [width] * count + [width ^ 1, 0, 65]  # no variable has these
        lines.append(value(words, width, setting, listed))
        if turn % 6 == 0:
            lines.append(one_width(words, width, listed))
    return lines


def other_widths(rng, turns):
    """A list in which one width differs."""
    lines = []
    for turn in range(turns):
        width = rng.pick(WIDTHS)
        words = uniform(rng, some_size(rng, 30), leaf_below(4))
        listed = [width] * (1 + rng.below(5))
        listed[rng.below(len(listed))] = rng.pick([0, 1, width + 1, 64, 65, BIG - 1])
        lines += [value(words, width, [rng.any_size() for _ in range(4)], listed)] if turn % 2 else []
        lines.append(one_width(words, width, listed))
    return lines


# Limits

def full_trees(rng):
    """Of 512 nodes, of 64 levels, or both."""
    lines = []
    for width in WIDTHS:
        lines.append(value(uniform(rng, 512 - rng.below(2), leaf_below(4)), width, [rng.word() for _ in range(4)]))
    for size in (80, 110, 150, 200, 260, 330):
        lines.append(value(uniform(rng, size, leaf_below(4)), rng.pick(WIDTHS), [rng.word() for _ in range(4)]))
    products = [3, 0] * 63 + X * 64
    fixed = [NOT + balanced([X] * 256), NOT * 55 + balanced([[0, MAX]] * 229), NOT * 63 + X, [8, 0] * 63 + X, [SHR, 1] * 63 + X,
             left_chain(63, X), right_chain(63, X), products]
    for words in fixed:
        lines += [value(words, width, [rng.word()]) for width in (64, 7)] + [one_width(words, 8)]
    return lines


def settings():
    """A variable far up, with a setting that ends just behind it and just before it."""
    long = list(range(100, 220))
    lines = []
    for words in ([1, 119], ADD + X + [1, 119], ADD + [1, 119] + X, NOT + [1, 119]):
        lines += [value(words, 8, long), value(words, 8, long[:-1]), value(words, 8, [])]
    last = [1, BIG - 1]
    for words in (Y, ADD + X + Y, ADD + Y + CONSTANT, last, ADD + X + last, ADD + [1, 255] + X, [1, 1 << 31]):
        lines += [value(words, 8, setting) for setting in ([], [5], [5, 6], [5, 6, 7])]
    return lines + [value(CONSTANT, 64, []), value(ADD + CONSTANT + [0, 7], 64, [])]


def widths():
    """Every width, and some that no tree has."""
    words = ADD + X + [0, MAX]
    lines = []
    for width in list(range(67)) + [255, 256, 257, 1 << 31, BIG - 1]:
        lines += [value(words, width, [0x123456789ABCDEF0]), one_width(words, width), one_width(words, width, [width])]
    return lines


def requests(random):
    return (single_leaves() + single_nodes(random(40)) + shifts(random(41)) + random_values(random(42), 1300)
            + other_widths(random(43), 160) + full_trees(random(44)) + settings() + widths())


def random_checks(rng, count):
    """Trees with and without a cast or a Concat, at any width, with lists that have this width or another one."""
    lines = []
    for turn in range(count):
        width = 1 + rng.below(64) if rng.below(9) else rng.pick([0, 65, BIG - 1])
        words = uniform(rng, some_size(rng, 40), leaf_below(4))
        listed = [width] * rng.below(6)
        if listed and turn % 3 == 0:
            listed[rng.below(len(listed))] ^= 1
        words = spoiled(rng, words, Place(listed, 8)) if turn % 5 == 0 else damaged(rng, words) if turn % 5 == 1 else words
        lines.append(one_width(words, width, listed))
    return lines


def further(rng, size):
    """For long runs: other trees at each seed, of at most so many bytes. `random_values` is left out: the solvers take their time."""
    return rounds(size, lambda: random_checks(rng, 400))
