"""Requests to the chain: all rewrites of a tree, one after the other."""
from .build import BAD_KIND, BAD_OPERAND, CONSTANT, VARIABLE, balanced, damaged, left_chain, nots, some_size
from .common import BIG, MAX, request, rounds
from .refusals import CAST, OTHER, broken
from .rewrites import grown, halved, near_forms, no_tree_lists, parts, random_width, with_some_sites, worked_trees
from .sites import (ADD, AND, BITWISE, NEG, NOT, OR, X, XOR, Y, Z, about_64_levels, above, closed, comb, near, ones, quiet, site_forms)
from .stacks import (MOST_WORK, SHR0, SHR1, between, busy, going_down, largest_room, leftward, level_by_level, numbered, other_leaf,
                     pairs_of_2048, room, room_of_2048, sized, some_leaf)
from .trees import with_two_refusals

WIDTHS = [1, 2, 8, 64]


def chain(words, width, size=None, listed=()):
    return request("chain", [width, room(words) if size is None else size], listed, words)


def random_chain(rng, words, width):
    """With room that is just enough or more, and a list that the tree is of one width with."""
    size = min(MOST_WORK, room(words) + rng.pick([0, 0, 0, 1, 2, 7, 60]))
    return chain(words, width, size, [width] * rng.pick([0, 0, 0, 1, 2, 5, 9]))


def at_random(rng, count, make):
    """So many trees, each at a width of its own; `make` is given the width and how many came before."""
    lines = []
    for turn in range(count):
        width = random_width(rng)
        lines.append(random_chain(rng, make(width, turn), width))
    return lines


# Small trees

def worked():
    """Document 01's cases, and the README's example."""
    return [chain(words, width) for words, width in worked_trees()] + [chain(NOT + AND + NOT + X + Y, 8, 16, [8, 8])]


def small_trees():
    """To three nodes; of four nodes each third."""
    lines = []
    for width in WIDTHS:
        trees = grown(width, 4 if width == 2 else 3)
        lines += [chain(words, width) for size in (1, 2, 3) for words in trees[size]]
        lines += [chain(words, width) for words in trees.get(4, [])[::3]]
    return lines


def two_parts():
    """Each two of the parts below an operator, with a Not above it and without."""
    few = parts(8)
    lines = []
    for i, a in enumerate(few):
        for j, b in enumerate(few):
            kind = BITWISE[(i + j) % 3]
            lines += [chain(kind + a + b, 8), chain(NOT + BITWISE[(i + j // 3) % 2] + a + b, 8)]
    return lines


def each_width():
    """Constants at and above all ones, which a fold makes and then compares."""
    lines = []
    for width in range(1, 65):
        full, over = ones(width), above(width, ones(width))
        lines += [chain(AND + OR + X + [0, full & 0x5555555555555555] + OR + [0, full & 0xAAAAAAAAAAAAAAAA] + X, width),
                  chain(OR + OR + X + [0, full & 0x5555555555555555] + [0, full & 0xAAAAAAAAAAAAAAAA], width),
                  chain(AND + AND + X + [0, over] + [0, MAX], width),
                  chain(NOT + OR + NOT + AND + X + [0, full] + XOR + XOR + Y + [0, full] + [0, over], width)]
    return lines


def small_and_busy(rng, count):
    return at_random(rng, count, lambda width, _: busy(rng, width, 3 + rng.below(10)))


# Ordinary tables

def to_40_nodes(rng, count):
    return at_random(rng, count, lambda width, turn: busy(rng, width, 1 + rng.below(40), [some_leaf, other_leaf][turn % 2]))


def sites_put_in(rng, count):
    """Trees without a site, and the same with one to five put in."""

    def make(width, turn):
        return with_some_sites(rng, quiet(rng, width, some_size(rng, 40)), width, turn % 6, 16)

    return at_random(rng, count, make)


def each_form(rng, turns):
    """The forms of a site over trees that have sites themselves."""
    lines = []
    for _ in range(turns):
        width = random_width(rng)
        a, b = busy(rng, width, 2 + rng.below(6)), busy(rng, width, 1 + rng.below(6))
        lines += [random_chain(rng, words, width) for words in site_forms(width, a, b, [0, rng.any_size()])]
    return lines


def gathered(rng, count):
    """Constants in two to ten nodes of one operator, or with another one among them, over a part that may have sites."""

    def make(width, _):
        kind = rng.pick(BITWISE)
        words = busy(rng, width, 1 + rng.below(6))
        for _ in range(2 + rng.below(9)):
            own = rng.pick(BITWISE) if rng.below(8) == 0 else kind
            number = [0, rng.pick([rng.any_size(), rng.below(4), ones(width), 0, above(width, 3)])]
            words = NOT * (rng.below(12) == 0) + (own + words + number if rng.below(2) else own + number + words)
        return words

    return at_random(rng, count, make)


def met_again(rng):
    """Two constants make one that then meets another operand: Not of it, the dual operator with it, it itself, or nearly it."""
    lines = []
    for width in (3, 8, 33, 64):
        word = rng.word() & ones(width) | 1
        for kind, dual in ((AND, OR), (OR, AND), (XOR, AND)):
            for other in (word, word ^ 1, above(width, word)):
                number = [0, other]
                for end in (NOT + number, dual + X + number, kind + NOT + NOT + X + NOT + number, NOT + dual + NOT + number + X):
                    a, b = [[0, half] for half in halved(rng, kind, word)]
                    lines += [chain(kind + kind + end + a + b, width), chain(kind + a + kind + b + SHR0 + end, width)]
    return lines


def made_equal(rng, count):
    """Two parts that are equal, or are so after rewrites, or are not."""

    def make(width, turn):
        nodes = 2 + rng.below(20)
        t = busy(rng, width, nodes) if turn % 2 else closed(rng, width, nodes, False)
        u = [t, near(rng, t, width), NOT + NOT + t, SHR0 + t, NOT + NOT + near(rng, t, width)][turn % 5]
        return near_forms(t, u, [NEG + X, Y][turn % 2])[turn % 9]

    return at_random(rng, count, make)


# Nots over And and Or

def nots_of_one_level():
    """Nots over one And or Or with or without Nots below it."""
    lines = []
    for kind in (AND, OR):
        for count in range(0, 8):
            for left in range(0, 3):
                lines += [chain(NOT * count + kind + NOT * left + X + NOT * right + Y, 8) for right in range(0, 3)]
    return lines


def nots_above(rng, count):
    """Nots over a chain, before each of its levels, and over balanced levels."""

    def make(width, turn):
        below = [numbered(), sized(rng, width, 1 + rng.below(3)), lambda: some_leaf(rng, width)][turn % 3]
        over = rng.below(9)
        few = [below() if rng.below(2) else NOT + below() for _ in range(2 + rng.below(14))]
        return [lambda: going_down(rng, over, 1 + rng.below(9), below), lambda: leftward(over, 1 + rng.below(9), below),
                lambda: between(rng, rng.below(4), 1 + rng.below(9), below),
                lambda: NOT * over + level_by_level(few, [AND, OR])][rng.below(4)]()

    return at_random(rng, count, make)


def hard(rng):
    """The same with up to 64 levels, and Nots over Or(a, Not b), of which each takes two rewrites."""
    lines = []
    for count, levels in ((1, 62), (2, 61), (31, 32), (32, 31), (55, 8), (61, 2), (62, 1)):
        for make in (going_down, lambda _, *rest: leftward(*rest)):
            lines.append(chain(make(rng, count, levels - 1, numbered()), 8))
    lines += [chain(between(rng, count, 63 // (count + 1) - 1, numbered()), 8) for count in (0, 1, 1, 1, 2, 3, 5) for _ in range(2)]
    lines += [chain((NOT + OR) * 31 + X + (NOT + Y) * 31, 8), chain((NOT + OR + Y) * 31 + NOT + X, 8),
              chain((NOT + AND + NOT + X) * 31 + Y, 8), chain((NOT + NOT + NOT + OR + NOT + X) * 15 + Y, 8)]
    lines += [chain(NOT * count + OR + closed(rng, 8, size, False) + NOT + closed(rng, 8, size, False), 8)
              for count in (1, 2, 3, 30, 31, 54, 55) for size in (1, 4, 9)]
    return lines


# Large trees

def large_trees(rng, count, few):
    """From 60 nodes to 512; and a few with up to seven sites."""
    lines = at_random(rng, count, lambda width, turn: busy(rng, width, 60 + rng.below(1 + rng.below(450)),
                                                           [other_leaf, some_leaf][turn % 3 == 0]))
    return lines + at_random(rng, few, lambda width, _: with_some_sites(rng, quiet(rng, width, 60 + rng.below(240)), width,
                                                                        2 + rng.below(6), 24))


def gone_down_in_512(rng, count, levels, make):
    """Nots over levels whose parts make up 512 nodes; the tree grows on the way."""
    sizes = [(512 - count - 2 * levels) // (levels + 1)] * (levels + 1)
    for place in range((512 - count - 2 * levels) % (levels + 1)):
        sizes[place] += 1
    each = iter(sizes)
    return make(count, levels, lambda: closed(rng, 8, next(each), False))


def full_trees(rng):
    """Of 512 nodes: with many sites, with none, with De Morgan at the root or all the way down, with equal halves,
    with Nots over Or(a, Not b) in ten places."""
    lines = []
    for turn in range(16):
        width = random_width(rng)
        lines.append(chain(busy(rng, width, 512, [other_leaf, some_leaf][turn % 2]), width))
    for levels in (20, 30, 40):
        lines.append(chain(gone_down_in_512(rng, 1, levels, leftward), 8))
        lines.append(chain(gone_down_in_512(rng, 5, levels, lambda *rest: going_down(rng, *rest)), 8))
    for kinds in ([ADD], [AND, OR]):
        many = [NOT * 47 + OR + [1, 2 * number] + NOT + [1, 2 * number + 1] for number in range(10)]
        lines.append(chain(level_by_level(many[:9] + [NOT * 40 + many[9][94:]], kinds), 8))
    half = closed(rng, 8, 255, False)
    lines += [chain(NEG + quiet(rng, 8, 511), 8), chain(NEG + AND + half + half, 8), chain(NOT + OR + half + near(rng, half, 8), 8),
              chain(NOT + AND + NOT + half + closed(rng, 8, 254, False), 8), chain(NEG + OR + half + half, 8, MOST_WORK),
              chain(ADD + quiet(rng, 8, 509) + SHR0 + X, 8), chain(balanced([NOT * 30 + X] * 16), 8),
              chain(NOT + balanced([VARIABLE] * 256), 8, MOST_WORK)]
    return lines


def deep_trees(rng):
    """Chains of up to 64 levels."""
    lines = []
    for levels in (1, 5, 23, 44, 60, 61, 62):
        for end in (AND + X + X, OR + X + [0, 0], SHR0 + Z, AND + X + Y):
            lines.append(random_chain(rng, comb(rng, levels, end), random_width(rng)))
    for words in (nots(63, X), SHR0 * 63 + X, NOT * 62 + NEG + X, (AND + X) * 63 + Y, (AND + X) * 63 + X, AND * 63 + X + [0, 5] * 63,
                  (XOR + [0, 3]) * 63 + X, (XOR + [0, 3]) * 62 + NOT + X, OR * 63 + X + [0, 5] * 62 + [0, 0], OR * 63 + X * 64,
                  (NOT + AND + NOT + X) * 21 + Y, (NOT + SHR0) * 31 + NOT + X, (SHR0 + NOT) * 31 + SHR1 + X, NEG * 62 + AND + X + X,
                  (OR + X + AND) * 20 + Y + X * 20, XOR * 63 + X + [0, 1] * 63, (AND + [0, 255]) * 63 + X):
        lines.append(chain(words, 8))
    return lines


# The room

def largest():
    """n + D at 2,048, also with the largest D for it, and the largest that a tree has, each with a word less and a word more."""
    lines = []
    leaves = [NOT * (number % 9 == 0) + [1, number] for number in range(215)]
    for words in (room_of_2048(), pairs_of_2048(), largest_room()):
        need = room(words)
        lines += [chain(words, 8, size) for size in (need, need - 1, need + 1, need - 2, need + 2, 0)]
    same = largest_room([X] * 229)
    with_nots = NOT * 54 + level_by_level(leaves, [OR, AND])
    return lines + [line for words in (same, with_nots) for line in (chain(words, 8), chain(words, 8, room(words) - 1))]


def sizes():
    """Each size of what is lent, where there is a site and where there is none."""
    lines = []
    for words in (X, XOR + X + X, AND + X + X, NOT + AND + NOT + X + Y, NOT + NOT + AND + X + Y, NOT + AND + X + Y,
                  NOT * 5 + OR + X + NOT + Y, NOT + ADD + AND + X + Y + OR + X + Y, NEG + SHR0 + X, nots(9, X),
                  (NOT + OR + NOT + X) * 5 + Y, left_chain(40)):
        need = room(words)
        for size in sorted({0, 1, 2, len(words), need - 2, need - 1, need, need + 1, need + 2, need + 37, 1100, MOST_WORK} - {-1}):
            lines.append(chain(words, 8, size))
    return lines


def repeated():
    """The requests for measuring, with small counts."""
    words = NOT + AND + NOT + X + Y
    return [request(name, [8, size, times], listed, tree)
            for name in ("chain_times", "chain_loop_times")
            for tree in (words, XOR + X + X, NOT * 9 + OR + X + NOT + Y, BAD_KIND, CAST)
            for size, times, listed in ((60, 1, []), (60, 3, [8]), (61, 17, [8, 8]), (3, 5, []), (60, 2, [9]))]


# Refusals

def widths():
    lines = []
    for width in (0, 1, 2, 63, 64, 65, 128, BIG - 1):
        for words in (X, AND + X + X, OR + X + [0, ones(min(width, 64))], AND + X + [0, MAX], NOT + OR + NOT + X + Y, CAST, OTHER, [], [0],
                      BAD_KIND, NOT):
            lines += [chain(words, width, 40), chain(words, width, 0), chain(words, width, 40, [9])]
    return lines


def no_trees():
    lines = [chain(words, 8, 1100) for words in no_tree_lists()]
    for words in with_two_refusals() + [BAD_OPERAND, X * 2, AND + X]:
        lines += [chain(words, 8, 1100), chain(words, 8, 0)]
    full = largest_room()
    return lines + [chain(full + [0], 8, MOST_WORK), chain(full + X, 8, MOST_WORK), chain(NOT + full[2:-2], 8, MOST_WORK),
                    chain(NOT + full, 8, MOST_WORK), chain(NOT + largest_room([X] * 228), 8, MOST_WORK),
                    chain(leftward(1, 62, numbered()), 8, MOST_WORK), chain(leftward(1, 63, numbered()), 8, MOST_WORK)]


def of_one_width():
    """8 by a cast, by a Concat and by the list, at the root and below it, with room and without."""
    lines = []
    for words in (CAST, [11, 8] + X, [12, 8] + CONSTANT, [12, 65] + X, OTHER):
        for tree in (words, NOT + words, AND + words + X, OR + X + words, NOT + AND + NOT + X + words, NOT * 20 + words,
                     AND + words + words):
            lines += [chain(tree, 8), chain(tree, 8, 0), chain(tree, 8, MOST_WORK)]
    for listed in ([], [9], [8, 9], [8, 8, 9], [0], [65], [BIG - 1], [8], [8, 8, 8], [8, 8, 8, 9], [9, 8, 8], [8] * 40):
        for tree in (VARIABLE, [1, 2], NOT + AND + NOT + X + Y, nots(9, Y), AND + CONSTANT + Z, OR + X + Z, AND + X + [1, BIG - 1],
                     AND + Y + [0, 0], [1, 39], [1, 40]):
            lines += [chain(tree, 8, None, listed), chain(tree, 8, 1, listed), chain(tree, 9, None, listed)]
    return lines


def two_refusals():
    """1 with each of the others, 2 to 7 with 8 and with 9, 8 with 9."""
    lists = [words for tree in (CAST, OTHER, Y, NOT + AND + NOT + Y + X) for words in broken(tree)]
    lines = [chain(words, 8, size, listed) for words in lists for size in (1100, 0) for listed in ([], [8, 9])]
    lists += [X, CAST, OTHER, [], [0], CONSTANT * 513]
    return lines + [chain(words, width, size, [9]) for width in (0, 65, BIG - 1) for words in lists for size in (1100, 0)]


def random_sizes(rng, count):
    """Words lent around the least, widths that are none, and lists with another width."""
    lines = []
    for _ in range(count):
        words = busy(rng, 8, 1 + rng.below(9))
        size = max(0, room(words) + rng.pick([-2, -1, -1, 0, 1, 2, -len(words)]))
        lines.append(chain(words, rng.pick([8, 8, 8, 8, 1, 64, 0, 65, BIG - 1]), size, [8] * rng.below(3) + [9] * (rng.below(4) == 0)))
    return lines


def damaged_trees(rng, count):
    lines = []
    for _ in range(count):
        words = damaged(rng, busy(rng, 8, 1 + rng.below(16)))
        lines.append(chain(words, random_width(rng), rng.pick([1100, 400, 40, 3]), [rng.pick([8, 16])] * rng.pick([0, 0, 1, 2])))
    return lines


def requests(random):
    return (worked() + small_trees() + two_parts() + each_width() + small_and_busy(random(100), 3600)
            + to_40_nodes(random(101), 2200) + sites_put_in(random(102), 520) + each_form(random(103), 6) + gathered(random(104), 420)
            + met_again(random(105)) + made_equal(random(106), 360) + nots_of_one_level() + nots_above(random(107), 500)
            + hard(random(108)) + large_trees(random(109), 170, 40) + full_trees(random(110))
            + deep_trees(random(111)) + largest() + sizes() + repeated()
            + widths() + no_trees() + of_one_width() + two_refusals() + damaged_trees(random(113), 330))


def further(rng, size):
    """For long runs: other trees at each seed, of at most so many bytes."""
    return rounds(size, lambda: small_and_busy(rng, 400) + to_40_nodes(rng, 60) + sites_put_in(rng, 60) + each_form(rng, 1)
                  + gathered(rng, 60) + made_equal(rng, 60) + nots_above(rng, 60) + large_trees(rng, 2, 1) + random_sizes(rng, 60)
                  + damaged_trees(rng, 60) + [chain(about_64_levels(rng), 8) for _ in range(3)])
