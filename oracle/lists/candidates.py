"""Requests to atom_identity_rewrite.rs."""
from itertools import permutations

from .build import BAD_KIND, BAD_OPERAND, any_leaf, balanced, damaged, nots, random_tree, some_size
from .common import BIG, MAX, request, rounds
from .refusals import broken
from .rewrites import no_tree_lists, random_width
from .sites import ADD, AND, MUL, NEG, NOT, OR, X, XOR, Y, Z, about_64_levels, above, closed, near
from .stacks import depth
from .sums import (ONE, TWO, absorbs, addends, drawn_sum, even_sum, flat, flat_parts, forms, from_ors, left_sum, nearly, or_minus_and,
                   or_minus_not, plus_one, plus_one_parts, right_sum, some_addend, some_operand, some_or, some_sum, some_xor, turned)
from .trees import with_two_refusals

WIDTHS = [1, 2, 8, 63, 64]


def candidate(words, width, number=0, size=None):
    return request("candidate", [width, number, len(words) if size is None else size], words)


def one_more(words):
    """Beside the candidates of the Ors there may be another one, of the tags 1 to 5."""
    return words[0] == XOR[0] or 1 < len(addends(words)) < 5


def each(words, width):
    """All numbers up to the count and one past it."""
    return [candidate(words, width, number) for number in range(from_ors(words) + 2 + one_more(words))]


def ends(words, width):
    """The first number, and those about the count."""
    count = from_ors(words)
    return [candidate(words, width, number) for number in dict.fromkeys([0, count, count + one_more(words)])]


def two(words, width):
    """The first number, and the one that shows whether there is another candidate than those of the Ors."""
    return [candidate(words, width, number) for number in dict.fromkeys([0, from_ors(words)])]


def random_room(rng, words):
    return min(1100, len(words) + rng.pick([0, 0, 0, 1, 2, 7]))


# Each tag

def worked():
    """Document 01's cases, and the README's example."""
    a, b = X, Y
    trees = [(ADD + AND + a + b + NEG + OR + a + b, 8), (ADD + ADD + OR + NOT + a + b + a + ONE, 8), (XOR + a + AND + a + b, 8)]
    return [line for words, width in trees for line in each(words, width)] + [candidate(trees[1][0], 8, 2, 19)]


def each_form():
    """All orders and shapes; the widths in turn."""
    lines = []
    for a, b in ((X, Y), (NOT + X, AND + Y + X), (ADD + X + Y, NOT + Z), (X, X)):
        for words in absorbs(a, b) + or_minus_and(a, b) + or_minus_not(a, b):
            lines += each(words, WIDTHS[len(lines) % 5])
    for a, b in ((X, Y), (AND + X + Y, NOT + Z)):
        for words in plus_one(a, b):
            lines += each(words, WIDTHS[len(lines) % 5])
    for turn, words in enumerate(flat(X, Y)):
        lines += each(words, 8) if turn % 6 == 0 else ends(words, WIDTHS[1 + turn % 4])
    return lines


def first_of_two():
    """Two addends that may be the 1, the Or, the -2 or the product: the first is taken."""
    other = OR + NOT + X + Y
    lists = [plus_one_parts(ONE, X), plus_one_parts([0, 0x101], X), plus_one_parts(ONE, X, [0, 0x101]),
             plus_one_parts([0, 0x101], X, [0, 0x201]), plus_one_parts(other, X), plus_one_parts(other, NOT + other),
             plus_one_parts(OR + X + Y, Z), plus_one_parts(X, NOT + X),
             flat_parts(X, TWO), flat_parts(X, [0, 0x102]), flat_parts(X, TWO, [0, 0x102]), flat_parts(TWO, X), flat_parts(TWO, TWO),
             flat_parts(X, MUL + TWO + other), flat_parts(X, MUL + other + TWO), flat_parts(X, MUL + TWO + OR + X + NOT + Y),
             flat_parts(MUL + TWO + other, X), flat_parts(NOT + X, X), flat_parts(X, NOT + X), flat_parts(X, X)]
    return [line for parts in lists for order in permutations(parts) for line in two(left_sum(list(order)), 8)]


def below_neg():
    """The addends of 4 and 5 below a Neg: the root is no Add, so there is no candidate of 6 or 7. Of 2 and 3 there is none either."""
    lines = []
    for a, b in ((X, Y), (NOT + X, OR + Y + X), (X, NOT + Y)):
        lists = [plus_one_parts(a, b), flat_parts(a, b), [(False, OR + a + b), (True, AND + a + b)],
                 [(False, OR + NOT + a + b), (True, NOT + a)]]
        trees = [words for parts in lists[:2] for make in (left_sum, right_sum, even_sum)
                 for words in (NEG + NEG + make(parts), NEG + make(turned(parts)))]
        lines += [line for words in trees for width in WIDTHS for line in ends(words, width)]
        for parts in lists:
            for words in (NEG + left_sum(parts), NEG * 2 + left_sum(parts), NEG + left_sum(turned(parts)), NEG * 3 + left_sum(parts),
                          NEG * 4 + left_sum(parts), NOT + left_sum(parts)):
                lines += ends(words, 8)
    return lines


def constants():
    """1 and 2 under the mask, and what is not."""
    lines = []
    for width in WIDTHS + [3, 32]:
        words = dict.fromkeys([0, 1, 2, 3, 0x101, 0x102, 0x103, above(width, 1), above(width, 2), above(width, 0), 1 << width - 1,
                               (1 << 63) + 1, (1 << 63) + 2, MAX, MAX - 1])
        for word in words:
            number = [0, word]
            trees = [left_sum(plus_one_parts(X, Y, number)), right_sum(flat_parts(X, Y, number)),
                     left_sum(flat_parts(X, Y, TWO, number)), left_sum(flat_parts(Y, X, number, number))]
            lines += [line for words in trees for line in two(words, width)]
        swapped = [(False, X), (True, Y), (True, MUL + OR + X + NOT + Y + [0, above(width, 2)]), (True, TWO)]
        lines += each(even_sum(swapped), width)
    return lines


# The Ors of a sum

def ors(rng):
    """Each Or with a Not on one side or both, alone beside an addend, twice, subtracted, and in products of all forms."""
    lines = []
    few_ors = [OR + NOT + X + Y, OR + X + NOT + Y, OR + NOT + X + NOT + Y, OR + X + Y, OR + NOT + NOT + X + NOT + X, OR + NOT + X + NOT + X,
               OR + NEG + X + NOT + Y, OR + NOT + AND + X + Y + OR + NOT + X + Y, AND + NOT + X + Y, XOR + NOT + X + NOT + Y]
    for p in few_ors:
        a, b = [[0, rng.pick([0, 1, 2, 0x102, MAX])] for _ in range(2)]
        parts = [p, MUL + a + p, MUL + p + b, MUL + Z + p, MUL + p + p, MUL + MUL + TWO + p + TWO, MUL + TWO + NOT + p]
        for part in parts:
            for words in (ADD + part + Z, ADD + Z + part, ADD + NEG + part + Z, ADD + NEG + NEG + part + part, ADD + part + NEG + part,
                          ADD + X + ADD + p + ADD + ADD + part + Y + Z):
                lines += each(words, 8)
        for words in (p, NEG + p, NEG + NEG + p, NEG + ADD + p + p, MUL + TWO + p, NOT + ADD + p + p):
            lines += two(words, 8)
    return lines


def sum_over(rng, width, a, b, count):
    """A sum of so many addends over two operands."""
    return drawn_sum(rng, [some_addend(rng, a, b, width) for _ in range(count)])


def sums_of_ors(rng, count):
    lines = []
    for turn in range(count):
        width = random_width(rng)
        a, b = some_operand(rng, 3), some_operand(rng, 3)
        words = sum_over(rng, width, a, b, 2 + rng.below(9))
        words = ADD + words + some_or(rng, a, b) if words[0] != ADD[0] else words
        lines += each(words, width) if turn % 3 == 0 else ends(words, width)
    return lines


# Near misses, equal parts

def near_misses(rng):
    lines = []
    for words in forms(X, Y) + forms(NOT + Y, AND + X + X)[::3]:
        for tree in nearly(rng, words, 8):
            lines += two(tree, 8)
    return lines


def equal_and_near(rng, count):
    """Larger operands, equal or different in one node, or one longer than the other."""
    lines = []
    for turn in range(count):
        width = random_width(rng)
        t, b = closed(rng, width, 2 + rng.below(24), False), closed(rng, width, 1 + rng.below(6), False)
        u = [t, near(rng, t, width), near(rng, t, width), NEG + t][turn % 4]
        trees = [XOR + t + AND + u + b, XOR + AND + b + u + t, ADD + OR + t + b + NEG + AND + b + u, ADD + NEG + AND + u + t + OR + t + t,
                 ADD + OR + NOT + t + b + NEG + NOT + u, ADD + NEG + OR + b + NOT + u + NOT + t,
                 right_sum([(False, ONE), (False, OR + b + NOT + t), (False, u)]),
                 left_sum([(False, u), (True, b), (True, MUL + TWO + OR + NOT + b + t), (True, TWO)]),
                 left_sum([(False, b), (True, t), (True, TWO), (True, MUL + OR + b + NOT + u + TWO)])]
        for words in trees[turn % 3::3]:
            lines += two(words, width)
    return lines


# At random

def some_tree(rng, width):
    return some_xor(rng) if rng.below(6) == 0 else some_sum(rng, width)


def random_sums(rng, count):
    """Every third with all its numbers."""
    lines = []
    for turn in range(count):
        width = rng.pick([1, 2, 8, 64]) if rng.below(2) else random_width(rng)
        words = some_tree(rng, width)
        lines += each(words, width) if turn % 3 == 0 else two(words, width)
    return lines


def random_trees(rng, count):
    """All kinds at random, and the same below the root of a sum."""
    lines = []
    for turn in range(count):
        words = random_tree(rng, some_size(rng, 30), any_leaf) if turn % 2 else some_operand(rng, 4 + rng.below(16))
        words = [words, ADD + words + some_or(rng, X, words)][turn % 3 == 0]
        lines.append(candidate(words, random_width(rng), rng.below(4), random_room(rng, words)))
    return lines


def large_sums(rng, count):
    """So many requests, or two more, for sums of up to 512 nodes and 64 levels."""
    lines = []
    while len(lines) < count:
        width = random_width(rng)
        a, b = some_operand(rng, 1 + rng.below(9)), some_operand(rng, 1 + rng.below(9))
        words = sum_over(rng, width, a, b, 10 + rng.below(40))
        if words[0] == ADD[0] and len(words) <= 1024 and depth(words) <= 64:
            lines += ends(words, width) + [candidate(words, width, rng.below(from_ors(words) + 1), random_room(rng, words))]
    return lines


# Limits

def most_candidates():
    """340: 85 addends that are an Or of two Nots, in 509 nodes; no tree has more."""
    lines = []
    for leaves in ([X] * 170, [[1, number] for number in range(170)]):
        words = balanced([OR + NOT + leaves[2 * i] + NOT + leaves[2 * i + 1] for i in range(85)])
        asked = (0, 1, 2, 83, 84, 85, 168, 169, 170, 171, 254, 255, 256, 338, 339, 340, 341, BIG, MAX)
        lines += [candidate(words, 8, number) for number in asked]
        lines += [candidate(words, 8, number, size) for number in (0, 339, 340) for size in (0, 1017, 1019, 1100)]
    return lines


def many_addends():
    """256 of them, in 511 nodes, and 255 with an Or as one of them."""
    leaves = [[1, number % 7] for number in range(256)]
    lines = [line for words in (balanced(leaves), NEG + balanced(leaves), balanced([NEG + X] * 170)) for line in ends(words, 8)]
    for place in (0, 100, 254):
        parts = leaves[:254]
        parts.insert(place, OR + NOT + X + Y)
        lines += each(balanced(parts), 8)
    return lines


def full_trees(rng):
    """Of 512 nodes or little less: each form with large operands, equal or nearly so, and a candidate nearly as large as the tree."""
    lines = []
    for turn in range(4):
        t = closed(rng, 8, 160, False)
        u = near(rng, t, 8) if turn % 2 else t
        b = closed(rng, 8, 80, False)
        for words in (XOR + t + AND + u + b, ADD + NEG + AND + b + u + OR + t + b, ADD + OR + NOT + t + b + NEG + NOT + u,
                      left_sum([(False, OR + b + NOT + t), (False, u), (False, ONE)]),
                      right_sum([(False, t), (True, b), (True, MUL + TWO + OR + NOT + b + u), (True, TWO)])):
            lines += ends(words, 8)
    a, b = closed(rng, 8, 507, False), closed(rng, 8, 506, False)
    for words in (ADD + OR + NOT + a + X + Y, ADD + X + OR + Y + NOT + a, ADD + X + OR + NOT + Y + NOT + b):
        lines += each(words, 8)
    return lines


def deep_trees():
    """64 levels and 65, most with an Or and its Not as the last of them."""
    lines = []
    three = plus_one_parts(X, Y)
    plus, minus, product, number = flat_parts(X, Y)
    for levels in (61, 62):
        for words in (ADD * levels + OR + NOT + X + Y + Z * levels, (ADD + Z) * levels + OR + Y + NOT + X,
                      (ADD + X + NEG) * 30 + ADD * (levels - 60) + OR + NOT + X + Y + Z * (levels - 60),
                      ADD + X + NEG * (levels - 1) + OR + Y + NOT + X, ADD + OR + nots(levels, X) + Y + Z,
                      ADD + X + OR + Y + nots(levels, X), XOR + nots(levels, X) + AND + nots(levels, X) + Y,
                      XOR + AND + Y + nots(levels, X) + nots(levels, X),
                      NEG * (levels - 1) + even_sum(three), NEG * (levels - 2) + left_sum(three),
                      NEG * (levels - 3) + left_sum([minus, plus, number, product]),
                      NEG * (levels - 4) + left_sum([minus, plus, product, number])):
            lines += ends(words, 8)
    return lines


# Numbers, room and refusals

def few():
    """Of each tag a tree, two without a candidate, and one with eight."""
    return [absorbs(X, Y)[0], or_minus_and(X, Y)[0], or_minus_not(X, Y)[0], left_sum(plus_one_parts(X, Y)), left_sum(flat_parts(X, Y)),
            ADD + OR + NOT + X + Y + Z, X, NEG + ADD + X + Y, ADD + OR + NOT + X + NOT + Y + OR + NOT + Y + NOT + X]


def numbers():
    """About the count, and far past it: also such as have 0 in the low half of their bits."""
    asked = [0, 1, 2, 3, 4, 7, 8, 9, 255, 256, BIG - 1, BIG, BIG + 1, 1 << 63, MAX - 1, MAX]
    return [candidate(words, 8, number) for words in few() for number in asked]


def sizes():
    lines = []
    for words in few():
        need = len(words)
        lent = dict.fromkeys([0, 1, need - 2, need - 1, need, need + 1, need + 2, 1100])
        lines += [candidate(words, 8, number, size) for number in (0, 1, 8, MAX) for size in lent]
    return lines


def widths():
    lines = []
    for width in (0, 1, 2, 63, 64, 65, 128, BIG - 1):
        for words in few() + [[], [0], BAD_KIND, NOT]:
            lines += [candidate(words, width, number, size) for number in (0, 1) for size in (0, 40)]
    return lines


def no_trees():
    own = [words for tree in few()[:6] for words in broken(tree)]
    lines = [candidate(words, 8, 0, 1100) for words in no_tree_lists() + own]
    for words in with_two_refusals() + [BAD_OPERAND, X * 2, ADD + X]:
        lines += [candidate(words, 8, 0, 1100), candidate(words, 8, MAX, 0)]
    return lines


def damaged_trees(rng, count):
    lines = []
    for _ in range(count):
        width = random_width(rng)
        words = damaged(rng, some_tree(rng, width))
        lines.append(candidate(words, width, rng.below(3), rng.pick([1100, len(words), 3])))
    return lines


def random_sizes(rng, count):
    """Words lent around the least, and widths that are none."""
    lines = []
    for _ in range(count):
        words = some_tree(rng, 8)
        size = max(0, len(words) + rng.pick([-2, -1, -1, 0, 1, 2, -len(words)]))
        lines.append(candidate(words, rng.pick([8, 8, 64, 1, 0, 65, BIG - 1]), rng.below(3), size))
    return lines


def repeated():
    """The requests for measuring, with small counts."""
    words = left_sum(plus_one_parts(X, Y))
    return [request("candidate_times", [8, number, size, times], tree)
            for tree in (words, XOR + X + X, BAD_KIND)
            for number, size, times in ((0, 40, 1), (2, 40, 3), (3, 18, 17), (0, 3, 5))]


def requests(random):
    return (worked() + each_form() + first_of_two() + below_neg() + constants() + ors(random(170)) + sums_of_ors(random(171), 120)
            + near_misses(random(172)) + equal_and_near(random(173), 60) + random_sums(random(174), 1200) + random_trees(random(175), 200)
            + large_sums(random(176), 160) + most_candidates() + many_addends() + full_trees(random(177)) + deep_trees() + numbers()
            + sizes() + widths() + no_trees() + damaged_trees(random(178), 150) + repeated())


def further(rng, size):
    """For long runs: other trees at each seed, of at most so many bytes."""
    return rounds(size, lambda: random_sums(rng, 400) + random_trees(rng, 60) + equal_and_near(rng, 10) + sums_of_ors(rng, 20)
                  + large_sums(rng, 9) + damaged_trees(rng, 40) + random_sizes(rng, 40)
                  + [candidate(about_64_levels(rng), 8) for _ in range(3)])
