"""Trees whose root has candidates, after the matchers of atom_identity_rewrite.rs, and sums of addends with signs. An addend is whether it
is subtracted, and its words."""
from itertools import permutations

from .build import balanced
from .sites import ADD, AND, MUL, NEG, NOT, OR, X, XOR, Y, Z, above, other_node, spans

ONE, TWO = [0, 1], [0, 2]


# What a sum has

def addends(words):
    ends = dict(spans(words))
    found = []

    def pass_over(at, negated):
        if words[at] == ADD[0]:
            pass_over(at + 2, negated)
            pass_over(ends[at + 2], negated)
        elif words[at] == NEG[0]:
            pass_over(at + 2, not negated)
        else:
            found.append((negated, words[at:ends[at]]))

    pass_over(0, False)
    return found


def operands(words):
    """Of a node with two."""
    right = dict(spans(words))[2]
    return words[2:right], words[right:]


def from_ors(words):
    """How many candidates the Ors of a sum give, so that all of them can be asked for and no more."""
    found = 0
    for negated, part in addends(words) if words[0] == ADD[0] else []:
        each = 1 if negated else 2
        if part[0] == MUL[0]:
            a, b = operands(part)
            part, each = (b, 1) if a[0] == 0 else (a, 1) if b[0] == 0 else (part, 0)
        if part[0] == OR[0]:
            found += each * sum(side[0] == NOT[0] for side in operands(part))
    return found


# Sums

def signed(negated, words):
    return NEG + words if negated else words


def left_sum(parts):
    return ADD * (len(parts) - 1) + sum((signed(*part) for part in parts), [])


def right_sum(parts):
    return sum((ADD + signed(*part) for part in parts[:-1]), []) + signed(*parts[-1])


def even_sum(parts):
    return balanced([signed(*part) for part in parts])


def turned(parts):
    return [(not negated, words) for negated, words in parts]


def drawn_sum(rng, parts):
    """A sum of the addends in their order, nested at random. A Neg may stand over several, and one over another."""
    if rng.below(6) == 0:
        return NEG + drawn_sum(rng, turned(parts))
    if len(parts) == 1:
        return signed(*parts[0])
    cut = 1 + rng.below(len(parts) - 1)
    return ADD + drawn_sum(rng, parts[:cut]) + drawn_sum(rng, parts[cut:])


def shuffled(rng, parts):
    rest = list(parts)
    return [rest.pop(rng.below(len(rest))) for _ in parts]


# The forms of the matchers, by their tags

def both(kind, a, b):
    return [kind + a + b, kind + b + a]


def absorbs(x, y):
    """1"""
    return [words for part in both(AND, x, y) for words in both(XOR, x, part)]


def differences(p, q):
    """p - q and q - p, with the Neg on each side."""
    return both(ADD, p, NEG + q) + both(ADD, q, NEG + p)


def or_minus_and(a, b):
    """2"""
    return [words for p in both(OR, a, b) for q in both(AND, a, b) for words in differences(p, q)]


def or_minus_not(a, b):
    """3"""
    return [words for p in both(OR, NOT + a, b) for words in differences(p, NOT + a)]


def plus_one_parts(a, x, one=ONE):
    return [(False, OR + NOT + a + x), (False, a), (False, one)]


def plus_one(a, x):
    """4, in all orders and both shapes."""
    lists = [[(False, p), (False, a), (False, ONE)] for p in both(OR, NOT + a, x)]
    return [make(list(parts)) for some in lists for parts in permutations(some) for make in (left_sum, right_sum)]


def flat_parts(a, b, two=TWO, factor=TWO):
    return [(False, a), (True, b), (True, MUL + factor + OR + a + NOT + b), (True, two)]


def flat(a, b):
    """5, in all orders and three shapes."""
    lists = [[(False, a), (True, b), (True, product), (True, TWO)]
             for p in both(OR, a, NOT + b) for product in both(MUL, TWO, p)]
    return [make(list(parts)) for some in lists for parts in permutations(some) for make in (left_sum, right_sum, even_sum)]


def forms(a, b):
    """A few of each tag but 6 and 7, with each order of operands."""
    return absorbs(a, b) + or_minus_and(a, b)[::3] + or_minus_not(a, b) + plus_one(a, b)[::7] + flat(a, b)[::41]


# Changed a little

def nearly(rng, words, width):
    """For each node the tree with another in its place, and with a Neg above it; without each Neg; and with an addend more."""
    trees = [ADD + words + X, ADD + ONE + words, ADD + words + NEG + TWO]
    for at in range(0, len(words), 2):
        node = words[at:at + 2]
        trees += [words[:at] + other_node(rng, node, width) + words[at + 2:], words[:at] + NEG + words[at:]]
        if node == NEG:
            trees.append(words[:at] + words[at + 2:])
    return trees


# At random

def some_operand(rng, nodes):
    """Of so few leaves that equal parts are met often."""
    if nodes < 2 or rng.below(3) == 0:
        return rng.pick([X, X, Y, Y, Z, ONE, TWO, [0, rng.any_size()]])
    if rng.below(2):
        return rng.pick([NOT, NOT, NEG, [9, 1], [10, 8]]) + some_operand(rng, nodes - 1)
    left = 1 + rng.below(nodes - 1)
    return rng.pick([OR, OR, AND, XOR, ADD, MUL, [13, 0]]) + some_operand(rng, left) + some_operand(rng, nodes - left)


def some_or(rng, a, b):
    return rng.pick(both(OR, NOT + a, b) + both(OR, a, NOT + b) + both(OR, NOT + a, NOT + b) + [OR + a + b, OR + NOT + a + NOT + a])


def some_factor(rng, width):
    return [0, rng.pick([2, 2, above(width, 2), 0, 1, 3, rng.any_size()])]


def some_addend(rng, a, b, width):
    """What a matcher looks for in a sum, or something near it."""
    p = some_or(rng, a, b)
    words = rng.pick([p, p, p, a, b, NOT + a, AND + a + b, XOR + a + b, ONE, TWO, [0, above(width, 1)],
                      MUL + some_factor(rng, width) + p, MUL + p + some_factor(rng, width), MUL + a + p, MUL + p + p, MUL + TWO + ONE])
    return (rng.below(3) == 0, words)


def some_sum(rng, width):
    """The addends of a matcher, or some of their own; of every third sum one is then changed, added, left out or turned."""
    a, b = some_operand(rng, 1 + rng.below(4)), some_operand(rng, 1 + rng.below(4))
    one, two = [0, rng.pick([1, 1, above(width, 1)])], [0, rng.pick([2, 2, above(width, 2)])]
    p, q = rng.pick(both(OR, NOT + a, b)), rng.pick(both(OR, a, b))
    difference = rng.pick([[(False, p), (True, NOT + a)], [(False, q), (True, AND + b + a)]])
    parts = rng.pick([plus_one_parts(a, b, one), flat_parts(a, b, two, rng.pick([TWO, two, some_factor(rng, width)])),
                      difference, turned(difference), [some_addend(rng, a, b, width) for _ in range(1 + rng.below(6))]])
    place = rng.below(len(parts))
    change = rng.below(12)
    if change == 0:
        parts[place] = some_addend(rng, a, b, width)
    elif change == 1:
        parts.append(some_addend(rng, a, b, width))
    elif change == 2 and len(parts) > 1:
        parts.pop(place)
    elif change == 3:
        parts[place:place + 1] = turned([parts[place]])
    return drawn_sum(rng, shuffled(rng, parts))


def some_xor(rng):
    x, y = some_operand(rng, 1 + rng.below(5)), some_operand(rng, 1 + rng.below(5))
    others = [XOR + x + AND + y + NOT + x, XOR + AND + x + y + AND + y + x, XOR + x + OR + x + y, XOR + y + AND + x + x,
              XOR + AND + x + y + y, NOT + XOR + x + AND + x + y]
    return rng.pick(absorbs(x, y) + absorbs(x, x) + others)
