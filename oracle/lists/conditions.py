"""Conditions as a table has them, and such that take many rewrites."""
from .sites import ADD, AND, NEG, NOT, OR, XOR
from .stacks import depth


def drawn(rng, nodes):
    """And, Or and Not over a few variables, with a constant, Xor, Add, Neg or shift here and there."""
    if nodes == 1:
        return [1, rng.below(6)] if rng.below(5) else [0, rng.pick([0, 1, 3, 5, 0x3C, 0xFF])]
    if nodes == 2 or rng.below(4) == 0:
        return rng.pick([NOT, NOT, NOT, NEG, [9, rng.below(3)]]) + drawn(rng, nodes - 1)
    left = 1 + rng.below(nodes - 2)
    return rng.pick([AND] * 3 + [OR] * 3 + [XOR, ADD]) + drawn(rng, left) + drawn(rng, nodes - 1 - left)


def negated(rng, nodes):
    """Nots over And and Or that have Nots below them, all the way down."""
    if nodes < 4:
        return NOT * (nodes - 1) + [1, rng.below(40)]
    if rng.below(2):
        return NOT + negated(rng, nodes - 1)
    left = (nodes - 1) // 2
    return rng.pick([AND, OR]) + negated(rng, left) + negated(rng, nodes - 1 - left)


def stack(nots, number):
    return NOT * nots + OR + [1, number] + NOT + [1, number + 1]


def several(count, make):
    """So many trees within 64 levels."""
    trees = []
    while len(trees) < count:
        words = make()
        if depth(words) <= 64:
            trees.append(words)
    return trees
