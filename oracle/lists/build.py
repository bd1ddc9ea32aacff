"""Trees as words."""
from .common import BIG, EDGES, MAX

LEAVES = [0, 1]
UNARY = [7, 8, 9, 10, 11, 12]
BINARY = [2, 3, 4, 5, 6, 13]
CHILDREN = dict.fromkeys(UNARY, 1) | dict.fromkeys(BINARY, 2)
WITH_NUMBER = [1, 9, 10, 11, 12]  # operand of 32 bits
BAD_KINDS = [14, 15, 0xFF, 0x100, 0x10D, BIG - 1, BIG, BIG + 1, BIG + 2, 1 << 63, MAX]

CONSTANT = [0, 0]
VARIABLE = [1, 0]
ADD = [2, 0]
NOT = [7, 0]
BAD_KIND = [14, 0]
BAD_OPERAND = [1, BIG]


def children(kind):
    """How many a node of this kind has."""
    return CHILDREN.get(kind, 0)


def over(kind, operand, leaf):
    """A node over as many leaves as it needs."""
    return [kind, operand] + leaf * children(kind)


def nots(count, leaf=CONSTANT):
    return NOT * count + leaf


def left_chain(count, leaf=CONSTANT):
    return ADD * count + leaf * (count + 1)


def right_chain(count, leaf=CONSTANT):
    return (ADD + leaf) * count + leaf


def balanced(parts):
    """Adds over the parts."""
    if len(parts) == 1:
        return parts[0]
    half = len(parts) // 2
    return ADD + balanced(parts[:half]) + balanced(parts[half:])


def all_trees(leaves, unary, binary, most):
    """All trees over the leaves, by their number of nodes."""
    trees = {1: leaves}
    for size in range(2, most + 1):
        trees[size] = [kind + child for kind in unary for child in trees[size - 1]]
        for left in range(1, size - 1):
            trees[size] += [kind + a + b for kind in binary for a in trees[left] for b in trees[size - 1 - left]]
    return trees


def constant(rng):
    return [0, rng.below(14) if rng.below(3) else rng.pick([rng.pick(EDGES), rng.any_size()])]


def variable(rng):
    return [1, rng.below(8) if rng.below(5) else rng.pick([rng.below(BIG), BIG - 1])]


def any_leaf(rng):
    return variable(rng) if rng.below(2) else constant(rng)


def inner(rng, kinds):
    kind = rng.pick(kinds)
    return [kind, rng.pick([0, 1, 7, 8, 16, 32, 63, 64, 65, BIG - 1]) if kind in WITH_NUMBER else 0]


def random_tree(rng, nodes, leaf):
    if nodes == 1:
        return leaf(rng)
    if nodes == 2 or rng.below(4) == 0:
        return inner(rng, UNARY) + random_tree(rng, nodes - 1, leaf)
    left = 1 + rng.below(nodes - 2)
    return inner(rng, BINARY) + random_tree(rng, left, leaf) + random_tree(rng, nodes - 1 - left, leaf)


def with_one_variable(rng, nodes):
    words = random_tree(rng, nodes, constant)
    at = rng.pick([i for i in range(0, len(words), 2) if words[i] == 0])
    return words[:at] + variable(rng) + words[at + 2:]


def some_size(rng, most):
    """From 1 to the most, small ones more often, to keep the lists short."""
    return 1 + rng.below(1 + rng.below(1 + rng.below(most)))


def some_tree(rng, nodes):
    """Half have no variable, a fifth has one."""
    choice = rng.below(10)
    if choice < 5:
        return random_tree(rng, nodes, constant)
    return with_one_variable(rng, nodes) if choice < 7 else random_tree(rng, nodes, any_leaf)


# Damage

def changed(words, at, word):
    return words[:at] + [word] + words[at + 1:]


def stray_word(rng):
    return [rng.below(16), rng.below(16), rng.pick(EDGES), rng.word()][rng.below(4)]


def damaged(rng, words):
    """A word changed, an end cut off, a node or a word taken out, a node put in, or words added."""
    at = rng.below(len(words))
    node = at - at % 2
    return rng.pick([changed(words, at, stray_word(rng)),
                     changed(words, node, stray_word(rng)),
                     changed(words, node + 1, rng.pick([0, 1, BIG - 1, BIG])),
                     words[:node],
                     words[node:],
                     words[:node] + words[node + 2:],
                     words[:node] + [stray_word(rng), stray_word(rng)] + words[node:],
                     words[:at] + words[at + 1:],
                     words + [stray_word(rng) for _ in range(1 + rng.below(6))]])
