"""Trees that have no site, and trees with sites at known places."""
from .build import WITH_NUMBER
from .common import BIG, EDGES, MAX

AND, OR, XOR, NOT, NEG, ADD, MUL = [4, 0], [5, 0], [6, 0], [7, 0], [8, 0], [2, 0], [3, 0]
X, Y, Z = [1, 0], [1, 1], [1, 2]
BITWISE = [AND, OR, XOR]


def ones(width):
    return (1 << width) - 1


def above(width, word):
    """The word with a bit above the width, where there is one."""
    return word | 1 << min(width, 63)


def spans(words):
    """For each node of a tree the place of its first word and of the first behind its subtree, in word order."""
    found = []
    ends = []  # of the subtrees behind the node that no node has as a child, the next one last
    for at in range(len(words) - 2, -1, -2):
        kind = words[at]
        if kind < 2:
            ends.append(at + 2)
        elif kind < 7 or kind == 13:
            ends.pop()  # its end is the right child's
        found.append((at, ends[-1]))
    found.reverse()
    return found


# Without a site

def quiet_constant(rng, width):
    """Not 0 and not all ones: a fold compares the whole word. Some are one of the two under the mask."""
    word = rng.pick([rng.any_size(), 1, 2, 3, 5, 1 << width - 1, above(width, 0), above(width, ones(width)), MAX - 1])
    return [0, word if word not in (0, ones(width)) else above(width, 5)]


def quiet_leaf(rng):
    return [1, rng.below(6)] if rng.below(8) else [1, rng.below(BIG)]


def closed(rng, width, nodes, widening):
    """A tree without a site whose root no rule looks into: no And, Or, Not or constant. With `widening`, of any width."""
    if nodes == 1:
        return quiet_leaf(rng)
    if nodes == 2 or rng.below(5) == 0:
        kind = rng.pick([8, 9, 9] + [10, 11, 12] * widening)
        operand = rng.pick([1, 1, 2, 8, 63, 64, BIG - 1]) if kind in WITH_NUMBER else 0
        return [kind, operand] + quiet(rng, width, nodes - 1, widening)
    left = 1 + rng.below(nodes - 2)
    return [rng.pick([2, 2, 3] + [13] * widening), 0] + quiet(rng, width, left, widening) + quiet(
        rng, width, nodes - 1 - left, widening)


def bitwise(rng, width, nodes, widening):
    """And, Or or Xor over two trees that are not the same, or over one and a constant."""
    kind = rng.pick(BITWISE)
    if rng.below(6) == 0:
        part = closed(rng, width, nodes - 2, widening)
        number = quiet_constant(rng, width)
        return kind + part + number if rng.below(2) else kind + number + part
    left = 1 + rng.below(nodes - 2)
    parts = [closed(rng, width, left, widening), closed(rng, width, nodes - 1 - left, widening)]
    if parts[0] == parts[1]:
        kind = XOR
    return kind + parts[0] + parts[1]


def quiet(rng, width, nodes, widening=False):
    """A tree without a site."""
    choice = rng.below(8)
    if nodes == 1 and choice == 0:
        return [0, rng.pick([rng.pick(EDGES), rng.any_size()])]
    if nodes >= 3 and choice < 3:
        return bitwise(rng, width, nodes, widening)
    if nodes >= 2 and choice == 3:
        return NOT + closed(rng, width, nodes - 1, widening)
    if nodes >= 4 and choice == 4:  # De Morgan asks for a Not directly below
        return NOT + bitwise(rng, width, nodes - 1, widening)
    return closed(rng, width, nodes, widening)


# With sites

def site_forms(width, a, b, c):
    """Trees whose root has a local rewrite, one or more for each rule; a, b and c are trees."""
    full, zero = [0, ones(width)], [0, 0]
    return [[9, 0] + a, NOT + NOT + a,
            NOT + AND + NOT + a + b, NOT + OR + NOT + a + b, NOT + AND + a + NOT + b, NOT + OR + a + NOT + b,
            NOT + AND + NOT + a + NOT + b, NOT + OR + NOT + a + NOT + b,
            AND + a + a, OR + a + a, AND + [0, 3] + [0, 1],
            AND + a + NOT + a, OR + NOT + a + a, XOR + a + NOT + a, XOR + NOT + a + a,
            AND + a + OR + a + b, AND + a + OR + b + a, AND + OR + a + b + a, AND + OR + b + a + a,
            OR + a + AND + a + b, OR + a + AND + b + a, OR + AND + a + b + a, OR + AND + b + a + a,
            AND + a + zero, AND + zero + a, AND + a + full, AND + full + a,
            OR + a + zero, OR + zero + a, OR + a + full, OR + full + a, XOR + a + zero, XOR + zero + a] + [
                kind + inner for kind in BITWISE for inner in (kind + a + [0, 5] + c, c + kind + [0, 6] + a)]


def some_site(rng, width, nodes):
    """One of the forms over trees of some of the nodes."""
    part = max(1, nodes // 4)
    a, b = quiet(rng, width, 1 + rng.below(part)), closed(rng, width, 1 + rng.below(part), False)
    return rng.pick(site_forms(width, a, b, [0, rng.any_size()]))


def put_in(rng, words, site):
    """The site in the place of a leaf."""
    at = rng.pick([at for at, end in spans(words) if end == at + 2])
    return words[:at] + site + words[at + 2:]


def other_node(rng, node, width):
    """Another node of as many children: of a constant a bit is changed, below the width or above it."""
    kind, operand = node
    if kind == 0:
        return [0, operand ^ 1 << rng.pick([0, width % 64, 63])]
    if kind in WITH_NUMBER:
        return [kind, operand ^ 1 << rng.below(3)]
    if kind in (7, 8):
        return [15 - kind, 0]
    return [{2: 3, 3: 2, 4: 5, 5: 6, 6: 4, 13: 2}[kind], 0]


def near(rng, words, width):
    """The same tree, but for one node."""
    at = rng.pick([rng.pick(spans(words))[0], spans(words)[-1][0], 0])
    return words[:at] + other_node(rng, words[at:at + 2], width) + words[at + 2:]


def comb(rng, levels, end):
    """A chain down to the end, which lies below so many levels; at each the end is on the left, on the right or alone."""
    words = end
    for _ in range(levels):
        side = rng.below(3)
        words = [NEG + words, ADD + words + X, ADD + Y + words][side]
    return words


def about_64_levels(rng):
    """A chain of 60 levels to 68."""
    return comb(rng, 58 + rng.below(9), AND + X + X)
