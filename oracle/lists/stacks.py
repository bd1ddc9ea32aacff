"""Trees in which one rewrite makes the next, and the room that all rewrites of a tree take."""
from .build import children
from .sites import ADD, AND, MUL, NEG, NOT, OR, X, XOR, Y, Z, above, closed, ones

SHR0, SHR1 = [9, 0], [9, 1]
MOST_WORK = 26240  # words that the test program can lend


def pairs(words):
    """D: the pairs of an And or Or node and a Not above it."""
    found = 0
    due = [0]  # how many Nots stand above each node that is due, the next one last
    for kind in words[::2]:
        above = due.pop()
        if kind in (4, 5):
            found += above
        due += [above + (kind == 7)] * children(kind)
    return found


def room(words):
    """Words that the chain needs to be lent."""
    return len(words) + 2 * pairs(words)


def depth(words):
    most = 0
    due = [1]  # the levels of the nodes that are due, the next one last
    for kind in words[::2]:
        level = due.pop()
        most = max(most, level)
        due += [level + 1] * children(kind)
    return most


# Many sites

def some_leaf(rng, width):
    """A variable, or a constant that a rule looks for or may make."""
    if rng.below(3):
        return rng.pick([X, X, X, Y, Z])
    return [0, rng.pick([0, 0, 1, 3, 5, ones(width), ones(width), above(width, ones(width)), rng.any_size()])]


def other_leaf(rng, _):
    """A variable of many, so that few parts are equal and the end tree is large."""
    return [1, rng.below(60)]


def grown(rng, width, nodes, leaf):
    """Of the kinds that the rules look at, and few others."""
    if nodes == 1:
        return leaf(rng, width)
    if nodes == 2 or rng.below(3) == 0:
        return rng.pick([NOT] * 5 + [SHR0, SHR0, SHR1, NEG]) + grown(rng, width, nodes - 1, leaf)
    left = 1 + rng.below(nodes - 2)
    kind = rng.pick([AND] * 5 + [OR] * 5 + [XOR] * 3 + [ADD, MUL])
    return kind + grown(rng, width, left, leaf) + grown(rng, width, nodes - 1 - left, leaf)


def busy(rng, width, nodes, leaf=some_leaf):
    """A tree with many sites, of at most 64 levels."""
    while True:
        words = grown(rng, width, nodes, leaf)
        if nodes <= 64 or depth(words) <= 64:
            return words


# Nots that go down

def side(rng, kind, down, other):
    """A node over two, with the part that goes on below on either side."""
    return kind + down + other if rng.below(2) else kind + other + down


def going_down(rng, nots, levels, below):
    """Nots over a chain of And and Or that each have a Not directly below, so that one goes down the whole chain. `below` makes what stands
    at the end and under the Not of each level."""
    words = below()
    for _ in range(levels):
        words = side(rng, rng.pick([AND, OR]), words, NOT + below())
    return NOT * nots + words


def leftward(nots, levels, below):
    """The same with the chain on the left, so that a Not has gone down all of it before any other node is looked at."""
    words = below()
    for level in range(levels):
        words = [AND, OR][level % 2] + words + NOT + below()
    return NOT * nots + words


def between(rng, nots, levels, below):
    """Nots before each level."""
    words = below()
    for _ in range(levels):
        words = NOT * nots + side(rng, rng.pick([AND, OR]), words, NOT * rng.below(3) + below())
    return words


def numbered():
    """Makes the variables one after the other."""
    numbers = iter(range(1000))
    return lambda: [1, next(numbers)]


def sized(rng, width, nodes):
    """Makes parts of so many nodes that no rule looks into."""
    return lambda: closed(rng, width, nodes, False)


def level_by_level(parts, kinds):
    """The parts below balanced levels of the kinds in turn."""
    if len(parts) == 1:
        return parts[0]
    half = len(parts) // 2
    rest = kinds[1:] + kinds[:1]
    return kinds[0] + level_by_level(parts[:half], rest) + level_by_level(parts[half:], rest)


def largest_room(leaves=None):
    """512 nodes and 64 levels with D = 12,540: 55 Nots over 228 And and Or. No tree has a larger D."""
    leaves = leaves or [[1, number] for number in range(229)]
    return NOT * 55 + level_by_level(leaves, [AND, OR])


def room_of_2048():
    """n + D = 2,048: 8 Nots over 203 And and Or, with a Not over 9 of the leaves."""
    leaves = [[1, number] for number in range(204)]
    for place in range(0, 36, 4):
        leaves[place] = NOT + leaves[place]
    return NOT * 8 + level_by_level(leaves, [OR, AND])


def pairs_of_2048():
    """n + D = 2,048 with D = 1,922: 56 Nots over 34 And and Or, with one more over 18 of these. No such tree has a larger D: 125 nodes have
    at most 62 × 31 pairs."""
    leaves = [[1, number] for number in range(35)]
    return NOT * 56 + AND + NOT + level_by_level(leaves[:19], [OR, AND]) + level_by_level(leaves[19:], [OR, AND])


def halves(levels, last):
    """And over two trees that differ in their last leaf alone, and so down to the leaves."""
    return AND + halves(levels - 1, levels) + halves(levels - 1, last) if levels else [1, last]
