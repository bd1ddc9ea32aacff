"""Trees that the width rules accept, and trees with one place or a few where they do not."""
from .common import BIG

SAME_WIDTH = [2, 3, 4, 5, 6]
KEEPING = [7, 8, 9]  # one child, whose width they keep
EXTENSIONS = [10, 11]
CASTS = [10, 11, 12]
TRUNC = 12
CONCAT = [13, 0]
ODD_WIDTHS = [0, 65, BIG - 1]


class Place:
    """The width list and the default width that a tree is read with."""

    def __init__(self, listed, default):
        self.listed = listed
        self.default = default

    def leaves(self):
        """One or more for each width that a leaf can have here, with that width. Some variables are past the list."""
        known = [([1, i], width) for i, width in enumerate(self.listed)]
        return known + [([0, 5], self.default), ([1, len(self.listed)], self.default), ([1, BIG - 1], self.default)]


def some_place(rng, odd):
    """Any length of list, from none on. With `odd`, a width in it or the default may be one that no tree has."""
    usual = [1, 2, 4, 8, 8, 16, 31, 32, 40, 63, 64]
    listed = [rng.pick(usual) for _ in range(rng.pick([0, 0, 1, 2, 3, 4, 6]))]
    default = rng.pick([1, 8, 8, 8, 16, 32, 64])
    if odd:
        listed = [rng.pick(ODD_WIDTHS) if rng.below(4) == 0 else width for width in listed]
        default = rng.pick(ODD_WIDTHS) if rng.below(4) == 0 else default
    return Place(listed, default)


def good(leaves):
    return [(leaf, width) for leaf, width in leaves if 1 <= width <= 64]


def leaf_of(rng, width, place):
    """A leaf of this width, under a cast where there is none."""
    fitting = [leaf for leaf, own in place.leaves() if own == width]
    if fitting:
        return rng.pick(fitting)
    others = good(place.leaves())
    if not others:
        return [rng.pick(EXTENSIONS), width, 0, 0]
    leaf, own = rng.pick(others)
    return [rng.pick(EXTENSIONS) if own < width else TRUNC, width] + leaf


def typed(rng, nodes, width, place):
    """A tree of this width, of about this many nodes. Where the place has a leaf of 1 to 64 bits, no width rule is broken."""
    if nodes <= 1:
        return leaf_of(rng, width, place)
    choice = rng.below(9)
    if nodes >= 3 and choice < 6:
        left = 1 + rng.below(nodes - 2)
        if choice < 2 and width >= 2:
            part = 1 + rng.below(width - 1)
            return CONCAT + typed(rng, left, part, place) + typed(rng, nodes - 1 - left, width - part, place)
        kind = rng.pick(SAME_WIDTH)
        return [kind, 0] + typed(rng, left, width, place) + typed(rng, nodes - 1 - left, width, place)
    if choice == 6:
        kind = rng.pick(KEEPING)
        return [kind, rng.pick([0, 1, 8, 64, BIG - 1]) if kind == 9 else 0] + typed(rng, nodes - 1, width, place)
    if choice == 7:
        return [rng.pick(EXTENSIONS), width] + typed(rng, nodes - 1, 1 + rng.below(width), place)
    return [TRUNC, width] + typed(rng, nodes - 1, width + rng.below(65 - width), place)


def some_cast(rng, place):
    near = [width + step for _, width in good(place.leaves()) for step in (-1, 0, 1)]
    return [rng.pick(CASTS), rng.pick(near + [1, 64, 1 + rng.below(64)] + ODD_WIDTHS)]


def spoiled(rng, words, place):
    """One node changed: a cast's operand, a leaf, a Concat and its like exchanged; or a cast put before a subtree."""
    at = 2 * rng.below(len(words) // 2)
    kind = words[at]
    if rng.below(3) == 0 or kind in KEEPING:
        return words[:at] + some_cast(rng, place) + words[at:]
    if kind in CASTS:
        node = some_cast(rng, place)
    elif kind == 13:
        node = [rng.pick(SAME_WIDTH), 0]
    elif kind in SAME_WIDTH:
        node = CONCAT
    else:
        node = rng.pick(place.leaves())[0]
    return words[:at] + node + words[at + 2:]


def uniform(rng, nodes, leaf):
    """A tree of the kinds 0 to 9."""
    if nodes == 1:
        return leaf(rng)
    if nodes == 2 or rng.below(4) == 0:
        kind = rng.pick(KEEPING)
        return [kind, rng.pick([0, 1, 7, 8, 63, 64, BIG - 1]) if kind == 9 else 0] + uniform(rng, nodes - 1, leaf)
    left = 1 + rng.below(nodes - 2)
    return [rng.pick(SAME_WIDTH), 0] + uniform(rng, left, leaf) + uniform(rng, nodes - 1 - left, leaf)
