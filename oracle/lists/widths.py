"""Requests to width.rs."""
from .build import ADD, CONSTANT, NOT, VARIABLE, any_leaf, balanced, nots, random_tree, some_size
from .common import BIG, request, rounds
from .typed import CASTS, CONCAT, Place, some_cast, some_place, spoiled, typed, uniform

WIDTHS_ASKED = [0, 1, 8, 32, 64, 65, BIG - 1]
OF_WIDTH = ["checked_width_of", "width_of", "validate_widths"]
RULES = ["checked_width_of", "validate_widths"]

# the widths 8, 16, 0, 65, 40, 4294967295, and 8 for any other leaf
KNOWN = Place([8, 16, 0, 65, 40, BIG - 1], 8)
V8, V16, V0, V65, V40, V_MAX = [[1, i] for i in range(6)]
XOR = [6, 0]


def zext(width, child):
    return [10, width] + child


def sext(width, child):
    return [11, width] + child


def trunc(width, child):
    return [12, width] + child


def concat(left, right):
    return CONCAT + left + right


def add(left, right):
    return ADD + left + right


def asked(names, words, place=KNOWN):
    return [request(name, [place.default], place.listed, words) for name in names]


def uniform_asked(words, listed, width):
    return request("is_uniform_width", [width], listed, words)


# Leaves and single nodes

def leaves():
    lines = []
    for default in WIDTHS_ASKED:
        for listed in ([], [8], [8, 16], [0], [65], [BIG - 1], [1], [64], [8, 0, 65, BIG - 1], [16] * 9):
            names = OF_WIDTH if len(listed) in (0, 4) else ["validate_widths"]
            for leaf in (CONSTANT, [0, BIG], VARIABLE, [1, 1], [1, 3], [1, BIG - 1]):
                lines += asked(names, leaf, Place(listed, default)) + [uniform_asked(leaf, listed, default)]
    return lines


def single_nodes():
    lines = []
    for kind in CASTS:
        for width in (0, 1, 7, 8, 9, 39, 40, 41, 64, 65, BIG - 1):
            for child in (V8, V40, V0, V65, CONSTANT):
                lines += asked(RULES, [kind, width] + child)
            lines += asked(["width_of"], [kind, width] + V8)
            lines.append(uniform_asked([kind, width] + V8, [8], 8))
    for kind in (2, 3, 4, 5, 6, 13):
        for left in (V8, V16, V0, V65, V40, V_MAX):
            for right in (V8, V16, V0, V65, V40):
                lines += asked(RULES, [kind, 0] + left + right)
            lines += asked(["width_of"], [kind, 0] + left + V40)
            lines.append(uniform_asked([kind, 0] + V8 + left, KNOWN.listed, 8))
    for kind in (7, 8, 9):
        for child in (V8, V0, V65, V_MAX):
            lines += asked(OF_WIDTH, [kind, 0] + child)
            lines.append(uniform_asked([kind, 0] + child, KNOWN.listed, 65))
    return lines


# The order between two refusals

FAULTS = [V8, V40,
          V0, V65, zext(0, V8), trunc(65, V40), concat(V40, V40), concat(V65, V0), concat(V0, V65),  # 10
          add(V8, V16), XOR + V40 + V8,  # 11
          zext(7, V8), sext(8, V16),  # 12
          trunc(9, V8), trunc(64, V40)]  # 13


def two_faults():
    """Each two, left and right."""
    lines = []
    for turn, left in enumerate(FAULTS):
        for right in FAULTS:
            for parent in (ADD, CONCAT):
                lines += asked(["validate_widths"], parent + left + right)
            lines += asked([["checked_width_of", "width_of"][turn % 2]], CONCAT + left + right)
        lines += asked(RULES, [3, 0] + left + V0) + asked(RULES, [5, 0] + V8 + left)
    return lines


def fault_below():
    """One under another."""
    lines = []
    for fault in FAULTS:
        for above in ([10, 0], [10, 4], [11, 16], [10, 64], [12, 4], [12, 65], [12, 64], [11, BIG - 1], [9, 3], [8, 0]):
            lines += asked(RULES, above + fault)
        for words in (XOR + concat(fault, V8) + V16, XOR + V16 + concat(V8, fault), concat(XOR + V16 + fault, trunc(65, V8)),
                      concat(zext(65, fault), V8), zext(64, concat(V8, trunc(4, fault))), add(zext(4, V8), add(V8, fault))):
            lines += asked(RULES, words)
    return lines


def known_orders():
    lists = [concat(add(V8, V16), V65),  # 10 of the right part is part of the Concat's own width
             add(add(V8, V16), V65),  # here it is not
             add(V65, add(V8, V16)), add(V8, V65), add(V8, concat(V40, V40)), add(concat(V40, V40), V8),
             add(add(V8, V16), zext(7, V8)), add(zext(7, V8), add(V8, V16)),
             add(add(V8, V16), trunc(9, V8)), add(trunc(9, V8), zext(7, V8)), add(zext(7, V8), trunc(9, V8)),
             add(zext(4, V8), V16),  # 12 of the child before its own 11
             zext(8, add(V16, V8)), trunc(64, zext(8, V16)), zext(0, add(V8, V16)), trunc(65, add(V8, V16)),
             zext(0, V0), trunc(65, V65), trunc(0, V0), zext(65, zext(0, V8)), zext(16, zext(0, V8)), zext(16, trunc(65, V8)),
             concat(V40, concat(V16, V16)), concat(concat(V16, V16), concat(V16, V16)), concat(concat(V40, V16), V16),
             concat(concat(V40, V40), V65), concat(V65, concat(V40, V40)), concat(V0, concat(V40, V40)),
             concat(zext(64, V8), zext(64, V16)), concat(zext(63, V8), trunc(1, V16)), concat(trunc(1, V8), zext(64, V16)),
             concat(zext(40, V0), zext(24, V65)), concat(zext(40, V0), zext(25, V65)),
             nots(9, concat(V40, V40)), zext(64, concat(V40, zext(24, V8))), trunc(8, concat(V40, zext(24, V8)))]
    place = Place([], 40)
    return ([line for words in lists for line in asked(OF_WIDTH, words)]
            + asked(OF_WIDTH, concat(CONSTANT, VARIABLE), place) + asked(OF_WIDTH, nots(3, concat(CONSTANT, VARIABLE)), place))


def deep_chains():
    """A fault at the end of a chain: at the left it is part of every width above it, at the right of none."""
    lines = []
    for fault in FAULTS[2:]:
        for count in (1, 5, 20):
            lines += asked(RULES, ADD * count + fault + V8 * count)
            lines += asked(RULES, (XOR + V8) * count + fault)
            lines += asked(["validate_widths"], (ADD + V8 + CONCAT + trunc(4, V8)) * count + fault)
        lines += asked(["validate_widths"], nots(30, fault)) + asked(["validate_widths"], [11, 64] * 12 + fault)
    return lines


# Random trees

def width_asked(rng, words, place, turn):
    lines = asked(["validate_widths"], words, place)
    if turn % 3 == 0:
        lines += asked([rng.pick(["checked_width_of", "checked_width_of", "width_of"])], words, place)
    if turn % 8 == 0:
        lines.append(uniform_asked(words, place.listed, place.default))
    return lines


def typed_trees(rng, count):
    """Every third has one place spoiled, every third two or three."""
    lines = []
    for turn in range(count):
        place = some_place(rng, turn % 4 == 0)
        words = typed(rng, some_size(rng, 60), 1 + rng.below(64), place)
        for _ in range([0, 1, 2 + rng.below(2)][turn % 3]):
            words = spoiled(rng, words, place)
        lines += width_asked(rng, words, place, turn)
    return lines


def untyped_trees(rng, count):
    """Nodes at random: most have many faults."""
    lines = []
    for turn in range(count):
        place = some_place(rng, turn % 2 == 0)
        lines += width_asked(rng, random_tree(rng, 1 + rng.below(20), any_leaf), place, turn)
    return lines


def casts_in_chains(rng, count):
    lines = []
    for _ in range(count):
        place = some_place(rng, False)
        words = rng.pick(place.leaves())[0]
        for _ in range(1 + rng.below(8)):
            words = some_cast(rng, place) + words if rng.below(4) else concat(words, rng.pick(place.leaves())[0])
        lines += width_asked(rng, words, place, 0)
    return lines


# One width

def uniform_trees(rng, count):
    """Lists that are empty, of one width, or with another one among it. Every fourth tree may have a cast or a Concat."""
    lines = []
    for turn in range(count):
        width = rng.pick(WIDTHS_ASKED + [1 + rng.below(64)])
        entries = rng.below(6)
        words = uniform(rng, some_size(rng, 50), lambda r: [r.below(2), r.below(6)])
        listed = [width] * entries
        if listed and turn % 2:
            listed[rng.below(entries)] = rng.pick([0, 1, 8, 64, 65, width + 1 if width < BIG - 1 else 0])
        if turn % 4 == 0:
            words = spoiled(rng, words, Place(listed, width))
        lines.append(uniform_asked(words, listed, width))
    return lines


# Limits

def concat_all(parts):
    if len(parts) == 1:
        return parts[0]
    half = len(parts) // 2
    return concat(concat_all(parts[:half]), concat_all(parts[half:]))


def full_trees(rng):
    """Of 512 nodes, of 64 levels, or both."""
    one = Place([], 1)
    cast_up = [word for width in range(64, 1, -1) for word in (10, width)] + CONSTANT
    cast_down = [word for width in range(1, 64) for word in (12, width)] + CONSTANT
    bits = [CONSTANT] * 63
    trees = [(NOT + balanced([VARIABLE] * 256), Place([8], 8)), (balanced([CONSTANT] * 255 + [NOT + VARIABLE]), Place([8], 9)),
             (NOT * 55 + balanced([CONSTANT] * 229), Place([], 0)),
             (cast_up, one), (cast_up[:2] + [10, 64] + cast_up[4:], one), (cast_up, Place([], 2)),
             (cast_down, Place([], 64)), (cast_down, Place([], 63)), (cast_down, Place([], 62)), (cast_up, Place([], 0)),
             (CONCAT * 63 + CONSTANT * 64, one), ((CONCAT + CONSTANT) * 63 + CONSTANT, one), (concat_all(bits + [CONSTANT]), one),
             (concat_all(bits + [CONSTANT] * 2), one), (concat_all([CONSTANT] * 256), one),
             (concat_all([CONSTANT] * 64), Place([], 65)),
             (balanced([concat_all([CONSTANT] * 64)] * 4), one),
             (balanced([concat_all([CONSTANT] * 64)] * 3 + [concat_all(bits)]), one)]
    trees += [(typed(rng, 360, 1 + rng.below(64), place), place) for place in (one, Place([8, 16, 32], 8), Place([1, 64], 40))]
    place = Place([8, 16, 24], 8)
    trees += [(spoiled(rng, typed(rng, 340, 8, place), place), place) for _ in range(5)]
    lines = []
    for words, place in trees:
        lines += asked(OF_WIDTH if len(words) < 300 else ["validate_widths"], words, place)
    for words, place in trees[:3]:
        lines += asked(OF_WIDTH, words, place) + [uniform_asked(words, place.listed, place.default)]
    return lines


def long_lists():
    """The last entry of a long list counts, and what follows it is past it."""
    listed = [8] * 99 + [16]
    lines = []
    for number in (0, 98, 99, 100, 101, BIG - 1):
        for words in (add([1, number], CONSTANT), concat([1, number], V8)):
            lines += asked(["validate_widths", "checked_width_of"], words, Place(listed, 8))
    return lines + [uniform_asked(add([1, number], V8), listed, 8) for number in (98, 99, 100)]


def requests(random):
    return (leaves() + single_nodes() + two_faults() + fault_below() + known_orders() + deep_chains()
            + typed_trees(random(20), 2400) + untyped_trees(random(21), 300) + casts_in_chains(random(22), 200)
            + uniform_trees(random(23), 900) + full_trees(random(24)) + long_lists())


def further(rng, size):
    """For long runs: other trees at each seed, of at most so many bytes."""
    return rounds(size, lambda: typed_trees(rng, 240) + untyped_trees(rng, 60) + casts_in_chains(rng, 40) + uniform_trees(rng, 90))
