"""Requests to atom_simplifier.rs."""
from .build import (BAD_KIND, BAD_KINDS, BAD_OPERAND, CONSTANT, VARIABLE, all_trees, any_leaf, balanced, damaged, left_chain, nots, over,
                    random_tree, right_chain, some_size, some_tree)
from .common import BIG, MAX, request, rounds
from .refusals import broken
from .sites import (ADD, AND, BITWISE, NEG, NOT, OR, X, XOR, Y, Z, about_64_levels, above, closed, comb, near, ones, put_in, quiet,
                    site_forms, some_site)
from .trees import FEW_WORDS, with_two_refusals
from .typed import some_place, typed

SHR0, SHR1 = [9, 0], [9, 1]
WIDTHS = [1, 2, 3, 8]
PATH = 63  # bytes that a path is lent


def room(words):
    """Words that a call needs to be lent."""
    return len(words) + 2


def local(words, width, size=None):
    return request("local", [width, room(words) if size is None else size], words)


def site(words, width, size=None, path=PATH):
    return request("site", [width, room(words) if size is None else size, path], words)


def both(words, width, size=None):
    return [local(words, width, size), site(words, width, size)]


def random_room(rng, words):
    return min(1100, room(words) + rng.pick([0, 0, 0, 1, 2, 7]))


# All small trees

def leaves(width):
    words = dict.fromkeys([0, 1, 3, ones(width), above(width, ones(width))])
    return [X, Y] + [[0, word] for word in words]


def grown(width, most):
    return all_trees(leaves(width), (NOT, SHR0, SHR1, NEG), (AND, OR, XOR, ADD), most)


def small_trees():
    """To three nodes with both calls; of four nodes the local rewrite where the root has one, the first site at one width."""
    lines = []
    for width in WIDTHS:
        trees = grown(width, 4)
        for size in (1, 2, 3):
            lines += [line for words in trees[size] for line in both(words, width)]
        lines += [local(words, width) for words in trees[4] if words[0] in (4, 5, 6, 7)]
        if width == 3:
            lines += [site(words, width) for words in trees[4]]
    return lines


def chains():
    """One bitwise node over another: constants on each side of each, with the operator that reassociates and with others."""
    lines = []
    for width in WIDTHS:
        ends = [X, Y] + [[0, word] for word in dict.fromkeys([0, 1, ones(width), above(width, ones(width))])]
        triples = [(a, b, c) for a in ends for b in ends for c in ends]
        for outer in BITWISE:
            for inner in BITWISE + [ADD] if width == 8 else [outer]:
                for a, b, c in triples:
                    lines += [local(outer + inner + a + b + c, width), local(outer + c + inner + a + b, width)]
    return lines


def parts(width):
    """What a rule may find below a node."""
    three, one = [0, 3], [0, 1]
    return [X, Y, [0, 0], one, three, [0, ones(width)], [0, above(width, ones(width))],
            NOT + X, NOT + Y, NOT + NOT + X, NOT + one, NEG + X, SHR0 + X, SHR1 + X,
            AND + X + Y, AND + Y + X, OR + X + Y, OR + Y + X, XOR + X + Y, ADD + X + Y,
            AND + X + three, AND + three + X, OR + X + three, OR + one + X, XOR + X + three, XOR + one + X,
            NOT + AND + X + Y, NOT + OR + X + Y, NOT + XOR + X + Y, AND + NOT + X + Y, OR + NOT + X + X]


def pairs():
    """Each two of the parts below each operator, and that below a Not."""
    lines = []
    for turn, a in enumerate(parts(8)):
        for b in parts(8):
            lines += [local(kind + a + b, 8) for kind in BITWISE]
            lines += [local(NOT + kind + a + b, 8) for kind in BITWISE + [ADD]]
            lines.append(site(BITWISE[turn % 3] + a + b, 8))
    return lines


def nested_chains(rng, count):
    """Three to nine bitwise nodes with a constant each, of one operator or with another one among them."""
    lines = []
    for turn in range(count):
        width = rng.pick(WIDTHS + [64, 1 + rng.below(64)])
        kind = rng.pick(BITWISE)
        words = rng.pick([X, NOT + X, [0, rng.any_size()], OR + X + Y, AND + X + Y, XOR + X + Y, NEG + Y])
        for _ in range(2 + rng.below(8 if turn % 4 else 3)):
            own = rng.pick(BITWISE) if rng.below(12) == 0 else kind
            number = rng.pick([[0, rng.any_size()], [0, rng.below(4)], [0, ones(width)], [0, 0], [0, above(width, 3)]])
            words = own + words + number if rng.below(2) else own + number + words
        lines.append(rng.pick([local, local, site])(words, width, random_room(rng, words)))
    return lines


def without_rule():
    """The kinds that no rule is for, over operands that other kinds have a rule for."""
    few = [X, Y, NOT + X, NEG + X, [0, 0], [0, 1], [0, 3], [0, 255], AND + X + Y, OR + X + Y]
    pairs_of = [a + b for a in few for b in few]
    lines = [line for kind in (2, 3, 13) for two in pairs_of for line in (local([kind, 0] + two, 8), local(NOT + [kind, 0] + two, 8))]
    for kind in (8, 10, 11, 12):
        for operand in (0, 1, 8) if kind > 8 else (0,):
            lines += [line for a in few for line in both([kind, operand] * 2 + a, 8) + [local([kind, operand] + a, 8)]]
    return lines


def halved(rng, kind, word):
    """Two words of which the operator makes this one."""
    some = rng.word()
    return {4: (word | some, word | ~some & MAX), 5: (word & some, word & ~some & MAX), 6: (some, some ^ word)}[kind[0]]


def met_again(rng):
    """A chain whose two constants make one that the rules look for in its other operand: Not of it, the dual operator with it, it itself;
    and the same with a bit changed, below the width and above it."""
    lines = []
    for turn, width in enumerate([3, 8, 8, 33, 64]):
        word = rng.word() & ones(width) | 1
        for kind, dual in ((AND, OR), (OR, AND), (XOR, AND)):
            for other in (word, word ^ 1, above(width, word)):
                number = [0, other]
                for end in (NOT + number, dual + X + number, dual + number + X, kind + X + NOT + number, number, OR + Y + number):
                    a, b = [[0, half] for half in halved(rng, kind, word)]
                    for words in (kind + kind + end + a + b, kind + a + kind + b + end):
                        lines.append([local, site][turn % 2](words, width))
    return lines


# Random trees

def random_width(rng):
    return rng.pick([1, 8, 32, 64]) if rng.below(3) == 0 else 1 + rng.below(64)


def with_some_sites(rng, words, width, count, most):
    """So many sites of up to so many nodes put into a tree."""
    for _ in range(count):
        words = put_in(rng, words, some_site(rng, width, 1 + rng.below(most)))
    return words


def without_site(rng, count):
    lines = []
    for turn in range(count):
        width = random_width(rng)
        words = quiet(rng, width, some_size(rng, 60), turn % 4 == 0)
        lines += [site(words, width, random_room(rng, words))] + ([local(words, width)] if turn % 2 else [])
    return lines


def with_sites(rng, count):
    """One site to three, most of them deep inside."""
    lines = []
    for turn in range(count):
        width = random_width(rng)
        words = quiet(rng, width, some_size(rng, 40), turn % 5 == 0)
        words = with_some_sites(rng, words, width, 1 + (turn % 3 == 0) + rng.below(2), 16)
        lines += [site(words, width, random_room(rng, words))] + ([local(words, width)] if turn % 6 == 0 else [])
    return lines


def each_form(rng, turns):
    """The forms of a site over larger trees, and the same with one operand changed a little."""
    lines = []
    for turn in range(turns):
        width = random_width(rng)
        a, b = quiet(rng, width, 2 + rng.below(9)), quiet(rng, width, 1 + rng.below(9))
        forms = site_forms(width, a, b, [0, rng.any_size()])
        for words in forms:
            lines.append([local, site][turn % 2](words, width, random_room(rng, words)))
            lines.append(local(near(rng, words, width), width))
    return lines


def near_forms(t, u, b):
    """Forms in which two trees are compared."""
    return [AND + t + u, OR + t + u, XOR + t + NOT + u, AND + NOT + t + u, OR + t + NOT + u,
            AND + t + OR + u + b, AND + OR + b + t + u, OR + t + AND + b + u, OR + AND + t + b + u]


def equal_and_near(rng, count):
    lines = []
    for turn in range(count):
        width = random_width(rng)
        t = closed(rng, width, 2 + rng.below(30), False)
        u = near(rng, t, width) if turn % 3 else t
        words = near_forms(t, u, [NEG + X, Y][turn % 2])[turn % 9]
        lines.append((local if turn % 2 else site)(words, width, random_room(rng, words)))
    return lines


def any_trees(rng, count, well_typed):
    """All kinds at random, casts and Concat too; and trees that the width rules accept, with a site put in."""
    lines = []
    for _ in range(count):
        words = random_tree(rng, some_size(rng, 60), any_leaf)
        lines.append(rng.pick([local, site])(words, random_width(rng), random_room(rng, words)))
    for _ in range(well_typed):
        place = some_place(rng, False)
        words = typed(rng, some_size(rng, 40), 1 + rng.below(64), place)
        words = put_in(rng, words, some_site(rng, place.default, 8))
        lines.append(site(words, place.default, random_room(rng, words)))
    return lines


def over_casts():
    lines = []
    for cast in ([10, 16], [11, 16], [12, 4]):
        for t in (cast + X, cast + AND + X + X, [13, 0] + X + Y, [13, 0] + cast + X + NOT + X):
            for words in (AND + t + t, OR + t + NOT + t, NOT + t, NOT + AND + NOT + t + X, XOR + t + CONSTANT, cast + t, XOR + t + t):
                lines += both(words, 8)
    return lines


# Limits

def turned_over(rng, kind, left, right):
    """De Morgan at the root of 512 nodes; with `left` and `right`, the operands are a Not. The replacement has 513."""
    rest = 512 - 2 - left - right
    a = closed(rng, 8, rest // 2, False)
    return NOT + kind + NOT * left + a + NOT * right + closed(rng, 8, rest - rest // 2, False)


def full_trees(rng):
    """Of 512 nodes or little less: without a site, with one at the last node, with one anywhere."""
    lines = []
    for turn in range(9):
        width = random_width(rng)
        widening = turn % 3 == 2
        lines.append(site(NEG + quiet(rng, width, 511, widening), width))
        lines.append(site(ADD + quiet(rng, width, 509, widening) + SHR0 + X, width, 1100))
        lines.append(site(put_in(rng, quiet(rng, width, 500, widening), some_site(rng, width, 4)), width, 1030))
    for kind in (AND, OR):
        for left, right in ((1, 0), (0, 1), (1, 1), (0, 0)):
            words = turned_over(rng, kind, left, right)
            lines += [local(words, 8), local(words, 8, room(words) - 1)] + ([site(words, 8)] if left else [])
    for turn in range(18):
        t = closed(rng, 8, 250 - turn % 3, False)
        u = near(rng, t, 8) if turn % 3 else t
        lines.append((local if turn % 2 else site)(near_forms(t, u, Y)[turn % 9], 8))
    return lines


def large_trees(rng, count):
    """From 60 nodes to 300, with none to three sites."""
    lines = []
    for turn in range(count):
        width = random_width(rng)
        words = quiet(rng, width, 60 + rng.below(1 + rng.below(240)), turn % 5 == 0)
        words = with_some_sites(rng, words, width, turn % 4, 40)
        lines.append(site(words, width, random_room(rng, words)))
    return lines


def deep_trees(rng):
    """Chains down to a site or none. The longest path has 62 bytes: its end has two levels."""
    lines = []
    for levels in (1, 2, 5, 12, 23, 30, 44, 59, 60, 61, 62):
        for end in (AND + X + X, OR + X + [0, 0], SHR0 + Z, XOR + X + X, AND + X + Y):
            lines.append(site(comb(rng, levels, end), random_width(rng), 400))
    for levels in range(3, 58, 2):
        width = random_width(rng)
        words = comb(rng, levels, some_site(rng, width, 4))
        lines.append(site(words, width, random_room(rng, words)))
    for words in (NEG * 62 + AND + X + X, ADD * 62 + AND + X + X + Y * 62, (ADD + X) * 62 + OR + X + X, nots(63), SHR0 * 63 + X,
                  NOT * 62 + NEG + X, (AND + X) * 63 + Y, (AND + X) * 63 + X, AND * 63 + X + [0, 5] * 63, (XOR + [0, 3]) * 63 + X,
                  OR * 63 + X + [0, 5] * 62 + [0, 0], (NOT + AND + NOT + X) * 21 + Y):
        lines += both(words, 8, 300)
    return lines


def worked_trees():
    """Document 01's cases and the README's example, each with its width."""
    a, b = X, Y
    return [(AND + [0, 3] + [0, 1], 64), (AND + [0, 3] + [0, 1], 2), (AND + [0, 3] + [0, 1], 1), (AND + [0, 1] + [0, 3], 64),
            (AND + [0, 1] + [0, 3], 2), (XOR + a + a, 8), (OR + a + [0, 0x1FF], 8), (OR + [0, 0x1FF] + a, 8), (OR + a + [0, 0xFF], 8),
            (AND + AND + [0, 0xF] + a + [0, 0x3C], 8), (AND + AND + a + [0, 0xF] + [0, 0x3C], 8),
            (XOR + XOR + a + [0, 5] + [0, 5], 8), (NOT + AND + NOT + a + b, 8), (OR + NOT + NOT + a + NOT + b, 8),
            (OR + a + NOT + b, 8)]


def worked():
    return [line for words, width in worked_trees() for line in both(words, width)] + [site(NOT + AND + NOT + X + Y, 8, 13)]


def repeated():
    """The requests for measuring, with small counts."""
    words = NOT + AND + NOT + X + Y
    return [request("local_times", [8, 12, 1], words), request("local_times", [8, 12, 3], words),
            request("site_times", [8, 12, PATH, 1], words), request("site_times", [8, 12, PATH, 17], ADD + X + words),
            request("site_times", [8, 12, PATH - 1, 5], words), request("local_times", [8, 11, 5], words),
            request("site_times", [8, 12, PATH, 9], XOR + X + X)]


# Refusals

def sizes(rng):
    """Each size of what is lent, where there is a rewrite and where there is none."""
    lines = []
    for words in (X, XOR + X + X, AND + X + X, NOT + AND + NOT + X + Y, NEG + SHR0 + X, nots(9, X), left_chain(40)):
        need = room(words)
        for size in (0, 1, need - 2, need - 1, need, need + 1, need + 2, 1100):
            lines += [local(words, 8, size), site(words, 8, size), site(words, 8, size, PATH - 1)]
        for path in (0, 1, 61, 62, 63, 64, 100):
            lines += [site(words, 8, need, path), site(words, 8, need - 1, path)]
    full = turned_over(rng, AND, 1, 0)
    for words in (full, left_chain(63, X)):
        lines += [line for size in (0, room(words) - 1, room(words), 1100) for line in both(words, 8, size)]
    return lines + [site(full, 8, 1026, 62), site(full, 8, 1026, 63)]


def widths():
    lines = []
    for width in (0, 1, 2, 63, 64, 65, 128, BIG - 1):
        for words in (X, AND + X + X, OR + X + [0, ones(min(width, 64))], AND + X + [0, MAX], XOR + NOT + X + X, [], [0], BAD_KIND, NOT):
            lines += both(words, width, 40) + both(words, width, 0) + [site(words, width, 40, 0)]
    return lines


def no_tree_lists():
    """Lists that are no trees, and some at the limits that are."""
    full = NOT + balanced([VARIABLE] * 256)
    many = [full, full + [0], balanced([CONSTANT] * 257), full + CONSTANT]
    deep = [words for count in (63, 64) for words in (nots(count), left_chain(count, X), right_chain(count, X))]
    lists = [[kind, 0] for kind in BAD_KINDS] + [AND + X + [kind, 0] for kind in (14, BIG + 1, MAX)]
    lists += [over(kind, operand, VARIABLE) for kind in (1, 2, 4, 5, 6, 7, 8, 9, 12, 13) for operand in (1, BIG - 1, BIG, MAX)]
    lists += [[kind, 0] for kind in (2, 4, 7, 9, 10, 13)] + [[kind, 0] + X for kind in (2, 4, 6, 13)]
    lists += [X * 2, VARIABLE + ADD, over(13, 0, VARIABLE) + [MAX, MAX], NOT + NOT + X + X, nots(8) + NOT]
    lists += [words for tree in (AND + X + X, NOT + NOT + X, SHR0 + X) for words in broken(tree)]
    return FEW_WORDS + lists + deep + many


def no_trees():
    lines = [line for words in no_tree_lists() for line in both(words, 8, 1100)]
    for words in with_two_refusals() + [BAD_OPERAND, X * 2, AND + X]:
        lines += both(words, 8, 1100) + [site(words, 8, 0, 0), local(words, 8, 0)]
    return lines


def random_sizes(rng, count):
    """Places lent around the least, and widths that are none."""
    lines = []
    for turn in range(count):
        words = with_some_sites(rng, quiet(rng, 8, 1 + rng.below(9)), 8, turn % 2, 8)
        width = rng.pick([8, 8, 8, 1, 64, 0, 65, BIG - 1])
        size = max(0, room(words) + rng.pick([-2, -1, -1, 0, 1, 2, -len(words)]))
        lines += [local(words, width, size), site(words, width, size, rng.pick([0, PATH - 1, PATH, PATH, PATH + 1, 100]))]
    return lines


def damaged_trees(rng, count):
    lines = []
    for turn in range(count):
        words = damaged(rng, put_in(rng, some_tree(rng, some_size(rng, 20)), AND + X + X))
        lines.append([local, site][turn % 2](words, random_width(rng), rng.pick([1100, room(words), 3])))
    return lines


def requests(random):
    return (worked() + small_trees() + chains() + pairs() + nested_chains(random(60), 420) + met_again(random(71))
            + without_rule() + without_site(random(61), 330) + with_sites(random(62), 900) + each_form(random(63), 9)
            + equal_and_near(random(64), 330) + any_trees(random(65), 700, 250) + over_casts()
            + full_trees(random(66)) + large_trees(random(67), 100) + deep_trees(random(68)) + repeated()
            + sizes(random(69)) + widths() + no_trees() + damaged_trees(random(70), 260))


def further(rng, size):
    """For long runs: other trees at each seed, of at most so many bytes."""
    return rounds(size, lambda: nested_chains(rng, 150) + without_site(rng, 60) + with_sites(rng, 200) + each_form(rng, 2)
                  + equal_and_near(rng, 100) + any_trees(rng, 150, 40) + large_trees(rng, 2) + random_sizes(rng, 60)
                  + damaged_trees(rng, 60) + both(about_64_levels(rng), 8) + both(about_64_levels(rng), 8))
