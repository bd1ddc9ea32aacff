"""Every refusal of the calls on widths, costs and values, and the order between each two."""
from .build import (ADD, BAD_KIND, BAD_KINDS, BAD_OPERAND, CONSTANT, NOT, VARIABLE, balanced, damaged, left_chain, nots, over,
                    right_chain, some_size, some_tree)
from .common import BIG, MAX, request, rounds
from .sites import about_64_levels
from .trees import FEW_WORDS, with_two_refusals
from .typed import CONCAT, Place, some_place, spoiled, typed

WIDTH_CALLS = ["checked_width_of", "width_of", "is_uniform_width", "validate_widths"]
ONE_WIDTH_CALLS = ["check_one_width", "value"]
NEW_CALLS = WIDTH_CALLS + ["compute_cost"] + ONE_WIDTH_CALLS

EIGHT = Place([], 8)


def ask(name, words, place=EIGHT, setting=(0x1FF, 2, 3)):
    if name == "compute_cost":
        return request(name, words)
    if name == "value":
        return request(name, [place.default], place.listed, setting, words)
    return request(name, [place.default], place.listed, words)


def ask_all(lists, names=NEW_CALLS, place=EIGHT):
    return [ask(name, words, place) for words in lists for name in names]


# What is no tree

def no_trees():
    full = NOT + balanced([VARIABLE] * 256)
    many = [full, full + [0], balanced([CONSTANT] * 257)]
    deep = [words for count in (63, 64) for words in (nots(count), left_chain(count), right_chain(count))]
    lists = [[kind, 0] for kind in BAD_KINDS] + [ADD + CONSTANT + [kind, 0] for kind in (14, BIG + 1, MAX)]
    lists += [over(kind, operand, CONSTANT) for kind in (1, 2, 6, 7, 8, 9, 12, 13) for operand in (1, BIG - 1, BIG, MAX)]
    lists += [[kind, 0] for kind in (2, 7, 9, 10, 13)] + [[kind, 0] + CONSTANT for kind in (2, 6, 13)]
    lists += [CONSTANT * 2, VARIABLE + ADD, over(13, 0, VARIABLE) + [MAX, MAX], nots(8) + NOT]
    return ask_all(FEW_WORDS + lists + deep + many + with_two_refusals())


def damaged_trees(rng, count, typed_count):
    lines = []
    for turn in range(count):
        words = damaged(rng, some_tree(rng, some_size(rng, 30)))
        lines += ask_all([words], [NEW_CALLS[turn % 7], NEW_CALLS[(turn + 3) % 7]])
    for _ in range(typed_count):
        place = some_place(rng, True)
        words = damaged(rng, spoiled(rng, typed(rng, some_size(rng, 20), 1 + rng.below(64), place), place))
        lines += ask_all([words], [rng.pick(WIDTH_CALLS), "validate_widths"], place)
    return lines


# What is no tree goes before what a tree has

def broken(words):
    """The words of a tree with each refusal of 2 to 7 behind it or in it, the one that the tree has before it."""
    return [words + [0],  # 2
            ADD + words,  # 6
            ADD + words + BAD_KIND, CONCAT + words + [MAX, 0],  # 3
            ADD + words + BAD_OPERAND, CONCAT + words + [7, 1] + CONSTANT,  # 4
            ADD + words + nots(63),  # 5
            words + CONSTANT]  # 7


def before_width_rules():
    faults = [[10, 65] + CONSTANT, CONCAT + [10, 40, 0, 0] + [10, 40, 0, 0], [10, 0] + CONSTANT,  # 10
              ADD + CONSTANT + [10, 16] + CONSTANT,  # 11
              [10, 7] + CONSTANT, [11, 1] + CONSTANT,  # 12
              [12, 9] + CONSTANT]  # 13
    lists = [words for fault in faults for words in broken(fault)] + [BAD_KIND, [], [0], NOT, nots(64), CONSTANT * 2, BAD_OPERAND]
    lines = ask_all(lists, WIDTH_CALLS)
    for default in (0, 65, BIG - 1):
        lines += ask_all(broken(CONSTANT), WIDTH_CALLS, Place([], default))
    return lines + ask_all(broken(VARIABLE), WIDTH_CALLS, Place([0], 8))


# One width

CAST, OTHER, NO_WORD = [10, 8] + CONSTANT, CONCAT + CONSTANT * 2, [1, 3]


def of_one_width():
    """8 by a cast, by a Concat and by the list, at the root and below it."""
    lines = []
    for words in (CAST, [11, 8] + CONSTANT, [12, 8] + CONSTANT, [12, 65] + CONSTANT, OTHER):
        lines += ask_all([words, NOT + words, ADD + words + CONSTANT, ADD + CONSTANT + words, nots(20, words),
                          (ADD + VARIABLE) * 9 + words], ONE_WIDTH_CALLS)
    for listed in ([9], [8, 9], [8, 8, 9], [0], [65], [BIG - 1], [8], [8, 8, 8], [8, 8, 8, 9]):
        trees = (VARIABLE, [1, 2], ADD + VARIABLE + [1, 1], nots(9, [1, 1]), ADD + CONSTANT + [1, 2])
        lines += ask_all(trees, ONE_WIDTH_CALLS, Place(listed, 8))
    return lines


def width_first():
    """1 with each of the others."""
    lists = [CONSTANT, VARIABLE, CAST, OTHER, NO_WORD, ADD + NO_WORD + CAST] + broken(CONSTANT) + [[], [0], CONSTANT * 513]
    return [line for width in (0, 65, BIG - 1) for line in ask_all(lists, ONE_WIDTH_CALLS, Place([], width))]


def two_refusals():
    """2 to 7 with 8 and with 15, then 8 with 15; a tree has the later one before the earlier."""
    lists = [words for tree in (CAST, OTHER, NO_WORD, [1, BIG - 1], CAST[:2] + NO_WORD) for words in broken(tree)]
    lists += [ADD + NO_WORD + CAST, ADD + CAST + NO_WORD, ADD + NO_WORD + OTHER, [10, 8] + NO_WORD, CONCAT + NO_WORD + NO_WORD,
              (ADD + NO_WORD) * 5 + CAST, ADD + NO_WORD + NO_WORD, NOT + NO_WORD]
    lines = ask_all(lists, ONE_WIDTH_CALLS)
    by_list = Place([8, 9, 8, 9], 8)
    return lines + ask_all([NO_WORD, ADD + NO_WORD + [1, 1], ADD + [1, 4] + [1, 1], ADD + [1, 4] + VARIABLE, [1, 4]]
                           + broken([1, 1]), ONE_WIDTH_CALLS, by_list)


def requests(random):
    return (no_trees() + damaged_trees(random(50), 260, 100) + before_width_rules() + of_one_width() + width_first() + two_refusals())


def further(rng, size):
    """For long runs: other trees at each seed, of at most so many bytes. Few of the values are left to the solvers."""
    return rounds(size, lambda: damaged_trees(rng, 140, 60) + ask_all([about_64_levels(rng), about_64_levels(rng)]))
