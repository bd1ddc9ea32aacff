"""Requests to expr.rs and expr_utils.rs, and to the reading of words."""
from .build import (ADD, BAD_KIND, BAD_KINDS, BAD_OPERAND, BINARY, CONSTANT, LEAVES, NOT, UNARY, VARIABLE, WITH_NUMBER,
                    any_leaf, balanced, changed, constant, damaged, left_chain, nots, over, random_tree, right_chain, some_size,
                    some_tree, stray_word, with_one_variable)
from .common import BIG, MAX, calls, request, rounds
from .sites import about_64_levels

VAR_CALLS = ["is_constant_subtree", "has_var_dep"]
SHAPE_CALLS = ["check_tree", "span"]
TREE_CALLS = ["check_tree", "is_constant_subtree", "has_var_dep", "span"]


def pair(left, right):
    return request("same_words", left, right)


def arities():
    return [request("arity_of", [kind]) for kind in list(range(21)) + BAD_KINDS + [BIG + 13]]


def random_trees(rng, count, names):
    return [line for _ in range(count) for line in calls(names, some_tree(rng, some_size(rng, 60)))]


def valid_trees(rng):
    lines = []
    for kind in LEAVES + BINARY + UNARY:
        for leaf in (CONSTANT, VARIABLE):
            lines += calls(TREE_CALLS, over(kind, 0, leaf))
    for kind in BINARY:
        lines += calls(VAR_CALLS, [kind, 0] + CONSTANT + VARIABLE) + calls(VAR_CALLS, [kind, 0] + VARIABLE + CONSTANT)
    for size in range(1, 61):
        lines += calls(VAR_CALLS, random_tree(rng, size, constant)) + calls(VAR_CALLS, with_one_variable(rng, size))
    lines += random_trees(rng, 960, VAR_CALLS)
    for words in (random_tree(rng, 500, constant), with_one_variable(rng, 505), with_one_variable(rng, 511)):
        lines += calls(VAR_CALLS, words)
    return lines


# Limits

FEW_WORDS = [[], [0], [1], [14], [MAX], [0, 0, 0], [0, 0, 1], [2, 0, 0], [7, 0, 14], [14, 0, 0],
             over(2, 0, VARIABLE) + [0], over(13, 0, CONSTANT) + [MAX], nots(9) + [7, 0, 0]]


def few_words():
    return [line for words in FEW_WORDS for line in calls(TREE_CALLS, words)]


def full_trees(rng):
    """Trees of 512 nodes; the last one has depth 64."""
    return [NOT + balanced([CONSTANT] * 256),
            balanced([CONSTANT] * 255 + [nots(1, VARIABLE)]),
            balanced([nots(30)] * 15 + [nots(31)]),
            balanced([left_chain(15, VARIABLE), right_chain(15)] * 7 + [right_chain(15), NOT + left_chain(15)]),
            random_tree(rng, 512, any_leaf),
            NOT * 55 + balanced([CONSTANT] * 229)]


def full_but_refused():
    """Lists of 1,024 words that are no tree, and one of 1,022 words with depth 65."""
    tree = NOT + balanced([CONSTANT] * 256)
    return [balanced([CONSTANT] * 256) + CONSTANT,
            ADD + balanced([CONSTANT] * 256),
            tree[:-2] + BAD_KIND,
            tree[:-2] + BAD_OPERAND,
            CONSTANT * 512,
            NOT * 512,
            NOT * 56 + balanced([CONSTANT] * 228)]


def many_words(rng):
    tree = NOT + balanced([VARIABLE] * 256)
    about = [balanced([VARIABLE] * 256), tree[:-1], tree + [0], balanced([CONSTANT] * 257)]
    others = [CONSTANT * 513, NOT * 513, BAD_KIND * 513] + full_but_refused()
    return ([line for words in about + full_trees(rng) for line in calls(TREE_CALLS, words)]
            + [line for words in others for line in calls(SHAPE_CALLS, words)])


def depths():
    lines = []
    for deepest in (CONSTANT, VARIABLE):
        for count in (63, 64):
            lines += calls(TREE_CALLS, nots(count, deepest))
            lines += calls(TREE_CALLS, ADD * count + deepest + CONSTANT * count)
            lines += calls(TREE_CALLS, right_chain(count)[:-2] + deepest)
    for kind in BINARY + UNARY:
        lines += [request("check_tree", NOT * count + over(kind, 0, CONSTANT)) for count in (62, 63)]
    return lines


def node_everywhere(node):
    """A node as root, as child and as second child; the words go on for two children."""
    rest = CONSTANT * 2
    return [node + rest, NOT + node + rest, ADD + node + rest, ADD + VARIABLE + node + rest, nots(20, node) + rest]


def operands():
    lines = []
    for kind in LEAVES + BINARY + UNARY:
        for operand in (0, 1, BIG - 1, BIG, MAX):
            node = over(kind, operand, CONSTANT)
            lines += calls(TREE_CALLS, node) + calls(TREE_CALLS, ADD + VARIABLE + node)
    for kind in WITH_NUMBER:
        lines += calls(SHAPE_CALLS, over(kind, 1 << 63, CONSTANT))
    return lines


def kinds():
    lines = []
    for kind in [13] + BAD_KINDS:
        for words in node_everywhere([kind, 0]):
            lines += calls(SHAPE_CALLS, words)
        for words in ([kind, 0], [kind, MAX], [kind, 0] + CONSTANT * 2, ADD + CONSTANT + [kind, 0]):
            lines += calls(TREE_CALLS, words)
    return lines


def words_that_end(rng):
    lines = []
    for kind in BINARY + UNARY:
        lines += calls(TREE_CALLS, [kind, 0])
    for kind in BINARY:
        lines += calls(TREE_CALLS, [kind, 0] + CONSTANT)
    lines += [request("check_tree", NOT * count) for count in range(1, 67)]
    lines += [request("span", NOT * count) for count in (1, 2, 3, 63, 64, 65, 66)]
    for count in (1, 2, 31, 32, 62, 63):
        for words in (nots(count, ADD + CONSTANT), left_chain(count)[:-2], right_chain(count)[:-2], ADD * count):
            lines += calls(SHAPE_CALLS, words)
    for size in (5, 12, 20):
        tree = random_tree(rng, size, any_leaf)
        for end in range(len(tree)):
            lines += calls(SHAPE_CALLS, tree[:end])
    return lines


def words_left_over(rng):
    lines = []
    after = [CONSTANT, VARIABLE, NOT, BAD_KIND, BAD_OPERAND, [7, 1], [MAX, MAX], over(2, 0, VARIABLE), CONSTANT * 50]
    for size in (1, 2, 3, 10, 30):
        tree = random_tree(rng, size, any_leaf)
        for words in after:
            lines += calls(TREE_CALLS, tree + words)
    return lines


def with_two_refusals():
    """Lists with two refusals or three, so that the order shows. Behind each row stands the second number."""
    deep = nots(64)  # its leaf has depth 65
    deep_child = nots(63)  # and so has this one's under a root
    return [
        # 2
        [2, 0, 1], [7], [7, 0, 7], [2, 0, 0, 0, 0],  # 6
        [14, 0, 0], [7, 0, 14, 0, 0],  # 3
        [2, 5, 0], [1, BIG, 0], [7, 1, 0, 0, 0],  # 4
        deep + [0],  # 5
        [0, 0, 0, 0, 0], over(2, 0, VARIABLE) + [0, 0, 0],  # 7
        # 6, which cannot stand with 7
        ADD + BAD_KIND, ADD + ADD + BAD_KIND, NOT + [MAX, 0],  # 3
        [2, 5], [7, 1], [9, BIG], ADD + BAD_OPERAND, ADD + [7, 1], NOT + [13, 1],  # 4
        NOT * 64, ADD * 64, [9, 1] * 64,  # 5: the child that is due would have depth 65
        NOT * 65, ADD * 65, ADD * 64 + CONSTANT, ADD + deep_child,  # 5
        # 3
        [14, 1], [14, BIG], [MAX, MAX],  # 4 in the same node
        [2, 5] + BAD_KIND + CONSTANT, ADD + BAD_OPERAND + BAD_KIND, ADD + [7, 1] + CONSTANT + BAD_KIND,  # 4 before
        ADD + BAD_KIND + BAD_OPERAND, NOT + ADD + BAD_KIND + [7, 1] + CONSTANT,  # 4 after
        NOT * 64 + BAD_KIND, NOT * 64 + [14, 1], NOT * 64 + [BIG, 0], ADD * 64 + BAD_KIND + CONSTANT * 64,  # 5 in the same node
        ADD + deep_child + BAD_KIND, NOT * 65 + BAD_KIND,  # 5 before
        ADD + BAD_KIND + deep_child, NOT + BAD_KIND + deep,  # 5 after
        ADD + BAD_KIND + CONSTANT * 2, BAD_KIND + CONSTANT, CONSTANT + BAD_KIND, over(2, 0, CONSTANT) + BAD_KIND,  # 7
        # 4
        NOT * 64 + BAD_OPERAND, NOT * 64 + [7, 1] + CONSTANT, NOT * 64 + [9, BIG] + CONSTANT,  # 5 in the same node
        ADD + deep_child + BAD_OPERAND, NOT * 65 + BAD_OPERAND,  # 5 before
        ADD + BAD_OPERAND + deep_child, [2, 1] + deep_child + CONSTANT,  # 5 after
        BAD_OPERAND + CONSTANT, [7, 1] + CONSTANT * 2, CONSTANT + BAD_OPERAND, over(2, 0, CONSTANT) + [7, 1],  # 7
        # 5
        deep + CONSTANT, ADD * 64 + CONSTANT * 66, right_chain(64) + VARIABLE, CONSTANT + deep,  # 7
        # three
        [14, 1] + CONSTANT, deep + BAD_KIND + BAD_OPERAND, CONSTANT + BAD_OPERAND + BAD_KIND, CONSTANT + BAD_KIND + [0],
        ADD + BAD_OPERAND + BAD_KIND + CONSTANT * 3, ADD + BAD_KIND + BAD_OPERAND + CONSTANT * 3, BAD_KIND + [1, BIG, 0],
    ]


def two_refusals():
    return [line for words in with_two_refusals() for line in calls(TREE_CALLS, words)]


# Damaged trees

def damaged_trees(rng, once, twice):
    lines = []
    for turn in range(once + twice):
        words = damaged(rng, some_tree(rng, some_size(rng, 40)))
        if turn >= once and words:
            words = damaged(rng, words)
        lines += calls(TREE_CALLS if turn % 8 == 0 else SHAPE_CALLS, words)
    return lines


def rubbish(rng, count):
    """Nodes drawn one by one, kinds mostly good."""
    lines = []
    for _ in range(count):
        words = []
        for _ in range(1 + rng.below(14)):
            kind = rng.below(14) if rng.below(12) else stray_word(rng)
            words += [kind, rng.below(3) if kind in WITH_NUMBER or rng.below(20) == 0 else 0]
        lines += calls(SHAPE_CALLS, words)
    return lines


# Spans

def before_others(rng, count):
    """A tree and words behind it."""
    lines = []
    for _ in range(count):
        tree = some_tree(rng, 1 + rng.below(15))
        lines.append(request("span", tree + some_tree(rng, 1 + rng.below(10))))
        lines.append(request("span", tree + [stray_word(rng) for _ in range(2 + 2 * rng.below(4))]))
    return lines


def first_subtrees(rng):
    lines = before_others(rng, 40)
    for size in (10, 18, 25):
        tree = random_tree(rng, size, any_leaf)
        lines += [request("span", tree[at:]) for at in range(0, len(tree), 2)]
    return lines


def unlooked_at():
    """A span looks at neither operands nor depth."""
    lists = [nots(300, VARIABLE), nots(300, VARIABLE) + BAD_KIND, nots(511, VARIABLE), NOT * 511 + BAD_KIND, NOT * 300,
             left_chain(255), left_chain(255) + BAD_KIND, right_chain(255), right_chain(255)[:-2], ADD * 300,
             ADD * 100 + CONSTANT * 150, [7, MAX] * 70 + BAD_OPERAND, [2, MAX, 1, MAX, 13, 1, 0, 0, 12, BIG, 1, BIG]]
    return [request("span", words) for words in lists]


# Equal lists

def changed_at_each_word(words):
    lines = []
    for at, word in enumerate(words):
        for other in dict.fromkeys([word ^ 1, word ^ (1 << 32), word ^ (1 << 63), word ^ 0xFF]):
            lines += [pair(words, changed(words, at, other)), pair(changed(words, at, other), words)]
    return lines


def other_lengths(words):
    lines = [pair(words, words)]
    for end in range(len(words)):
        lines += [pair(words, words[:end]), pair(words[:end], words), pair(words[end:], words)]
    return lines


def known_pairs():
    node = [1, 0]
    full = NOT + balanced([VARIABLE] * 256)
    pairs = [([], []), ([], node), (node, []), ([], [0]), ([0], []), ([0], [0]), ([0], [1]), (node, node),
             ([0, 0], [0, 1 << 63]), ([0, MAX], [0, MAX >> 1]), ([0, MAX], [0, BIG - 1]), ([0, MAX], [0, MAX]),
             ([1, 1], [1, BIG + 1]), ([BIG, 0], [0, 0]), ([BIG + 1, 0], [1, 0]), ([BIG, 0], [BIG, 0]),
             ([MAX, MAX], [MAX, MAX]), ([MAX, MAX], [MAX, MAX - 1]), ([0, 1], [1, 0]), ([0, 0], [1, 0]),
             (ADD + CONSTANT + VARIABLE, ADD + VARIABLE + CONSTANT), ([3, 0] + CONSTANT * 2, ADD + CONSTANT * 2),
             (nots(64), nots(64)), (nots(64), nots(63)), (BAD_OPERAND, BAD_OPERAND), (full, full),
             (full, full[:-1] + [1]), ([8, 0] + full[2:], full), (full, full[:-2]), (full[2:], full)]
    return [pair(left, right) for left, right in pairs]


def random_pairs(rng, count):
    lines = []
    for _ in range(count):
        tree = some_tree(rng, 1 + rng.below(15))
        lines += [pair(tree, tree), pair(tree, some_tree(rng, len(tree) // 2)),
                  pair(tree, changed(tree, rng.below(len(tree)), stray_word(rng)))]
    return lines


def equal_lists(rng):
    base = [13, 0, 9, 4, 1, 2, 2, 0, 0, MAX, 1, 7]
    return known_pairs() + changed_at_each_word(base) + other_lengths(base) + random_pairs(rng, 40)


def further(rng, size):
    """For long runs: other trees at each seed, of at most so many bytes."""
    return rounds(size, lambda: random_trees(rng, 100, TREE_CALLS) + damaged_trees(rng, 200, 60) + rubbish(rng, 100) + before_others(rng, 30)
                  + random_pairs(rng, 30) + [request("arity_of", [stray_word(rng)]) for _ in range(60)]
                  + calls(TREE_CALLS, about_64_levels(rng)) + calls(TREE_CALLS, about_64_levels(rng)))
