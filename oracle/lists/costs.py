"""Requests to expr_cost.rs."""
from .build import (ADD, BINARY, CONSTANT, LEAVES, NOT, UNARY, VARIABLE, WITH_NUMBER, any_leaf, balanced, constant, over,
                    random_tree, some_size, some_tree, variable, with_one_variable)
from .common import BIG, request, rounds

MUL = [3, 0]
EDGES = [0, 1, 2, 0x7FFFFFFF, 0x80000000, BIG - 2, BIG - 1]


def cost(words):
    return request("compute_cost", words)


def product(left, right):
    return MUL + left + right


def products(parts):
    if len(parts) == 1:
        return parts[0]
    half = len(parts) // 2
    return product(products(parts[:half]), products(parts[half:]))


def known_costs():
    x, y, three = VARIABLE, [1, 1], [0, 3]
    lists = [product(x, y), product(three, x), product(x, three), product(three, three), product(x, x),
             product(product(x, y), x), product(x, product(x, y)), product(product(three, x), product(x, three)),
             product(product(three, three), product(x, y)), product(ADD + three + x, ADD + y + three),
             product(ADD + three + three, ADD + y + three), NOT + product(x, y), product(NOT + x, [9, 3] + three)]
    lists += [over(kind, 0, leaf) for kind in LEAVES + BINARY + UNARY for leaf in (CONSTANT, VARIABLE)]
    parts = (x, three, product(x, y))
    lists += [[kind, 0] + left + right for kind in BINARY for left in parts for right in parts]
    lists += [[kind, 7 if kind in WITH_NUMBER else 0] + product(left, x) for kind in UNARY for left in (y, three)]
    return [cost(words) for words in lists]


def with_products(rng, nodes):
    """Half of the nodes of two children are products."""
    if nodes == 1:
        return any_leaf(rng) if rng.below(3) else variable(rng)
    if nodes == 2 or rng.below(5) == 0:
        return [rng.pick(UNARY[:3]), 0] + with_products(rng, nodes - 1)
    left = 1 + rng.below(nodes - 2)
    kind = 3 if rng.below(2) else rng.pick(BINARY)
    return [kind, 0] + with_products(rng, left) + with_products(rng, nodes - 1 - left)


def random_costs(rng, many, some, few):
    trees = [with_products(rng, some_size(rng, 70)) for _ in range(many)]
    trees += [some_tree(rng, some_size(rng, 50)) for _ in range(some)]
    trees += [with_one_variable(rng, 1 + rng.below(20)) for _ in range(few)]
    trees += [products([rng.pick([constant, variable])(rng) for _ in range(1 + rng.below(24))]) for _ in range(few)]
    return [cost(words) for words in trees]


def largest(rng):
    """Of 512 nodes, of 64 levels, or both; the first has the largest weight of all."""
    x = [VARIABLE]
    trees = [NOT + products(x * 256), products(x * 256), NOT + products(x * 128 + [CONSTANT] * 128),
             NOT + products([CONSTANT] * 256), products([CONSTANT] * 255 + [NOT + VARIABLE]), NOT + balanced(x * 256),
             MUL * 63 + VARIABLE * 64, (MUL + VARIABLE) * 63 + VARIABLE, (MUL + CONSTANT) * 63 + VARIABLE,
             NOT * 63 + VARIABLE, NOT * 55 + products(x * 229),
             MUL * 63 + VARIABLE + CONSTANT * 63, MUL * 63 + CONSTANT * 63 + VARIABLE]
    trees += [with_products(rng, 512), with_products(rng, 511), random_tree(rng, 512, any_leaf)]
    return [cost(words) for words in trees]


# The order of costs

def better(candidate, baseline):
    return request("is_better", candidate, baseline)


def all_orders():
    """Each member less, equal or more, about middling and about edge values."""
    steps = [(w, n, d) for w in (-1, 0, 1) for n in (-1, 0, 1) for d in (-1, 0, 1)]
    bases = [(9, 4, 5), (1, 1, 1), (1 << 31, 1 << 31, 1 << 31), (BIG - 2,) * 3, (1, BIG - 2, 7), (BIG - 2, 1, 1 << 16)]
    return [better([a + b for a, b in zip(base, step)], base) for base in bases for step in steps]


def edge_orders():
    lines = []
    for a in EDGES:
        for b in EDGES:
            lines += [better([a, 0, 0], [b, 0, 0]), better([0, a, 0], [0, b, 0]), better([0, 0, a], [0, 0, b]),
                      better([7, a, b], [7, b, a]), better([a, b, 7], [b, a, 7]), better([a, 7, b], [b, 7, a])]
    return lines


def random_orders(rng, count):
    lines = []
    for _ in range(count):
        most = rng.pick([2, 3, 1 << 16, BIG])
        lines.append(better([rng.below(most) for _ in range(3)], [rng.below(most) for _ in range(3)]))
    return lines


def requests(random):
    return (known_costs() + random_costs(random(30), 500, 250, 60) + largest(random(31))
            + all_orders() + edge_orders() + random_orders(random(32), 200))


def further(rng, size):
    """For long runs: other costs at each seed, of at most so many bytes."""
    return rounds(size, lambda: random_costs(rng, 100, 50, 12) + random_orders(rng, 200))
