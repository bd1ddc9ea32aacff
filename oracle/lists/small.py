"""Every case of a small kind, for long runs: by program what hands out the lines one after the other."""
from itertools import chain as joined
from itertools import product

from .build import ADD, NOT, VARIABLE, all_trees, nots
from .candidates import candidate
from .chains import chain
from .common import BIG, request
from .costs import better, cost
from .frames import END, check_at, copied, digits_put, due, keep, nodes_put, nodes_read, read, text_of, written
from .refusals import WIDTH_CALLS
from .rewrites import local, room, site
from .sites import AND, MUL, NEG, OR, X, XOR, Y, ones
from .stacks import SHR0, SHR1
from .tables import frame, with_byte
from .trees import TREE_CALLS, pair
from .typed import CASTS, CONCAT
from .values import one_width, value

WIDTHS = [1, 2, 8]
UNARY = [NOT, NEG, SHR0, SHR1]
BINARY = [AND, OR, XOR, ADD, MUL]


def trees(width, most):
    """All trees of up to so many nodes of the kinds above, over two variables, 0, 1 and all ones."""
    leaves = [X, Y] + [[0, word] for word in dict.fromkeys([0, 1, ones(width)])]
    return joined.from_iterable(all_trees(leaves, UNARY, BINARY, most).values())


def lists(nodes):
    """All lists of so many nodes over the kinds 0 to 14 and the operands 0, 1 and the first over 32 bits."""
    few = [[kind, operand] for kind in range(15) for operand in (0, 1, BIG)]
    return (sum(some, []) for some in product(few, repeat=nodes))


# replay

def arithmetic():
    """All arguments for each width of up to five bits, with one bit above it."""
    for w in range(6):
        values = range(2 << w)
        yield from (request(name, [w]) for name in ("bitmask", "sign_bit_mask"))
        yield from (request(name, [a, w]) for name in ("mod_neg", "mod_not", "zext", "trunc") for a in values)
        yield from (request(name, [a, b, w]) for name in ("mod_add", "mod_sub", "mod_mul", "mod_shr") for a in values for b in values)
        yield from (request("sext", [a, w, to]) for to in range(7) for a in values)


def words():
    """All lists of up to three nodes; and pairs of lists of up to four words."""
    for nodes in range(4):
        for some in lists(nodes):
            yield from (request(name, some) for name in TREE_CALLS)
            yield cost(some)
    few = [list(some) for count in range(5) for some in product((0, 1), repeat=count)]
    yield from (pair(a, b) for a in few for b in few)
    yield from (request("arity_of", [kind]) for kind in range(300))


def widths():
    """All trees of up to four nodes over the widths 8 and 16, with casts to widths about these and about the limits."""
    casts = [[kind, width] for kind in CASTS for width in (0, 7, 8, 9, 16, 64, 65)]
    found = all_trees([[0, 5], X, Y], [NOT, SHR1] + casts, [ADD, AND, XOR, CONCAT], 4)
    for some in joined.from_iterable(found.values()):
        yield from (request(name, [8], [8, 16], some) for name in WIDTH_CALLS)
        yield one_width(some, 8, [8, 8])


def costs():
    yield from map(cost, trees(8, 6))
    yield from (better(some[:3], some[3:]) for some in product(range(3), repeat=6))


def values():
    """All trees of up to three nodes with all settings."""
    for width in (1, 2):
        for some in trees(width, 3):
            yield from (value(some, width, setting) for setting in product(range(1 << width), repeat=2))


# The rewriting programs

def rewrites():
    for width in WIDTHS:
        for some in trees(width, 6):
            yield local(some, width)
            yield site(some, width, room(some) + 2)


def chains():
    return (chain(some, width) for width in WIDTHS for some in trees(width, 6))


def candidates():
    """The first candidate, and where a sum has an Or the next ones."""
    for width in WIDTHS:
        for some in trees(width, 6):
            yield candidate(some, width)
            if some[0] == ADD[0] and OR[0] in some[::2]:
                yield from (candidate(some, width, number, len(some) + 2) for number in (1, 2, 3))


# replay_frames

def digits():
    """Each two bytes as a number, and few numbers with few places."""
    yield from (request("number", two) for two in product(range(256), repeat=2))
    yield from (digits_put(n, count, size) for n in range(300) for count in range(5) for size in range(6))
    yield from (request("put_number", [n, size]) for n in range(4200) for size in range(6))
    text = text_of([7, 0xFEDCBA9876543210] * 3)
    yield from (nodes_read(text[:end], size) for end in range(len(text)) for size in range(8))
    yield from (nodes_put(list(range(count)), size) for count in range(10) for size in range(100))
    yield from (copied(list(range(count)), size) for count in range(9) for size in range(11))


def lines():
    """All chunks of up to 12 bytes that are 0 or 0a; of up to five in each room; and two 0a in longer ones."""
    few = [bytes(some) for count in range(13) for some in product(b"0\n", repeat=count)]
    yield from (request("end_of", chunk) for chunk in few)
    yield from (keep(chunk, have, space, b"abc") for chunk in few[:63] for space in range(7) for have in range(8))
    for count in range(13, 50):
        for a, b in product(range(count), repeat=2):
            chunk = with_byte(with_byte(b"0" * count, a, 10), b, 10)
            yield request("end_of", chunk)
            yield keep(chunk, 2, count, b"ab")


def frames():
    """Each length; each width with each kind; each byte in each place; all lists of up to two nodes; all trees of up to five."""
    yield from (request("nodes_in", [length]) for length in range(9300))
    yield from (read(frame([kind, 0], width), 2) for width in range(256) for kind in range(256))
    line = frame(NOT + VARIABLE) + END
    yield from (read(with_byte(line, at, byte), 4) for at in range(len(line)) for byte in range(256))
    for nodes in range(3):
        for some in lists(nodes):
            yield from (check_at(some, width) for width in (0, 1, 64, 65))
            yield from (written(some, 8, max(0, due(some) + step)) for step in (-1, 0, 1))
    for some in trees(8, 5):
        yield written(some)
        yield read(frame(some), len(some))


# The report

def frames_of_trees():
    """The trees of up to five nodes, as lines of a table."""
    yield from (frame(some, width) for width in WIDTHS for some in trees(width, 5))
    yield from (frame(some, 8) for nodes in (1, 2) for some in lists(nodes))
    yield from (frame(nots(count, AND + X + NOT + Y), 8) for count in range(70))


PARTS = {"replay": [arithmetic, words, widths, costs, values], "replay_rewrites": [rewrites], "replay_chain": [chains],
         "replay_candidates": [candidates], "replay_frames": [digits, lines, frames], "report": [frames_of_trees]}
