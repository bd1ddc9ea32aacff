"""Tables of frames for the report, built without asking what it says of them."""
from .build import BAD_KIND, BAD_OPERAND, CONSTANT, balanced, damaged, nots
from .common import BIG, MAX, rounds
from .conditions import drawn, negated, several, stack
from .refusals import CAST, OTHER, broken
from .rewrites import no_tree_lists, parts, random_width, worked_trees
from .sites import ADD, AND, BITWISE, NEG, NOT, OR, X, Y, about_64_levels, comb, quiet
from .stacks import (SHR1, between, busy, depth, going_down, largest_room, leftward, level_by_level, numbered, other_leaf, pairs,
                     pairs_of_2048, room_of_2048, some_leaf)
from .trees import with_two_refusals

MOST_LINES = 65535
HIGHEST = [1, BIG - 1]  # the variable of the most conditions


def frame(words, width=8):
    """A line without its 0a."""
    nodes = zip(words[::2], words[1::2])
    return (f"{width:02x}" + "".join(f"{kind:02x}{operand:016x}" for kind, operand in nodes)).encode()


def has_frame(words):
    return words and len(words) % 2 == 0 and all(kind <= 255 for kind in words[::2])


def table(lines):
    return b"".join(line + b"\n" for line in lines)


def shuffled(rng, lines):
    """So that a short line follows a long one, and an accepted one a refused one."""
    lines = list(lines)
    for at in range(len(lines) - 1, 0, -1):
        other = rng.below(at + 1)
        lines[at], lines[other] = lines[other], lines[at]
    return lines


# Accepted lines

def small_lines(rng, count):
    """To 12 nodes; each fifth of a few nodes that the rules look for."""
    few = parts(8)
    lines = []
    for turn in range(count):
        width = random_width(rng)
        if turn % 5 == 0:
            words = rng.pick([[], NOT]) + rng.pick(BITWISE) + rng.pick(few) + rng.pick(few)
        else:
            words = busy(rng, width, 1 + rng.below(12), [some_leaf, other_leaf][turn % 2])
        lines.append(frame(words, width))
    return lines


def middle_lines(rng, count):
    """To 40 nodes."""
    return [frame(words, random_width(rng)) for words in several(count, lambda: drawn(rng, 1 + rng.below(40)))]


def large_lines(rng, count):
    """From 60 nodes to 512, with many sites and with none."""
    lines = []
    for turn in range(count):
        width = random_width(rng)
        nodes = 60 + rng.below(1 + rng.below(453))
        words = [lambda: busy(rng, width, nodes, other_leaf), lambda: busy(rng, width, nodes, some_leaf),
                 lambda: quiet(rng, width, nodes), lambda: several(1, lambda: drawn(rng, nodes))[0]][turn % 4]()
        lines.append(frame(words, width))
    return lines


def full_lines(rng, count):
    """Of 512 nodes."""
    full = [frame(NOT + balanced([X] * 256)), frame(NEG + quiet(rng, 8, 511)), frame(balanced([NOT * 30 + X] * 15 + [NOT * 31 + Y]))]
    return full + [frame(several(1, lambda: drawn(rng, 512))[0], random_width(rng)) for _ in range(count)]


def turning_lines(rng, count):
    """Nots over And and Or with Nots below them."""
    lines = []
    while len(lines) < count:
        below = [numbered(), lambda: some_leaf(rng, 8)][rng.below(2)]
        over = rng.below(12)
        words = [lambda: going_down(rng, over, 1 + rng.below(14), below), lambda: leftward(over, 1 + rng.below(14), below),
                 lambda: between(rng, rng.below(4), 1 + rng.below(9), below), lambda: negated(rng, 4 + rng.below(90)),
                 lambda: NOT * over + level_by_level([below() for _ in range(2 + rng.below(20))], [AND, OR])][rng.below(5)]()
        if depth(words) <= 64:
            lines.append(frame(words, random_width(rng)))
    return lines


def about_2048(rng, count):
    """n + D up to some nodes above or below 2,048: Nots over balanced levels, with a shift over some leaves."""
    lines = []
    for _ in range(count):
        over = 4 + rng.below(50)
        leaves = [SHR1 * (rng.below(4) == 0) + [1, number] for number in range((2045 + rng.below(8)) // (over + 2))]
        words = NOT * over + level_by_level(leaves, [AND, OR])
        if len(words) <= 1024 and depth(words) <= 64:
            lines.append(frame(words, random_width(rng)))
    return lines


def deep_lines(rng):
    """To 64 levels: stacks of Nots, and chains."""
    words = [nots(count, X) for count in (1, 2, 30, 31, 62, 63)] + [stack(count, 0) for count in (1, 2, 17, 40, 61)]
    words += [comb(rng, levels, end) for levels in (1, 20, 61, 62) for end in (AND + X + X, OR + X + [0, 0])]
    words += [(AND + X) * 63 + Y, AND * 63 + X + [0, 5] * 63, (NOT + OR) * 31 + X + (NOT + Y) * 31, leftward(1, 61, numbered())]
    return [frame(tree, random_width(rng)) for tree in words]


def at_the_limits():
    """n + D = 2,048, the highest variable, a condition without one, and the widths 1 and 64."""
    for words in (room_of_2048(), pairs_of_2048()):
        assert len(words) // 2 + pairs(words) == 2048
    words = [room_of_2048(), pairs_of_2048(), HIGHEST, AND + HIGHEST + X, AND + X + HIGHEST, OR + HIGHEST + [0, 0],
             CONSTANT, [0, MAX], AND + [0, 3] + [0, 1], ADD + [0, MAX] + NOT + [0, 1], balanced([[0, 7]] * 40), AND + X + [0, 0]]
    return [frame(tree, width) for tree in words for width in (1, 8, 64)]


def worked_lines():
    """Document 01's cases."""
    return [frame(words, width) for words, width in worked_trees()]


# Refused lines

def with_one_more(words):
    """A shift over the last leaf: n + D is one more, and D as it was."""
    more = words[:-2] + SHR1 + words[-2:]
    assert depth(more) <= 64
    return more


def lines_of_9():
    words = [with_one_more(room_of_2048()), with_one_more(pairs_of_2048()), largest_room(), NOT + room_of_2048()]
    assert [len(tree) // 2 + pairs(tree) for tree in words[:2]] == [2049, 2049]
    return [frame(tree, width) for tree in words for width in (1, 8, 64)]


def lines_of_3_to_7():
    """What is no tree, the orders between two refusals too."""
    lists = no_tree_lists() + with_two_refusals()
    lists += [BAD_OPERAND, BAD_KIND, [255, 0], [13, 0] + X + BAD_KIND, NOT * 64 + X, leftward(1, 63, numbered())]
    return [frame(words) for words in lists if has_frame(words) and len(words) <= 1024]


def lines_of_8():
    """A cast or a Concat, at the root and below it, and behind or before what is refused for another reason."""
    lists = []
    for words in (CAST, [11, 8] + X, [12, 8] + CONSTANT, [12, 65] + X, OTHER):
        lists += [words, NOT + words, AND + words + X, OR + X + words, NOT * 20 + words, NOT * 60 + AND + words + words] + broken(words)
    return [frame(words) for words in lists if has_frame(words)]


def lines_of_1():
    """Each width that is none, over a tree, over what is none, and over a tree with no room."""
    lists = [X, CONSTANT, AND + X + X, CAST, BAD_KIND, NOT, X * 2, BAD_OPERAND, nots(64), largest_room()]
    return [frame(words, width) for width in (0, 65, 66, 127, 128, 255) for words in lists]


def damaged_lines(rng, count):
    """Words changed, put in or taken out."""
    lines = []
    while len(lines) < count:
        words = damaged(rng, busy(rng, 8, 1 + rng.below(16)))
        if has_frame(words):
            lines.append(frame(words, random_width(rng) if rng.below(9) else rng.pick([0, 65, 255])))
    return lines


# 14: what is no frame

NEAR = b"/:@G`g"  # the neighbours of the digits
OTHER_BYTES = b"ABCDEF" + NEAR + b" \t\r\x00\x7f\x80\xb0\xe1\xffx-+"


def with_byte(line, at, byte):
    return line[:at] + bytes([byte]) + line[at + 1:]


def misspelt(rng):
    """Each byte that is no digit, in each place of a node and of the width."""
    line = frame(AND + X + [0, 0xABCDEF])
    lines = [with_byte(line, rng.below(len(line)), byte) for byte in range(256) if byte not in b"\n0123456789abcdef"]
    lines += [with_byte(line, at, byte) for at in (0, 1, 2, 3, 4, 19, 20, 21, 22, len(line) - 1) for byte in OTHER_BYTES]
    return lines + [line.upper(), frame(X, 10).upper(), line[:-1] + b"F", frame([13, 0] + X + X).upper()]


def of_other_length(rng):
    """Lengths around those of a frame, and the empty line."""
    digits = frame(quiet(rng, 8, 512)) + b"0" * 40
    lengths = [0, 1, 2, 3, 18, 19, 21, 22, 36, 37, 39, 55, 57, 9199, 9201, 9217, 9219, 9220, 9235, 9236, 9237, 9254]
    return [digits[:length] for length in lengths] + [frame(X) + b" ", b" " + frame(X), b"", b""]


def with_return(rng):
    """0d before the 0a: a line too long by one, or one whose last digit is missing."""
    lines = [frame(words) for words in several(6, lambda: drawn(rng, 1 + rng.below(9)))]
    return [line + b"\r" for line in lines] + [line[:-1] + b"\r" for line in lines] + [b"\r", b"\r\r"]


def with_two_faults():
    """14 goes before all others, wherever in the line it stands."""
    return [frame(X, 0)[:-1], frame(X, 65).replace(b"41", b"4G", 1), frame([255, 0])[:-1] + b"F", frame(BAD_OPERAND).upper() + b"A",
            frame(CAST)[:-1] + b"g", frame(largest_room())[:-1] + b"A", frame(X, 255).upper(), frame(NOT)[:-1] + b"\x00",
            frame(balanced([CONSTANT] * 257)), frame(NOT * 513), frame(BAD_KIND * 513, 0), b"0" * 9218 + b"0" * 18]


def garbled_lines(rng, count):
    """Bytes of a frame changed, put in or taken out."""
    lines = []
    for _ in range(count):
        line = frame(busy(rng, 8, 1 + rng.below(9)), random_width(rng))
        for _ in range(1 + rng.below(2)):
            at = rng.below(len(line))
            byte = rng.pick(OTHER_BYTES) if rng.below(2) else rng.pick(b"0123456789abcdef")
            line = rng.pick([with_byte(line, at, byte), line[:at] + line[at + 1:], line[:at] + bytes([byte]) + line[at:], line[:at],
                             line + line[:at], line[at:]]) or b"0"
        lines.append(line)
    return lines


def refused_lines(rng):
    return (lines_of_9() + lines_of_3_to_7() + lines_of_8() + lines_of_1() + damaged_lines(rng, 150) + misspelt(rng) + of_other_length(rng)
            + with_return(rng) + with_two_faults() + garbled_lines(rng, 150))


# Tables

def stored(random):
    """The list of `crates/report`. Its last line lacks its 0a."""
    rng = random(130)
    lines = (worked_lines() + at_the_limits() + small_lines(rng, 1500) + middle_lines(rng, 500) + large_lines(rng, 40) + full_lines(rng, 9)
             + turning_lines(rng, 250) + about_2048(rng, 12) + deep_lines(rng) + refused_lines(rng))
    return table(shuffled(rng, lines)) + frame(NOT + AND + NOT + X + Y)


def further(rng, size):
    """For long runs: other lines at each seed, of at most so many bytes, in an order of their own."""
    refused = refused_lines(rng)
    short = [line for line in refused if len(line) < 1000]
    lines = rounds(size, lambda: small_lines(rng, 400) + middle_lines(rng, 60) + turning_lines(rng, 20) + large_lines(rng, 1)
                   + damaged_lines(rng, 60) + garbled_lines(rng, 60) + [rng.pick(short) for _ in range(60)] + [rng.pick(refused)]
                   + about_2048(rng, 1) + [frame(about_64_levels(rng))])
    whole = table(shuffled(rng, lines))
    return whole if rng.below(2) else whole.removesuffix(b"\n")


def many(rng, count):
    """So many lines, each one of some hundreds."""
    few = small_lines(rng, 400) + garbled_lines(rng, 60) + lines_of_8() + lines_of_1()[:20]
    return table(rng.pick(few) for _ in range(count))


def junk(rng, count):
    """Bytes without a line end."""
    return bytes(rng.below(245) + 11 for _ in range(count))


def longest(rng):
    """Lines around the longest that is a frame, and far longer ones, between short ones."""
    full = frame(quiet(rng, 8, 512))
    short = frame(NOT + AND + NOT + X + Y)
    lengths = [9216, 9217, 9218, 9219, 9220, 9235, 9236, 9237, 18436, 65535, 65536, 65537, 1000000]
    more = full + b"0" * 1000000
    lines = [line for length in lengths for line in (more[:length], short)]
    return table(lines + [full, full[:-1], full + b"0", b"", full])
