"""Requests to digits, lines and frames, and to the two calls that frames share with the rest."""
from .build import BAD_KIND, BAD_OPERAND, CONSTANT, NOT, VARIABLE, balanced, damaged, nots, right_chain, some_size, some_tree
from .common import BIG, EDGES, MAX, request, rounds
from .refusals import broken
from .rewrites import no_tree_lists, random_width
from .sites import AND, X, Y, about_64_levels
from .stacks import busy
from .tables import OTHER_BYTES, frame, garbled_lines, has_frame, with_byte, with_two_faults
from .trees import with_two_refusals

MOST_WORDS, MOST_BYTES = 1100, 9472  # that a call can be lent
EXAMPLE = NOT + AND + NOT + X + Y
WIDTHS = [0, 1, 2, 63, 64, 65, 255]
END = b"\n"


def check_at(words, width=8):
    return request("check_tree_at", [width], words)


def copied(words, size):
    return request("copy_words", [size], words)


def digits_put(n, count, size):
    return request("put_digits", [n, count, size])


def nodes_read(text, size):
    return request("read_nodes", [size], text)


def nodes_put(words, size):
    return request("put_nodes", [size], words)


def keep(chunk, have, room, before=b""):
    return request("keep", [have, room], before, chunk)


def read(line, size=MOST_WORDS):
    return request("read_frame", [size], line)


def written(words, width=8, size=None):
    return request("write_frame", [width, due(words) if size is None else size], words)


def due(words):
    """Bytes that a written frame takes."""
    return min(MOST_BYTES, 3 + 9 * len(words))


def text_of(words):
    """The digits of nodes."""
    return frame(words)[2:]


def with_end(lines):
    """Each line without its 0a and with it."""
    return [line for one in lines for line in (one, one + END)]


def in_each_call(words, width=8):
    """The calls on a tree, each with just enough room."""
    return [check_at(words, width), written(words, width)] + (
        [read(frame(words, width) + END, len(words))] if has_frame(words) and width < 256 else [])


# Digits

def every_byte():
    """Each byte alone, at each end of a number and within it, and in places of a node and of a frame."""
    sixteen, node, line = b"0123456789abcdef", text_of([7, 0xFEDCBA9876543210]), frame([0, 0xABCDEF], 64)
    lines = []
    for byte in range(256):
        one = bytes([byte])
        lines += [request("number", text) for text in (one, one + b"1", b"1" + one, b"1" + one + b"2")]
        lines += [request("number", with_byte(sixteen, at, byte)) for at in (0, 7, 8, 15)] + [request("number", one + sixteen)]
        lines += [nodes_read(with_byte(node, at, byte), 2) for at in (0, 2, 10, 17)]
        lines += [read(with_byte(line, at, byte), 2) for at in (0, 1, 3, 19)]
    return lines


def numbers(rng):
    """From none to 40 digits; of more than 16 the first are cut off, but looked at."""
    texts = [b"0" * count + b"1" for count in (0, 1, 14, 15, 16, 17, 30)] + [b"", b"f" * 16, b"f" * 17, b"1" + b"0" * 16, b"1" + b"0" * 15]
    texts += [b"A" + b"1" * 16, b"g" + b"1" * 20, b"1" * 20 + b"G", b"F" * 16, b"0x12", b"-1", b"+1", b" 1", b"1 ", b"12\n"]
    for count in list(range(1, 21)) * 3 + [33, 40]:
        texts.append(bytes(rng.pick(b"0123456789abcdef") for _ in range(count)))
    for count in (2, 8, 16, 17, 25):
        texts += [with_byte(texts[-1][:count], rng.below(count), rng.pick(OTHER_BYTES)) for _ in range(4)]
    return [request("number", text) for text in texts]


def put(rng):
    lines = [digits_put(n, count, size) for n in EDGES for count in (0, 1, 2, 8, 15, 16, 17, 20, BIG - 1)
             for size in (0, 1, 2, 15, 16, 17, 24)]
    lines += [digits_put(MAX, MOST_BYTES, MOST_BYTES), digits_put(rng.word(), BIG - 1, 400), digits_put(rng.word(), 400, MOST_BYTES)]
    for count in range(17):
        top = 16**count
        for n in dict.fromkeys([top - 1, top & MAX, rng.word() % top]):
            lines += [request("put_number", [n, size]) for size in dict.fromkeys([0, 1, max(count, 1) - 1, count, count + 1, 20])]
    for _ in range(150):
        lines += [digits_put(rng.any_size(), rng.below(20), rng.below(24)), request("put_number", [rng.any_size(), rng.below(20)])]
    return lines + [request("put_number", [MAX, MOST_BYTES]), request("put_number", [0, MOST_BYTES])]


def some_words(rng, count):
    return [rng.pick([rng.below(14), rng.pick(EDGES), rng.any_size()]) for _ in range(count)]


def nodes(rng):
    """Texts that end within a node, and each number of places around those of the nodes; a kind of more than two digits."""
    lines = []
    for count in range(5):
        words = some_words(rng, 2 * count)
        text = text_of([word % 256 if at % 2 == 0 else word for at, word in enumerate(words)])
        for size in range(2 * count + 3):
            lines += [nodes_read(more, size) for more in dict.fromkeys([text, text + b"0", text + b"G", text[:-1], text + text[:17]])]
        for size in {0, 1} | {18 * k + step for k in range(count + 2) for step in (-1, 0, 1) if k}:
            lines += [nodes_put(words, size), nodes_put(words + [7], size)]
    for size in (0, 1, 2, 3, 4, 5, 6):
        lines += [nodes_read(text_of(X * 3)[:at] + b"G" + text_of(X * 3)[at + 1:], size) for at in (0, 17, 18, 35, 36, 53)]
    for kind in (15, 16, 255, 256, 257, 0xABCD, BIG, BIG + 13, MAX):
        lines.append(nodes_put([kind, MAX, 1, kind], 36))
    for _ in range(60):
        words = some_words(rng, rng.below(12))
        text = text_of([word % 256 for word in words[:len(words) // 2 * 2]])
        lines += [nodes_put(words, rng.below(130)), nodes_read(text, rng.below(14)), nodes_read(text.upper(), rng.below(14))]
    full = some_words(rng, MOST_WORDS)
    return lines + [nodes_put(full, MOST_BYTES), nodes_put(full[:1023], 9215),
                    nodes_read(b"0f" * (MOST_BYTES // 2), MOST_WORDS)]


# Lines

def some_bytes(rng, count):
    """Without a 0a."""
    return bytes(rng.pick(b"0123456789abcdef\x00\t\x0b\r\x8a\xff") for _ in range(count))


def chunks(rng):
    """Chunks about whole blocks of 16 bytes, without a 0a and with one at each place; then with two."""
    found = []
    for count in (0, 1, 2, 15, 16, 17, 31, 32, 33, 48, 49):
        chunk = some_bytes(rng, count)
        found += [chunk] + [with_byte(chunk, at, 10) for at in range(count)]
    for count in (2, 17, 33):
        chunk = some_bytes(rng, count)
        found += [with_byte(with_byte(chunk, at, 10), other, 10) for at in range(0, count, 3) for other in (at + 1, count - 1)
                  if other < count]
    return found + [END * count for count in (2, 15, 16, 17, 40)]


def ends(rng):
    return [request("end_of", chunk) for chunk in chunks(rng)]


def kept(rng):
    """Each chunk behind few bytes with room for all of it, and with less; then each order between what is kept, the room and the chunk."""
    lines = []
    for chunk in chunks(rng):
        lines += [keep(chunk, 3, 56, b"abc"), keep(chunk, rng.below(20), rng.below(40), some_bytes(rng, rng.below(20)))]
    for room in (0, 1, 2, 16, 17):
        for have in dict.fromkeys([0, 1, max(room, 1) - 1, room, room + 1, 255, BIG - 1]):
            lines += [keep(chunk, have, room, before) for chunk in (b"", END, b"d", b"def\nghi", b"0123456789abcdef0123\n", b"fe" * 10)
                      for before in (b"", b"0123456789abcdef0123")]
    return lines


def long_chunks(rng):
    lines = []
    for count in (500, 2499):
        chunk = with_byte(some_bytes(rng, count), count - 1 - rng.below(40), 10)
        lines += [request("end_of", chunk), keep(chunk, 20, 300, some_bytes(rng, 20))]
    return lines + [request("end_of", some_bytes(rng, MOST_BYTES)), keep(b"ab", MOST_BYTES - 1, MOST_BYTES, b"0")]


# Frames

def lengths():
    """Around those of a frame, and numbers of which a part is such a length."""
    known = list(range(121)) + [2 + 18 * count + step for count in list(range(3, 512, 7)) + [511, 512, 513] for step in (-1, 0, 1)]
    known += list(range(9190, 9260)) + [256 + 20, 65536 + 20, 65536 + 9218, BIG + 20, BIG + 9218, (1 << 63) + 20, MAX - 1, MAX]
    known += [18 * (1 << 59) + 20, MAX // 18 * 18 + 2, 2 + 18 * 513 * 512]
    return [request("nodes_in", [length]) for length in dict.fromkeys(known)]


def worked():
    """Document 01's frame and its end tree's."""
    return in_each_call(EXAMPLE) + in_each_call([5, 0] + X + NOT + Y) + [read(frame(EXAMPLE), 10)]


def full_frames():
    """9,217 to 9,220 bytes and 9,236, with a 0a and without; 511 nodes; one word too few."""
    full = frame(NOT + balanced([VARIABLE] * 256), 64)
    longer = full + text_of(X)
    lines = [read(line) for line in with_end([longer[:length] for length in (9217, 9218, 9219, 9220, 9236)])]
    return lines + [read(frame(balanced([VARIABLE] * 256), 1) + END, 1022), read(full, 1023)]


def small_lengths():
    """Each length about those of one and two nodes, and 0a in places where none may stand."""
    two = frame(NOT + X)
    more = two + text_of(X)
    lines = [read(line, 4) for line in with_end([more[:length] for length in (0, 1, 2, 3, 10, 18, 19, 20, 21, 22, 36, 37, 38, 39, 55, 56)])]
    lines += [read(two + end, 4) for end in (END * 2, END * 3, b"\r", b"\r\n", b"\n\r", b"\n0", b"\0", b"\n\0", b" ")]
    lines += [read(line, 4) for line in with_end([END + two, END + two[1:], two[:-1] + END, two[:-1] + b"\r", two[1:]])]
    return lines + [read(with_byte(line, at, 10), 4) for line in (two, two + END) for at in range(0, 38, 3)]


def upper_case():
    line = frame(AND + [0, 0xABCDEF] + X, 10)
    lines = [line.upper(), line[:1] + line[1:2].upper() + line[2:], frame([13, 0] + X + X).upper(), frame([10, 8] + X).upper()]
    lines += [line[:at] + line[at:at + 1].upper() + line[at + 1:] for at in range(len(line)) if line[at:at + 1] in b"abcdef"]
    return [read(one, 10) for one in with_end(lines)]


def widths():
    """Each width of two digits; the others only where the width is a number. Width before the tree, and before the room."""
    lines = [read(frame(X, width) + END, 2) for width in range(256)]
    for width in WIDTHS + [256, 264, BIG - 1]:
        for words in (X, EXAMPLE, [], [0], BAD_KIND, BAD_OPERAND, NOT, X * 2, nots(64), [10, 65] + X):
            lines += in_each_call(words, width) + [written(words, width, 0)]
            lines += [read(frame(words, width), 0)] if has_frame(words) and width < 256 else []
    return lines


def sizes():
    lines = []
    for words in (X, CONSTANT, NOT + X, EXAMPLE, [13, 0] + X + [10, 8] + X, nots(20, X)):
        need, count = due(words), len(words)
        lines += [written(words, 8, size) for size in dict.fromkeys([0, 1, 2, count, need - 18, need - 2, need - 1, need, need + 1, need + 2,
                                                                     need + 18, 9221])]
        lines += [read(frame(words), size) for size in dict.fromkeys([0, 1, count - 2, count - 1, count, count + 1, count + 2, MOST_WORDS])]
    return lines


def limits():
    """512 nodes, 513, one less, and 64 and 65 levels."""
    full = NOT + balanced([VARIABLE] * 256)
    lines = [line for words in (full, full[2:], full + X) for line in (check_at(words), check_at(words, 0), written(words, 8, 0))]
    lines += [written(full, 64), written(full, 64, 9218), written(full, 1, MOST_BYTES), written(full[2:], 1)]
    for words in (nots(63, X), nots(64, X), right_chain(63, X), right_chain(64, X), NOT * 63 + BAD_KIND, NOT * 64 + BAD_KIND):
        lines += in_each_call(words) + [read(frame(words), len(words) - 1)]
    return lines


def no_trees():
    """Every refusal of a list, and the orders between two; with room and without."""
    lists = no_tree_lists() + with_two_refusals() + [words for tree in (EXAMPLE, [10, 65] + X) for words in broken(tree)]
    lines = []
    for words in lists:
        lines += [check_at(words)] + ([written(words, 8, MOST_BYTES)] if len(words) < 400 else [])
        lines += [written(words, 8, 0)] if len(words) < 40 else []
        if has_frame(words) and len(words) < 140:
            lines.append(read(frame(words) + END))
            lines += [read(frame(words), 0), check_at(words, 65)] if len(words) < 20 else []
    return lines


def no_frames():
    """14 with each of the others."""
    faults = [line for line in with_two_faults() if len(line) < 300]
    return [read(line, size) for line in with_end(faults) for size in (0, MOST_WORDS)]


def copies(rng):
    lines = [copied(some_words(rng, count), size) for count in (0, 1, 2, 3, 8) for size in (0, 1, 2, 3, 4, 7, 8, 9, 12)]
    full = some_words(rng, MOST_WORDS)
    return lines + [copied(full, MOST_WORDS), copied(full, 1024), copied(full[:1024], MOST_WORDS), copied(full, 1), copied(full, 0)]


# At random

def random_size(rng, need, most):
    """Enough for a call, more, or less."""
    return min(most, max(0, need + rng.pick([0, 0, 0, 0, 1, 2, 7, 40, -1, -2, -18])))


def random_frames(rng, count, most):
    """Trees of up to so many nodes in each of the calls in turn."""
    lines = []
    for turn in range(count):
        words = busy(rng, 8, 1 + rng.below(most)) if turn % 2 else some_tree(rng, some_size(rng, most))
        width = random_width(rng) if rng.below(9) else rng.pick(WIDTHS)
        lines.append([lambda: read(frame(words, width) + END * rng.below(2), random_size(rng, len(words), MOST_WORDS)),
                      lambda: written(words, width, random_size(rng, due(words), MOST_BYTES)),
                      lambda: check_at(words, width)][turn % 3]())
    return lines


def damaged_frames(rng, count):
    """Words changed; and bytes of a line changed."""
    lines = []
    for _ in range(count):
        words = damaged(rng, some_tree(rng, some_size(rng, 16)))
        width = random_width(rng) if rng.below(9) else rng.pick(WIDTHS + [BIG - 1])
        lines += [check_at(words, width), written(words, width, random_size(rng, due(words), MOST_BYTES))]
        if has_frame(words) and width < 256:
            lines.append(read(frame(words, width) + END * rng.below(2), random_size(rng, len(words), MOST_WORDS)))
    return lines + [read(line + END * rng.below(2), rng.pick([MOST_WORDS, 20, 4])) for line in garbled_lines(rng, count)]


def random_digits(rng, count):
    lines = []
    for _ in range(count):
        text = bytes(rng.pick(b"0123456789abcdef") for _ in range(rng.below(40)))
        if text and rng.below(3) == 0:
            text = with_byte(text, rng.below(len(text)), rng.below(256))
        words = some_words(rng, rng.below(9))
        lines += [request("number", text), digits_put(rng.any_size(), rng.below(20), rng.below(24)),
                  request("put_number", [rng.any_size(), rng.below(20)]), nodes_read(text, rng.below(6)),
                  nodes_put(words, rng.below(80)), copied(words, rng.below(10)), request("nodes_in", [rng.below(10000)])]
    return lines


def random_chunks(rng, count):
    lines = []
    for _ in range(count):
        chunk = some_bytes(rng, rng.below(50))
        for _ in range(rng.below(3)):
            chunk = with_byte(chunk, rng.below(len(chunk)), 10) if chunk else END
        lines += [request("end_of", chunk), keep(chunk, rng.below(40), rng.below(40), some_bytes(rng, rng.below(40)))]
    return lines


def requests(random):
    return (worked() + every_byte() + numbers(random(190)) + put(random(191)) + nodes(random(192)) + ends(random(193)) + kept(random(194))
            + long_chunks(random(195)) + lengths() + full_frames() + small_lengths() + upper_case() + widths() + sizes() + limits()
            + no_trees() + no_frames() + copies(random(196)) + random_frames(random(197), 240, 20) + damaged_frames(random(198), 120)
            + random_digits(random(199), 60) + random_chunks(random(200), 60))


def further(rng, size):
    """For long runs: other requests at each seed, of at most so many bytes."""
    return rounds(size, lambda: random_frames(rng, 600, 12) + random_frames(rng, 6, 300) + damaged_frames(rng, 100)
                  + random_digits(rng, 200) + random_chunks(rng, 100) + in_each_call(about_64_levels(rng)) + in_each_call(about_64_levels(rng)))
