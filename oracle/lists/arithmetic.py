"""Requests to arith.rs."""
from .common import BIG, EDGES, MAX, request, rounds

WIDTHS = [0, 1, 2, 7, 8, 31, 32, 63, 64, 65, BIG - 1]
SHIFTS = [0, 1, 4, 7, 8, 31, 32, 63, 64, 65, BIG, MAX]


def near(width):
    """Values about the bounds of a width."""
    top = 1 << min(width, 64)
    return [n & MAX for n in (top >> 1, (top >> 1) - 1, top - 1, top, top + 1)]


def filled(rng, known, count):
    """The known values, each once, and random ones up to the count."""
    known = list(dict.fromkeys(known))
    return known + [rng.any_size() for _ in range(count - len(known))]


def masks():
    widths = WIDTHS + list(range(71)) + [0x7F, 0x80, 0xFF, 0x100, 0x140, 0x10000, 0x7FFFFFFF, 0x80000000]
    return [request(name, [w]) for name in ("bitmask", "sign_bit_mask") for w in widths]


def one_value(rng):
    return [request(name, [a, w]) for name in ("mod_neg", "mod_not", "zext", "trunc") for w in WIDTHS
            for a in filled(rng, EDGES + near(w), 40)]


def two_values(rng):
    lines = []
    for name in ("mod_add", "mod_sub", "mod_mul"):
        for w in WIDTHS:
            known = EDGES + near(w)
            lines += [request(name, [a, rng.pick(known), w]) for a in filled(rng, known, 30)]
            lines += [request(name, [rng.any_size(), rng.word(), w]) for _ in range(10)]
    return lines


def shifts(rng):
    lines = [request("mod_shr", [0x100, 4, 8])]
    for w in WIDTHS:
        for k in SHIFTS:
            lines += [request("mod_shr", [a, k, w]) for a in (MAX, rng.pick(EDGES), rng.word())]
        lines += [request("mod_shr", [rng.word(), rng.below(66), w]) for _ in range(6)]
        lines += [request("mod_shr", [rng.word(), rng.any_size(), w]) for _ in range(2)]
    return lines


def sign_extensions(rng):
    lines = []
    for source in WIDTHS:
        for to in WIDTHS:
            known = near(source)[:3] + [rng.pick(near(to)), rng.pick(EDGES), MAX, rng.word()]
            lines += [request("sext", [v, source, to]) for v in filled(rng, known, 8)]
    return lines


def at_random(rng, count):
    """Each call so many times: any width, and values about it or of any size."""
    lines = []
    for _ in range(count):
        w, to = [rng.below(68) if rng.below(8) else rng.pick(WIDTHS) for _ in range(2)]
        a, b = [rng.pick(near(w)) if rng.below(3) == 0 else rng.any_size() for _ in range(2)]
        k = rng.below(66) if rng.below(3) else rng.any_size()
        lines += [request("bitmask", [w]), request("sign_bit_mask", [w]), request("mod_shr", [a, k, w]), request("sext", [a, w, to])]
        lines += [request(name, [a, b, w]) for name in ("mod_add", "mod_sub", "mod_mul")]
        lines += [request(name, [a, w]) for name in ("mod_neg", "mod_not", "zext", "trunc")]
    return lines


def further(rng, size):
    """For long runs: other numbers at each seed, of at most so many bytes."""
    return rounds(size, lambda: at_random(rng, 100))
