#!/usr/bin/env python3
"""Prints the requests of a test program (`programs` below), or the table of report, the same at every run."""
import sys

sys.dont_write_bytecode = True  # the repository stays as it is

from lists import arithmetic, candidates, chains, costs, frames, limits, readme, refusals, rewrites, tables, trees, values, widths
from lists.common import Random


def of_replay():
    # a seed for each part, so that a change to one leaves the others
    return (arithmetic.masks() + arithmetic.one_value(Random(1)) + arithmetic.two_values(Random(2))
            + arithmetic.shifts(Random(3)) + arithmetic.sign_extensions(Random(4))
            + trees.arities() + trees.valid_trees(Random(5))
            + trees.few_words() + trees.many_words(Random(6)) + trees.depths() + trees.operands() + trees.kinds()
            + trees.words_that_end(Random(7)) + trees.words_left_over(Random(8)) + trees.two_refusals()
            + trees.damaged_trees(Random(9), 600, 160) + trees.rubbish(Random(10), 120)
            + trees.first_subtrees(Random(11)) + trees.unlooked_at()
            + trees.equal_lists(Random(12))
            + widths.requests(Random) + costs.requests(Random) + values.requests(Random) + refusals.requests(Random)
            + readme.requests())


def of_replay_rewrites():
    return rewrites.requests(Random)


def of_replay_chain():
    return chains.requests(Random)


def of_replay_candidates():
    return candidates.requests(Random)


def of_replay_frames():
    return frames.requests(Random) + limits.of_frames()


programs = {"replay": of_replay, "replay_rewrites": of_replay_rewrites, "replay_chain": of_replay_chain,
            "replay_candidates": of_replay_candidates, "replay_frames": of_replay_frames}
if sys.argv[1] == "report":
    sys.stdout.buffer.write(tables.stored(Random))
else:
    for line in dict.fromkeys(programs[sys.argv[1]]()):
        print(line)
