#!/usr/bin/env python3
"""The limits of document 01 in the stored lists.

    python3 tests/limits.py

looks through the requests and answers that are stored for the test programs, and the report's table. For each request that takes a tree it counts
those with 512 nodes, 513, 64 levels, 65, and the widths 0, 1, 64 and 65 that have the right outcome. Where a case has none the status is 1."""
import os
import sys

CRATES = os.path.join(os.path.dirname(os.path.abspath(__file__)), "../crates")
PROGRAMS = ["replay", "replay_rewrites", "replay_chain", "replay_candidates", "replay_frames"]

PLAIN = ["check_tree", "span", "is_constant_subtree", "has_var_dep", "compute_cost"]
WITH_DEFAULT = ["checked_width_of", "width_of", "validate_widths", "is_uniform_width"]
AT_WIDTH = ["check_one_width", "value", "local", "site", "chain", "candidate", "check_tree_at", "write_frame"]
FRAMES = ["read_frame", "report"]

SIZES = ["512 nodes", "513 nodes", "64 levels", "65 levels"]
WIDTHS = {0: "width 0", 1: "width 1", 64: "width 64", 65: "width 65"}


# Trees

def shape(words):
    """The nodes and levels of a list that is one tree; else none."""
    due = [1]  # the levels of the nodes that are still due, the next one last
    most = at = 0
    while due:
        if at >= len(words):
            return None
        level = due.pop()
        most = max(most, level)
        kind = words[at]
        due += [level + 1] * (0 if kind < 2 else 2 if kind < 7 or kind == 13 else 1)
        at += 2
    return (at // 2, most) if at == len(words) else None


def frame_words(line):
    """The width and words of a line that has the form of a frame, of any number of nodes; else none."""
    line = line.removesuffix(b"\n")
    if len(line) % 18 != 2 or any(byte not in b"0123456789abcdef" for byte in line):
        return None
    nodes = [line[at:at + 18] for at in range(2, len(line), 18)]
    return int(line[:2], 16), [int(part, 16) for node in nodes for part in (node[:2], node[2:])]


# What is stored

def numbers(fields):
    return [int(field, 16) for field in fields.split()]


def lines_of(crate, name):
    with open(os.path.join(CRATES, crate, name), "rb") as file:
        return file.read().split(b"\n")


def of_program(program):
    """Name, width or none, words and answer of each request."""
    requests, answers = lines_of(program, "stdin"), lines_of(program, "stdout")
    assert len(requests) == len(answers), f"{program}: stdin and stdout have not the same number of lines"
    for request, line in zip(requests[:-1], answers):
        text, answer = line.decode().split(" = ")
        assert request.decode() == text, f"{program}: {text}"
        name, _, rest = text.partition(" ")
        lists = [numbers(fields) for fields in rest.split("/")]
        if name == "read_frame":
            read = frame_words(bytes(lists[-1]))
            if read:
                yield name, *read, answer
        elif name in PLAIN + WITH_DEFAULT + AT_WIDTH:
            yield name, None if name in PLAIN else lists[0][0], lists[-1], answer


def of_report():
    """The same for each line of the table that has the form of a frame."""
    rows = iter(lines_of("report", "stdout"))
    for line in lines_of("report", "stdin"):
        refusal = next(rows).split()[1].decode()
        if refusal == "0":
            next(rows)  # the end tree's frame
        read = frame_words(line)
        if read:
            yield "report", *read, "accepted" if refusal == "0" else f"refused {refusal} 0 0"


# Outcomes

def size_cases(name, words, answer):
    """The sizes whose outcome this request shows."""
    found = shape(words)
    if not found:
        return []
    too_many = "refused e 0 0" if name in FRAMES else "refused 2 0 0"
    outcomes = {"512 nodes": found[0] == 512 and not answer.startswith("refused"),
                "513 nodes": found[0] == 513 and answer.startswith(too_many),
                "64 levels": found[1] == 64 and not answer.startswith("refused"),
                "65 levels": found[1] == 65 and (not answer.startswith("refused") if name == "span" else answer.startswith("refused 5 0 0"))}
    return [case for case in SIZES if outcomes[case]]


def width_is_right(name, width, answer):
    """The calls with a default width give 10 with a width outside 1 to 64, width_of 0, is_uniform_width an answer."""
    good = 1 <= width <= 64
    if name == "is_uniform_width":
        return answer == "1"
    if name == "width_of":
        return answer == (f"{width:x}" if good else "0")
    if name == "checked_width_of" and good:
        return answer == f"{width:x}"
    if good:
        return not answer.startswith("refused")
    return answer.startswith(f"refused a {width:x} 0" if name in WITH_DEFAULT else "refused 1 0 0")


def counts():
    """How many stored requests show each outcome, by request and case."""
    names = PLAIN + WITH_DEFAULT + AT_WIDTH + FRAMES
    found = {(name, case): 0 for name in names for case in SIZES + ([] if name in PLAIN else list(WIDTHS.values()))}
    for requests in [of_program(program) for program in PROGRAMS] + [of_report()]:
        for name, width, words, answer in requests:
            for case in size_cases(name, words, answer):
                found[name, case] += 1
            if width in WIDTHS and shape(words) and width_is_right(name, width, answer):
                found[name, WIDTHS[width]] += 1
    return found


def main():
    found = counts()
    for (name, case), count in found.items():
        print(f"{name:20} {case:10} {count:6}")
    missing = [f"{name}, {case}" for (name, case), count in found.items() if count == 0]
    if missing:
        print(f"limits: nothing stored for {len(missing)} of {len(found)} cases: {'; '.join(missing)}")
        return 1
    print(f"limits: {len(found)} cases, each of them stored")
    return 0


sys.exit(main())
