#!/usr/bin/env python3
"""Copies the harness's answers from standard input, with a solver's value for each one that the harness leaves open.

z3 and cvc5 are asked the same; where they differ, nothing more is written and the status is 1."""
import re
import subprocess
import sys

OPEN = " = solve"
SOLVERS = [["z3", "-smt2", "-in"], ["cvc5", "--lang=smt2", "--incremental", "--produce-models", "-"]]

BINARY = {2: "bvadd", 3: "bvmul", 4: "bvand", 5: "bvor", 6: "bvxor"}
UNARY = {7: "bvnot", 8: "bvneg"}
SHR = 9


def low(word, width):
    """A 64-bit word modulo 2^width."""
    return f"((_ extract {width - 1} 0) #x{word:016x})"


def shifted(term, width, amount):
    """bvlshr takes its amount as a vector of the same width: with 32 bits more, no amount of 32 bits is cut."""
    wide = f"(bvlshr ((_ zero_extend 32) {term}) (_ bv{amount} {width + 32}))"
    return f"((_ extract {width - 1} 0) {wide})"


def term(words, width, setting):
    """The term of the first subtree; takes its words off the list."""
    kind, operand = next(words), next(words)
    if kind == 0:
        return low(operand, width)
    if kind == 1:
        return low(setting[operand], width)
    if kind in BINARY:
        left = term(words, width, setting)
        return f"({BINARY[kind]} {left} {term(words, width, setting)})"
    below = term(words, width, setting)
    return shifted(below, width, operand) if kind == SHR else f"({UNARY[kind]} {below})"


def numbers(fields):
    return [int(field, 16) for field in fields.split()]


def query(request):
    """The width is read before the first `/`; the width list is not looked at, since the tree is of one width."""
    name, rest = request.split(" ", 1)
    assert name == "value", request
    [width], _, setting, words = [numbers(fields) for fields in rest.split("/")]
    rest = iter(words)
    asked = term(rest, width, setting)
    assert next(rest, None) is None, request
    return f"(push 1)\n(declare-const r (_ BitVec {width}))\n(assert (= r {asked}))\n(check-sat)\n(get-value (r))\n(pop 1)\n"


def solved(command, script, count):
    """A value for each query. Anything else in the solver's output is an error."""
    out = subprocess.run(command, input=script, stdout=subprocess.PIPE, text=True, check=True).stdout
    answer = re.compile(r"sat\s+\(\(r #(?:x([0-9a-f]+)|b([01]+))\)\)\s*")
    values, at = [], 0
    while at < len(out):
        found = answer.match(out, at)
        if not found:
            sys.exit(f"{command[0]}: {out[at:at + 200]}")
        values.append(int(found[1], 16) if found[1] else int(found[2], 2))
        at = found.end()
    if len(values) != count:
        sys.exit(f"{command[0]}: {len(values)} values for {count} queries")
    return values


def with_values(lines):
    """The lines, with a value in each that is left open, and how many those are."""
    asked = [line[:-len(OPEN)] for line in lines if line.endswith(OPEN)]
    script = "(set-logic QF_BV)\n" + "".join(query(request) for request in asked) + "(exit)\n"
    first, second = [solved(command, script, len(asked)) for command in SOLVERS]
    for request, a, b in zip(asked, first, second):
        if a != b:
            sys.exit(f"z3 {a:x}, cvc5 {b:x}: {request}")
    values = iter(first)
    return [f"{line[:-len(OPEN)]} = {next(values):x}" if line.endswith(OPEN) else line for line in lines], len(asked)


if __name__ == "__main__":
    for answer in with_values(sys.stdin.read().splitlines())[0]:
        print(answer)
