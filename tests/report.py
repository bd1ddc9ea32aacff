#!/usr/bin/env python3
"""The report program from outside.

    python3 tests/report.py PROGRAM
    python3 tests/report.py --make HARNESS

The first runs PROGRAM on tables that are made here and compares what it writes with report-expected.json; then it feeds tables in pieces, and looks at
what is left unread behind line 65,535, at reads and writes that fail and at the memory. The second writes report-expected.json again with the Rust harness
(oracle/README.md): for each table the SHA-256 of the input, so that a table that has changed shows, and SHA-256 and length of its report.
"""
import fcntl
import hashlib
import json
import os
import subprocess
import sys
import tempfile
import termios
import threading
import time

sys.dont_write_bytecode = True  # the repository stays as it is
HERE = os.path.dirname(os.path.abspath(__file__))
sys.path.insert(0, os.path.join(HERE, "../oracle"))

from lists import tables
from lists.build import nots
from lists.common import Random
from lists.sites import AND, X
from lists.tables import frame, table

EXPECTED = os.path.join(HERE, "report-expected.json")
SECONDS = 30  # for one run: a program that takes longer does not end
PIPE = 65536  # bytes that a pipe holds
LONG_LINE = 300_000_000
MOST_MEMORY = 16384  # kB

EXAMPLE = b"08070000000000000000040000000000000000070000000000000000010000000000000000010000000000000001"
EXAMPLE_REPORT = b"""1 0 5 4 2 2
08050000000000000000010000000000000000070000000000000000010000000000000001
= 1 0 50
"""
ONE_REFUSED = b"1 e 0 0 0 0\n= 1 1 0\n"
# each refusal that a line can have, with lines for it
REFUSED = [("e", [b"", b"08", b"0A010000000000000000", b"0801000000000000000g", b"0801000000000000000", b"080100000000000000000",
                  b"08010000000000000000\r", b"0801000000000000000\x00", frame(nots(512, X))]),
           ("1", [frame(X, 0), frame(X, 65), frame(X, 255)]),
           ("3", [frame([14, 0]), frame([255, 0])]),
           ("4", [frame([1, 1 << 32]), frame([4, 1] + X + X)]),
           ("5", [frame(nots(64, X))]),
           ("6", [frame(AND + X)]),
           ("7", [frame(X + X)]),
           ("8", [frame([10, 8] + X), frame([13, 0] + X + X)]),
           ("9", tables.lines_of_9())]


# Tables

def told():
    """Name to a table and its report, which is written out here."""
    lines = [(number, line) for number, lines in REFUSED for line in lines]
    refused = "".join(f"{at:x} {number} 0 0 0 0\n" for at, (number, _) in enumerate(lines, 1)) + f"= {len(lines):x} {len(lines):x} 0\n"
    return {"document 01's example": (EXAMPLE + b"\n", EXAMPLE_REPORT),
            "the example without its 0a": (EXAMPLE, EXAMPLE_REPORT),
            "empty input": (b"", b"= 0 0 0\n"),
            "one 0a": (b"\n", ONE_REFUSED),
            "three 0a": (b"\n\n\n", b"1 e 0 0 0 0\n2 e 0 0 0 0\n3 e 0 0 0 0\n= 3 3 0\n"),
            "one digit": (b"0", ONE_REFUSED),
            "one NUL": (b"\x00", ONE_REFUSED),
            "0d 0a": (EXAMPLE + b"\r\n", ONE_REFUSED),
            "0d 0a in the place of a digit": (EXAMPLE[:-1] + b"\r\n", ONE_REFUSED),
            "upper case": (frame(X, 10).upper() + b"\n", ONE_REFUSED),
            "each refusal": (table(line for _, line in lines), refused.encode())}


def refused_alone(rng):
    pool = (tables.lines_of_9() + tables.lines_of_8() + tables.lines_of_1() + tables.misspelt(rng) + tables.of_other_length(rng)
            + tables.with_return(rng) + tables.with_two_faults())
    return [rng.pick(pool) for _ in range(20000)]


def made():
    """Name to a table whose report is stored."""
    stored = tables.stored(Random)
    lines = {"n + D of 2,048, and other limits": tables.at_the_limits(),
             "n + D of 2,049 and more": tables.lines_of_9(),
             "n + D about 2,048": tables.about_2048(Random(131), 300),
             "each line refused": refused_alone(Random(132)),
             "each refusal, several times": tables.shuffled(Random(133), tables.refused_lines(Random(134)) * 3),
             "up to 12 nodes": tables.small_lines(Random(135), 8000),
             "up to 40 nodes": tables.middle_lines(Random(136), 4000),
             "60 to 512 nodes": tables.large_lines(Random(137), 200) + tables.full_lines(Random(138), 40),
             "Nots over And and Or": tables.turning_lines(Random(139), 3000) + tables.deep_lines(Random(140)),
             "words changed": tables.damaged_lines(Random(141), 4000),
             "bytes changed": tables.garbled_lines(Random(142), 4000)}
    small = table(tables.small_lines(Random(143), 500))
    return {name: table(each) for name, each in lines.items()} | {
        "the stored list": stored,
        "its first 30,000 bytes": stored[:30000],
        "0d before each 0a": small.replace(b"\n", b"\r\n"),
        "NUL for each 0": small.replace(b"0", b"\x00"),
        "all in upper case": small.upper(),
        "lines about 9,218 bytes, and of a million": tables.longest(Random(144)),
        "65,534 lines": tables.many(Random(145), 65534),
        "65,535 lines": tables.many(Random(146), 65535),
        "65,535 lines, the last without its 0a": tables.many(Random(147), 65535)[:-1],
        "65,536 lines": tables.many(Random(148), 65536),
        "65,535 lines and junk": tables.many(Random(149), 65535) + JUNK,
        "65,540 empty lines": b"\n" * 65540}


JUNK = tables.junk(Random(150), 150_000)  # more than a pipe holds


# Runs

def report(program, data):
    return subprocess.run(program, input=data, stdout=subprocess.PIPE, timeout=SECONDS).stdout


def ended(child):
    """Waits for the program."""
    try:
        child.wait(SECONDS)
    except subprocess.TimeoutExpired:
        child.kill()
        child.wait()
        raise


def wait_until_read(pipe, child):
    """Until nothing is in the pipe, or the program has ended."""
    due = time.monotonic() + SECONDS
    while any(fcntl.ioctl(pipe, termios.FIONREAD, bytes(4))) and child.poll() is None:
        if time.monotonic() > due:
            raise TimeoutError("the program does not read")
        time.sleep(0)


class Fed:
    """A program that reads from a pipe to which only this end writes. What it writes is in `written` afterwards."""

    def __init__(self, program):
        self.out = tempfile.TemporaryFile()
        reader, self.pipe = os.pipe()
        self.child = subprocess.Popen(program, stdin=reader, stdout=self.out)
        os.close(reader)

    def __enter__(self):
        return self

    def give(self, pieces):
        """Each piece arrives alone: it is written once the one before has been read."""
        try:
            for piece in pieces:
                os.write(self.pipe, piece)
                wait_until_read(self.pipe, self.child)
        except BrokenPipeError:
            pass  # it has read what it wants

    def memory(self):
        """The most that it has had, in kB. What `getrusage` tells counts what this script had before it became the program."""
        with open(f"/proc/{self.child.pid}/status") as status:
            for line in status:
                if line.startswith("VmHWM"):
                    return int(line.split()[1])
        raise OSError("it has ended before its input has")

    def __exit__(self, *_):
        os.close(self.pipe)
        ended(self.child)
        self.out.seek(0)
        self.written = self.out.read()
        self.out.close()


def in_pieces(program, pieces):
    with Fed(program) as fed:
        fed.give(pieces)
    return fed.written


def cut(data, size):
    return [data[at:at + size] for at in range(0, len(data), size)]


def cut_at_random(rng, data, most):
    pieces, at = [], 0
    while at < len(data):
        pieces.append(data[at:at + 1 + rng.below(1 + rng.below(most))])
        at += len(pieces[-1])
    return pieces


def cut_at_lines(data):
    return [line + b"\n" for line in data.split(b"\n")[:-1]]


def cut_at_line_ends(data):
    """Each 0a arrives alone."""
    return [piece for line in data.split(b"\n")[:-1] for piece in (line, b"\n") if piece]


def read_all(descriptor):
    parts = []
    while part := os.read(descriptor, 1 << 20):
        parts.append(part)
    return b"".join(parts)


def left_in_file(program, data):
    """The report, and what a second reader of the same open file gets."""
    with tempfile.TemporaryFile() as file:
        file.write(data)
        file.seek(0)
        written = subprocess.run(program, stdin=file, stdout=subprocess.PIPE, timeout=SECONDS).stdout
        return written, read_all(file.fileno())


def left_in_pipe(program, data):
    reader, writer = os.pipe()

    def fill():
        with open(writer, "wb") as pipe:
            pipe.write(data)

    filling = threading.Thread(target=fill)
    filling.start()
    try:
        written = subprocess.run(program, stdin=reader, stdout=subprocess.PIPE, timeout=SECONDS).stdout
    finally:
        rest = read_all(reader)
        filling.join()
        os.close(reader)
    return written, rest


# What is wrong, or nothing

def differs(written, due):
    return "" if written == due else f"it writes {written[:80]!r}, {len(written)} bytes, and not {due[:80]!r}, {len(due)} bytes"


def digest(data):
    return hashlib.sha256(data).hexdigest()


def differs_from_stored(written, entry):
    if entry["report"] == digest(written) and entry["length"] == len(written):
        return ""
    return f"it writes {len(written)} bytes that end with {written[-40:]!r}, and not the {entry['length']} that are stored"


def changed(data, entry):
    return "" if entry["table"] == digest(data) else "the table is not the one that was stored: use --make"


# Cases

def cases(program, expected):
    """Name, and what tells what is wrong."""
    at_sight, large = told(), made()
    for name, (data, due) in at_sight.items():
        yield name, lambda: differs(report(program, data), due)
    for name, data in large.items():
        yield name, lambda: changed(data, expected[name]) or differs_from_stored(report(program, data), expected[name])

    def fed(name, how, pieces):
        due = at_sight[name][1] if name in at_sight else None
        return f"{name}, {how}", lambda: (differs_from_stored(in_pieces(program, pieces), expected[name]) if due is None
                                          else differs(in_pieces(program, pieces), due))

    for name in ("document 01's example", "the example without its 0a", "three 0a", "each refusal"):
        yield fed(name, "a byte at a time", cut(at_sight[name][0], 1))
    yield fed("its first 30,000 bytes", "a byte at a time", cut(large["its first 30,000 bytes"], 1))
    yield fed("up to 12 nodes", "a line at a time", cut_at_lines(large["up to 12 nodes"]))
    yield fed("up to 12 nodes", "each 0a alone", cut_at_line_ends(large["up to 12 nodes"]))
    for name, most in (("the stored list", 3000), ("65,535 lines and junk", PIPE), ("lines about 9,218 bytes, and of a million", 20000)):
        yield fed(name, "random pieces", cut_at_random(Random(151), large[name], most))
        yield fed(name, "65,536 bytes at a time", cut(large[name], PIPE))
    yield fed("65,536 lines", "65,536 bytes at a time", cut(large["65,536 lines"], PIPE))

    yield from reading(program, large["65,535 lines and junk"], expected["65,535 lines and junk"])
    yield from failed_reads(program)
    yield from writing(program, large["65,535 lines"])
    yield from memory(program, large["65,535 lines"])


def reading(program, data, entry):
    """Nothing is read behind line 65,535."""

    def left(run):
        written, rest = run(program, data)
        return differs_from_stored(written, entry) or differs(rest, JUNK).replace("it writes", "a second reader gets")

    yield "what is left of a file", lambda: left(left_in_file)
    yield "what is left in a pipe", lambda: left(left_in_pipe)

    def open_input():
        with Fed(program) as fed:
            fed.give(cut(data[:-len(JUNK)], PIPE))
            ended(fed.child)  # while the pipe is open
        return differs_from_stored(fed.written, entry)

    yield "it ends at line 65,535 and not at the end of the input", open_input


def writing(program, data):
    """Where it cannot write, it ends; its exit status is not tested."""

    def failing(**where):
        subprocess.run(program, input=data, timeout=SECONDS, **where)
        return ""

    def full():
        with open("/dev/full", "wb") as device:
            return failing(stdout=device)

    def no_reader():
        reader, writer = os.pipe()
        os.close(reader)
        with open(writer, "wb") as pipe:
            return failing(stdout=pipe)

    yield "a full device for its output", full
    yield "a closed output", lambda: failing(preexec_fn=lambda: os.close(1))
    yield "an output that nobody reads", no_reader


def failed_reads(program):
    """Where it cannot read, it ends without a closing line."""

    def unreadable(**where):
        return differs(subprocess.run(program, stdout=subprocess.PIPE, timeout=SECONDS, **where).stdout, b"")

    def folder():
        descriptor = os.open("/", os.O_RDONLY)
        try:
            return unreadable(stdin=descriptor)
        finally:
            os.close(descriptor)

    yield "a folder for its input", folder
    yield "a closed input", lambda: unreadable(preexec_fn=lambda: os.close(0))


def memory(program, data):
    def too_much(pieces, due):
        with Fed(program) as fed:
            fed.give(pieces)
            most = fed.memory()
        if most > MOST_MEMORY:
            return f"it took {most} kB"
        return differs(fed.written, due) if due else ""

    piece = b"0" * PIPE
    line = [piece] * (LONG_LINE // PIPE) + [piece[:LONG_LINE % PIPE]]
    yield f"memory for a line of {LONG_LINE:,} bytes", lambda: too_much(line, ONE_REFUSED)
    yield "memory for 65,534 lines", lambda: too_much(cut(data[:data.rindex(b"\n", 0, -1)], PIPE), None)


def main(program):
    with open(EXPECTED) as file:
        expected = json.load(file)
    count = failed = 0
    for name, wrong in cases(program, expected):
        try:
            said = wrong()
        except (OSError, subprocess.SubprocessError) as error:
            said = f"{type(error).__name__}: {error}"[:200]
        count += 1
        failed += bool(said)
        print(f"{'FAILED' if said else 'ok'}  {name}{': ' if said else ''}{said}", flush=True)
    print(f"report: {count} cases, {failed} failed")
    return 1 if failed else 0


def make(harness):
    expected = {}
    for name, data in made().items():
        written = report([harness, "report"], data)
        expected[name] = {"table": digest(data), "report": digest(written), "length": len(written)}
    with open(EXPECTED, "w") as file:
        json.dump(expected, file, indent=1)
        file.write("\n")
    return 0


if len(sys.argv) == 3 and sys.argv[1] == "--make":
    sys.exit(make(sys.argv[2]))
if len(sys.argv) != 2:
    sys.exit(__doc__)
sys.exit(main([os.path.abspath(sys.argv[1])]))
