"""The time of a proved program and of the Rust, on the same input."""
import os
import resource
import subprocess
import sys
import tempfile

HERE = os.path.dirname(os.path.abspath(__file__))
ROUNDS = 5


def built_harness():
    target = os.environ.setdefault("CARGO_TARGET_DIR", "/tmp/oracle-target")
    subprocess.run(["cargo", "build", "--release", "--offline", "--quiet"], cwd=HERE, check=True)
    return os.path.join(target, "release/oracle")


def built_program(name):
    crate = os.path.join(HERE, "../crates", name)
    with tempfile.TemporaryFile() as said:  # of interest only where it fails
        # proves, builds and runs it, on an empty input
        if subprocess.run(["rt", "run"], cwd=crate, stdin=subprocess.DEVNULL, stdout=said, stderr=said).returncode:
            said.seek(0)
            sys.exit(said.read().decode())
    return os.path.join(crate, "out", name)


def built(name):
    """The test program of that name and the harness, both built."""
    return [built_program(name), built_harness()]


def user_time(program, text):
    """Seconds of one run, and what it writes."""
    before = resource.getrusage(resource.RUSAGE_CHILDREN).ru_utime
    written = subprocess.run([program], input=text.encode(), stdout=subprocess.PIPE, check=True).stdout
    return resource.getrusage(resource.RUSAGE_CHILDREN).ru_utime - before, written


def nanoseconds(programs, lines, times):
    """For each program the mean time of a call: the smallest of the rounds, less the smallest of as many runs with one call. `lines(n)` are
    the requests, each for n calls. The programs take turns, and must write the same; the second result is what they write."""
    least = {}
    for _ in range(ROUNDS):
        for count in (1, times):
            text = "".join(line + "\n" for line in lines(count))
            runs = [user_time(program, text) for program in programs]
            if runs[0][1] != runs[1][1]:
                sys.exit("the answers differ")
            for program, (seconds, _) in zip(programs, runs):
                key = program, count
                least[key] = min(seconds, least.get(key, seconds))
    calls = len(lines(1)) * (times - 1)
    return [(least[program, times] - least[program, 1]) / calls * 1e9 for program in programs], runs[0][1].decode()


def whole_runs(commands, data):
    """For each command the seconds of a run on the data, user and system time, the smallest of the rounds, and what they write. The commands
    take turns, and must write the same."""
    least = [float("inf")] * len(commands)
    with tempfile.TemporaryFile() as table:
        table.write(data)
        for _ in range(ROUNDS):
            answers = []
            for place, command in enumerate(commands):
                table.seek(0)
                with tempfile.TemporaryFile() as out:
                    before = resource.getrusage(resource.RUSAGE_CHILDREN)
                    subprocess.run(command, stdin=table, stdout=out, check=True)
                    after = resource.getrusage(resource.RUSAGE_CHILDREN)
                    least[place] = min(least[place], after.ru_utime + after.ru_stime - before.ru_utime - before.ru_stime)
                    out.seek(0)
                    answers.append(out.read())
            if any(answer != answers[0] for answer in answers):
                sys.exit("the answers differ")
    return least, answers[0]
