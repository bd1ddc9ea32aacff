#!/usr/bin/env python3
"""Each wrong program is refused for a reason of its own.

    python3 tests/edits.py LOG

LOG is what `rt ci` said. A file of `crates/CRATE/must-fail/` is a wrong program, and its line

    # refused: NAME

says whose proof must refuse it: a function, named as `rt` does but without its modules, or a theorem, as FILE.NAME. `rt ci` counts a program as refused where
anything of its crate is not proved. Here the first error has to be the named one's, and of a promise: of what it ensures, of what a function that it calls
requires, or of the invariant of a loop or a struct. An index out of range or a sum that does not fit is none: it would hide whether the answer is refused too.
Where a program is not refused so, the status is 1."""
import os
import re
import sys

ROOT = os.path.join(os.path.dirname(os.path.abspath(__file__)), "..")

MISFIT = "it no longer fits the proof"
# what `rt ci` says of a program that shows nothing of a contract, by what it begins with
NO_REASON = {"NOT REFUSED": "it is still proved", "BAD EDIT": "it no longer fits", "NOT TRIED": "it was not tried",
             "refused, as it must be (only because a proof file names": MISFIT,
             "refused, as it must be (only by a limit": "it is refused by a limit alone"}
REASON = re.compile(r"refused, as it must be: (?:note: )?(?:\./)?(src|proofs)/(\S+):(\d+):\d+: (.*)")
# the name of a goal that is a promise, once the names of places are taken off
PROMISE = re.compile(r"(.*-)?(returns|requires|init|preserved|invariant_of)(-.*)?")


def text_of(path):
    with open(path, encoding="utf-8") as file:
        return file.read()


def type_name(header):
    """The type that an `impl` is for and its trait, in one name as `rt` has it."""
    header = re.sub(r"^impl(<[^>]*>)? ", "", header.split(" {")[0])
    trait, _, of = header.rpartition(" for ")
    words = re.findall(r"\w+", re.sub(r"<'.*|\w+::", "", of) + " " + re.sub(r"\w+::", "", trait))
    return "".join(word[0].upper() + word[1:] for word in words)


def function_at(lines, number):
    """The function of a source file that the line is in; its attributes stand before it."""
    of, name = "", ""
    for at, line in enumerate(lines, 1):
        if line.startswith("impl"):
            of = type_name(line) + "::"
        elif line.startswith("}"):
            of = ""
        found = re.match(r"\s*(?:pub(?:\(crate\))? )?(?:const )?fn (\w+)", line)
        if found:
            name = of + found[1]
        if at >= number and (found or not line.strip().startswith("#[")):
            return name
    return name


def refused_by(crate, reason):
    """Whose proof the first error is in, and the goal that is not proved."""
    part, path, line, said = reason.groups()
    found = re.search(r"\(`([^` ]+)" if part == "src" else r"`([^` ]+)", said)
    goal = found[1] if found else ""
    if part == "src":
        return function_at(text_of(f"{crate}/src/{path}").split("\n"), int(line)), goal
    *folders, file = path.split("/")
    if not folders:
        return f"{file.removesuffix('.antt')}.{goal}", "returns"
    if not folders[-1].startswith("+"):
        return "::".join([it for it in folders[-2:-1] if it[0].isupper()] + folders[-1:]), goal
    # functions that call each other have one folder; where they are several, the goal begins with the one that it is of
    cycle, first = folders[-1][1:], goal.split("-")[0]
    return first if re.search(rf"(^|_){first}(_|$)", cycle) else cycle, goal


def fault_of(crate, edit, said):
    """What is wrong with what `rt ci` said of a program, if anything is."""
    wanted = re.findall(r"^# refused: (\S+)$", text_of(f"{crate}/must-fail/{edit}"), re.M)
    if len(wanted) != 1:
        return "it has not one line '# refused: NAME'"
    if said is None:
        return "nothing is said of it"
    for begin, why in NO_REASON.items():
        if said.startswith(begin):
            return why
    # the goal that the proof file answers is no more; `rt` takes it for a reason, as it reads the first line of the error alone
    if "`: `goal." in said:
        return MISFIT
    reason = REASON.match(said)
    if not reason:
        return f"what is said of it has another form: {said}"
    found, goal = refused_by(crate, reason)
    if found != wanted[0]:
        return f"{found or 'no function'} is refused, and not {wanted[0]}"
    if not PROMISE.fullmatch(goal):
        return f"of {found} no promise is refused but `{goal}`"
    return None


def main(log, root=ROOT):
    said = dict(re.findall(r"^rt: must-fail (\S+): (.*)$", text_of(log), re.M))
    count, faults = 0, []
    for crate in sorted(os.listdir(f"{root}/crates")):
        folder = f"{root}/crates/{crate}/must-fail"
        for edit in sorted(os.listdir(folder) if os.path.isdir(folder) else []):
            count += 1
            fault = fault_of(f"{root}/crates/{crate}", edit, said.get(f"{crate}/{edit}"))
            if fault:
                faults.append(f"{crate}/{edit}: {fault}")
    for fault in faults:
        print("edits: " + fault)
    print(f"edits: {count} wrong programs, {len(faults)} not refused for a reason of their own")
    return 1 if faults or not count else 0


if __name__ == "__main__":
    sys.exit(main(sys.argv[1]) if len(sys.argv) == 2 else __doc__)
