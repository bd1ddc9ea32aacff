#!/usr/bin/env python3
"""tests/edits.py finds each fault that a wrong program can have.

    python3 tests/edits_test.py

Each case is a crate with one wrong program and a log in the words of `rt ci`; edits.py has to find the fault that the case names, and no other."""
import contextlib
import io
import os
import sys
import tempfile

sys.dont_write_bytecode = True  # the repository stays as it is
import edits

SOURCE = """pub const fn low(a: u8) -> u8
    ensures { result ≡ low a }
{
    a & 15
}

struct Sum {
    total: u8,
}

impl From<Sum> for u8 {
    // the low half
    #[tactic(auto)]
    fn from(s: Sum) -> u8 {
        low(s.total)
    }
}
"""
EDIT = "# refused: {}\nfile: src/lib.rt\nold: a & 15\nnew: a & 7\n"
REFUSED = "refused, as it must be: "
NOTE = REFUSED + "note: src/lib.rt:{}:1: it is not proved that what the function ensures holds when it returns (`returns`); `search` gave up"
PROOF = REFUSED + "./proofs/{}/Answers.antt:9:5: error: `{}`: `search`: no proof of `mathlib.Core"

# what the case is of, the line of the wrong program that names a function, what the log says, and the fault, if there is one
CASES = [
    ("its own function, by the source", "low", NOTE.format(1), None),
    ("the same below its attributes", "U8FromSum::from", NOTE.format(13), None),
    ("its own function, by the proof", "low", PROOF.format("sums/low", "returns-in-Ok"), None),
    ("a method, by the proof", "Sum::from", PROOF.format("sums/Sum/from", "loop-i-preserved"), None),
    ("a requirement of a call", "low", PROOF.format("low", "rest-requires"), None),
    ("a struct's invariant", "low", PROOF.format("low", "invariant_of-result-clause-most"), None),
    ("one of functions that call each other", "go_on", PROOF.format("+go_on_turn_back", "go_on-returns-in_err-n"), None),
    ("one that calls itself", "go_on", PROOF.format("+go_on", "go_on-again-requires"), None),
    ("a theorem", "Laws.tested", REFUSED + "./proofs/Laws.antt:54:10: error: `tested`: expected type `every holds table ≡ true`", None),
    ("masked by a function that it calls", "U8FromSum::from", NOTE.format(1), "low is refused, and not U8FromSum::from"),
    ("masked by another of the same proof", "turn_back", PROOF.format("+go_on_turn_back", "go_on-returns"), "go_on is refused, and not turn_back"),
    ("masked by an index", "low", REFUSED + "note: src/lib.rt:4:5: it is not proved that index 2 is below the slice's length (`bounds-out-2`)",
     "of low no promise is refused but `bounds-out-2`"),
    ("no longer fits the source", "low", "BAD EDIT: an 'old:' text is in src/lib.rt 0 times, and not once", "it no longer fits"),
    ("no longer fits the proof", "low", "refused, as it must be (only because a proof file names what the edit took away, so this says little): ./proofs/low/Answers.antt:9:5: error",
     "it no longer fits the proof"),
    ("a goal that is no more", "low", REFUSED + "./proofs/low/Answers.antt:9:5: error: `returns`: `goal.returns`: module `Rattle.sums.proofs.low.Goals`",
     "it no longer fits the proof"),
    ("not refused", "low", "NOT REFUSED: the crate is still proved with this edit", "it is still proved"),
    ("refused by a limit", "low", "refused, as it must be (only by a limit of the prover, which gave no verdict): src/lib.rt:1:1: error", "it is refused by a limit alone"),
    ("not tried", "low", "NOT TRIED: its check was killed", "it was not tried"),
    ("not in the log", "low", None, "nothing is said of it"),
    ("no function named", "", NOTE.format(1), "it has not one line '# refused: NAME'"),
    ("words of another rt", "low", "refused", "what is said of it has another form: refused"),
]


def found(function, said):
    """The status and the text of edits.py."""
    with tempfile.TemporaryDirectory() as root:
        for path, text in [("src/lib.rt", SOURCE), ("must-fail/half.edit", EDIT.format(function))]:
            os.makedirs(os.path.dirname(f"{root}/crates/sums/{path}"), exist_ok=True)
            with open(f"{root}/crates/sums/{path}", "w", encoding="utf-8") as file:
                file.write(text)
        with open(f"{root}/log", "w", encoding="utf-8") as file:
            file.write("rt: sums proved\n" + (f"rt: must-fail sums/half.edit: {said}\n" if said else "") + "2 passed, 0 failed\n")
        out = io.StringIO()
        with contextlib.redirect_stdout(out):
            status = edits.main(f"{root}/log", root)
        return status, out.getvalue()


def main():
    failed = 0
    for what, function, said, fault in CASES:
        lines = f"edits: sums/half.edit: {fault}\n" if fault else ""
        wanted = 1 if fault else 0, f"{lines}edits: 1 wrong programs, {len(lines and [lines])} not refused for a reason of their own\n"
        if found(function, said) != wanted:
            failed += 1
            print(f"edits_test: {what}: {found(function, said)}, and not {wanted}")
    print(f"edits_test: {len(CASES)} cases, {failed} failed")
    return 1 if failed else 0


if __name__ == "__main__":
    sys.exit(main())
