#!/usr/bin/env python3
"""Brings this repository's own names to the spelling of today's Rattle, once, after /opt/rattle/port/port.py, at the top of the checkout.

Words are in snake case: a definition or lemma that the repository declares loses its capitals and dashes (`treeAt` is `tree_at`, `leaf-gives` is
`leaf_gives`). Where two names would fall together, the lemma gets `_lem`. Types, facts and constructors keep their names, and so does `D`, a name of the scope. Turned are
specs/, proofs/, the clauses of src/, must-fail edits, and code spans of README.md and docs/. The program prints the table.
"""
import collections
import glob
import os
import re
import subprocess

WORD = r"[^\s(){}.;,@\"«»`]+"

# Names that fall together otherwise, with a field of a Rust struct or with one another.
APART = {
    "weightedSize": "weighted_size_of",
    "nonlinearMulCount": "nonlinear_mul_count_of",
    "hasVarDep": "has_var_dep_of",
    "andOrs": "and_ors_of",
    "oneWidth": "one_width_of",
    "last-of": "last_of_lem",
    "unit-by": "unit_by_lem",
    "or-zero": "or_zero_lem",
    "same-words": "same_words_lem",
    "same-lists": "same_lists_lem",
    "no-more": "no_more_lem",
    "◌andThen◌": "◌and_then◌",
    "◌orElse◌": "◌or_else◌",
    "◌equalsSome◌": "◌equals_some◌",
    "equalsSome": "equals_some",
    "◌isIn◌": "◌IsIn◌",
    "isIn": "IsIn",
}
# Lemmas that port.py gave the name which a definition now has: in .antt files alone.
LEMMAS = {"is_digit": "is_digit_lem", "all_digits": "all_digits_lem", "last_line": "last_line_lem", "same_outcome": "same_outcome_lem", "same_kind": "same_kind_lem"}


def files(*patterns):
    return sorted(f for p in patterns for f in glob.glob(p, recursive=True))


def text(path):
    with open(path, encoding="utf-8") as f:
        return f.read()


def write(path, new):
    if new != text(path):
        with open(path, "w", encoding="utf-8") as f:
            f.write(new)


def declared(antt):
    head = re.compile(r"^\s*(?:(?:abbrev|unfoldable|pub|data|record|ruleset) )*(" + WORD + r")\s+(?::|=|$|\(|where)")
    names = collections.OrderedDict()
    for f in antt:
        for line in text(f).splitlines():
            m = head.match(line)
            if m and not line.lstrip().startswith("--") and re.fullmatch(r"[\w'→-]+", m[1]):
                names[m[1]] = True
    return list(names)


def snake(n):
    if n[0].islower():
        n = re.sub(r"(?<=[a-z0-9])[A-Z]", lambda m: "_" + m[0].lower(), n)
    return n.replace("-", "_")


def table(names):
    turned = {n: snake(n) for n in names if snake(n) != n}
    whose = collections.defaultdict(list)
    for old, new in turned.items():
        whose[new].append(old)
    for new, olds in whose.items():
        if len(olds) > 1:
            for o in olds:
                if "-" in o:
                    turned[o] = new + "_lem"
    turned.update({o: n for o, n in APART.items()})
    return turned


OWN = set(os.listdir("crates")) | {"hexadecimal"}


def brought(t):
    """The names that a file's imports bring from the kit's libraries: they stay."""
    names = set()
    for path, items in re.findall(r"\buse ([\w.·-]+)\.\{([^}]*)\}", t):
        parts = path.split(".")
        if parts[0] != "Rattle" or parts[1] not in OWN:
            names.update(i.split(" as ")[0].strip() for i in items.split(","))
    return names


def turn(t, rows):
    kept = brought(t)
    return re.sub(WORD, lambda m: m[0] if m[0] in kept else rows.get(m[0], m[0]), t)


def spans(t, word):
    return re.sub(r"`[^`\n]+`", lambda m: re.sub(WORD, lambda w: word(w[0]), m[0]), t)


def hexadecimal(t):
    """The crate hex, whose name a library of the kit has."""
    t = re.sub(r"\bRattle\.hex\.", "Rattle.hexadecimal.", t)
    return re.sub(r"(?<![\w.])hex::", "hexadecimal::", t)


def main():
    subprocess.run(["git", "mv", "crates/hex", "crates/hexadecimal"], check=True)
    for f in files("crates/*/specs/Contracts.antt"):
        subprocess.run(["git", "mv", f, f.replace("Contracts.antt", "Promises.antt")], check=True)
    antt = files("crates/*/specs/**/*.antt", "crates/*/proofs/**/*.antt")
    rows = table(declared(antt))
    edits, code, pages = files("crates/*/must-fail/*.edit"), files("crates/*/src/**/*.rt"), files("README.md", "docs/*.md", "oracle/README.md")
    for f in antt + code + edits:
        t = hexadecimal(text(f))
        t = re.sub(r"(Rattle\.\w+\.specs\.)Contracts\b", r"\1Promises", t)
        t = re.sub(r"^file: specs/Contracts\.antt", "file: specs/Promises.antt", t, flags=re.M)
        t = re.sub(r"^pub mod Contracts$", "pub mod Promises", t, flags=re.M)
        if f.endswith(".antt"):
            t = re.sub(r"(?<![.\w-])\w+(?![\w'-])", lambda m: LEMMAS.get(m[0], m[0]), t)
            if re.search(r"^ruleset rules =", t, re.M):
                # a ruleset may no longer have the name of one that it holds
                t = re.sub(r"^ruleset rules =", "ruleset laws =", t, flags=re.M)
                t = re.sub(r"\bsearch rules\b", "search laws", t)
        write(f, turn(t, rows))
    names = set(declared(files("crates/*/specs/**/*.antt", "crates/*/proofs/**/*.antt")))

    def page_word(w):
        new = rows.get(w) or snake(w)
        return new if w in rows or new in names else w

    for f in pages:
        t = text(f)
        t = re.sub(r"\bhex/(?=specs|proofs|src|must-fail)", "hexadecimal/", t)
        t = re.sub(r"crates/hex\b", "crates/hexadecimal", t)
        t = re.sub(r"specs/Contracts\.antt", "specs/Promises.antt", t)
        t = re.sub(r"`hex`", "`hexadecimal`", t)
        write(f, spans(hexadecimal(t), page_word))
    t = text("crates.txt")
    write("crates.txt", re.sub(r"\bhex\b", "hexadecimal", t))
    for old, new in rows.items():
        print(old, new, sep="\t")


main()
