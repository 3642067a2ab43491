#!/usr/bin/env python3
"""Spells the definitions, lemmas, fields and variables of specs/ and proofs/ that are in lower camel case in snake case, as the
library spells its own: isCandidate -> is_candidate, maxF -> max_f. Facts and types keep their upper camel case.

usage: tools/snake_names.py            at the top of the repository, once, after the kit's port.py: rewrites the files in place
       tools/snake_names.py --look     prints the names and where two would fall together; changes nothing

Looked at: each .antt file of crates/, the clauses and ghost lines of each .rt file of crates/, each edit of a must-fail/ folder or
of test/wrong_versions, and the names between backquotes in README.md and docs/*.md. The code of a .rt file is left alone: a name of
a parameter or of a function is in snake case there already.
"""
import glob
import re
import sys

CAMEL = r"[a-z][a-z0-9]*(?:[A-Z][A-Za-z0-9]*)+"
# a name, as antt reads it: dashes join parts, and a part in lower camel case is turned by itself
NAME = re.compile(r"(?<![A-Za-z0-9_'«])" + CAMEL + r"(?![A-Za-z0-9_«])")
GENERATED = {"mathlib"}
# A lemma that would have its function's name gets another first: (file, its name, the new one).
LEMMAS = [
    ("crates/row_search/proofs/Account.antt", "keep_all", "keep-All"),
    ("crates/stitch_passes/proofs/Account.antt", "owner_at", "owner_at_lem"),
    ("crates/expand/proofs/AloneLaws.antt", "by_weights", "by_weights_lem"),
    ("crates/grid_laws/proofs/GridSound.antt", "row_number", "row_number_lem"),
]


def snake(word):
    out = re.sub(r"([a-z0-9])([A-Z])", r"\1_\2", word)
    out = re.sub(r"([A-Z])([A-Z][a-z])", r"\1_\2", out)
    return out.lower()


def antt_files():
    return sorted(f for f in glob.glob("crates/*/specs/**/*.antt", recursive=True) + glob.glob("crates/*/proofs/**/*.antt", recursive=True))


def rt_files():
    return sorted(glob.glob("crates/*/src/**/*.rt", recursive=True))


def names():
    out = set()
    for f in antt_files():
        for line in open(f, encoding="utf-8"):
            out |= set(NAME.findall(line.split("-- ")[0]))
    return out - GENERATED


def turn(text, table):
    return NAME.sub(lambda m: table.get(m.group(0), m.group(0)), text)


def main(argv):
    table = {n: snake(n) for n in names()}
    back = {}
    for a, b in table.items():
        back.setdefault(b, []).append(a)
    clash = [f"{b}: {' '.join(a)}" for b, a in sorted(back.items()) if len(a) > 1]
    taken = {}
    for f in antt_files():
        for line in open(f, encoding="utf-8"):
            for w in re.findall(r"(?<![A-Za-z0-9_'.«-])[a-z][a-z0-9_]*(?![A-Za-z0-9_«-])", line.split("-- ")[0]):
                if w in back:
                    taken.setdefault(w, set()).add(f)
    if "--look" in argv:
        print(len(table), "names")
        print("two names in one:", *clash, sep="\n  ")
        print("taken already:", *[f"{w} {sorted(fs)[:4]}" for w, fs in sorted(taken.items())], sep="\n  ")
        return 0
    n = 0
    for f, a, b in LEMMAS:
        t = open(f, encoding="utf-8").read()
        open(f, "w", encoding="utf-8").write(re.sub(r"(?<![A-Za-z0-9_'.«-])" + a + r"(?![A-Za-z0-9_«-])", b, t))
    for f in antt_files() + rt_files() + sorted(glob.glob("crates/*/must-fail/*.edit") + glob.glob("test/wrong_versions/*/*.edit")):
        t = open(f, encoding="utf-8").read()
        u = turn(t, table)
        if u != t:
            open(f, "w", encoding="utf-8").write(u)
            n += 1
    for f in ["README.md", *sorted(glob.glob("docs/*.md"))]:
        t = open(f, encoding="utf-8").read()
        u = re.sub(r"`[^`\n]*`", lambda m: turn(m.group(0), table), t)
        if u != t:
            open(f, "w", encoding="utf-8").write(u)
            n += 1
    print(len(table), "names,", n, "files")
    return 0


if __name__ == "__main__":
    raise SystemExit(main(sys.argv[1:]))
