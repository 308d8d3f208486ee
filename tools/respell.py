#!/usr/bin/env python3
"""Brings this repository's own names to today's spelling, once, after the toolchain's port.py.

usage: python3 tools/respell.py          at the top of the repository; KIT is where the toolchain lies (default /opt/rattle)
       python3 tools/respell.py --list   prints the renamings and writes nothing

Definitions, lemmas, variables, fields and constructors of specs/ and proofs/: a word in camel case becomes snake case, and a field or a
constructor with a dash has an underscore. Facts, types and modules, in upper camel case, stay, and so do names of the toolchain, names that
would fall together with another, and all of the code in src/ but its clauses, which cite the definitions. Edits and pages are turned alike.
"""
import collections
import glob
import os
import re
import sys

KIT = os.environ.get("KIT", "/opt/rattle")
WORD = re.compile(r"[A-Za-z_][A-Za-z0-9_'₀-₉′]*(?:[-→↔][A-Za-z0-9_'₀-₉′≼]+)*")
CAMEL = re.compile(r"^[a-z][a-z0-9]*[A-Z]")
# would fall together with a lemma or an import of its own crate: a name written by hand
BY_HAND = {
    "inList": "stands_in_list",
    "mergedBy": "merged_with",
    "noPairs": "zero_pairs",
    "pairsBelow": "listed_below",
    "rowBefore": "row_so_far",
    "secondAt": "second_of_entry",
}


def read(path):
    with open(path, encoding="utf-8") as f:
        return f.read()


def own_files(*ends):
    found = [p for e in ends for p in glob.glob(e, recursive=True)]
    return sorted({p for p in found if "/out/" not in p and not os.path.islink(p)})


def snake(word):
    word = re.sub(r"([a-z0-9])([A-Z])", r"\1_\2", word)
    return re.sub(r"([A-Z])([A-Z][a-z])", r"\1_\2", word).lower()


def turned(word):
    """The word with each camel-case part in snake case."""
    parts = re.split(r"([-→↔])", word)
    return "".join(snake(p) if CAMEL.match(p) else p for p in parts)


def words_of(text):
    return WORD.findall(text)


def fields(text):
    """Fields of records and constructors of data, by their indentation under the head."""
    found, head = set(), None
    for line in text.splitlines():
        if re.match(r" *(pub )?(record|data) .* where\s*$", line):
            head = len(line) - len(line.lstrip())
            continue
        if head is not None and line.strip() and len(line) - len(line.lstrip()) <= head:
            head = None
        m = re.match(r" *(?:pub )?([a-z][\w'-]*) :", line)
        if head is not None and m:
            found.add(m[1])
    return found


def main():
    theirs = set()
    for p in glob.glob(f"{KIT}/rattle/**/*.antt", recursive=True):
        theirs.update(words_of(read(p)))
    antt = own_files("crates/*/specs/**/*.antt", "crates/*/proofs/**/*.antt")
    used, named = collections.Counter(), set()
    for p in antt:
        text = re.sub(r"(?m)--.*$", "", read(p))
        used.update(words_of(text))
        named |= fields(text)
    to, taken = {}, set(used) | {turned(w) for w in used if "-" not in w}
    for w in used:
        new = BY_HAND.get(w, turned(w))
        if w in named and "-" in new and new.replace("-", "_") not in taken:
            new = new.replace("-", "_")
        if new != w:
            if w in theirs:
                print(f"kept, the toolchain's: {w}")
            else:
                to[w] = new
    falls = collections.defaultdict(set)
    for w, new in to.items():
        falls[new].add(w)
    for new, ws in sorted(falls.items()):
        if len(ws) > 1 or new in used or new in theirs:
            print(f"falls together: {' '.join(sorted(ws))} -> {new}" + (" (there already)" if new in used else "") + (" (toolchain's)" if new in theirs else ""))
    if "--list" in sys.argv:
        for w in sorted(to):
            print(f"{w} -> {to[w]}")
        return
    def turn(text):
        return WORD.sub(lambda m: to.get(m[0], m[0]), text)
    for p in antt + own_files("crates/*/src/**/*.rt", "crates/*/must-fail/*.edit", "README.md", "docs/CONTRACTS.md", "docs/DECISIONS.md"):
        old = read(p)
        new = turn(old)
        if new != old:
            with open(p, "w", encoding="utf-8") as f:
                f.write(new)


if __name__ == "__main__":
    main()
