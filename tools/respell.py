#!/usr/bin/env python3
# SPDX-License-Identifier: MIT OR Apache-2.0
"""Respells the repository's own definitions, lemmas and fields of specs/ and proofs/ in snake case.

usage: python3 tools/respell.py        at the top of a checkout, once, after port.py of the newer Rattle

A name in lower camel case becomes snake case (`prgRomLimit` is `prg_rom_limit`), a quoted field with dashes too (`«prg-words»` is
`prg_words`). A dash that joins two names stays. Functions of src/, exported names, strings, inputs and outputs are not touched.
The pages of docs/ and comments elsewhere follow, for the names that specs/ and proofs/ declare. It prints names that fall together.
"""

import collections
import glob
import re

WORD = re.compile(r"(?<![\w'])[a-z_][\w'₀-₉-]*")
QUOTED = re.compile(r"«([a-z]\w*(?:-\w+)+)»")
SPECIAL = {"bank3F": "bank_3f"}
# words that are no names
KEPT = {"iNES"}
# a lemma that port.py gave the name that its function gets here
BEFORE = {"crates/host/": {"found_word": "found_word_lem"}}
TEXTS = ["README.md", "CONTRIBUTING.md", "CHANGELOG.md", "docs/*.md", "bench/**/*", "oracle/**/*.rs", "oracle/**/*.md", "sessions/*.calls", "scripts/*"]


def snake(word):
    return SPECIAL.get(word) or re.sub(r"(?<=[a-z0-9])([A-Z])", lambda m: "_" + m.group(1), word).lower()


def is_camel(word):
    return re.search(r"[a-z0-9][A-Z]", word) and word[0].islower() and not re.search(r"[A-Z]", word.split("_")[0] if word.startswith("_") else "")


def part(word):
    """A dashed name goes part by part: a part that begins with a capital is a type's name and stays."""
    return "-".join(snake(p) if p and p[0].islower() else p for p in word.split("-"))


def kinds():
    return [p for p in sorted(glob.glob("crates/**/*", recursive=True)) if p.endswith((".antt", ".rt", ".edit")) and "/out/" not in p]


def strings_apart(line):
    """The line's pieces, and whether each is a string."""
    return [(s, s.startswith('"')) for s in re.split(r'("(?:[^"\\]|\\.)*")', line)]


def respelled(text, names, rt):
    def one(m):
        return names.get(m.group(0), m.group(0))

    def line(l):
        l = QUOTED.sub(lambda m: m.group(1).replace("-", "_"), l)
        if not rt:
            return WORD.sub(one, l)
        return "".join(s if quoted else WORD.sub(one, s) for s, quoted in strings_apart(l))

    return "\n".join(map(line, text.split("\n")))


def main():
    files = {p: open(p, encoding="utf-8").read() for p in kinds()}
    words = collections.Counter(w for p, t in files.items() if not p.endswith(".edit") for w in WORD.findall(t))
    names = {w: part(w) for w in words if is_camel(w) or any(is_camel(p) for p in w.split("-") if p)}
    names = {old: new for old, new in names.items() if old != new and old not in KEPT}
    by_new = collections.defaultdict(set)
    for old, new in names.items():
        by_new[new].add(old)
    declared = set()
    for p, t in files.items():
        if p.endswith(".antt") and not p.endswith("Proof.antt"):
            declared |= set(re.findall(r"^ *(?:abbrev |unfoldable |pub )*([a-z][\w'-]*)(?: +[({][^:]*:[^:]*[)}])* *:", t, re.M))
    for new, olds in sorted(by_new.items()):
        if len(olds) > 1 or new in declared:
            print("together:", new, *sorted(olds), "(declared)" if new in declared else "")
    for p, t in files.items():
        first = next((b for at, b in BEFORE.items() if p.startswith(at)), {})
        new = WORD.sub(lambda m: first.get(m.group(0), m.group(0)), t)
        new = respelled(new, names, p.endswith(".rt"))
        if new != t:
            open(p, "w", encoding="utf-8").write(new)
    known = {names.get(d, d) for d in declared}
    for p in sorted({p for g in TEXTS for p in glob.glob(g, recursive=True)}):
        try:
            t = open(p, encoding="utf-8").read()
        except (OSError, UnicodeDecodeError):
            continue
        here = {w: part(w) for w in set(WORD.findall(t)) if w in names or (is_camel(w) and w not in KEPT and part(w) in known)}
        new = WORD.sub(lambda m: here.get(m.group(0), m.group(0)), t)
        if new != t:
            open(p, "w", encoding="utf-8").write(new)
            print("page:", p, len(here))
    print(len(names), "names")


main()
