#!/usr/bin/env python3
"""Brings the repository's own definitions, lemmas and fields to today's spelling: words in snake case.

usage: python3 tools/respell.py [--check]      at the top of the repository, once, after the kit's port.py

port.py respells the words that the library has; the words of this repository's own stay as they were: `firstApplying`, `length-cutTile`,
`getD-spread`. Here each name that a specs/ or proofs/ file writes with a capital inside gets an underscore there, part by part where dashes join
parts, and the library's `getD` its name of today, `get_or`. Types, records of facts and modules keep their capitals, and so do the names that the
check itself makes. Where a word would meet a lemma of its name, the lemma gets `_lem` after it (LEMMAS); where it would meet a field of the code,
`_of` (FIELDS). It stops, and writes nothing, where two names would still fall together or a new name would meet one that stands in the same file.
With --check it only says what it would do.
"""

import glob
import re
import sys

TOKEN = re.compile(r"[^\s(){}\[\];,.`\"]+")
# a lower-case word with capitals inside it
CAMEL = re.compile(r"^[a-z][a-z0-9]*(?:[A-Z][a-z0-9]*)+$")
# a name of the library's, and what it is today
THEIRS = {"getD": "get_or"}
# lemmas that stand where the word that they are about would now have their name
LEMMAS = {"next_low", "each_back", "is_found", "lines_long", "store_by", "read_set", "read_count"}
# words whose name a field of the code has
FIELDS = {"tileBytes": "tile_bytes_of", "mapBytes": "map_bytes_of"}


def respelled(name):
    """The name in snake case, part by part."""
    parts = name.split("-")
    new = []
    for p in parts:
        if p in THEIRS:
            p = THEIRS[p]
        elif p in FIELDS:
            p = FIELDS[p]
        elif CAMEL.match(p):
            p = re.sub(r"([A-Z])", lambda m: "_" + m.group(1).lower(), p)
        new.append(p)
    return "-".join(new)


def code(text, mark):
    """The text without its comments."""
    return "\n".join(l.split(mark)[0] for l in text.split("\n"))


def main(argv):
    antt = sorted(glob.glob("crates/*/specs/**/*.antt", recursive=True) + glob.glob("crates/*/proofs/**/*.antt", recursive=True))
    rattle = sorted(glob.glob("crates/*/src/**/*.rt", recursive=True))
    texts = {p: open(p, encoding="utf-8").read() for p in antt + rattle}
    stood = dict(texts)
    # a lemma's name is a word by itself, and no field and no part of a path
    lemma = re.compile(r"(?<![\w.'-])(" + "|".join(sorted(LEMMAS)) + r")(?![\w.'-])")
    for p in antt:
        texts[p] = lemma.sub(r"\1_lem", texts[p])
    words = {}
    for p in antt + rattle:
        for w in TOKEN.findall(code(texts[p], "--" if p.endswith(".antt") else "//")):
            new = respelled(w)
            if new != w:
                words[w] = new
    # two old names, one new
    back = {}
    bad = []
    for old, new in words.items():
        if new in back:
            bad.append(f"{old} and {back[new]} would both be {new}")
        back[new] = old
    # a new name beside one that stands
    word = re.compile(r"(?<![\w.'-])" + TOKEN.pattern)
    for p in antt:
        here = set(word.findall("\n".join(l for l in code(texts[p], "--").split("\n") if not l.startswith("use "))))
        for old, new in words.items():
            if old in here and new in here:
                bad.append(f"{p}: {old} would be {new}, which stands there")
    if bad:
        print("\n".join(bad), file=sys.stderr)
    if "--check" in argv:
        print("\n".join(f"{o} {n}" for o, n in sorted(words.items())))
        return 1 if bad else 0
    if bad:
        return 1
    for p, t in texts.items():
        new = TOKEN.sub(lambda m: words.get(m.group(0), m.group(0)), t)
        if new != stood[p]:
            with open(p, "w", encoding="utf-8") as f:
                f.write(new)
    print(f"{len(words)} names")
    return 0


if __name__ == "__main__":
    raise SystemExit(main(sys.argv[1:]))
