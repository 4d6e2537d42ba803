#!/usr/bin/env python3
"""Brings the names of definitions, laws and fields in README.md and docs/ to those that they have in crates/ today.

usage: python3 tools/respell_docs.py [--check] [OLD [NEW]]      at the top of the repository; OLD and NEW are commits, 5b6d5c2 and HEAD if left out

A name is told by its place: the declarations of each specs/ and proofs/ file at OLD are set beside those of the same file at NEW, in their order. Where
a file has more or fewer of them today, those are set side by side that read alike but for capitals, dashes and underscores. In the pages only what
stands between backticks is looked at, word by word; a name that two files spell in two ways today stays as it is, and is told. docs/PORT.md tells of
both spellings, and is left alone. With --check the pages stay as they are, and it prints how many lines of each would change. Run twice it changes
nothing more.
"""

import collections
import difflib
import glob
import re
import subprocess
import sys

DECLARED = re.compile(r"^\s*((?:abbrev |unfoldable |opaque |pub |record |data )*)([^\s(){}:;.,]+)\s+(.*)$")
NO_NAMES = {"use", "mod", "module", "unfolding", "where", "let", "infix", "infixl", "infixr", "open", "field", "in"}
WORD = re.compile(r"[^\s(){}\[\];,.`\"]+")
TICKED = re.compile(r"`[^`\n]+`")


def git(*words):
    return subprocess.run(["git", *words], capture_output=True, text=True, check=True).stdout


def declared(text):
    """The names that a file declares, in order."""
    names = []
    for line in text.split("\n"):
        line = line.split("  -- ")[0]
        m = DECLARED.match(line)
        if not m or line.lstrip().startswith("--") or m[2] in NO_NAMES:
            continue
        kinds, name, rest = m.groups()
        if rest.startswith(": ") or rest == ":" or (kinds and (":" in rest or "where" in rest)):
            names.append(name)
    return names


def plain(name):
    """A name without what only spelling tells apart."""
    return re.sub(r"(_lem|_of)$", "", re.sub(r"(?<=[a-z])[A-Z]", lambda m: "_" + m[0].lower(), name)).replace("-", "").replace("_", "").replace("◌", "").lower()


def pairs(old, new):
    """The old names beside the new ones."""
    if len(old) == len(new):
        yield from zip(old, new)
        return
    match = difflib.SequenceMatcher(None, [plain(n) for n in old], [plain(n) for n in new], autojunk=False)
    for kind, a, b, c, d in match.get_opcodes():
        if kind == "equal":
            yield from zip(old[a:b], new[c:d])


def spellings(before, after):
    """What each name of the commit `before` is at `after`."""
    found = collections.defaultdict(collections.Counter)
    at = {c: set(git("ls-tree", "-r", "--name-only", c, "crates").split("\n")) for c in (before, after)}
    for path in sorted(at[before] & at[after]):
        if path.endswith(".antt") and not path.endswith(("/Lib.antt", "/Proof.antt")):
            for o, n in pairs(declared(git("show", f"{before}:{path}")), declared(git("show", f"{after}:{path}"))):
                found[o][n] += 1
    return found


def main(argv):
    commits = [a for a in argv if not a.startswith("--")]
    before, after = (commits + ["5b6d5c2", "HEAD"][len(commits) :])[:2]
    found = spellings(before, after)
    new = {o: n.most_common(1)[0][0] for o, n in found.items() if len(n) == 1 and o not in n}
    split = {o: n for o, n in found.items() if len(n) > 1}
    told = set()
    for page in ["README.md", *sorted(set(glob.glob("docs/**/*.md", recursive=True)) - {"docs/PORT.md"})]:
        with open(page, encoding="utf-8") as f:
            stood = f.read()

        def word(m):
            w = m[0]
            if w in split:
                told.add(w)
            return new.get(w, w)

        text = TICKED.sub(lambda m: WORD.sub(word, m[0]), stood)
        if text != stood:
            changed = sum(a != b for a, b in zip(stood.split("\n"), text.split("\n")))
            print(f"{page}: {changed} lines")
            if "--check" not in argv:
                with open(page, "w", encoding="utf-8") as f:
                    f.write(text)
    for w in sorted(told):
        print(f"left: {w} is {', '.join(f'{n} ({c})' for n, c in split[w].items())}")
    return 0


if __name__ == "__main__":
    raise SystemExit(main(sys.argv[1:]))
