#!/usr/bin/env python3
"""Counts the places of docs/DESIGN-PASS.md in another way than tools/places.sh: by reading each function and type of the code.

usage: python3 tools/places.py [COMMIT]     at a commit, or in the files as they stand
"""

import collections
import re
import subprocess
import sys

NAME = r"[A-Za-z_][A-Za-z0-9_]*"
CASTS = {"u8", "u16", "u32", "u64", "usize"}


def git(*words):
    return subprocess.run(["git", *words], check=True, capture_output=True, text=True).stdout


def files(commit):
    if commit:
        names = git("ls-tree", "-r", "--name-only", commit, "--", "crates").split("\n")
        return {n: git("show", f"{commit}:{n}") for n in names if re.search(r"/src/.*\.rt$", n)}
    names = git("ls-files", "--", "crates").split("\n")
    return {n: open(n, encoding="utf-8").read() for n in names if re.search(r"/src/.*\.rt$", n)}


def plain(text):
    """The code without comments and ghost imports."""
    text = re.sub(r"(?m)^\s*//.*$", "", text)
    return re.sub(r"(?m)^\s*ghost use .*$", "", text)


def closing(text, at):
    """Where the brace that opens at a place closes."""
    depth = 0
    for i in range(at, len(text)):
        depth += {"{": 1, "}": -1}.get(text[i], 0)
        if depth == 0:
            return i
    return len(text)


def functions(text):
    """Each function: its name, its head with its clauses, and its body."""
    for m in re.finditer(r"\bfn (%s)" % NAME, text):
        at = m.end()
        clauses = re.compile(r"\s*(requires|ensures)\*?(\s+%s)?\s*\{" % NAME)
        body = text.find("{", at)
        head_end = re.compile(r"\{|;[ \t]*\n|\n\s*(requires|ensures)").search(text, at)
        if head_end is None or text[head_end.start()] == ";":
            continue
        at = head_end.start()
        while True:
            c = clauses.match(text, at)
            if c is None:
                break
            at = closing(text, c.end() - 1) + 1
        body = text.find("{", at)
        if body < 0:
            continue
        yield m.group(1), text[m.start():body], text[body:closing(text, body) + 1]


def enums(text):
    for m in re.finditer(r"\benum (%s)[^{]*\{" % NAME, text):
        body = text[m.end():closing(text, m.end() - 1)]
        yield m.group(1), [v.strip() for v in re.split(r",(?![^({]*[)}])", body) if v.strip()]


def structs(text):
    for m in re.finditer(r"\bstruct (%s)[^{;(]*\{" % NAME, text):
        body = text[m.end():closing(text, m.end() - 1)]
        yield m.group(1), re.findall(r"(?:pub )?(%s): ([^,{]+)," % NAME, body)


def shape(body):
    """A body with its names and numbers left out."""
    words = re.findall(r"[A-Za-z_0-9]+|[^\sA-Za-z_0-9]", body)
    keep = {"if", "else", "while", "for", "in", "match", "return", "let", "mut", "true", "false", "continue", "break", "as"}
    return tuple(w if w in keep or not re.match(r"[A-Za-z_0-9]", w) else "n" for w in words)


def main():
    commit = sys.argv[1] if len(sys.argv) > 1 else None
    code = {n: plain(t) for n, t in files(commit).items() if "/rumchivoat_c/" not in n}
    options, records, numbers, loops, casts, requires, shapes = [], [], [], [], [], collections.Counter(), collections.defaultdict(list)
    for name, text in code.items():
        crate = name.split("/")[1]
        for enum, variants in enums(text):
            bare = [v for v in variants if re.fullmatch(NAME, v)]
            if len(bare) == 1 and len(variants) > 1:
                options.append(f"{crate}::{enum}")
        for struct, fields in structs(text):
            if any(f in ("refusal", "found", "agrees") for f, _ in fields):
                records.append(f"{crate}::{struct}")
        for fn, head, body in functions(text):
            if re.search(r"_say(s)?$", fn) and re.search(r"-> u32", head):
                numbers.append(f"{crate}::{fn}")
            for loop in re.finditer(r"\b(while|loop)\b([^{]*)\{", body):
                inside = body[loop.end():closing(body, loop.end() - 1)]
                if re.search(r"\b%s \+= " % NAME, inside):
                    loops.append(f"{crate}::{fn}")
            casts += [f"{crate}::{fn}"] * len([c for c in re.findall(r"\bas (%s)" % NAME, body) if c in CASTS])
            for clause in re.findall(r"requires(?:\s+%s)?\s*\{(.*?)\}\s*\n" % NAME, head):
                for fact in clause.split("×"):
                    requires[fact.strip().strip("()")] += 1
            key = shape(body)
            if 24 <= len(key):
                shapes[key].append(f"{crate}::{fn}")
    twins = [sorted(fs) for fs in shapes.values() if 1 < len(fs)]
    lists = [
        ("1. enums with one variant for nothing", options),
        ("1. structs with a refusal, a finding or an agreement beside a value", records),
        ("1. checks that answer a number", numbers),
        ("2. functions of one shape, in groups", [" = ".join(t) for t in twins]),
        ("3. loops that step a number by hand", loops),
        ("5. facts that three or more functions require", [f"{n} {f}" for f, n in requires.most_common() if 2 < n]),
    ]
    for title, items in lists:
        print(f"{title}: {len(items)}")
        for item in items:
            print(f"    {item}")
    print(f"4. casts: {len(casts)}")


main()
