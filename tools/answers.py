#!/usr/bin/env python3
"""Turns the proofs that walk to each need by hand, proofs/F/Proof.antt, into proofs/F/Invariants.antt and proofs/F/Answers.antt.

usage: python3 tools/answers.py NAMES CRATE [FUNCTION..]      at the top of the repository

NAMES is the file names.json of `rt check --generated FOLDER --old-names` in the crate's folder, which has each goal, place and step by the name that it
had and by the name that it has. A need that was only searched for gets no answer: the check finds it. What the script cannot turn it says, and the
check says the rest. Functions without a Proof.antt are left alone.
"""

import json
import os
import re
import sys

OPEN, CLOSE = "([{", ")]}"
TOKEN = re.compile(r"\s+|--[^\n]*|[()\[\]{};,]|[^\s()\[\]{};,]+")
FIELDS = {"pre": "requires", "inv": "invariant", "taken": "true", "left": "false", "fits": "ranges", "last": "new"}


def norm(name):
    return name.replace("_", "-").replace("line-at-lem", "line-at").lower()


OPERATOR = re.compile(r"^(?:[^\w]+|in|let|rw|simp|at|omega|cc|grind|search|.*\.)$")


class Node:
    """An atom with its projections, a group with its children and projections, or space and separators."""

    def __init__(self, kind, text="", kids=None, proj=""):
        self.kind, self.text, self.kids, self.proj = kind, text, kids or [], proj


def parse(text):
    toks = TOKEN.findall(text)
    pos = 0

    def seq(close):
        nonlocal pos
        out = []
        while pos < len(toks):
            t = toks[pos]
            if t in CLOSE and len(t) == 1:
                if close is None:
                    raise ValueError("unbalanced")
                return out
            pos += 1
            if t in OPEN and len(t) == 1:
                kids = seq(t)
                if pos >= len(toks):
                    raise ValueError("unclosed")
                pos += 1
                proj = ""
                if pos < len(toks) and toks[pos].startswith("."):
                    proj = toks[pos]
                    pos += 1
                out.append(Node("group", t, kids, proj))
            elif t.isspace() or t.startswith("--"):
                out.append(Node("space", t))
            elif t in ";,":
                out.append(Node("sep", t))
            else:
                out.append(Node("atom", t))
        return out

    return seq(None)


def show(nodes):
    out = []
    for n in nodes:
        if n.kind == "group":
            out.append(n.text + show(n.kids) + CLOSE[OPEN.index(n.text)] + n.proj)
        else:
            out.append(n.text)
    return "".join(out)


class Place:
    def __init__(self, base, at):
        self.base, self.at = base, at


class Function:
    def __init__(self, names, said):
        self.said = said
        self.parent = {}
        self.step = {}
        self.to = {}
        self.params = {}
        self.place_new = {}
        self.typed = {}
        self.arms = {}
        for p, arm in zip(names["places"], names["arms"]):
            if arm:
                self.arms.setdefault(norm(p[0]), (arm[0], arm[2]))
        for p, by, typed in zip(names["places"], names["places_by_name"], names["typed"]):
            old, up, (so, sn), fn, _ = p
            self.parent.setdefault(norm(old), norm(up) if up else None)
            self.place_new.setdefault(norm(old), by)
            if so:
                k = norm(so)
                self.to.setdefault(norm(old), (k, sn))
                self.step.setdefault(k, sn)
                if fn:
                    self.params[k] = names["params"].get(fn, [])
            for var, st in typed:
                self.typed.setdefault(norm(st), var)
        self.needs = names["needs"]
        self.asked = names["asked_at"]
        self.loops = names["loops"]
        self.changed = names["changed"]
        self.helpers = {}

    def up(self, place, n):
        for _ in range(n):
            if place is None:
                return None
            place = self.parent.get(place)
        return place

    def changed_of(self, k):
        """The variables whose lengths a step keeps, in their order: of a call, its parameters that are lent to be changed; unknown here, its last."""
        ps = self.params.get(k, [])
        for (lo, _), vs in [(x[0], x[1]) for x in self.loops]:
            if norm(lo) == k:
                return []
        return ["out"] if "out" in ps else ps[-1:]

    # what follows a place: its projections after the `before`s
    def path(self, place, projections):
        """Projections as they are written today; a step by its new name."""
        p = list(projections)
        while p and p[0] == "before":
            place = self.parent.get(place)
            p.pop(0)
        if not p:
            return []
        head = p[0]
        rest = p[1:]
        k = norm(head)
        if head in FIELDS and k not in self.step:
            return [FIELDS[head]] + rest
        if k in ("well-formed", "good"):
            return ["well_formed"] + rest
        if k in ("args", "requires", "ranges", "lifetimes", "type-inv"):
            return [head] + rest
        if k in self.step:
            q = place
            while q:
                best = None
                for field, st, way in self.arms.get(q, ("", []))[1]:
                    if norm(st) == k and rest[:len(way)] == way and (best is None or len(way) > len(best[1])):
                        best = (field, way)
                if best:
                    return [self.arms[q][0], best[0]] + rest[len(best[1]):]
                q = self.parent.get(q)
            if rest and rest[0] == "given" and k in self.typed and k.startswith(("shared-slice-known", "slice-known", "struct-known", "known")):
                return ["type_inv", self.typed[k]] + rest[1:]
            new = self.step[k]
            q = place
            while q:
                if self.to.get(q, ("",))[0] == k:
                    new = self.to[q][1]
                    break
                q = self.parent.get(q)
            rest = list(rest)
            if rest and rest[0] in FIELDS and rest[0] not in ("fits", "pre"):
                rest[0] = FIELDS[rest[0]]
            if len(rest) > 1 and rest[0] == "auto" and rest[1].isdigit():
                changed = self.changed_of(k)
                n = 1
                while n < len(rest) and rest[n] in ("0", "1"):
                    n += 1
                if changed:
                    rest = ["auto", changed[0]] + rest[n:]
            if rest and rest[0] == "new" and len(rest) > 1 and re.fullmatch(r"[01]", rest[1]):
                i = 1
                n = 0
                while i < len(rest) and rest[i] == "1":
                    n += 1
                    i += 1
                if i < len(rest) and rest[i] == "0":
                    ps = self.params.get(k, [])
                    if n < len(ps):
                        rest = ["new", ps[n]] + rest[i + 1:]
                    else:
                        self.said(f"no parameter {n} of {head}")
            return [new] + rest
        self.said(f"no step {head}")
        return [head] + rest


class Turner:
    def __init__(self, fn, said):
        self.fn, self.said = fn, said
        self.goal = None
        self.depth = 0
        self.lets = {}

    # env: name -> ("place", old place) or ("text", text)
    def place_of(self, nodes, env):
        """If the nodes (without space) are one expression that is a place: (place, unread projections), else None."""
        ns = [n for n in nodes if n.kind != "space"]
        if not ns:
            return None
        first = ns[0]
        if len(ns) == 1:
            if first.kind == "atom":
                parts = first.text.split(".")
                e = env.get(parts[0])
                if e and e[0] == "self" and self.fn.helpers[parts[0]]["place"]:
                    e = ("place", self.fn.helpers[parts[0]]["place"])
                if not e or e[0] != "place":
                    return None
                proj = parts[1:]
                at = e[1]
            elif first.kind == "group" and first.text == "(":
                inner = self.place_of(first.kids, env)
                if inner is None or inner[1]:
                    return None
                at = inner[0]
                proj = [x for x in first.proj.split(".") if x]
            else:
                return None
            while proj and proj[0] == "before":
                at = self.fn.up(at, 1)
                proj = proj[1:]
            return at, proj
        if first.kind == "atom" and first.text in self.fn.helpers and self.fn.helpers[first.text]["place"]:
            inner = self.place_of(ns[1:], env)
            if inner is None or inner[1]:
                return None
            return self.fn.helpers[first.text]["place"], []
        return None

    def base(self, env):
        return env["*"]

    def coerced(self, at, env):
        """The place as an argument."""
        here = env["*at"]
        new = self.fn.place_new.get(at)
        if at == here:
            return self.base(env)
        if self.goal:
            return f"(goal.at.{self.goal} {self.base(env)}).{new}"
        self.said(f"a helper at {here} asks for the place {at}")
        return f"(?up {new} {self.base(env)})"

    def turn(self, nodes, env):
        """The text of a sequence of nodes."""
        env = dict(env)
        out = []
        i = 0
        n = len(nodes)
        while i < n:
            node = nodes[i]
            if node.kind == "space" or node.kind == "sep":
                out.append(node.text)
                i += 1
                continue
            if node.kind == "atom" and node.text == "let":
                # let NAME [: T] = E in
                j = i + 1
                while nodes[j].kind == "space":
                    j += 1
                name = nodes[j].text
                k = j + 1
                depth = 0
                eq = None
                end = None
                while k < n:
                    if nodes[k].kind == "atom" and nodes[k].text == "=" and eq is None:
                        eq = k
                    if nodes[k].kind == "atom" and nodes[k].text == "let":
                        depth += 1
                    if nodes[k].kind == "atom" and nodes[k].text == "in":
                        if depth == 0:
                            end = k
                            break
                        depth -= 1
                    k += 1
                if nodes[j].kind == "atom" and eq is not None and end is not None:
                    p = self.place_of(nodes[eq + 1:end], env)
                    if p is not None and p[1] and p[1][-1] == "given":
                        env[name] = ("path", p[0], p[1])
                        i = end + 1
                        while i < n and nodes[i].kind == "space":
                            i += 1
                        continue
                    if p is not None and not p[1]:
                        env[name] = ("place", p[0])
                        i = end + 1
                        while i < n and nodes[i].kind == "space":
                            i += 1
                        if i < n and out and out[-1].isspace() is False:
                            pass
                        continue
                    out.append("let " + name + self.turn(nodes[j + 1:eq], env) + "=" + self.turn(nodes[eq + 1:end], env) + "in")
                    env.pop(name, None)
                    i = end + 1
                    continue
            if node.kind == "atom" and (node.text == "λ" or node.text.startswith("λ") and len(node.text) > 1):
                # binders up to the dot
                j = i
                bound = []
                while j < n:
                    t = nodes[j]
                    if t.kind == "atom":
                        w = t.text.lstrip("λ")
                        if w:
                            bound.append(w.rstrip("."))
                        if t.text.endswith("."):
                            break
                    elif t.kind == "group":
                        inner = [x.text for x in t.kids if x.kind == "atom"]
                        if ":" in inner:
                            bound += inner[:inner.index(":")]
                            # the type is read below
                        else:
                            bound += inner
                        if t.proj == ".":
                            break
                    j += 1
                for t in nodes[i:j + 1]:
                    if t.kind == "group":
                        colon = [x for x, y in enumerate(t.kids) if y.kind == "atom" and y.text == ":"]
                        k = colon[0] if colon else len(t.kids)
                        out.append(t.text + show(t.kids[:k]) + self.turn(t.kids[k:], env) + CLOSE[OPEN.index(t.text)] + t.proj)
                    else:
                        out.append(t.text)
                for b in bound:
                    if b not in ("", "*", "*at"):
                        env.pop(b, None)
                i = j + 1
                continue
            # the name of a record's field
            ahead = [x for x in nodes[i + 1:i + 3] if x.kind != "space"]
            if node.kind == "atom" and "." not in node.text and ahead and ahead[0].kind == "atom" and ahead[0].text == "=":
                out.append(node.text)
                i += 1
                continue
            # a helper and its place
            if node.kind == "atom":
                parts = node.text.split(".")
                h = self.fn.helpers.get(parts[0])
                e = env.get(parts[0])
                if e and e[0] == "self":
                    # a name of the same module
                    h = self.fn.helpers[parts[0]]
                    if h["place"]:
                        at, proj = h["place"], parts[1:]
                        while proj and proj[0] == "before":
                            at = self.fn.up(at, 1)
                            proj = proj[1:]
                        out.append(self.seen(at, proj, env))
                    else:
                        acts, i2 = self.actuals(h, nodes, i + 1, env) if len(parts) == 1 else ([], i + 1)
                        u = self.used(parts[0], h, env["*at"] if not h["at"] else h["at"], env, parts[1:], acts)
                        i = i2 - 1
                        before = [x for x in nodes[:i] if x.kind != "space"]
                        last = before[-1] if before else None
                        if " " in u and not matched(u) and last is not None and (last.kind == "group" or last.kind == "atom" and not OPERATOR.match(last.text)):
                            u = "(" + u + ")"
                        out.append(u)
                    i += 1
                    continue
                if e and e[0] == "place":
                    at, proj = self.place_of([node], env)
                    out.append(self.seen(at, proj, env))
                    i += 1
                    continue
                if e and e[0] == "path":
                    out.append(self.seen(e[1], e[2] + parts[1:], env))
                    i += 1
                    continue
                if e and e[0] == "text":
                    t = e[1] + "".join("." + x for x in parts[1:])
                    out.append(t)
                    i += 1
                    continue
                if h and len(parts) == 1:
                    j = i + 1
                    while j < n and nodes[j].kind == "space":
                        j += 1
                    if j < n:
                        p = self.place_of([nodes[j]], env)
                        if p is not None and not p[1]:
                            if h["place"]:
                                out.append(self.seen(h["place"], [], env))
                                i = j + 1
                            else:
                                acts, i2 = self.actuals(h, nodes, j + 1, env)
                                out.append(self.used(parts[0], h, p[0], env, [], acts))
                                i = i2
                            continue
                # a tuple's field of a call record
                out.append(node.text)
                i += 1
                continue
            # a group
            p = self.place_of([node], env)
            if p is not None:
                out.append(self.seen(p[0], p[1], env))
                i += 1
                continue
            if node.text == "(" and node.proj:
                ks = [x for x in node.kids if x.kind != "space"]
                if len(ks) == 2 and ks[0].kind == "atom" and ks[0].text in self.fn.helpers and not self.fn.helpers[ks[0].text]["place"]:
                    q = self.place_of([ks[1]], env)
                    if q is not None and not q[1]:
                        t = self.used(ks[0].text, self.fn.helpers[ks[0].text], q[0], env, [])
                        if re.fullmatch(r"[^\s()]+", t):
                            out.append(t + node.proj)
                        elif t.startswith("(") and t.endswith(")"):
                            out.append(t + node.proj)
                        else:
                            out.append("(" + t + ")" + node.proj)
                        i += 1
                        continue
            inner = self.turn(node.kids, env)
            if node.text == "(" and inner.startswith("(") and matched(inner) and len([x for x in node.kids if x.kind not in ("space",)]) <= 2:
                out.append(inner + node.proj)
            else:
                out.append(node.text + inner + CLOSE[OPEN.index(node.text)] + node.proj)
            i += 1
        return "".join(out)

    def seen(self, at, proj, env):
        if not proj:
            return self.coerced(at, env)
        if proj[0] in ("settled",):
            pass
        return ".".join([self.base(env)] + self.fn.path(at, proj))

    def actuals(self, h, nodes, i, env):
        """The arguments after a place that a short value takes: their texts, and where they end."""
        if not (h["value"] and h["args"] and len(h["body"]) < 70):
            return [], i
        got = []
        j = i
        while len(got) < len(h["args"]):
            while j < len(nodes) and nodes[j].kind == "space":
                j += 1
            if j >= len(nodes) or nodes[j].kind == "sep" or nodes[j].kind == "atom" and OPERATOR.match(nodes[j].text):
                return [], i
            got.append(self.turn([nodes[j]], env))
            j += 1
        return got, j

    def used(self, name, h, at, env, proj, actuals=()):
        """A helper at a place: its name and the place, or its body where it is short or where no place can be given."""
        tail = "".join("." + x for x in proj)
        body = h["body"]
        inline = h["value"] and len(body) < 70
        if not inline and self.goal is None and h["at"] != env["*at"] and env["*at"] is not None:
            if h["value"]:
                inline = True
            else:
                if name not in self.lets:
                    self.lets[name] = None
                    e2 = {"*": self.base(env), "*at": env["*at"]}
                    for s in h["siblings"]:
                        e2[s] = ("self", None)
                    e2[h["var"]] = ("place", h["at"])
                    ty = self.turn(parse(h["ty"]), e2).strip()
                    b = self.turn(parse(body), e2).strip()
                    if h["args"]:
                        b = "λ " + " ".join(h["args"]) + ". " + b
                    del self.lets[name]
                    self.lets[name] = (ty, b)
                return name + tail if not tail else f"{name}{tail}"
        if inline:
            self.depth += 1
            if self.depth > 8:
                raise ValueError("too deep")
            e2 = {"*": self.base(env), "*at": env["*at"]}
            for s in h["siblings"]:
                e2[s] = ("self", None)
            e2[h["var"]] = ("place", h["at"])
            for x, y in zip(h["args"], actuals):
                e2[x] = ("text", y if re.fullmatch(r"\S+", y) or matched(y) else f"({y})")
            t = self.turn(parse(h["body"]), e2)
            if h["args"] and not actuals:
                t = "(λ " + " ".join(h["args"]) + ". " + t + ")"
            self.depth -= 1
            t = t.strip()
            if "\n" in t:
                t = re.sub(r"\s*\n\s*", " ", t)
            if re.fullmatch(r"[^\s]+", t) or (t.startswith("(") and matched(t)):
                return t + tail
            if not tail and self.alone:
                return t
            return "(" + t + ")" + tail
        arg = self.coerced(h["at"], env)
        t = f"{name} {arg}"
        if tail:
            return f"({t}){tail}"
        return t

    alone = False


def matched(t):
    d = 0
    for i, ch in enumerate(t):
        if ch in OPEN:
            d += 1
        if ch in CLOSE:
            d -= 1
            if d == 0:
                return i == len(t) - 1
    return False


def blocks(text):
    """The declarations of a proof file: (indent, comment lines, lines)."""
    out = []
    comment = []
    cur = None
    for line in text.split("\n"):
        if not line.strip():
            if cur:
                out.append(cur)
                cur = None
            comment = [] if cur else comment
            continue
        if cur is None:
            if line.strip().startswith("--"):
                comment.append(line)
                continue
            cur = (comment, [line])
            comment = []
        else:
            cur[1].append(line)
    if cur:
        out.append(cur)
    return out


def dedent(lines):
    k = min(len(l) - len(l.lstrip()) for l in lines if l.strip())
    return [l[k:] for l in lines]


SIG = re.compile(r"^(abbrev )?(pub )?([^\s:()]+) : (.*)$", re.S)


def convert(path, key, names, module, crate, said):
    # the kit took a field of `Chunky` for the ranges of a place
    text = open(path, encoding="utf-8").read().replace("(size s).ranges", "(size s).fits")
    fn = Function(names, said)
    tn = Turner(fn, said)
    head = []
    uses = []
    decls = []  # (comment, name, abbrev, sig, args, body, module var, module place)
    lines = text.split("\n")
    i = 0
    while i < len(lines) and (lines[i].startswith("--") or lines[i].startswith("use ")):
        (uses if lines[i].startswith("use ") else head).append(lines[i])
        i += 1
    rest = "\n".join(lines[i:])
    mod = None
    spec = None
    spec_unf = []
    expanded = []
    for comment, ls in blocks(rest):
        if ls[0].startswith("module _"):
            m = re.match(r"module _ \((\S+) : tie\.([^)\s]+)[^)]*\) where", ls[0])
            if not m:
                said("a module that is not read: " + ls[0])
                continue
            mod = (m.group(1), norm(m.group(2)))
            more = ls[1:]
            if more:
                cm = []
                while more and more[0].strip().startswith("--"):
                    cm.append(more.pop(0).strip())
                if more:
                    expanded.append((comment + cm, dedent(more), mod))
            continue
        if ls[0].startswith(" "):
            expanded.append(([c.strip() for c in comment], dedent(ls), mod))
        else:
            mod = None
            expanded.append((comment, ls, None))
    siblings = {}
    for comment, ls, m in expanded:
        unf = [l for l in ls if l.startswith("unfolding ")]
        ls = [l for l in ls if not l.startswith("unfolding ")]
        # the signature goes on to the line that begins with its own name
        first = ls[0]
        g = re.match(r"^(abbrev )?(pub )?(\S+) :", first)
        if not g:
            said("a declaration that is not read: " + first)
            continue
        name = g.group(3)
        k = 1
        while k < len(ls) and not re.match(re.escape(name) + r"( |$)", ls[k]):
            k += 1
        sig = "\n".join(ls[:k])[len(g.group(0)):].strip()
        clauses = "\n".join(ls[k:])
        if name.endswith("-spec") or name.endswith("_spec"):
            spec = clauses
            spec_unf = unf
            continue
        decls.append(dict(comment=comment, name=name, abbrev=bool(g.group(1)), sig=sig, clauses=clauses, unf=unf, mod=m))
    # the order of the needs
    args = []
    if spec is not None:
        s = spec[spec.index("tie.spec") + len("tie.spec"):]
        d = 0
        nodes = parse("(" + s.rstrip()[:-1] + ")")[0].kids if s.rstrip().endswith(")") else parse(s)
        for nd in nodes:
            if nd.kind == "space":
                continue
            args.append(nd)
    nloops = len(fn.loops)
    inv_names = []
    inv = {}
    dec = {}
    # invariants and measures come first, two for each loop
    lead = []
    while args and args[0].kind == "atom" and (args[0].text.startswith("invariant-") or args[0].text.startswith("decreases-")):
        lead.append(args.pop(0).text)
    if len(args) != len(fn.needs):
        said(f"{len(args)} answers for {len(fn.needs)} needs")
    order = {}
    inline = []
    by_pos = len(args) == len(fn.needs)
    if by_pos:
        for (old, new), at, a in zip(fn.needs, fn.asked, args):
            if a.kind == "atom":
                order.setdefault(a.text, []).append((new, norm(at[0])))
            else:
                inline.append((new, norm(at[0]), a))
    else:
        table = {norm(o): (n, norm(at[0])) for (o, n), at in zip(fn.needs, fn.asked)}
        for d in decls:
            m = re.match(r"tie\.Need-(\S+)", d["sig"])
            if m:
                o = norm(m.group(1))
                o2 = o[len("overflow-"):] if o.startswith("overflow-") else o
                hit = table.get(o) or table.get(o2)
                if hit:
                    order.setdefault(d["name"], []).append(hit)
                else:
                    said(f"no need {m.group(1)}")
    INV = re.compile(r"tie\.(invariant|decreases)-(\S+)")
    result = []
    invariants = []
    places_used = set()

    def clause_of(d):
        """The first clause: its arguments and its body."""
        c = d["clauses"]
        b = c[len(d["name"]):]
        # up to the first top-level '='
        nodes = parse(b)
        for j, nd in enumerate(nodes):
            if nd.kind == "atom" and nd.text == "=":
                return [x.text if x.kind == "atom" else show([x]) for x in nodes[:j] if x.kind != "space"], show(nodes[j + 1:])
        return [], b

    # helpers first
    for d in decls:
        if INV.match(d["sig"]) or d["name"] in order or d["sig"].startswith("tie.Need-"):
            continue
        a, body = clause_of(d)
        sig = d["sig"]
        if d["mod"]:
            var, at = d["mod"]
            ty = sig
            hargs = a
        else:
            m = re.match(r"\((\S+) : tie\.([^)\s]+)[^)]*\) → ", sig) or re.match(r"()tie\.(\S+)(?: invariant-\S+ decreases-\S+)* → ", sig)
            if not m:
                m = re.match(r"\((\S+) : tie\.([^)\s]+)[^)]*\) (?=\()", sig)
            if not m:
                d["plain"] = True
                continue
            at = norm(m.group(2))
            ty = sig[m.end():]
            var = a[0] if a else (m.group(1) or "c")
            hargs = a[1:]
        pm = re.match(r"tie\.(\S+)", ty)
        place = None
        if pm and "→" not in ty:
            place = norm(pm.group(1))
        fn.helpers[d["name"]] = dict(place=place, at=at, var=var, body=body.strip(), args=hargs, value=d["abbrev"] and not place, ty=ty, siblings=[], decl=d)
        if d["mod"]:
            key2 = (id(d["mod"]), d["mod"])
            fn.helpers[d["name"]]["siblings"] = list(siblings.setdefault(d["mod"], []))
            siblings[d["mod"]].append(d["name"])

    def emit(comment, name, sig, args_, body, unf):
        # the two tests of a `!x` say today what `x` is
        b = re.sub(r"\(not-(?:true|false) (?:[^\s()]+|\([^()]*\)) ([^\s()]+)\)", r"\1", body.strip("\n"))
        b = re.sub(r"\(omega \(arith, passed \d+ \S+ c\.in_default\.\S+\)\)", "(omega arith)", b)
        b = re.sub(r"(?<![\w-])not-(?:true|false) (?:[^\s()]+|\([^()]*\)) ([^\s()]+)", r"\1", b)
        lines_ = list(comment)
        lines_.append(f"{name} : {sig}")
        lines_ += unf
        one = b.strip()
        if "\n" not in one and len(one) < 140:
            lines_.append(f"{' '.join([name.replace('pub ', '')] + args_)} = {one}")
        else:
            lines_.append(f"{' '.join([name.replace('pub ', '')] + args_)} =")
            if not b.startswith("    ") and not b.startswith("\n"):
                b = "    " + one
            lines_.append(b.strip("\n"))
        return "\n".join(lines_)

    for d in decls:
        name = d["name"]
        m = INV.match(d["sig"])
        if m:
            a, body = clause_of(d)
            old = norm("loop" if m.group(2) == "loop" else m.group(2))
            hit = None
            for (lo, ln), vs in [(x[0], x[1]) for x in fn.loops]:
                if norm(lo) == old:
                    hit = (ln, vs, fn.changed[[norm(x[0][0]) for x in fn.loops].index(old)])
            if not hit:
                said(f"no loop {m.group(2)}")
                continue
            ln, vs, ch = hit
            now = [v for v, c in zip(vs, ch) if c]
            if len(a) != len(vs) + len(now):
                said(f"{name} has {len(a)} variables, today {len(vs) + len(now)}: {vs} {ch}")
            env = {"*": "l", "*at": None}
            for v, c, x in zip(vs, ch, a):
                env[x] = ("text", f"l.initial.{v}" if c else f"l.{v}")
            for v, x in zip(now, a[len(vs):]):
                env[x] = ("text", f"l.{v}")
            new = f"{m.group(1)}-{ln}"
            t = tn.turn(parse(body), env)
            invariants.append("\n".join(d["comment"] + [f"abbrev pub {new} : goal.{new}", f"{new} l ={t if t.startswith(chr(10)) else ' ' + t.strip()}"] ))
            continue
        if d.get("plain"):
            result.append("\n".join(d["comment"] + [f"{'abbrev ' if d['abbrev'] else ''}{name} : {d['sig']}"] + d["unf"] + [d["clauses"]]))
            continue
        if name in order or d["sig"].startswith("tie.Need-"):
            if name not in order:
                said(f"{name} answers nothing")
                continue
            a, body = clause_of(d)
            if body.strip() == "search rules":
                continue
            for new, at in order[name]:
                env = {"*": a[0] if a else "c", "*at": at}
                tn.goal = new
                if a:
                    env[a[0]] = ("place", at)
                t = tn.turn(parse(body), env)
                result.append(emit(d["comment"], f"pub {new}", f"goal.{new}", [a[0]] if a else ["c"], t, d["unf"] or spec_unf))
            tn.goal = None
            continue
        h = fn.helpers[name]
        if h["place"]:
            continue
        if h["value"] and len(h["body"]) < 70:
            continue
        tn.goal = None
        var = h["var"]
        env = {"*": var, "*at": h["at"]}
        for s in h["siblings"]:
            env[s] = ("self", None)
        env[var] = ("place", h["at"])
        place = fn.place_new.get(h["at"])
        if place is None:
            said(f"no place {h['at']}")
            place = h["at"]
        tn.alone = False
        ty = tn.turn(parse(h["ty"]), env)
        tn.lets = {}
        t = tn.turn(parse(h["body"]), env)
        if tn.lets:
            flat = lambda s: re.sub(r"\s*\n\s*", " ", s)
            t = "\n".join("    let " + k + " : " + flat(v[0]) + " =\n        " + v[1] + " in" for k, v in tn.lets.items()) + "\n    " + t.strip()
        tn.lets = {}
        places_used.add(place)
        more = d["mod"] is None and re.match(r"\(\S+ : tie\.[^)]*\) \(", d["sig"])
        arrow = "" if more else "→ "
        result.append(emit(d["comment"], ("abbrev " if d["abbrev"] else "") + name, f"({var} : {place}) {arrow}{ty}", [var] + h["args"], t, d["unf"]).replace(f"\nabbrev {name} {var}", f"\n{name} {var}"))
    for new, at, a in inline:
        kids = a.kids
        s = show(kids)
        m = re.match(r"λ (\S+?)((?: \S+?)*)\. (.*)$", s, re.S)
        if not m:
            said(f"an answer that is not read: {s}")
            continue
        body = m.group(3)
        if body.strip() in ("search rules", "omega arith"):
            continue
        var = m.group(1)
        env = {"*": var, "*at": at, var: ("place", at)}
        tn.goal = new
        t = tn.turn(parse(body), env)
        tn.goal = None
        result.append(emit([], f"pub {new}", f"goal.{new}", [var], t, spec_unf))
    folder = os.path.dirname(path)

    def with_uses(body, last, extra):
        words = set(re.findall(r"[^\s(){}\[\];,.]+", body))
        keep = []
        for u in uses:
            if ".Statement." in u or u.endswith(" as tie"):
                continue
            m = re.match(r"use (\S+)\.\{(.*)\}$", u)
            if not m:
                keep.append(u)
                continue
            items = []
            for it in re.findall(r"[^,]+", m.group(2)):
                it = it.strip()
                short = it.split(" as ")[-1]
                op = re.findall(r"[^◌]+", short) if "◌" in short else None
                if op:
                    if all(o.strip() in words or o.strip() in body for o in op):
                        items.append(it)
                elif short in words or (short == "[]" and "[]" in body):
                    items.append(it)
            if items:
                keep.append(f"use {m.group(1)}.{{{', '.join(items)}}}")
        keep.append(last)
        if extra:
            keep.append(f"use Rattle.{crate}.proofs.{module}.Goals.{{{', '.join(sorted(extra))}}}")
        return "\n".join(keep)

    # what an invariant speaks of stands beside it
    shared = []
    if invariants:
        said_by = "\n".join(invariants)
        for d in decls:
            if d.get("plain") and re.search(r"(?<![\w.-])" + re.escape(d["name"]) + r"(?![\w-])", said_by):
                shared.append(d["name"])
                k = next(i for i, r in enumerate(result) if re.search(r"(?m)^(abbrev )?" + re.escape(d["name"]) + " :", r))
                r = result.pop(k)
                r = re.sub(r"(?m)^abbrev " + re.escape(d["name"]) + " :", f"abbrev pub {d['name']} :", r)
                r = re.sub(r"(?m)^" + re.escape(d["name"]) + " :", f"pub {d['name']} :", r)
                invariants.insert(len(shared) - 1, r)
    used_places = {p for p in places_used}
    wrote = []
    if invariants:
        body = "\n\n".join(invariants)
        out = "\n".join(head + [with_uses(body, f"use Rattle.{crate}.proofs.{module}.Given as goal", None), "", body, ""])
        open(os.path.join(folder, "Invariants.antt"), "w", encoding="utf-8").write(out)
        wrote.append("Invariants")
    if result:
        body = "\n\n".join(r for r in result)
        h = head if not invariants else []
        own = [f"use Rattle.{crate}.proofs.{module}.Invariants.{{{', '.join(shared)}}}"] if shared and any(s in body for s in shared) else []
        out = "\n".join(h + own + [with_uses(body, f"use Rattle.{crate}.proofs.{module}.Goals as goal", used_places), "", body, ""])
        open(os.path.join(folder, "Answers.antt"), "w", encoding="utf-8").write(out)
        wrote.append("Answers")
    os.remove(path)
    return wrote


def main(argv):
    names = json.load(open(argv[0], encoding="utf-8"))
    crate = argv[1]
    only = argv[2:]
    root = f"crates/{crate}/proofs"
    for key in sorted(names):
        m = re.fullmatch(rf"Rattle-{crate}-proofs\.(.*)\.Lts", key)
        if not m:
            continue
        module = m.group(1)
        path = os.path.join(root, module.replace(".", "/"), "Proof.antt")
        if only and module not in only and module.split(".")[-1] not in only:
            continue
        if not os.path.exists(path):
            continue
        try:
            w = convert(path, key, names[key], module, crate, lambda s: print(f"{module}: {s}"))
            print(f"{module}: wrote {', '.join(w) or 'nothing'}")
        except Exception as e:
            import traceback
            print(f"{module}: NOT TURNED: {e!r}")
            traceback.print_exc(limit=3)
    return 0


if __name__ == "__main__":
    raise SystemExit(main(sys.argv[1:]))
