#!/usr/bin/env python3
"""Turns the walks over Tie (proofs/F/Proof.antt) of a crate into Invariants.antt and Answers.antt.

usage: convert_proofs.py NAMES CRATE [PATH..]

NAMES is the names.json that `rt names` writes for the crate, CRATE its folder. Prints what it could not turn, and moves each old file to /tmp/oldproofs.
It ran once, for docs/PORT.md. In a recursion it names the clauses of `requires` one too far on, since the measure's fact stood first among them: `c.decreases` has it.
"""
import json
import os
import re
import sys

norm = lambda s: re.sub(r"[_-]+", "-", s).replace("·", "-").lower()
OPS = dict(add="overflow-add", sub="overflow-sub", mul="overflow-mul", shl="overflow-shl", shr="overflow-shr", cast="overflow-cast",
           div="nonzero-div", rem="nonzero-rem", index="bounds", offset="offset-bounds", part="slice-bounds")
TRIVIAL = re.compile(r"^\s*(search rules|omega arith|tt|refl)\s*$")
DROP_USE = re.compile(r"^use .*(\.Tie\b|\.Statement\b|\.Lts|\.Reads\b|\.Kinds\b|borrow\.Fn\.|\.\+\w+\.\{statement\})")


def blocks(text):
    """Top declarations, those of a module block too, each a list of lines without its indentation."""
    lines = text.split("\n")
    out, cur, shift, comment = [], [], 0, []
    uses, heads = [], []
    for line in lines:
        if re.match(r"module _ .* where", line):
            if cur:
                out.append(cur)
            cur = []
            shift = 2
            continue
        if shift and line and not line.startswith("  "):
            shift = 0
            if cur:
                out.append(cur)
            cur = []
        l = line[shift:] if shift and line.strip() else line
        if l.startswith("use ") or l.startswith("pub use "):
            uses.append(l)
            continue
        if l.startswith("--") and not cur and not out and not uses:
            heads.append(l)
            continue
        if not l.strip():
            if cur:
                out.append(cur)
            cur = []
            continue
        # a new signature at column 0 begins a block
        if not l.startswith(" ") and cur and re.match(r"(pub |abbrev |unfoldable )*[^\s:]+ :( |$)", l) and not cur[-1].startswith("--"):
            out.append(cur)
            cur = []
        cur.append(l)
    if cur:
        out.append(cur)
    return heads, uses, out


def sig(block):
    at = 0
    while at < len(block) and block[at].startswith("--"):
        at += 1
    if at == len(block):
        return None
    m = re.match(r"((?:pub |abbrev |unfoldable )*)(\S+) :(.*)", block[at])
    if not m:
        return None
    typ = [m[3]]
    k = at + 1
    while k < len(block) and block[k].startswith(" "):
        typ.append(block[k])
        k += 1
    return block[:at], m[1], m[2], " ".join(t.strip() for t in typ), block[k:]


def split_top(s, sep):
    depth, cut, out = 0, 0, []
    i = 0
    while i < len(s):
        ch = s[i]
        if ch in "([{":
            depth += 1
        elif ch in ")]}":
            depth -= 1
        elif ch == sep and depth == 0:
            out.append(s[cut:i])
            cut = i + 1
        i += 1
    out.append(s[cut:])
    return out


def matching(s, i):
    depth = 0
    for k in range(i, len(s)):
        if s[k] in "([{":
            depth += 1
        elif s[k] in ")]}":
            depth -= 1
            if depth == 0:
                return k
    return -1


def tuple_parts(s, n):
    """The n parts of a tuple that is nested to the right or flat; None if s is none."""
    s = s.strip()
    if n == 1:
        return [s]
    if not (s.startswith("(") and matching(s, 0) == len(s) - 1):
        return None
    parts = [p for p in split_top(s[1:-1], ",")]
    parts = [p for p in parts if p.strip()]
    if len(parts) == 1:
        return tuple_parts(parts[0], n)
    if len(parts) == n:
        return [p.strip() for p in parts]
    if len(parts) < n:
        rest = tuple_parts(parts[-1], n - len(parts) + 1)
        if rest:
            return [p.strip() for p in parts[:-1]] + rest
    return None


def body_split(body):
    """The lets and tuple that a body ends with."""
    s = body.rstrip()
    k = 0
    # find the last top-level ' in '
    depth, last = 0, 0
    for m in re.finditer(r"[()\[\]{}]|\bin\b", s):
        if m[0] in "([{":
            depth += 1
        elif m[0] in ")]}":
            depth -= 1
        elif depth == 0:
            last = m.end()
    return s[:last], s[last:]


class Fn:
    def __init__(self, of, said):
        self.of = of
        self.said = said
        self.places = {}
        self.index = {}
        for k, (name, parent, field, callee, more) in enumerate(of["places"]):
            self.places.setdefault(norm(name), []).append(k)
            self.index[k] = (name, parent, field, callee)
        self.parent = {}
        for k, (name, parent, field, callee) in self.index.items():
            self.parent[k] = self.places[norm(parent)][0] if parent else None
        self.needs = {}
        for (old, new), (old_at, new_at) in zip(of["needs"], of["asked_at"]):
            first = re.match(r"[^-]*", old)[0]
            names = {norm(old)}
            if first in OPS:
                names.add(norm(OPS[first] + old[len(first):]))
            for it in names:
                self.needs[it] = (old, new, old_at)
        self.args = {}
        for a in of.get("args") or []:
            if a[0].startswith(".args ."):
                self.args[a[0][7:]] = a[1][7:]

    def place(self, name):
        got = self.places.get(norm(name))
        return got[0] if got else None

    def fields(self, names, rest):
        """Turns .0 .1.0 .1.1 into a name of fields; a list of names where several are meant."""
        n = len(names)
        self.whole = names
        if n <= 1:
            return "", rest
        k = 0
        while rest and rest[0] == "1" and k < n - 1:
            k += 1
            rest = rest[1:]
        if k < n - 1:
            if rest and rest[0] == "0":
                return "." + names[k], rest[1:]
            if rest:
                return None
            return names[k:], []
        return "." + names[k], rest

    def spelled(self, head, got):
        if isinstance(got[0], list):
            parts = [head + "." + it for it in got[0]]
            out = parts[-1]
            for it in reversed(parts[:-1]):
                out = f"({it}, {out})"
            return "⟦" + head + "|" + out + "⟧"
        return head + got[0] + "".join("." + r for r in got[1])

    def chain(self, at):
        out = []
        while at is not None:
            out.append(at)
            at = self.parent[at]
        return out

    def step(self, depth, path):
        """The new spelling of the path (a list of fields) at a depth of the answer's chain of places; None where it is not known."""
        while path and path[0] == "before":
            depth += 1
            path = path[1:]
        if not path:
            return ("place", depth)
        chain = self.chain(self.here)
        if path[0] not in ("args", "requires", "pre", "ranges", "lifetimes", "type-inv", "type_inv", "well-formed", "well_formed"):
            f = norm(path[0])
            f = re.sub(r"^copy(\d*)$", r"copy-from-slice\1", f)
            fits = [k for k, it in enumerate(chain) if norm(self.index[it][2][0]) == f]
            typed = [nm for it in chain for nm, old in self.of["typed"][it] if norm(old) == f]
            if typed and len(path) > 1 and path[1] == "given":
                return ("path", "c.type_inv." + typed[0] + "".join("." + r for r in path[2:]))
            if not fits:
                # a step whose number has changed
                bare = re.sub(r"\d+$", "", f)
                fits = [k for k, it in enumerate(chain) if re.sub(r"\d+$", "", norm(self.index[it][2][0])) == bare]
                if fits:
                    self.said.append(f"step {f} taken for one of {[self.index[chain[k]][2] for k in fits]}")
            if not fits:
                self.said.append(f"no step {path[0]} on the way to {self.index[self.here][0]} ({'.'.join(path)})")
                return None
            at = chain[min(fits, key=lambda k: abs(k - depth))]
        else:
            at = chain[-1]
        f, rest = path[0], path[1:]
        name, parent, field, callee = self.index[at]
        if f in ("args", "requires", "pre", "ranges", "lifetimes", "type-inv", "type_inv", "well-formed", "well_formed"):
            if f == "pre":
                f = "requires"
            f = f.replace("-", "_")
            if f == "requires":
                fs = (self.of.get("pre") or {}).get("fields") or []
                got = self.fields(fs, rest)
                if got is None:
                    return None
                return ("path", self.spelled("c.requires", got))
            if f in ("args", "ranges") and rest:
                rest = [self.args.get(rest[0], rest[0]).replace("-", "_")] + rest[1:]
            return ("path", "c." + f + "".join("." + r for r in rest))
        new = field[1]
        out = "c." + new
        if "copy_from_slice" in new and rest[:2] == ["ensures", "1"]:
            return ("path", out + ".ensures.after" + "".join("." + r for r in rest[2:]))
        if "copy_from_slice" in new and rest[:3] == ["new", "1", "0"]:
            return ("path", out + ".new.self" + "".join("." + r for r in rest[3:]))
        if callee or (rest and rest[0] in ("ensures", "new", "result")):
            if rest and rest[0] == "ensures":
                cl = self.of["clauses"][at]
                fs = cl.get("fields") if cl else None
                got = self.fields(fs or [], rest[1:])
                if got is None:
                    return None
                return ("path", self.spelled(out + ".ensures", got))
            if rest and rest[0] in ("new", "auto") and callee:
                ps = self.of["params"].get(callee)
                r = rest[1:]
                k = 0
                while r and r[0] == "1":
                    k += 1
                    r = r[1:]
                if r and r[0] == "0" and ps and k < len(ps):
                    return ("path", out + "." + rest[0] + "." + ps[k] + "".join("." + x for x in r[1:]))
                self.said.append(f"new of {callee}: {'.'.join(path)}")
                return None
        arm = self.of["arms"][at]
        if arm:
            out = "c." + arm[0]
            for nf, oldstep, oldpath in arm[2]:
                if norm(oldstep) == norm(f) and [norm(x) for x in oldpath] == [norm(x) for x in rest[: len(oldpath)]]:
                    return ("path", out + "." + nf + "".join("." + r for r in rest[len(oldpath):]))
            if rest and rest[0] == "rest":
                return ("path", "(omega arith)")
            self.said.append(f"arm {arm}: {'.'.join(path)}")
            return None
        if norm(f).startswith("match") and rest and rest[0] == "rest":
            return ("path", "(omega arith)")
        if norm(f).startswith("loop") and rest and rest[0] not in ("invariant", "auto", "true", "false"):
            rest = [rest[0].replace("-", "_")] + rest[1:]
        return ("path", out + "".join("." + r for r in rest))

    def turn(self, body, var, at):
        """A body with its paths turned; 'var' stands at a place."""
        env = {var: (0, [])}
        self.here = at
        PATHS = re.compile(r"(?<![\w.'′-])([A-Za-z_][\w₀-₉'′-]*)((?:\.[\w₀-₉'′·+-]+)*)")
        out, pos = [], 0
        ok = True
        # lets first, in order
        while True:
            m = re.compile(r"let (\S+) = ([^\s(){}]+) in(?=\s)").search(body, pos)
            if not m:
                out.append(body[pos:])
                break
            p = m[2].split(".")
            if p[0] in env:
                depth, prefix = env[p[0]]
                path = prefix + p[1:]
                while path and path[0] == "before":
                    depth, path = depth + 1, path[1:]
                out.append(body[pos:m.start()])
                env[m[1]] = (depth, path)
                # the rest of the space
                pos = m.end()
                while pos < len(body) and body[pos] in " \n":
                    pos += 1
                continue
            out.append(body[pos:m.end()])
            pos = m.end()
        body = "".join(out)

        def one(m):
            nonlocal ok
            v, p = m[1], m[2]
            if v not in env:
                return m[0]
            path = env[v][1] + [x for x in p.split(".") if x]
            got = self.step(env[v][0], path)
            if got is None:
                ok = False
                return "⟪" + m[0] + "⟫"
            if got[0] == "place":
                return "c"
            return got[1]

        return PATHS.sub(one, body), ok


def untwisted(body):
    """Tests of `!x` say it plainly now; the whole of a contract's clauses is a record, but where a pair is asked."""
    for a, b in (("true", "true"), ("false", "false")):
        body = re.sub(r"\(not-" + a + r"\s+(?:_|\S+)\s+(c\.if-not-[^\s(){},;]+\." + b + r")\)", "\x02\\1", body)
        body = re.sub(r"not-" + a + r"\s+(?:_|\S+)\s+(c\.if-not-[^\s(){},;]+\." + b + r")(?![\w.])", "\x02\\1", body)
    body = re.sub(r"(?<![\w.])(?<!\x02)c\.if-not-[^\s(){},;]+\.(?:true|false)(?![\w.])", lambda m: m[0] if m[0].startswith("\x02") else "(ap not " + m[0] + ")", body).replace("\x02", "")
    out, pos = [], 0
    while True:
        m = re.compile(r"\b(omega|grind|cc|search) \(").search(body, pos)
        if not m:
            break
        end = matching(body, m.end() - 1)
        if end < 0:
            break
        inside = body[m.end() : end]
        parts = split_top(inside, ",")
        parts = [re.sub(r"^(\s*)⟦([^|]*)\|[^⟧]*⟧(\s*)$", r"\1\2\3", q) for q in parts]
        out.append(body[pos : m.end()] + ",".join(parts))
        pos = end
    out.append(body[pos:])
    body = "".join(out)
    return re.sub(r"⟦[^|]*\|([^⟧]*)⟧", r"\1", body)


PLACE = r"(?:tie|lts|[\w-]+-lts)\.(?!Need-|invariant-|decreases-)[\w-]+(?: \([^()]*\)| (?!→)[\w.-]+)*"


def helpers_of(decls):
    """Functions from places to places, and typed helpers over a place, by name, in order; and the other declarations."""
    moves, typed, rest = set(), {}, []
    for b in decls:
        s = sig(b)
        if s:
            com, mods, nm, typ, body = s
            if re.fullmatch(PLACE + r" → " + PLACE, typ):
                moves.add(nm)
                continue
            m = re.match(r"(?:\((\w+) : " + PLACE + r"\)(?: →)?|" + PLACE + r" →) (.*)$", typ, re.S)
            joined = "\n".join(body)
            mm = re.match(r"((?:unfolding [^\n]*\n)?)" + re.escape(nm) + r"((?:\s+[^\s=]+)*)\s*=(.*)", joined, re.S)
            if m and mm and mm[2].split():
                var = mm[2].split()[0]
                more = mm[2].split()[1:]
                T = m[2]
                if m[1] and m[1] != var:
                    T = re.sub(r"(?<![\w.'′-])" + re.escape(m[1]) + r"(?![\w₀-₉'′-])", var, T)
                B = mm[3]
                if more:
                    B = " λ " + " ".join(more) + "." + B
                if mm[1]:
                    B = " " + mm[1].strip() + " in " + B
                typed[nm] = (var, T, B)
                continue
        rest.append(b)
    return moves, typed, rest


def arguments(s):
    """The arguments that a call's text has, until a closing parenthesis of its own."""
    out, i = [], 0
    while i < len(s):
        if s[i].isspace():
            i += 1
        elif s[i] == "(":
            k = matching(s, i)
            out.append(s[i : k + 1])
            i = k + 1
        elif s[i] == ")":
            break
        else:
            m = re.match(r"[^\s()]+", s[i:])
            out.append(m[0])
            i += len(m[0])
    return out


def inline_answers(text, decls, fn, said):
    """Blocks for the answers that stand in the call of spec itself, by their place among the goals."""
    text = re.sub(r"--[^\n]*", "", text)
    m = re.search(r"(?:tie|lts|[\w-]+-lts)\.spec\b", text)
    if not m:
        return []
    args = arguments(text[m.end():])
    names = {}
    for b in decls:
        s = sig(b)
        if s:
            names[s[2]] = s[3]
    order = [old for old, new in fn.of["needs"]]
    items = []
    for a in args:
        typ = names.get(a, "")
        q = re.match(r"(?:\(t : ℕ\) → )?(?:tie|lts|[\w-]+-lts)\.Need-(\S+)", typ)
        if q:
            got = None
            for cand in (q[1], a):
                if norm(cand) in fn.needs:
                    got = order.index(fn.needs[norm(cand)][0])
                    break
            items.append(("at", got, a))
        elif re.match(r"\(λ c( κs| _)?\.", a):
            items.append(("λ", None, a))
        elif re.match(r"\(?[\w-]+ t\)?$|\(calls t\)|\(.*-at t\)|.*\.Post$", a) or "invariant" in typ or "decreases" in typ or "Claims" in typ or "Measures" in typ:
            items.append(("skip", None, a))
        elif a in names:
            items.append(("skip", None, a))
        else:
            items.append(("name", None, a))
    out = []
    i = 0
    last = -1
    run = []

    def settle(run, low, high):
        todo = [r for r in run if r[0] in ("λ", "name")]
        room = list(range(low + 1, high))
        if not todo:
            return
        trivial = [r for r in todo if r[0] == "λ" and re.match(r"\(λ c( κs| _)?\.\s*(search rules|tt|refl)\s*\)$", r[2])]
        if len(todo) > len(room):
            extra = len(todo) - len(room)
            kept = list(todo)
            for r in trivial:
                if extra and r in kept:
                    kept.remove(r)
                    extra -= 1
            todo = kept
        if len(todo) != len(room):
            if any(r not in trivial for r in todo):
                said.append(f"inline answers {[r[2][:60] for r in todo]} for goals {[order[k] for k in room]}")
            if len(todo) > len(room):
                return
        for r, k in zip(todo, room):
            if r in trivial:
                continue
            old = order[k]
            body = re.match(r"\(λ c(?: κs| _)?\.(.*)\)$", r[2], re.S)[1] if r[0] == "λ" else f" {r[2]} c"
            if re.match(r"\s*omega arith\s*$", body):
                continue
            out.append([f"inline-{k} : tie.Need-{old}"] + f"inline-{k} c ={body}".split("\n"))

    for it in items:
        if it[0] == "at" and it[1] is not None:
            settle(run, last, it[1])
            last, run = it[1], []
        elif it[0] in ("λ", "name"):
            run.append(it)
    settle(run, last, len(order))
    return out


def convert(crate, folder, name, names, path):
    """folder: proofs/.../F; names: the json of the crate."""
    said = []
    with open(os.path.join(folder, "Proof.antt"), encoding="utf-8") as f:
        text = f.read()
    for m in list(re.finditer(r"(?m)^( *)abbrev (\w+) : Type[^\n]*\n\1\2 = ([^\n]*)\n", text)):
        if re.fullmatch(PLACE, m[3].strip()):
            text = text.replace(m[0], "")
            text = re.sub(r"(?<![\w.'′-])" + m[2] + r"(?![\w'′-])", m[3].strip().replace("\\", ""), text)
    dotted = os.path.relpath(folder, os.path.join(crate, "proofs")).replace("/", ".")
    key = None
    members = {}
    for k in names:
        m = re.fullmatch(r"Rattle-" + re.escape(name) + r"-proofs\." + re.escape(dotted) + r"\.Lts(?:-(.*))?", k)
        if m:
            members[m[1]] = names[k]
    if not members:
        return None, None, [f"no names for {dotted}"]
    fns = {k: Fn(v, said) for k, v in members.items()}
    only = next(iter(fns.values()))
    heads, uses, decls = blocks(text)
    moves, typed, decls = helpers_of(decls)
    AT = r"[A-Za-z_][\w₀-₉'′]*(?:\.before)*"

    def flat(body):
        """A body in which functions from place to place are gone."""
        for _ in range(6):
            was = body
            for f in moves:
                body = re.sub(r"\(" + re.escape(f) + r" (?:(" + AT + r")|\((" + AT + r")\))\)", lambda m: (m[1] or m[2]).split(".")[0] if (m[1] or m[2]).split(".")[0] == "c" else "c", body)
                body = re.sub(r"(?<![\w.(-])" + re.escape(f) + r" (c(?:\.before)*)(?![\w.])", "c", body)
            if body == was:
                break
        return body

    def with_helpers(body, fn, at, var):
        """A body turned, with a typed let for each helper that it uses."""
        body = flat(body)
        used, todo = set(), [body]
        while todo:
            it = todo.pop()
            for h in typed:
                if h not in used and re.search(r"(?<![\w.'′-])" + re.escape(h) + r"(?![\w₀-₉'′-])", it):
                    used.add(h)
                    todo.append(flat(typed[h][1] + " " + typed[h][2]))

        def bare(s):
            for h in used:
                s = re.sub(r"\(" + re.escape(h) + r" (?:" + AT + r"|\(" + AT + r"\))\)", "\x01" + h, s)
                s = re.sub(r"(?<![\w.'′\x01-])" + re.escape(h) + r" (?:" + AT + r"|\(" + AT + r"\))", "\x01" + h, s)
            return s.replace("\x01", "")

        lets, good = "", True
        for h in typed:
            if h in used:
                v, T, B = typed[h]
                T, ok1 = fn.turn(bare(flat(T)), v, at)
                B, ok2 = fn.turn(bare(flat(B)), v, at)
                good = good and ok1 and ok2
                lets += f"\n    let {h} : {T.strip()} = {B.strip()} in"
        body, ok = fn.turn(bare(body), var, at)
        return untwisted(lets) + untwisted(body), ok and good

    inv, ans = [], []
    decls += inline_answers(text, decls, only, said)
    keep_uses = [u for u in uses if not DROP_USE.search(u)]
    recursive = "+" in dotted
    for b in decls:
        s = sig(b)
        if s is None:
            ans.append("-- ?? " + "\n-- ?? ".join(b))
            said.append("a block without a signature: " + b[0][:80])
            continue
        com, mods, nm, typ, rest = s
        m = re.match(r"tie\.(invariant|decreases)-(\S+)$", typ)
        if m:
            loop = None
            for k, (l, vs) in enumerate(only.of["loops"]):
                if norm(l[0]) == norm(m[2]):
                    loop = (l[1], vs, only.of["changed"][k])
            if not loop:
                said.append("no loop " + m[2])
                continue
            new, vs, ch = loop
            head = rest[0]
            joined = "\n".join(rest)
            mm = re.match(re.escape(nm) + r"((?:\s+[^\s=]+)*)\s*=(.*)", joined, re.S)
            if not mm:
                said.append("cannot read " + nm)
                continue
            binders = mm[1].split()
            order = [(v, "l.initial." + v if c else "l." + v) for v, c in zip(vs, ch)] + [(v, "l." + v) for v, c in zip(vs, ch) if c]
            body = mm[2]
            if len(binders) != len(order):
                said.append(f"{nm}: {len(binders)} binders {binders}, {len(order)} expected {[o[1] for o in order]}")
            sub = {bn: o[1] for bn, o in zip(binders, order)}
            body = re.sub(r"(?<![\w.'′-])([A-Za-z_][\w₀-₉'′]*)(?![\w'′-])", lambda q: sub.get(q[1], q[1]) if q[1] != "_" else "_", body)
            inv.append("\n".join(com + [f"abbrev pub {m[1]}-{new} : goal.{m[1]}-{new}", f"{m[1]}-{new} l ={body}"]))
            continue
        m = re.match(r"(?:\(t : ℕ\) → )?(?:tie|lts|[\w-]+-lts)\.Need-(\S+)", typ)
        if m:
            fn = only
            need = None
            for cand in (m[1], nm):
                if norm(cand) in fn.needs:
                    need = fn.needs[norm(cand)]
                    break
            joined = "\n".join(rest)
            unf = ""
            mm = re.match(r"((?:unfolding [^\n]*\n)?)" + re.escape(nm) + r"((?:\s+[^\s=]+)*)\s*=(.*)", joined, re.S)
            if not mm:
                said.append("cannot read " + nm)
                ans.append("-- ?? " + "\n-- ?? ".join(b))
                continue
            unf, binders, body = mm[1], mm[2].split(), mm[3]
            if typ.startswith("(t : ℕ)"):
                binders = binders[1:]
            if TRIVIAL.match(body.replace("\n", " ")) and not unf:
                continue
            if need is None:
                said.append(f"no goal for {nm} ({m[1]})")
                continue
            old, new, old_at = need
            at = fn.place(old_at)
            body, ok = with_helpers(body, fn, at, binders[0] if binders else "c")
            fs = fn.of["asked"].get(old)
            if fs and len(fs) > 1:
                lets, tail = body_split(body)
                parts = tuple_parts(tail, len(fs))
                if parts:
                    body = lets + " record { " + "; ".join(f"{f} = {p}" for f, p in zip(fs, parts)) + " }"
                elif re.match(r"\s*rw ", tail) and tail.rstrip().endswith(")"):
                    k = max((i for i in range(len(tail)) if tail[i] == "(" and matching(tail, i) == len(tail.rstrip()) - 1), default=-1)
                    parts = tuple_parts(tail[k:].strip(), len(fs)) if k > 0 else None
                    if parts:
                        body = lets + " record { " + "; ".join(f"{f} = {tail[:k].strip()} ({q})" for f, q in zip(fs, parts)) + " }"
                    else:
                        said.append(f"{new}: a rw of {fs}")
                elif not re.match(r"\s*search rules\s*$", tail):
                    proj = lambda k: ".1" * k + (".0" if k < len(fs) - 1 else "")
                    body = lets + " let whole = " + tail.strip() + " in record { " + "; ".join(f"{f} = whole{proj(k)}" for k, f in enumerate(fs)) + " }"
            rec = "t " if recursive else ""
            if not ok:
                said.append(f"{new}: paths left")
            ans.append("\n".join(com + [f"pub {new} : goal.{new}"]) + "\n" + unf + f"{new} {rec}c ={body}")
            continue
        if re.search(r"\bstatement\b|Closed", typ) and "Type 1" in typ:
            continue
        if "statement" in typ and "M : Type 1" in typ or nm in ("closed",) or re.search(r"Claims|Measures| In \d|^ℕ → In", typ):
            if re.search(r"Measures", typ):
                joined = "\n".join(rest)
                mm = re.match(re.escape(nm) + r"\s+(\S+)\s+(\S+)\s*=(.*)", joined, re.S)
                fname = dotted.rsplit("+", 1)[-1]
                ps = next((v for k, v in only.of["params"].items() if k.rsplit("::", 1)[-1] == fname), None)
                if mm and ps and len(members) == 1:
                    def par(m):
                        k = 0
                        r = [x for x in m[1].split(".") if x]
                        while r and r[0] == "1":
                            k += 1
                            r = r[1:]
                        if r and r[0] == "0":
                            return "l." + ps[k] + "".join("." + x for x in r[1:])
                        return "l." + ps[k]
                    body = re.sub(r"(?<![\w.])" + re.escape(mm[2]) + r"((?:\.[\w]+)+)", par, mm[3])
                    inv.append(f"abbrev pub decreases-{fname} : goal.decreases-{fname}\ndecreases-{fname} l ={body}")
                else:
                    said.append("a measure by hand: " + joined)
                    ans.append("-- ?? measure: " + "\n-- ?? ".join(b))
            continue
        if re.search(r"\b(tie|[\w-]*lts)\.", typ):
            said.append(f"a helper over places: {nm} : {typ[:100]}")
            ans.append("-- ?? helper: " + "\n-- ?? ".join(b))
            continue
        ans.append("\n".join(b))
    pre = "\n".join(heads)
    mod = f"Rattle.{name}.proofs.{dotted}"
    whole_text = "\n".join(ans)
    if "(ap not " in whole_text:
        if not any(re.search(r"[{ ]ap[,}]", u) for u in keep_uses):
            keep_uses.append("use mathlib.Core.Path.{ap}")
        if not any(re.search(r"[{ ]not[,}]", u) for u in keep_uses):
            keep_uses.append("use mathlib.Core.Bool.{not}")
    if "(omega arith)" in whole_text and not any(re.search(r"[{ ]arith[,}]", u) for u in keep_uses):
        keep_uses.append("use native.Mathlib.Omega.{arith}")
    it = "\n".join(keep_uses)
    invt = anst = None
    if inv:
        invt = (it + "\n" if it else "") + f"use {mod}.Given as goal\n\n" + "\n\n".join(inv) + "\n"
    if ans:
        anst = (pre + "\n" if pre else "") + (it + "\n" if it else "") + f"use {mod}.Goals as goal\n\n" + "\n\n".join(ans) + "\n"
    return invt, anst, said


def main(argv):
    with open(argv[0]) as f:
        names = json.load(f)
    crate = argv[1]
    name = os.path.basename(os.path.abspath(crate))
    wanted = argv[2:]
    for folder, dirs, files in os.walk(os.path.join(crate, "proofs")):
        dirs.sort()
        if "Proof.antt" not in files:
            continue
        rel = os.path.relpath(folder, os.path.join(crate, "proofs"))
        if wanted and rel not in wanted:
            continue
        inv, ans, said = convert(crate, folder, name, names, rel)
        if inv is None and ans is None and said:
            print(f"{name}/{rel}: {said}")
            continue
        os.makedirs(f"/tmp/oldproofs/{name}/{rel}", exist_ok=True)
        os.rename(os.path.join(folder, "Proof.antt"), f"/tmp/oldproofs/{name}/{rel}/Proof.antt")
        if inv:
            open(os.path.join(folder, "Invariants.antt"), "w", encoding="utf-8").write(inv)
        if ans:
            open(os.path.join(folder, "Answers.antt"), "w", encoding="utf-8").write(ans)
        if not inv and not ans:
            try:
                os.removedirs(folder)
            except OSError:
                pass
        for s in said:
            print(f"{name}/{rel}: {s}")


main(sys.argv[1:])
