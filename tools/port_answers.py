#!/usr/bin/env python3
"""Turns proofs that walked the code by hand into invariants and answers.

    rt names NAMES                                   at the top: NAMES/crates/CRATE/names.json, each goal's old and new name
    python3 tools/port_answers.py NAMES CRATE..      rewrites crates/CRATE/proofs/**/Proof.antt

What was answered by `search rules` alone is left to the check. What the script can't turn it says, and leaves a mark `?` there for a hand."""
import glob
import json
import os
import re
import sys

TOKEN = re.compile(r"[^\s(){}\[\],;`\"]+")


def norm(n):
    return n.replace("-", "_")


def blocks(text):
    """The parts of a file between empty lines, each with the comments above it."""
    return [b for b in re.split(r"\n[ ]*\n+", text.strip("\n")) if b.strip()]


class Turn:
    def __init__(self, path, names):
        self.path, self.names, self.said = path, names, []
        places = names["places"]
        self.step, self.fields = {}, {}
        for place, new_place in zip(places, names["places_by_name"]):
            old, new = place[2]
            if old:
                self.step.setdefault(norm(old), new)
                for a, b in place[4]:
                    self.fields.setdefault(norm(old), {})[a] = b
        self.place = {norm(p[0]): n for p, n in zip(places, names["places_by_name"])}
        self.arm = {}
        for arm in names["arms"]:
            if not arm:
                continue
            for new, old, path_ in arm[2]:
                if path_:
                    self.arm.setdefault((norm(old), tuple(path_)), arm[0] + "." + new)
        self.need = {}
        for old, new in names["needs"]:
            self.need.setdefault(norm(old), new)
        self.new_need = {norm(n): n for _, n in names["needs"]}
        for s in names["settled"]:
            self.new_need.setdefault(norm(s), None)

    def goal(self, typed, name):
        for n in (typed, re.sub(r"^(?:overflow|nonzero|bounds)[-_]", "", typed), name):
            if norm(n) in self.need:
                return self.need[norm(n)]
        for n in (typed, name):
            if norm(n) in self.new_need:
                return self.new_need[norm(n)]
        return None

    def path_(self, tok, env):
        segs = tok.split(".")
        if len(segs) < 2 or not segs[0]:
            return tok
        head, rest = segs[0], segs[1:]
        if not re.match(r"[^\W\d]", head):
            return tok
        had = "before" in rest
        rest = [s for s in rest if s != "before"]
        if not rest:
            return head
        if head in env or had:
            step = norm(rest[0])
            for k in (3, 2, 1):
                if len(rest) > k and (step, tuple(rest[1:k + 1])) in self.arm:
                    return ".".join([head] + self.arm[(step, tuple(rest[1:k + 1]))].split(".") + rest[k + 1:])
            if step in self.step:
                tail = rest[1:]
                if tail and tail[0] in self.fields.get(step, {}):
                    tail = [self.fields[step][tail[0]]] + tail[1:]
                return ".".join([head, self.step[step]] + tail)
        elif head in self.bound:
            step = self.bound[head]
            for k in (3, 2, 1):
                if len(rest) >= k and (step, tuple(rest[:k])) in self.arm:
                    root = self.roots.get(head, "c")
                    return ".".join([root] + self.arm[(step, tuple(rest[:k]))].split(".") + rest[k:])
            if rest[0] in self.fields.get(step, {}):
                return ".".join([head, self.fields[step][rest[0]]] + rest[1:])
        return ".".join([head] + rest)

    def body(self, text):
        """An expression, with its paths turned."""
        self.bound, self.roots = {}, {}
        env = {"c"}
        # a local name of a place, or of a step of one
        for m in re.finditer(r"\blet ([^\s(){}\[\],;:=]+) = ([^\s(){}\[\],;]+) in", text):
            segs = m.group(2).split(".")
            if segs[0] in env:
                rest = [s for s in segs[1:] if s != "before"]
                if not rest:
                    env.add(m.group(1))
                elif len(rest) == 1 and norm(rest[0]) in self.step:
                    self.bound[m.group(1)], self.roots[m.group(1)] = norm(rest[0]), segs[0]
        for m in re.finditer(r"\(([^\s(){}\[\],;:]+) : (?:tie|lts)\.", text):
            env.add(m.group(1))
        text = TOKEN.sub(lambda m: self.path_(m.group(0), env), text)
        # a second name of the same record is that record
        while True:
            m = re.search(r"[ ]*let ([^\s(){}\[\],;:=.]+) = (c|[a-z]\w*) in ?(\n(?=[ ]*))?", text)
            if not m or m.group(2) not in env:
                break
            text = text[: m.start()] + (" " if not m.group(3) and text[m.start()] == " " else "") + text[m.end():]
            a, b = m.group(1), m.group(2)
            text = TOKEN.sub(lambda k: b + k.group(0)[len(a):] if k.group(0) == a or k.group(0).startswith(a + ".") else k.group(0), text)
        # what a test of `!x` says, and what a call ensures of what an arm took
        text = re.sub(r"not-true _ (\S+?)\.true-raw", r"\1.true", text)
        text = re.sub(r"not-false _ (\S+?)\.false-raw", r"\1.false", text)
        text = re.sub(r"subst \((?:[^()]|\([^()]*\))*\) (\S+\.in[-_]\S+)\.is [a-z]\S*\.ensures(?![\w.'-])", r"\1.ensures", text)
        return text


def turn(path, names):
    with open(path, encoding="utf-8") as f:
        text = f.read()
    t = Turn(path, names)
    module = re.search(r"use (Rattle\.\S+?)\.(?:Statement\.\{statement\}|Tie as tie)", text)
    module = module.group(1) if module else None
    if not module:
        return ["no module"]
    parts = blocks(text)
    head, uses, kept, goals, invs = [], [], [], [], []
    for i, b in enumerate(parts):
        lines = b.split("\n")
        if i == 0:
            head = [l for l in lines if l.startswith("--")]
            uses = [l for l in lines if not l.startswith("--")]
            lines = []
            if all(l.startswith("use ") for l in uses):
                continue
            # no empty line after the imports
            k = max(j for j, l in enumerate(uses) if l.startswith("use ")) + 1
            lines, uses = uses[k:], uses[:k]
            b = "\n".join(lines)
        sig = next((l for l in lines if not l.startswith("--")), "")
        if sig.startswith("use "):
            uses += [l for l in lines if l.startswith("use ")]
            continue
        m = re.match(r"(?:abbrev )?(?:pub )?([^\s:]+) : (?:tie|lts)\.(invariant|decreases)-(\S+)$", sig)
        if m:
            invs.append((m.group(2), m.group(3), m.group(1), b))
            continue
        m = re.match(r"(?:pub )?([^\s:]+) : (?:tie|lts)\.Need-(\S+)(.*)$", sig)
        if m:
            goals.append((m.group(1), m.group(2), b))
            continue
        if re.match(r"pub \S+ : \{M : Type 1\} → statement M", sig):
            continue
        kept.append(b)
    inv_out, done = [], []
    for kind, loop, name, b in invs:
        k = next((i for i, l in enumerate(names["loops"]) if norm(l[0][0]) == norm(loop)), None)
        if k is None:
            t.said.append(f"no loop {loop}")
            continue
        new, vars_ = names["loops"][k][0][1], names["loops"][k][1]
        changed = names["changed"][k]
        eq = re.search(r"(?m)^" + re.escape(name) + r" (.*?) =(?:\s)((?:.|\n)*)$", b)
        if not eq:
            t.said.append(f"no equation for {name}")
            continue
        args, expr = eq.group(1).split(), eq.group(2)
        n = len(vars_)
        cur = [v for v, c in zip(vars_, changed) if c]
        if len(args) != n + len(cur):
            t.said.append(f"{name} has {len(args)} arguments, and {n} + {len(cur)} were expected: {vars_}")
        to = {}
        for a, v, c in zip(args[:n], vars_, changed):
            to[a] = f"l.initial.{v}" if c else f"l.{v}"
        for a, v in zip(args[n:], cur):
            to[a] = f"l.{v}"
        to.pop("_", None)

        def put(m):
            tok = m.group(0)
            h, dot, rest = tok.partition(".")
            return to[h] + dot + rest if h in to else tok

        expr = TOKEN.sub(put, expr)
        comment = [l for l in b.split("\n") if l.startswith("--")]
        word = f"{kind}-{new}"
        inv_out.append("\n".join(comment + [f"abbrev pub {word} : goal.{word}", f"{word} l = {expr}" if not expr.startswith("\n") else f"{word} l ={expr}"]))
    # what the invariants name stands with them
    def names_of(b):
        return set(re.findall(r"(?m)^(?:abbrev |unfoldable |pub )*(?:record |data )?([^\s(){}:]+)(?: \(.*?\))* :", b)) | set(re.findall(r"(?m)^(?:pub )?(?:record|data) (\S+)", b))
    need = set(TOKEN.findall("\n".join(inv_out)))
    need |= {p for tok in need for p in tok.split(".")}
    moved = []
    while True:
        more = [b for b in kept if b not in moved and names_of(b) & need]
        if not more:
            break
        moved += more
        for b in more:
            toks = set(TOKEN.findall(b))
            need |= toks | {p for x in toks for p in x.split(".")}
    moved = [b for b in kept if b in moved]
    rest = [b for b in kept if b not in moved]
    ans = []
    typed = {}
    for b in rest:
        b2 = t.body(b)
        for m in re.finditer(r"\(?c : (?:tie|lts)\.([^\s()]+)", b):
            p = t.place.get(norm(m.group(1)))
            nm = re.search(r"(?m)^([^\s:]+) : ", b)
            if p and nm:
                typed[nm.group(1)] = p
        b2 = re.sub(r"\b(?:tie|lts)\.([A-Z][^\s()]*)", lambda m: t.place.get(norm(m.group(1)), "?" + m.group(1)), b2)
        b2 = re.sub(r"(?: (?:invariant|decreases)-loop[\w-]*)+", "", b2)
        ans.append(("", b2))
    for name, ty, b in goals:
        new = t.goal(ty, name)
        if new is None:
            t.said.append(f"no goal for {name} : Need-{ty}")
            continue
        lines = b.split("\n")
        k = next(j for j, l in enumerate(lines) if not l.startswith("--"))
        comment = lines[:k]
        eqn = "\n".join(lines[k + 1:])
        unf = ""
        m = re.match(r"(unfolding .*\n)", eqn)
        if m:
            unf, eqn = m.group(1), eqn[m.end():]
        m = re.match(re.escape(name) + r"((?: \S+)*?) =", eqn)
        if not m:
            t.said.append(f"no equation for {name}")
            continue
        expr = eqn[m.end():]
        if re.fullmatch(r"\s*(?:search rules|omega arith)\s*", expr):
            continue
        expr = t.body(expr)
        for h, p in typed.items():
            expr = re.sub(r"(?<![\w'.-])" + re.escape(h) + r" c(?![\w'.-])", f"{h} (goal.at.{new} c).{p}", expr)
        arg = m.group(1).split()
        arg = [a for a in arg if a not in ("κs", "κ")]
        ans.append((new, "\n".join(comment + [f"pub {new} : goal.{new}", (unf + f"{new} {' '.join(arg)} =" + expr)])))
    # a goal that is named twice
    seen, ordered = set(), []
    for new, b in ans:
        if new and new in seen:
            t.said.append(f"{new} twice")
            continue
        seen.add(new)
        ordered.append(b)
    uses = [l for l in uses if not re.search(r"\.(Statement|Tie)\b|borrow\.Fn\.|\.(Reads|Kinds) as|\.Lts", l)]
    folder = os.path.dirname(path)
    if inv_out:
        pub = []
        for b in moved:
            b = re.sub(r"(?m)^(record|data)", r"pub \1", b)
            b = re.sub(r"(?m)^(abbrev|unfoldable) (?!pub)", r"\1 pub ", b)
            b = re.sub(r"(?m)^([^\s(){}:]+ : )", r"pub \1", b)
            b = re.sub(r"(?m)^  (?!pub )([^\s(){}:=]+ : )", r"  pub \1", b) if re.search(r"(?m)^pub record", b) else b
            pub.append(b)
        with open(os.path.join(folder, "Invariants.antt"), "w", encoding="utf-8") as f:
            f.write("\n".join(head + uses + [f"use {module}.Given as goal"]) + "\n\n" + "\n\n".join(pub + inv_out) + "\n")
    if any(True for _ in ordered):
        shared = sorted({n for b in moved for n in names_of(b)} - {"pub"})
        shared = [n for n in shared if re.search(r"(?<![\w'-])" + re.escape(n) + r"(?![\w'-])", "\n".join(ordered))]
        places = sorted({p for b in ordered for p in re.findall(r"\(c : ([A-Z][^\s()]*)\)", b)})
        extra = [f"use {module}.Invariants.{{{', '.join(shared)}}}"] if shared else []
        extra += [f"use {module}.Goals as goal"]
        extra += [f"use {module}.Goals.{{{', '.join(places)}}}"] if places else []
        with open(os.path.join(folder, "Answers.antt"), "w", encoding="utf-8") as f:
            f.write("\n".join(head + uses + extra) + "\n\n" + "\n\n".join(ordered) + "\n")
    os.remove(path)
    return t.said


def main():
    where = sys.argv[1]
    for crate in sys.argv[2:]:
        with open(f"{where}/crates/{crate}/names.json", encoding="utf-8") as f:
            names = json.load(f)
        for p in sorted(glob.glob(f"crates/{crate}/proofs/**/Proof.antt", recursive=True)):
            rel = os.path.relpath(os.path.dirname(p), f"crates/{crate}/proofs").replace("/", ".")
            if rel.startswith("+") or "/+" in p:
                print(f"left: {p}: a cycle")
                continue
            key = f"Rattle-{crate}-proofs.{rel}.Lts"
            if key not in names:
                print(f"left: {p}: no names")
                continue
            for s in turn(p, names[key]):
                print(f"look: {p}: {s}")


if __name__ == "__main__":
    sys.exit(main())
