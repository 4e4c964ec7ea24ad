#!/usr/bin/env python3
"""Brings the repository's own names to today's spelling, once, right after the kit's port.py.

    python3 tools/port_names.py           at the top of the repository; rewrites files in place
    python3 tools/port_names.py --list    says which name becomes which, and changes nothing

Definitions, lemmas, fields and constructors of specs/ and proofs/ are words in snake case: `liquidSum` becomes `liquid_sum`, `at-most-63`
becomes `at_most_63`. Types stay in camel case: `So-far` becomes `SoFar`. Functions of src/, exported names, strings, inputs and outputs are
not touched: only a file's antt, its `ghost use` lines and clauses, the edits of must-fail/ and apart/, and names between backticks in pages.

A name is turned only where it is the repository's own: declared in the file, or imported from a crate of crates.txt (not from the modules that
Rattle makes). Behind a dot it is turned where some crate declares it as its own. Names that would fall together in a file are said, and stop
the run before anything is written."""
import glob
import os
import re
import sys

TOKEN = re.compile(r"[^\s(){}\[\],;.`\"]+")
DECLARED = re.compile(r"^[ ]*(?:(?:abbrev|unfoldable|package|pub|mutual|module) )*((?:[^\s(){}\[\],;.:]+ )+):(?= |$)", re.M)
HEADED = re.compile(r"^[ ]*(?:(?:pub|abbrev|unfoldable) )*(?:record|data|module|ruleset) ([^\s(){}\[\],;.:]+)", re.M)
BOUND = re.compile(r"\blet ([^\s(){}\[\],;.:=]+) (?:=|:)|[({]((?:[^\s(){}\[\],;.:]+ )+):(?= )|([^\s(){}\[\],;.:]+) ←")
USE = re.compile(r"^\s*(?:ghost |pub )*use ([^\s{};]+?)(?:\.\{([^}]*)\}| as ([^\s;]+))?;?\s*$", re.M)
GOAL = re.compile(r"^[ ]*(?:abbrev |pub )*([^\s(){}\[\],;.:]+) : (?:tie|goal)\.", re.M)
MADE = re.compile(r"\.(?:specs|proofs)\.(?:declared|contracts)\b|\.(?:Lts|Tie|Statement|Goals|Given|Reads|Needs|Spec)$")
KEPT = {"e^"}  # of an operator e^
# A lemma that would have its function's name, or one of the library's beside it, gets `_lem`, and a constructor a name of its own.
OTHERWISE = {n: snake_ + "_lem" for n, snake_ in [
    ("is-volume", "is_volume"), ("is-mass", "is_mass"), ("from-scale", "from_scale"), ("past-triple", "past_triple"),
    ("critical-by", "critical_by"), ("in-series", "in_series"), ("with-need", "with_need"), ("marks-of", "marks_of"),
    ("of-bits", "of_bits"), ("in-float", "in_float"),
]} | {"in-box": "in_critical_box", "e^-is": "exp_is", "e^-up-to-1": "exp_up_to_1", "once-e^": "once_exp"}
# A lemma that port.py had turned before, and a module's alias beside a definition
IN_FILE = {
    "crates/sheet_score/proofs/Reports.antt": {"sent_back": "sent_back_lem"},
    "crates/demands/proofs/Conductivities.antt": {"with-conductivity": "with_conductivity_reads"},
}


def snake(name):
    parts = re.split(r"-(?=.)", name)
    parts = [re.sub(r"(?<=[a-z0-9α-ω₀-₉])([A-Z])", lambda m: "_" + m.group(1).lower(), p) if re.match(r"[a-zα-ω]", p) else p for p in parts]
    return "_".join(parts)


def camel(name):
    return "".join(p[:1].upper() + p[1:] for p in name.split("-"))


def own_crates():
    with open("crates.txt", encoding="utf-8") as f:
        return {l.split(":")[0].split()[0] for l in f if l.strip() and not l.startswith("#")}


def antt_files():
    return sorted(p for p in glob.glob("crates/*/**/*.antt", recursive=True) if "/out/" not in p)


def bare(text):
    """The text with its comments blanked, so that nothing in them is read as a declaration."""
    return re.sub(r"(?m)(^|\s)-- .*$|^--$", lambda m: m.group(1), text)


def declared(text, walked):
    """Names that a file declares, with whether each is a type. `walked`: a proof of a function, whose goals have names of Rattle's own."""
    text = bare(text)
    goals = set(GOAL.findall(text)) if walked else set()
    found = {}
    for m in DECLARED.finditer(text):
        line = text[m.start(): text.find("\n", m.end()) if "\n" in text[m.end():] else len(text)]
        for n in m.group(1).split():
            if n in ("pub", "abbrev", "unfoldable", "let", "in", "λ", "Type", "=", "→", "of") or n in goals or "◌" in n:
                continue
            found[n] = found.get(n, False) or re.search(r"(?:: |→ )Type \d+$", line) is not None
    for m in HEADED.finditer(text):
        found[m.group(1)] = True
    found.pop("_", None)
    return found


def local(text):
    found = set()
    for m in BOUND.finditer(bare(text)):
        found |= set((m.group(1) or m.group(2) or m.group(3)).split())
    return found


def new_name(name, is_type):
    if name in OTHERWISE:
        return OTHERWISE[name]
    if is_type and name[:1].isupper():
        return camel(name) if "-" in name else name
    return snake(name)


def main():
    only_list = "--list" in sys.argv[1:]
    crates = own_crates()
    texts = {}
    for p in antt_files():
        with open(p, encoding="utf-8") as f:
            texts[p] = f.read()
    whole, types = {}, {}
    per_file = {}
    for p, t in texts.items():
        d = declared(t, p.endswith("/Proof.antt"))
        per_file[p] = d
        for n, k in d.items():
            types[n] = types.get(n, False) or k
    for n, k in types.items():
        if n not in KEPT and new_name(n, k) != n:
            whole[n] = new_name(n, k)
    if only_list:
        for a, b in sorted(whole.items()):
            print(a, b)
        return 0
    faults = []
    now = set(types) | set(whole.values())

    def said(name):
        """A name in a page, also one that port.py had turned in the sources alone."""
        return whole.get(name, snake(name) if name[:1].islower() and snake(name) in now else name)

    def own_module(m):
        m = re.match(r"Rattle\.([a-z0-9_]+)\.(specs|proofs)\b", m)
        return m and m.group(1) in crates

    def maps(p, t, extra=()):
        """How the names of one file turn: bare ones, and which aliases lead to a library's module."""
        mine, foreign, aliases = {}, set(), set()
        for n in list(per_file.get(p, {})) + list(extra):
            if n in whole:
                mine[n] = whole[n]
        if p.endswith(".antt"):
            for n in local(t):
                if n not in KEPT and snake(n) != n and not n[:1].isupper():
                    mine.setdefault(n, snake(n))
        for m in USE.finditer(t):
            module, items, alias = m.groups()
            own = own_module(module) and not MADE.search(module)
            if alias and not own:
                aliases.add(IN_FILE.get(p, {}).get(alias, snake(alias) if alias[:1].islower() else alias))
            if alias and alias[:1].islower() and snake(alias) != alias:
                mine[alias] = IN_FILE.get(p, {}).get(alias, snake(alias))
            for item in (items or "").split(","):
                item = item.strip()
                if not item:
                    continue
                name, _, as_name = item.partition(" as ")
                name, as_name = name.strip(), as_name.strip()
                if own:
                    if name in whole and not as_name:
                        mine[name] = whole[name]
                else:
                    foreign.add(as_name or name)
        mine.update(IN_FILE.get(p, {}))
        for n in foreign:
            if n in mine and n not in per_file.get(p, {}):
                del mine[n]
        return mine, foreign, aliases

    def turn(p, t, mine, foreign, aliases, prose):
        """The text with its names turned. `prose`: what stands in a comment turns between backticks alone."""
        out, at, use_own = [], 0, None
        for raw in t.split("\n"):
            code, comment = raw, ""
            m = re.search(prose, raw)
            if m:
                code, comment = raw[: m.start()], raw[m.start():]
            u = USE.match(raw)
            use_own = None
            if u:
                use_own = bool(own_module(u.group(1)) and not MADE.search(u.group(1)))

            def put(m, code=code, u=u, use_own=use_own):
                tok, i = m.group(0), m.start()
                before = code[:i]
                if u and i == u.start(3):
                    return mine.get(tok, tok)
                if u and use_own is False:
                    return tok
                if before.endswith(".") and not before.endswith(" ."):
                    head = re.search(r"([^\s(){}\[\],;`\"]+)\.$", before)
                    first = head.group(1).split(".")[0] if head else ""
                    if mine.get(first, first) in aliases and not u:
                        return tok
                    return whole.get(tok, tok)
                if u and use_own:
                    return whole.get(tok, tok) if i > u.start(1) + len(u.group(1)) else tok
                return mine.get(tok, tok)

            code = TOKEN.sub(put, code)
            comment = re.sub(r"`([^`]+)`", lambda m: "`" + TOKEN.sub(lambda k: whole.get(k.group(0), k.group(0)), m.group(1)) + "`", comment)
            out.append(code + comment)
        return "\n".join(out)

    done = {}
    for p, t in texts.items():
        mine, foreign, aliases = maps(p, t)
        before = set(TOKEN.findall(bare(t)))
        into = {}
        for a, b in mine.items():
            if a not in before:
                continue
            if b in before and b not in mine and not b[:1].isupper() and re.search(r"(?<!\.)(?<![\w'-])" + re.escape(b) + r"(?![\w'-])", bare(t)):
                faults.append(f"{p}: {a} becomes {b}, which stands there already")
            into.setdefault(b, set()).add(a)
        for b, a in into.items():
            if len(a) > 1:
                faults.append(f"{p}: {', '.join(sorted(a))} would all be {b}")
        done[p] = turn(p, t, mine, foreign, aliases, r"(?:^|(?<=\s))--(?: |$)")
    for p in sorted(glob.glob("crates/*/src/**/*.rt", recursive=True)):
        with open(p, encoding="utf-8") as f:
            t = f.read()
        done[p] = turn(p, t, *maps(p, t), r"(?:^|(?<=\s))//")
    for p in sorted(glob.glob("crates/*/must-fail/*.edit") + glob.glob("crates/*/apart/*.edit")):
        with open(p, encoding="utf-8") as f:
            t = f.read()
        m = re.search(r"^file: (\S+)", t, re.M)
        target = os.path.join(p.split("/")[0], p.split("/")[1], m.group(1)) if m else ""
        if target in texts:
            mine, foreign, aliases = maps(target, texts[target])
        elif os.path.exists(target):
            with open(target, encoding="utf-8") as f:
                mine, foreign, aliases = maps(target, f.read())
        else:
            continue
        done[p] = turn(p, t, mine, foreign, aliases, r"(?!)")
    for p in sorted(glob.glob("*.md") + glob.glob("docs/**/*.md", recursive=True)):
        with open(p, encoding="utf-8") as f:
            t = f.read()
        done[p] = re.sub(r"`([^`\n]+)`", lambda m: "`" + TOKEN.sub(lambda k: said(k.group(0)), m.group(1)) + "`", t)
    for f in faults:
        print("falls together:", f)
    if faults and "--anyway" not in sys.argv:
        print(f"{len(faults)} names fall together: nothing was written")
        return 1
    n = 0
    for p, t in done.items():
        with open(p, encoding="utf-8") as f:
            if f.read() == t:
                continue
        with open(p, "w", encoding="utf-8") as f:
            f.write(t)
        n += 1
    print(f"{len(whole)} names, {n} files")
    return 0


if __name__ == "__main__":
    sys.exit(main())
