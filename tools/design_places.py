#!/usr/bin/env python3
"""Counts the places of docs/DESIGN-PASS.md in a checkout's crates/: tools/design_places.py [-v] [FOLDER]. -v names each place.

1 enums (each is then read: which has the shape of Option or Result), variants and fields that hold a number for a kind or a refusal, flags beside a
  value, and values passed on by hand where `?` would do
2 functions whose bodies are alike but for names and numbers, of 4 lines or more, in groups; types alike but for names and types, of 3 fields or more
3 loops that a `while` counts
4 fields copied one by one, matches that only answer true or false
5 functions of seven parameters or more, requirements that stand in three contracts or more
6 structs with an array and its count, arrays whose items stand in struct fields of one letter
7 parameters of type bool
8 files of answers, and their lines
"""
import collections
import pathlib
import re
import sys

FUNCTION = re.compile(r"(?m)^( *)(?:pub(?:\(\w+\))? )?(?:extern \"C\" )?fn (\w+)(.*?)^\1\{\n(.*?)^\1\}$", re.S)
TYPE = re.compile(r"(?m)^(?:pub(?:\(\w+\))? )?(?:struct|enum) (\w+) \{\n(.*?)^\}$", re.S)
WORD = re.compile(r"[A-Za-z_]\w*|\d[\w.]*|b?\"(?:[^\"\\]|\\.)*\"|b?'(?:[^'\\]|\\.)+'")
KEPT = {"let", "mut", "if", "else", "while", "for", "in", "match", "return", "Some", "None", "Ok", "Err", "true", "false"}


def plain(text):
    return re.sub(r"(?m)//.*$", "", text)


def skeleton(text):
    return " ".join(WORD.sub(lambda m: m[0] if m[0] in KEPT else "x", plain(text)).split())


def main():
    told = "-v" in sys.argv
    rest = [a for a in sys.argv[1:] if a != "-v"]
    root = pathlib.Path(rest[0] if rest else ".")
    sources = {p.relative_to(root / "crates"): p.read_text(encoding="utf-8") for p in sorted(root.glob("crates/*/src/**/*.rt"))}

    def say(point, what, places):
        print(f"{point} {what}: {len(places)}")
        for place in places if told else []:
            print("   ", place)

    def lines(pattern):
        found = re.compile(pattern)
        return [f"{p}:{i}: {l.strip()}" for p, s in sources.items() for i, l in enumerate(s.split("\n"), 1) if found.search(l)]

    functions = [(p, m) for p, s in sources.items() for m in FUNCTION.finditer(s)]
    types = [(p, m) for p, s in sources.items() for m in TYPE.finditer(s)]

    def alike(items, text, least):
        groups = collections.defaultdict(list)
        for p, name, body in items:
            if len([l for l in plain(body).split("\n") if l.strip()]) >= least:
                groups[skeleton(text(body))].append(f"{p}: {name}")
        return [", ".join(g) for g in groups.values() if len(g) > 1]

    say(1, "enums", lines(r"^\s*(pub(\(\w+\))? )?enum "))
    say(1, "variants that hold a number of a kind or a refusal", lines(r"^\s+(Refused|SentBack|No)\(u8\),"))
    say(1, "flags beside a value, numbers for kinds", lines(r"^\s+(pub )?ok: bool,|which: usize|^pub const [A-Z_]+: usize"))
    say(1, "values passed on by hand where ? would do",
        [f"{p}: {m[2]}" for p, m in functions for _ in re.finditer(r"else \{\s*return (?:[\w:]+(?:Failed|Refused\(7\)|Bad|Unknown|Broke|Broken|Out|None|Tells)|None|Err\([^;]*\)|p|[\w:]+Refused\([^;]*\));\s*\};", m[4])])
    say(2, "groups of functions alike", alike([(p, m[2], m[4]) for p, m in functions], lambda b: b, 4))
    say(2, "groups of types alike", alike([(p, m[1], m[2]) for p, m in types], lambda b: b, 3))
    say(3, "while loops", lines(r"^\s*while "))
    say(4, "fields copied one by one", lines(r"^\s+(\w+): (\w+\.)*\1,$|^\s+let (\w+) = \w+\.\3;$"))
    say(4, "matches that only answer true or false", lines(r"=> (true|false),$"))
    say(5, "functions of seven parameters or more", [f"{p}: {m[2]}" for p, m in functions if len(re.findall(r"\w+: ", re.split(r"\)\s*(?:->|\n|$)|ensures|requires", m[3])[0])) >= 7])
    asked = collections.defaultdict(list)
    for p, m in functions:
        for r in re.findall(r"requires(?: \w+)? \{ (.*) \}", m[3]):
            asked[(p.parts[0], r)].append(m[2])
    say(5, "requirements of three contracts or more", [f"{c}: {r} ({', '.join(fs)})" for (c, r), fs in asked.items() if len(fs) > 2])
    say(6, "structs with an array and its count, or with a letter for each item",
        [f"{p}: {m[1]}" for p, m in types if re.search(r"\[.*; \d+\]", m[2]) and "count:" in m[2] or len(re.findall(r"(?m)^    (?:pub )?[a-l]: f64,", m[2])) > 8])
    say(7, "parameters of type bool", [f"{p}: {m[2]}" for p, m in functions if re.search(r"\w+: bool", re.split(r"\)\s*(?:->|\n|$)|ensures|requires", m[3])[0])])
    answers = sorted(root.glob("crates/*/proofs/**/Answers.antt"))
    say(8, "files of answers", [str(p.relative_to(root)) for p in answers])
    print("8 their lines:", sum(len(p.read_text(encoding="utf-8").split("\n")) - 1 for p in answers))


main()
