#!/usr/bin/env python3
"""Spells the repository's own definitions and lemmas as today's Rattle does: words in snake case. Run once, after the kit's port.py.

usage: python3 tools/spell_names.py           at the top of the repository: rewrites the files below crates/ and writes tools/spelled_names.tsv
       python3 tools/spell_names.py --list    writes only what it would do

A name that files of specs/ or proofs/ declare, and that begins with a small letter, loses its dashes and inner capitals: isRanking is is_ranking,
better-means better_means. Types, modules and facts keep their capitals. A lemma that would get the name of a definition gets _lem after it, and
a definition that would get the name of a variable of the sources or of a binder in a file that cites it gets what APART says.
A name that Rattle makes for a goal, an invariant or a step stays.
"""

import collections
import glob
import re
import sys

NAME = r'[^\s(){}.;,@"«»]+'
SIGNATURE = re.compile(r"(?m)^[ ]*(?:(?:pub|abbrev|unfoldable) )*(" + NAME + r")((?: \{[^{}\n]*\})*) :(?= |$)(.*)$")
LET = re.compile(r"\blet (" + NAME + r") [:=]")
USE = re.compile(r"(?m)^use ([^\s;{]+)(?:\{([^}]*)\})?")
# What the rule below would give a name that stands for something else already, and what it gets in its place.
APART = {}


def files():
    found = glob.glob("crates/*/specs/**/*.antt", recursive=True) + glob.glob("crates/*/proofs/**/*.antt", recursive=True)
    return sorted(f for f in found if "/out/" not in f)


def in_snake_case(name):
    return re.sub(r"(?<=[a-z0-9])([A-Z])", lambda m: "_" + m[1].lower(), name).replace("-", "_")


def spelled(texts):
    """The names that are respelled, each with its new spelling."""
    declared, lent = collections.Counter(), set()
    for text in texts:
        for m in SIGNATURE.finditer(text):
            if "tie." not in m[3]:
                declared[m[1]] += 1
        for m in LET.finditer(text):
            declared[m[1]] += 1
        for m in USE.finditer(text):
            own = m[1].startswith("Rattle.") and not m[1].startswith(("Rattle.std", "Rattle.core"))
            if not own and m[2]:
                lent.update(it.strip().split(" ")[0] for it in m[2].split(","))
    old = {n for n in declared if (n[0].islower() or n[0] == "+") and ("-" in n or re.search("[A-Z]", n)) and n not in lent and n not in ("in-Passed",)}
    to = {}
    taken = {n for n in declared if n not in old} | lent
    for name in sorted(n for n in old if re.search("[A-Z]", n)):
        new = in_snake_case(name)
        if new in taken and new not in lent:
            to[new] = new + "_lem"  # what port.py made of a lemma with a dash
        to[name] = APART.get(new, new)
        taken.add(to[name])
    for name in sorted(n for n in old if not re.search("[A-Z]", n)):
        new = in_snake_case(name)
        to[name] = APART.get(name, new + "_lem" if new in taken else new)
        taken.add(to[name])
    for name, new in APART.items():
        if name in declared and name not in to:
            to[name] = new
    return to


def main(words):
    paths = files()
    texts = {f: open(f, encoding="utf-8").read() for f in paths}
    to = spelled(texts.values())
    sources = sorted(f for f in glob.glob("crates/*/src/**/*.rt", recursive=True)) + sorted(glob.glob("crates/*/must-fail/*.edit"))
    for f in sources:
        texts[f] = open(f, encoding="utf-8").read()
    if "--list" in words:
        rust = collections.defaultdict(set)
        for f in sources:
            for m in re.finditer(r"\b([a-z]\w*)\b(?=\s*:)|\blet (?:mut )?([a-z]\w*)|\|([a-z]\w*)\||\bfor (\w+) in", texts[f]):
                rust[next(g for g in m.groups() if g)].add(f)
        news = {v: k for k, v in to.items()}
        for f, text in texts.items():
            names = set(re.findall(NAME, text))
            bare = set(re.findall(r"(?<![^\s(){},;@«»])" + NAME, text))
            for n in sorted(names & set(to)):
                if to[n] in bare and to[n] not in to:
                    print("meets", f, n, to[n])
                if to[n] in rust and not f.endswith(".edit") and re.search("[A-Z]", n):
                    print("variable", f, n, to[n], sorted(rust[to[n]])[:3])
        return 0
    rows = sorted(to.items())
    with open("tools/spelled_names.tsv", "w") as out:
        out.write("".join(f"{a}\t{b}\n" for a, b in rows))
    changed = 0
    for f, text in texts.items():
        new = re.sub(NAME, lambda m: to.get(m[0], m[0]), text)
        if new != text:
            changed += 1
            with open(f, "w", encoding="utf-8") as out:
                out.write(new)
    print(f"{len(rows)} names, {changed} files")
    return 0


if __name__ == "__main__":
    raise SystemExit(main(sys.argv[1:]))
