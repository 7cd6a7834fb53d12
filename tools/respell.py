#!/usr/bin/env python3
"""Respells the repository's own definitions and lemmas: words in snake case, types in camel case.

Usage: python3 tools/respell.py, once, at the top, right after the toolchain's port.py. A word that would have the name of
a function of src/, or of another definition, gets `_lem`. Functions of src/, strings, inputs and outputs keep their names.
"""
import collections
import glob
import re

ANTT = glob.glob("crates/*/specs/**/*.antt", recursive=True) + glob.glob("crates/*/proofs/**/*.antt", recursive=True)
TEXT = glob.glob("crates/*/src/**/*.rt", recursive=True) + glob.glob("crates/*/must-fail/*.edit") + glob.glob("docs/*.md")
TEXT += ["README.md"]
DECLARED = re.compile(r"\s*(?:(?:abbrev|unfoldable|pub|data|record|ruleset|opaque)\s+)*([^\s:(){}\[\],;]+)\s*:(?:\s|$)(.*)")
NAME = r"[A-Za-z0-9_'\-]"
# what the toolchain names: goals and the proofs of functions
MADE = re.compile(r"tie\.|goal\.|statement\b")
MADE_NAME = re.compile(r".*-spec$|returns(-\d+)?$|(invariant|decreases)-.*|.*-requires(-\d+)?$")


def snake(name):
    name = re.sub(r"([a-z0-9])([A-Z]+)", lambda m: m[1] + "_" + m[2].lower(), name)
    return name.replace("-", "_").lower()


def camel(name):
    return "".join(part[:1].upper() + part[1:] for part in re.split(r"[-_]", name))


declared = collections.Counter()
made = set()
for path in ANTT:
    for line in open(path):
        m = DECLARED.match(line)
        if m:
            declared[m[1]] += 1
            if MADE.search(m[2]) or (MADE_NAME.match(m[1]) and path.endswith("Proof.antt")):
                made.add(m[1])
functions = set()
for path in glob.glob("crates/*/src/**/*.rt", recursive=True):
    functions |= set(re.findall(r"\bfn ([a-z_0-9]+)", open(path).read()))

taken = set(declared) | functions
new = {}
for name in sorted(declared, key=lambda n: ("-" in n, n)):
    if not name[0].isalpha() or name in made:
        continue
    if name[0].isupper():
        if re.search(r"[-_]", name):
            new[name] = camel(name)
        continue
    if re.search(r"[a-z0-9][A-Z]|-", name):
        to = snake(name)
        while to in taken:
            to += "_lem"
        taken.add(to)
        new[name] = to

# words that the toolchain's script gave the spelling of a definition make room for it
for definition, to in {"isOpen": "is_open", "countFits": "count_fits"}.items():
    new[definition] = to
    new[to] = to + "_lem"

pattern = re.compile("(?<!" + NAME + ")(" + "|".join(sorted(map(re.escape, new), key=len, reverse=True)) + ")(?!" + NAME + ")")
for path in ANTT + TEXT:
    old = open(path).read()
    # a name that the file takes from the library is the library's
    foreign = set()
    for m in re.finditer(r"use (?!Rattle\.(?!std\b))[^{\n]*\{([^}]*)\}", old):
        foreign |= {w.strip() for w in m[1].split(",")}
    text = pattern.sub(lambda m: m[0] if m[0] in foreign else new[m[0]], old)
    if text != old:
        open(path, "w").write(text)
for name in sorted(new):
    print(name, "->", new[name])
