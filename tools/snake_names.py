#!/usr/bin/env python3
"""Brings this repository's definitions and lemmas to today's spelling: words in snake case, types and modules in camel case.

usage: tools/snake_names.py [FOLDER]     rewrites the .antt and .rt files of FOLDER/crates, after port.py; prints old and new names;
                                         then `rt fmt` in each crate

Where two names would fall together, the one that was written with capitals is the definition and keeps the plain name; the other is a law
about it and ends in _law. Names of the library are left alone, and so are functions of src/, since those are in snake case already.
"""

import collections
import os
import re
import sys

WORD = r"[^\W\d][\w'\u2032\u2080-\u209c]*(?:[-→≢≡≤][\w'\u2032\u2080-\u209c]+)*"
MARKS = r"(?:(?:pub|abbrev|unfoldable|private|record|data|ruleset)\s+)*"
DECLARED = re.compile(r"^\s*(?:\| )?" + MARKS + "(" + WORD + r")(?:\s*(?:\{[^}]*\}|\([^)]*\)))*\s*[:=](?!:)")
SEVERAL = re.compile(r"^\s+(?:pub )?((?:" + WORD + r"\s+){2,}):(?!:)")
USED = re.compile(r"(?:pub )?use ([\w.]+)\.\{([^}]*)\}", re.S)
TOKEN = re.compile(WORD)
BY_FUNCTION = ("Proof.antt", "Answers.antt", "Invariants.antt")
FIELDS = ("word_ok",)  # fields of records, which fall together with nothing


def files(root):
    for folder, dirs, names in os.walk(os.path.join(root, "crates")):
        dirs[:] = sorted(d for d in dirs if d != "out")
        for n in sorted(names):
            if n.endswith((".antt", ".rt")):
                yield os.path.join(folder, n)


def of_a_function(path):
    return os.path.basename(path) in BY_FUNCTION and os.path.basename(os.path.dirname(path)) not in ("specs", "proofs")


def snake(name):
    if name[0].isupper():
        return name
    name = re.sub(r"([a-z0-9])([A-Z])", r"\1_\2", name)
    return name.lower().replace("-", "_") if re.search(r"[A-Z-]", name) else name


def declared(texts):
    names = set()
    for path, text in texts.items():
        if path.endswith(".antt") and not of_a_function(path):
            for line in text.splitlines():
                m = DECLARED.match(line)
                if m:
                    names.add(m.group(1))
                m = SEVERAL.match(line)
                if m and "let" not in m.group(1).split():
                    names |= set(m.group(1).split())
    return names


def renamed(names):
    """Old name -> new name, for all that changes."""
    together = collections.defaultdict(set)
    for n in names:
        together[snake(n)].add(n)
    new = {}
    for to, group in together.items():
        capitals = [n for n in group if re.search(r"[a-z0-9][A-Z]", n)]
        plain = [n for n in group if "-" not in n]
        keeps = capitals[0] if capitals else (plain[0] if plain else sorted(group)[0])
        for n in group:
            new[n] = to if n == keeps else to + "_law"
    return {n: m for n, m in new.items() if n != m and n not in FIELDS}


def brought_in(text):
    return {x.strip().split(" as ")[0] for _, names in USED.findall(text) for x in names.split(",")}


def from_library(text, crates):
    """The names that this file imports from a library that is not the repository's."""
    out = set()
    for path, names in USED.findall(text):
        parts = path.split(".")
        if not (parts[0] == "Rattle" and len(parts) > 1 and parts[1] in crates):
            out |= {x.strip().split(" as ")[0] for x in names.split(",")}
    return out


def main(root):
    crates = set(os.listdir(os.path.join(root, "crates")))
    texts = {p: open(p, encoding="utf-8").read() for p in files(root)}
    new = renamed(declared(texts))
    functions = {f for p, t in texts.items() if p.endswith(".rt") for f in re.findall(r"\bfn (\w+)", t)}
    for path, text in texts.items():
        keep = from_library(text, crates)
        here = (brought_in(text) | declared({path: text})) if path.endswith(".antt") else set()
        one = of_a_function(path)

        def turn(m):
            word = m.group(0)
            field = m.string[m.start() - 1 : m.start()] == "."
            if word in keep or (re.fullmatch(r"[a-z0-9_]+", word) and (word not in here or field)):
                return word  # a function of src/, or its step in a proof
            if one and not field and word not in here:
                return word  # a goal or a local of a proof that walks the code
            if one and field and word.replace("-", "_") in functions:
                return word  # a step of that proof
            return new.get(word, word)

        lines = [l if l.lstrip().startswith(("--", "//")) and "`" not in l else TOKEN.sub(turn, l) for l in text.split("\n")]
        turned = "\n".join(lines)
        if turned != text:
            with open(path, "w", encoding="utf-8") as f:
                f.write(turned)
    for n in sorted(new):
        print(n, new[n])


if __name__ == "__main__":
    main(sys.argv[1] if len(sys.argv) > 1 else ".")
