#!/usr/bin/env python3
"""Respells the repository's own definitions and lemmas as today's Rattle spells names: words in snake case.

usage: tools/respell.py            at the top of the repository, once, after the kit's port.py

    numberAt, number-one   ->   number_at, number_one

A name turns if crates/*/specs or crates/*/proofs declare it; types, modules and the names of src/ stay. Where a lemma's name would fall
together with that of a definition in one file, it gets `_law` behind it (TOGETHER). Clauses and `ghost use` lines of src/, the edits of
must-fail/ and the code spans of the pages go along.
"""

import os
import re

# Lemmas and fields whose new name would be that of a definition beside them.
TOGETHER = {"a-limit", "begun-back", "bytes-for", "code-at", "content-of", "in-high", "in-low", "instance-number", "limit-place",
            "quarters-of", "register-number", "reply-back", "with-field", "with-fields"}
# The same, where port.py has the dash turned already: the file, the name.
TURNED = {("crates/energy_account/proofs/Demand3.antt", "is_open"), ("crates/energy_account/proofs/FirstRise.antt", "is_open"),
          ("crates/sweep_account/proofs/Theorems.antt", "answers_at"), ("crates/sweep_account/proofs/Theorems.antt", "leaves_at")}
WORD = r"[^\s(){}.;,@\"«»]+"
DECLARED = re.compile(r"^\s*(?:(?:abbrev|unfoldable|pub|opaque|private|instance|syntax)\s+)*(" + WORD + r")\s+:\s", re.M)
OWN_PROOF = re.compile(r"crates/\w+/proofs/.+/Proof\.antt$")
TOKEN = re.compile(r'"(?:\\.|[^"\\\n])*"|' + WORD)


def snake(name):
    return re.sub(r"(?<=[a-z0-9'])([A-Z])", lambda m: "_" + m.group(1).lower(), name).replace("-", "_")


def files(*ends):
    for top in ("crates",):
        for folder, dirs, names in os.walk(top):
            dirs[:] = sorted(d for d in dirs if d != "out")
            for n in sorted(names):
                if n.endswith(ends):
                    yield os.path.join(folder, n)


def read(path):
    with open(path, encoding="utf-8") as f:
        return f.read()


def write(path, text, was):
    if text != was:
        with open(path, "w", encoding="utf-8") as f:
            f.write(text)


def table():
    names = set()
    for p in files(".antt"):
        if not OWN_PROOF.search(p):
            names.update(DECLARED.findall(read(p)))
    turns = {n: snake(n) for n in names if n[0].islower() and ("-" in n or re.search("[A-Z]", n))}
    for n in TOGETHER & turns.keys():
        turns[n] += "_law"
    return turns


def turned(text, turns, path):
    stamp = path.startswith("crates/stamp/") and "Unique" in path
    proof = OWN_PROOF.search(path)

    def turn(m):
        word = m.group(0)
        if word not in turns:
            return word
        # the uniqueness records' fields have the names of functions, and so have the paths of a function's proof
        if word in TOGETHER and (stamp or proof and m.start() and text[m.start() - 1] == "."):
            return snake(word)
        return turns[word]

    return TOKEN.sub(turn, text)


def source(text, turns):
    """The clauses and the `ghost use` lines. Rust has no name with a hump in it, so such a word turns in comments too, but not in a string."""
    humps = {n: t for n, t in turns.items() if "-" not in n}
    out, ghost, depth = [], False, 0
    for line in text.split("\n"):
        if not ghost and re.match(r"\s*(ghost\b|(requires|ensures)\b)", line):
            ghost, depth = True, 0
        out.append(TOKEN.sub(lambda m: (turns if ghost else humps).get(m.group(0), m.group(0)), line))
        if ghost:
            depth += line.count("{") - line.count("}")
            if depth <= 0:
                ghost = False
    return "\n".join(out)


def main():
    turns = table()
    for p in files(".antt"):
        was = text = read(p)
        for path, name in TURNED:
            if path == p:
                text = re.sub(r"(?<![^\s(){}.;,@\"])" + name + r"(?![^\s(){}.;,@\"])", name + "_law", text)
        write(p, turned(text, turns, p), was)
    for p in files(".rt"):
        was = read(p)
        write(p, source(was, turns), was)
    for p in files(".walk", ".edit"):
        was = read(p)
        write(p, turned(was, turns, p), was)
    pages = [os.path.join(d, f) for d, _, fs in os.walk("docs") for f in fs] + ["README.md"]
    for p in pages:
        if p.endswith(".md") and "docs/PORT" not in p:
            was = read(p)
            write(p, re.sub(r"`[^`\n]*`", lambda m: turned(m.group(0), turns, p), was), was)


main()
