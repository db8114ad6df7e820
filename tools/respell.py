#!/usr/bin/env python3
"""Brings this repository's own definitions and lemmas to the spelling of today's Rattle: words in snake case.

usage: python3 tools/respell.py [--list]     at the top of the repository, once, after port.py

A definition, lemma, alias or variable in camel case gets underscores: lockAt becomes lock_at.
In a name with dashes each dash becomes an underscore, but where it joins two names: length-put stays, bench-count becomes bench_count.
Left alone: types and modules, what Rattle makes (the names of goals, steps and generated fields), functions of src/, strings, inputs and outputs.
A lemma that would have a definition's name gets _lem.
A name whose new spelling is already a word of a file in which it stands, as a variable, a parameter or a field, is listed and stays everywhere.
With --list nothing is written.
"""

import os
import re
import sys

NAME = r"[^\s(){}.;,@\"«»]+"
TOKEN = re.compile(NAME)
DECLARED = re.compile(r"(?m)^ *(?:abbrev |unfoldable )?(?:pub )?(?:abbrev |unfoldable )?([a-z][^\s(){}.;,:@\"«»=]*)(?: \{[^{}\n]*\})* :(?=\s)")
ALIAS = re.compile(r" as ([a-z][^\s(){}.;,@\"«»]*)(?=[,};])")
BINDER = re.compile(r"[({]((?:[a-z]\w* )+): ")
ANSWERS = re.compile(r"/proofs/.*/(Answers|Invariants|Proof)\.antt$")
# Words of the library that our lemmas' names join to others.
LIBRARY = set("length take drop set map append read reverse sum all filter concat".split())
# What Rattle makes: goals, steps and what stands for a variable.
MADE = re.compile(
    r"^(returns|loop|invariant|decreases|in|if|match|overflow|bounds|slice_bounds|nonzero|prove|index|for)(-|$)"
    r"|-(requires|requires-.*|is|init|preserved|smaller|end)$"
)


def files():
    for folder, dirs, names in os.walk("crates"):
        dirs[:] = sorted(d for d in dirs if d not in ("out", "target"))
        for name in sorted(names):
            if name.endswith((".rt", ".antt", ".edit")):
                yield os.path.join(folder, name)


def snake(name):
    return re.sub(r"(?<=[a-z0-9])[A-Z]", lambda m: "_" + m[0].lower(), name)


def respelled(name, words):
    """The name in today's spelling, where words are the names that a dash may join."""
    parts = [snake(p) for p in name.split("-")]
    made = parts[0]
    for before, after in zip(parts, parts[1:]):
        made += ("-" if before in words and after in words else "_") + after
    return made


def table(texts):
    own, functions = set(), set()
    for path, text in texts.items():
        if path.endswith(".edit"):
            continue
        own.update(it for it in ALIAS.findall(text) if snake(it) != it)
        if not path.endswith(".antt"):
            continue
        own.update(it for many in BINDER.findall(text) for it in many.split() if snake(it) != it)
        goals = ANSWERS.search(path)
        for name in DECLARED.findall(text):
            if goals and (f"goal.{name}" in text or f"need.{name}" in text or MADE.search(name)):
                continue
            own.add(name)
            if "/specs/" in path and "-" not in name:
                functions.add(snake(name))
    words = functions | LIBRARY
    names = {n: respelled(n, words) for n in own}
    taken = {new for old, new in names.items() if "-" not in old}
    for old, new in names.items():
        if "-" in old and new in taken:
            names[old] = new + "_lem"
    return {old: new for old, new in names.items() if old != new}


def tokens(path, text):
    """The places of a text where a name of antt may stand: all of a proof file, and of a source the lines of clauses."""
    for m in TOKEN.finditer(text):
        head = text[max(0, m.start() - 5) : m.start()]
        if ANSWERS.search(path) and (head.endswith(("goal.", "need.")) or re.search(r"(?<![\w'-])[cwlg]\.$", head)):
            continue
        yield m


def main():
    listing = "--list" in sys.argv[1:]
    texts = {p: open(p, encoding="utf-8").read() for p in files()}
    names = table(texts)
    clashes = {}
    for path, text in texts.items():
        found = {m[0] for m in tokens(path, text)}
        if path.endswith(".rt"):
            # The name of a function is no word of a clause, but that of a parameter or a field is.
            held = set(re.findall(r"(?<![\w:])(\w+):(?!:)", text))
        else:
            held = {m[0] for m in tokens(path, text) if text[: m.start()][-1:] != "."}
        for old in found & set(names):
            if names[old] in held:
                clashes.setdefault(old, []).append(path)
    if len(set(names.values())) < len(names):
        seen = {}
        for old, new in sorted(names.items()):
            if new in seen:
                clashes.setdefault(old, []).append("falls together with " + seen[new])
            seen[new] = old
    for old, where in sorted(clashes.items()):
        print(f"stays: {old}, since {names[old]} stands in {', '.join(where)}")
        del names[old]
    for old, new in sorted(names.items()):
        print(f"{old} -> {new}")
    if listing:
        return
    for path, text in texts.items():
        at, made = 0, []
        for m in tokens(path, text):
            if m[0] in names:
                made += [text[at : m.start()], names[m[0]]]
                at = m.end()
        if at:
            with open(path, "w", encoding="utf-8") as f:
                f.write("".join(made) + text[at:])


if __name__ == "__main__":
    main()
