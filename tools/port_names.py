#!/usr/bin/env python3
"""Spells this repository's own definitions, fields and lemmas in snake case, once, after port.py.

usage: tools/port_names.py        at the top of the repository, with everything committed

A name is this repository's where a file of specs/ or proofs/ declares it. `headerRoom` becomes `header_room`, and `copy-begins`
`copy_begins`; types, modules, functions of src/, goals that Rattle names, strings, inputs and outputs keep their names. A lemma whose
new name a definition has already, or is about to have, gets `_lem` behind it. The crate `json` becomes `json_read`, since Rattle has
a library of that name.
"""

import collections
import os
import re
import subprocess
import sys

NAME = r"[^\s(){}.;,@\"«»\[\]]+"
TOKEN = re.compile(NAME)
DECLARED = re.compile(
    r"^\s*(?:pub |abbrev |unfoldable |let |module )*([^\s(){}.;,@\"«»\[\]:]+)(?: *[({][^\n]*?)? :(?= |$)"
)
USE = re.compile(r"^\s*(?:pub )?use ([^\s;{]+?)(?:\.\{([^}]*)\})?(?: as (\S+))?\s*$", re.M)
OWN_GOAL = re.compile(r":\s*(?:\([^)]*\)\s*→\s*)?(?:\S*lts|tie)\.")


def read(path):
    with open(path, encoding="utf-8", newline="") as f:
        return f.read()


def snake(name):
    words = re.sub(r"(?<=[a-z0-9])[A-Z]", lambda m: "_" + m[0].lower(), name)
    return words.replace("-", "_")


def turnable(name):
    return bool(re.fullmatch(r"[a-z][A-Za-z0-9_'-]*[A-Za-z0-9']", name)) and snake(name) != name


def listed():
    return [f for f in subprocess.check_output(["git", "ls-files"], text=True).split("\n") if f and os.path.isfile(f)]


def library(path):
    """Whether a path of a `use` leads outside this repository."""
    steps = path.split(".")
    return not (steps[0] == "Rattle" and len(steps) > 1 and os.path.isdir("crates/" + steps[1]))


def gather(files):
    """Names that are declared, names that stand for goals, and for each file the names that it imports from a library."""
    declared, goals, imported = collections.defaultdict(set), set(), {}
    for f in files:
        text = read(f)
        imported[f] = set()
        for path, items, _ in USE.findall(text):
            if library(path):
                imported[f].update(TOKEN.findall(items) or [path.split(".")[-1]])
        for line in text.split("\n"):
            if line.lstrip().startswith("--"):
                continue
            m = DECLARED.match(line)
            if not m:
                continue
            if f.endswith("/Proof.antt") and (OWN_GOAL.search(line) or m[1].endswith("-spec")):
                goals.add(m[1])
            else:
                declared[m[1]].add(f)
    return declared, goals, imported


def table(declared, tokens, clauses):
    """New names. A definition is named first, a lemma after it; port.py had spelled some lemmas in snake case."""
    old = {n for n in declared if turnable(n) or re.fullmatch(r"[a-z][a-z0-9_']*_[a-z0-9_']*", n)}
    taken = set(tokens - old)
    new = {}
    for n in sorted(old, key=lambda n: (n not in clauses, not any("/specs/" in f for f in declared[n]), snake(n) == n, "-" in n, n)):
        to = snake(n)
        while to in taken or to in clauses.get(n, ()):
            to += "_lem"
        taken.add(to)
        if to != n:
            new[n] = to
    return new


def turn_antt(text, names, kept):
    def one(m):
        if m[1] is not None:
            return re.sub(r"`[^`]*`", lambda c: TOKEN.sub(lambda t: names.get(t[0], t[0]), c[0]), turn_words(m[1], names))
        if m[2] is not None:
            return m[2]
        return names[m[3]] if m[3] in names and m[3] not in kept else m[3]

    return re.sub(rf'(--[^\n]*)|("(?:[^"\\\n]|\\.)*")|({NAME})', one, text)


def turn_words(text, names):
    """Names in camel case in prose."""
    return re.sub(r"(?<![\w.'-])[a-z][a-z0-9]*(?:[A-Z][a-z0-9]*)+(?![\w'-])", lambda m: names.get(m[0], m[0]), text)


def turn_rt(text, names):
    def one(m):
        if m[1] is not None:
            return turn_words(m[1], names)
        if m[2] is not None:
            return m[2]
        return names.get(m[3], m[3])

    return re.sub(rf"(//[^\n]*)|(b?\"(?:[^\"\\]|\\[\s\S])*\"|b?'(?:[^'\\\n]|\\.)')|((?<![\w.-])[a-z][A-Za-z0-9_]*(?:[A-Z-][A-Za-z0-9_']*)+)", one, text)


def turn_json(text, f):
    text = re.sub(r"\bRattle\.json\.", "Rattle.json_read.", text)
    text = re.sub(r"Rattle·json(?=[.·])", "Rattle·json_read", text)
    if f.endswith((".rt", ".edit", ".edits")):
        text = re.sub(r"(?<![\w:.])json::", "json_read::", text)
    return text


def main():
    os.chdir(subprocess.check_output(["git", "rev-parse", "--show-toplevel"], text=True).strip())
    if subprocess.check_output(["git", "status", "--porcelain", "--", "crates"], text=True).strip():
        sys.exit("commit first")
    files = listed()
    antt = [f for f in files if f.endswith(".antt")]
    declared, goals, imported = gather(antt)
    tokens = set()
    for f in antt:
        # A step of a path, before or behind a dot, is no rival.
        tokens.update(re.findall(rf"(?<![^\s(){{}};,\[\]])({NAME})(?!\.)", re.sub(r"--[^\n]*", "", read(f))))
    # Beside each definition that a clause names, the parameters and fields of that file.
    clauses = collections.defaultdict(set)
    for f in files:
        if f.endswith(".rt"):
            text = re.sub(r"//[^\n]*", "", read(f))
            beside = set(re.findall(r"\b(\w+):(?!:)", text))
            for n in set(re.findall(r"[\w'-]+", text)) & set(declared):
                clauses[n] |= beside
    names = table(declared, tokens, clauses)
    if "--table" in sys.argv:
        for n, to in sorted(names.items()):
            print(n, to)
        return
    for f in files:
        text = old = None
        if f.endswith(".antt"):
            old = read(f)
            text = turn_antt(old, names, imported[f] | (goals & set(DECLARED_IN(f)) if f.endswith("/Proof.antt") else set()))
        elif f.startswith("crates/") and f.endswith((".rt", ".edit")):
            old = read(f)
            text = turn_rt(old, names) if f.endswith(".rt") else turn_edit(old, names)
        elif f.startswith("tests/definitions/") and f.endswith(".edits"):
            old = read(f)
            text = turn_edit(old, names)
        elif f.startswith((".ci/", "docs/")) or f in ("README.md", "CONTRIBUTING.md"):
            old = read(f)
            text = turn_words(old, names)
        if text is None:
            continue
        text = turn_json(text, f)
        if text != old:
            with open(f, "w", encoding="utf-8", newline="") as it:
                it.write(text)
    subprocess.check_call(["git", "mv", "crates/json", "crates/json_read"])
    lines = []
    for line in read("crates.txt").split("\n"):
        lines.append(line if line.startswith("#") else re.sub(r"(?<!\w)json(?!\w)", "json_read", line))
    with open("crates.txt", "w", encoding="utf-8") as it:
        it.write("\n".join(lines))


def DECLARED_IN(f):
    return [m[1] for m in map(DECLARED.match, read(f).split("\n")) if m]


def turn_edit(text, names):
    """An edit's texts are the code's or a definition's."""
    return re.sub(NAME, lambda m: names.get(m[0], m[0]), text)


main()
