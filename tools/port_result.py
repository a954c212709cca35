#!/usr/bin/env python3
"""Names the reader's definition `result` `result_of`, once, after port_names.py, and turns the clauses that cite it: `result` is
today the word for what a function returns, so that port.py left those clauses in the older form.

usage: tools/port_result.py        at the top of the repository
"""

import re
import subprocess

NAME = re.compile(r"(?<![^\s(){};,\[\]])result(?![^\s(){};,\[\]])")


def read(path):
    with open(path, encoding="utf-8") as f:
        return f.read()


def turn_clauses(text):
    """`ensures* NAME { λ r. ⌜ FACT ⌝ }` as a plain fact on `result`."""

    def one(m):
        fact = NAME.sub("result_of", m[3].strip())
        fact = re.sub(rf"(?<![\w.'-]){re.escape(m[2])}(?![\w'-])", "result", fact)
        return f"ensures{m[1]}{{ {fact} }}"

    return re.sub(r"ensures\*((?: \w+)? ){ λ (\w+)\. ⌜(.*?)⌝ }", one, text, flags=re.S)


for path in subprocess.check_output(["git", "ls-files", "crates"], text=True).split("\n"):
    if not path.endswith((".antt", ".rt")):
        continue
    old = text = read(path)
    if path.endswith(".rt"):
        text = turn_clauses(text)
        text = re.sub(r"(ghost use Rattle\.jwe\.specs\.Judge\.{[^}]*})", lambda m: NAME.sub("result_of", m[1]), text)
    elif path == "crates/jwe/specs/Judge.antt" or re.search(r"use Rattle\.jwe\.specs\.Judge\.{(?:[^}]*, )?result[,}]", text):
        text = "\n".join(l if l.lstrip().startswith("--") else NAME.sub("result_of", l) for l in text.split("\n"))
    if text != old:
        print(path)
        with open(path, "w", encoding="utf-8") as f:
            f.write(text)
