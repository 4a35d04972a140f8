#!/usr/bin/env python3
"""Respells this repository's own definitions and lemmas: functions, lemmas, fields and constructors in snake case, types
and facts in upper camel case.

usage: python3 tools/respell.py      at the top of the repository, once, after the toolchain's port.py

tools/respell.txt has a line for each name: the old spelling, a blank, the new one. A name is changed in .antt and .rt
files below crates/, and in README.md and docs/ between backticks. It stays in comments, after `c.` (a step of a proof's
own record), and in a file that imports a lemma of that name from the standard library.
"""
import os
import re

NAMES = dict(line.split() for line in open("tools/respell.txt", encoding="utf-8"))
TOKEN = re.compile(r"[^\s(){}\[\];,.«»\"⌜⌝|`]+")
STD = re.compile(r"use\s+Rattle\.std\.[^\s{;]*\{([^}]*)\}")


def turn(text, kept):
    def one(m):
        word = m.group(0)
        after_c = re.search(r"(?<![^\s(])c\.$", text[max(0, m.start() - 3):m.start()])
        return word if word in kept or after_c else NAMES.get(word, word)

    return TOKEN.sub(one, text)


def code(text, mark):
    kept = {w for m in STD.finditer(text) for w in TOKEN.findall(m.group(1))}
    lines, held = [], []
    for line in text.split("\n"):
        at = re.search(r"(^|\s)" + re.escape(mark), line)
        held.append(line[at.start():] if at else "")
        lines.append(line[:at.start()] if at else line)
    turned = turn("\n".join(lines), kept).split("\n")
    return "\n".join(a + b for a, b in zip(turned, held))


def page(text):
    return re.sub(r"`[^`\n]+`", lambda m: turn(m.group(0), set()), text)


def main():
    for folder, dirs, files in os.walk("crates"):
        dirs[:] = [d for d in dirs if d != "out"]
        for name in files:
            if name.endswith((".antt", ".rt")):
                rewrite(os.path.join(folder, name), lambda t: code(t, "--" if name.endswith(".antt") else "//"))
    for name in ["README.md"] + ["docs/" + f for f in os.listdir("docs") if f.endswith(".md")]:
        rewrite(name, page)


def rewrite(path, how):
    with open(path, encoding="utf-8") as f:
        old = f.read()
    new = how(old)
    if new != old:
        with open(path, "w", encoding="utf-8") as f:
            f.write(new)


main()
