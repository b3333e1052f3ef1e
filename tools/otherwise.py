#!/usr/bin/env python3
"""Renames the choice of meaning, if◌then◌else◌, to if◌then◌otherwise◌, since the library has an operator of the first name: tools/otherwise.py, run once behind tools/spelling.py."""
import glob, re, sys

PART = re.compile(r'("(?:[^"\\]|\\.)*")|(--[^\n]*)|([^\s(){}.;,@"«»\[\]\\⟦⟧]+)')


def turned(text):
    def one(m):
        if m[1] or m[2]:
            return m[0].replace("if◌then◌else◌", "if◌then◌otherwise◌")
        return {"else": "otherwise", "if◌then◌else◌": "if◌then◌otherwise◌"}.get(m[3], m[0])

    return PART.sub(one, text)


def write(path, new, old):
    if new != old:
        open(path, "w", encoding="utf-8").write(new)
        return 1
    return 0


count = 0
for part in ("specs", "proofs"):
    for path in glob.glob(f"crates/*/{part}/**/*.antt", recursive=True):
        old = open(path, encoding="utf-8").read()
        count += write(path, turned(old), old)
for path in glob.glob("crates/*/must-fail/*.edit"):
    old = open(path, encoding="utf-8").read()
    lines, antt = [], False
    for line in old.split("\n"):
        if line.startswith("file: "):
            antt = line.endswith(".antt")
        if antt and line.startswith(("old: ", "new: ")):
            line = line[:5] + turned(line[5:])
        lines.append(line)
    count += write(path, "\n".join(lines), old)
path = "docs/MEANING.md"
old = open(path, encoding="utf-8").read()
count += write(path, old.replace("`if c then (λ _. x) else λ _. y`", "`if c then (λ _. x) otherwise λ _. y`"), old)
print(count, "files")
