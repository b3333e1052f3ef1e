#!/usr/bin/env python3
"""Brings the definitions and lemmas of this repository to the spelling of today's Rattle: tools/spelling.py [--dry]

Run once, right after the kit's port.py: what specs/ and proofs/ declare in camel case or with dashes is spelled in snake case everywhere
(`laidOver` is `laid_over`, `word-small` is `word_small`), and a fact that a lower-case definition states is spelled as a type. Names of types, modules and operators,
of src/, of the library and of what Rattle generates stay, and so do strings. It stops where two names of one file would fall together.
"""

import collections
import glob
import re
import sys

W = r"[^\s(){}.;,@\"«»\[\]\\⟦⟧]+"
TOKEN = re.compile(r"\"(?:[^\"\\]|\\.)*\"|--[^\n]*|//[^\n]*|" + W)
DECLARED = re.compile(r"(?m)^ *(?:pub )?(?:abbrev |unfoldable )?(?:pub )?((?:" + W + r" )+): ")
# Names of IMG's library: in comments they are words of the language that is interpreted.
LANGUAGE = set("drawLine drawEllipse drawBox drawText drawGroup destroyShape clearScene centreX centreY instanceOf".split())


def read(path):
    with open(path, encoding="utf-8") as it:
        return it.read()


def files():
    for part in ("specs", "proofs"):
        yield from glob.glob(f"crates/*/{part}/**/*.antt", recursive=True)
    yield from glob.glob("crates/*/src/**/*.rt", recursive=True)


def snake(name):
    s = re.sub(r"(?<=[a-z0-9])([A-Z])", r"_\1", name)
    s = re.sub(r"(?<=[A-Z])([A-Z])(?=[a-z])", r"_\1", s)
    return s.lower().replace("-", "_")


def of_library(text):
    """The names that a file takes from modules that are not this repository's own."""
    own = tuple(f"Rattle.{c.split('/')[1]}." for c in glob.glob("crates/*/src"))
    out = set()
    for path, names in re.findall(r"(?m)^(?:ghost |pub )?use ([^\s{]+)\.\{([^}]*)\}", text):
        if not path.startswith(own) or ".declared." in path:
            for one in names.replace("\n", " ").split(","):
                out.update(one.replace(" as ", " ").split())
    return out


def visible(text):
    """The names in a file, but for those in strings, comments, paths and behind a dot."""
    bare = re.sub(r"\"(?:[^\"\\]|\\.)*\"|--[^\n]*|//[^\n]*", "", text)
    bare = re.sub(r"(?m)^((?:ghost |pub )?use )[^\s{]+", r"\1", bare)
    return set(re.findall(r"(?<![.\w'◌·-])" + W, bare))


def main():
    texts = {p: read(p) for p in files()}
    lemmas = [p for p in texts if p.endswith(".antt") and re.match(r"crates/\w+/(specs|proofs)/[A-Za-z]+\.antt$", p)]
    library = set().union(*(of_library(t) for t in texts.values()))
    declared = set()
    for p in lemmas:
        text = re.sub(r"--[^\n]*", "", texts[p])
        for names in DECLARED.findall(text):
            declared.update(names.split())
    words = {p: visible(t) for p, t in texts.items() if p in lemmas}
    mine = [n for n in sorted(declared) if "◌" not in n and re.match(r"[a-z]", n) and n not in library]
    groups = collections.defaultdict(set)
    for n in mine:
        groups[snake(n)].add(n)
    # Names that fall together in a file: the definition keeps the name, and the lemma gets `_lem`.
    table, lemma = {}, {}
    for new, olds in groups.items():
        apart = len(olds) > 1 and any(len(olds & w) > 1 for w in words.values())
        camel = [n for n in olds if re.search("[A-Z]", n)]
        for n in olds:
            if apart and n not in camel and ("-" in n or camel):
                (table if n != new else lemma)[n] = new + "_lem"
            elif n != new:
                table[n] = new
    print(len(table), "names;", len([n for n in declared if n in library]), "are the library's:", *sorted(n for n in declared if n in library))
    print("lemmas apart:", *sorted(n for n in [*table.values(), *lemma.values()] if n.endswith("_lem")))

    def turned(text, is_proof):
        def one(m):
            t = m.group(0)
            if t.startswith('"'):
                return t
            if t.startswith("--") or t.startswith("//"):
                return re.sub(r"[a-z][A-Za-z0-9'-]*", lambda w: table.get(w.group(0), w.group(0)) if w.group(0) not in LANGUAGE and (re.search("[A-Z]", w.group(0))) else w.group(0), t)
            before = text[m.start() - 1 : m.start()]
            if t in lemma and before != "." and is_proof:
                return lemma[t]
            return table.get(t, t)

        return TOKEN.sub(one, text)

    # what falls together with a name that is no declaration, as a variable
    bad = 0
    for p in lemmas:
        for o in words[p]:
            n = table.get(o)
            if n in words[p] and table.get(n, lemma.get(n, n)) == n:
                print("together:", p, o, n)
                bad += 1
    if "--dry" in sys.argv:
        return 0
    if bad and "--force" not in sys.argv:
        return 1
    for p, text in texts.items():
        new = turned(text, p.endswith(".antt"))
        if new != text:
            with open(p, "w", encoding="utf-8") as it:
                it.write(new)
    return 0


raise SystemExit(main())
