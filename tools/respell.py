#!/usr/bin/env python3
"""Spells this repository's own names as today's Rattle does: words in snake case, a dash only between two names.

usage: tools/respell.py [--list]        at the top of the repository, once, behind port.py

- camelCase becomes snake_case, a bound variable's too.
- In a name that a file of specs/ or a lemma file of proofs/ declares, kebab-case does:
  a dash becomes `_`, but stays between two names (the word of a definition of ours or of a list operation), in a name that
  begins with a capital, and where the new name is one that some file has already, so that no two names fall together.
The names of functions, fields and parameters of src/ stay; so do strings, inputs and outputs. In pages only what stands in backticks
is respelled. --list prints the table and writes nothing.
"""
import collections
import os
import re
import sys

NAME = r"[^\s(){}\[\],;.·«»\"λ⌜⌝:`]+"
TOKEN = re.compile(rf"(?<![^\s(){{}}\[\],;.·«»\"λ⌜⌝:`]){NAME}")
DECLARED = re.compile(r"^[ \t]*(?:(?:abbrev|unfoldable|pub|ruleset|constructor) )*([^\s:(){}]+(?: [^\s:(){}]+)*?)(?: \{[^{}\n]*\})* : ", re.M)
# what the library calls its operations on lists and numbers
LISTS = set("length append take drop map set concat get_or replicate reverse max min cond not and or some none any all sum eqb ltb leb suc".split())


def files(top, ends):
    for folder, dirs, names in os.walk(top):
        dirs[:] = sorted(d for d in dirs if d not in ("out", ".git", "target"))
        for n in sorted(names):
            if n.endswith(ends):
                yield os.path.join(folder, n)


def read(p):
    with open(p, encoding="utf-8") as f:
        return f.read()


def is_ours(p):
    """A file of definitions or lemmas, and no function's own proof."""
    return p.endswith(".antt") and ("/specs/" in p or p.count("/") == 3 and "/proofs/" in p)


def snake(name):
    """The library's getD is get_or today."""
    return re.sub(r"(?<=[a-z0-9])[A-Z]", lambda m: "_" + m[0].lower(), name.replace("getD", "get_or"))


def table():
    code = list(files("crates", (".antt", ".rt")))
    words = collections.Counter()
    declared, definitions = set(), set(LISTS)
    for p in code:
        t = re.sub(r"(?m)--.*$|//.*$", "", read(p))
        words.update(TOKEN.findall(t))
        if is_ours(p):
            for m in DECLARED.finditer(t):
                declared.update(m[1].split())
        if is_ours(p) and "/Facts" not in p:
            for m in DECLARED.finditer(t):
                if "abbrev" in m[0] or "unfoldable" in m[0] or "ruleset" in m[0]:
                    definitions.update(m[1].split())
    definitions = {snake(d) for d in definitions if "-" not in d}
    camel = {w: snake(w) for w in declared | set(words) if re.fullmatch(r"[a-z]\w*(?<=[a-z0-9])[A-Z]\w*'*", w)}
    renamed = dict(camel)
    taken = set(words) | set(camel.values())
    dashed = sorted(w for w in declared if "-" in w.strip("-") and not w[0].isupper() and re.match(r"[^\W_]|∈", w))
    for w in dashed:
        parts = [snake(x) for x in w.split("-")]
        new = parts[0]
        for a, b in zip(parts, parts[1:]):
            plain = not (a in definitions or not a.isidentifier()) or not (b in definitions or not b.isidentifier())
            new += ("_" if plain and a.isidentifier() and b.isidentifier() else "-") + b
        if new == w:
            continue
        if new in taken:
            new = "-".join(parts)
            if new == w or new in taken:
                continue
        renamed[w] = new
        taken.add(new)
    return renamed


def turn(text, renamed):
    return TOKEN.sub(lambda m: renamed.get(m[0], m[0]), text)


def write(p, old, new):
    if new != old:
        with open(p, "w", encoding="utf-8") as f:
            f.write(new)


def turn_rust(t, renamed):
    """A .rt file: strings stay."""
    return "".join(s if i % 2 else turn(s, renamed) for i, s in enumerate(re.split(r"(b?\"(?:\\.|[^\"\\])*\")", t)))


def main():
    renamed = table()
    if "--list" in sys.argv:
        for a in sorted(renamed):
            print(a, renamed[a])
        return
    for p in files("crates", (".antt", ".edit")):
        t = read(p)
        write(p, t, turn(t, renamed))
    for p in files("crates", (".rt",)):
        t = read(p)
        write(p, t, turn_rust(t, renamed))
    pages = [p for p in files(".", (".md",)) if "/crates/" not in p]
    for p in pages:
        t = read(p)
        write(p, t, re.sub(r"`[^`\n]+`", lambda m: turn(m[0], renamed), t))


if __name__ == "__main__":
    main()
