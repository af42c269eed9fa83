#!/usr/bin/env python3
# Brings the repository's own definitions and lemmas to the spelling that Rattle's library has: words in snake case. Runs over
# every .antt and .rt file of crates/, once, after the kit's port.py. A word in camel case that begins with a small letter is
# always a name of a definition, a lemma, a field or a variable of a proof (no function of src/ is spelt so); types, modules,
# constructors and functions of src/ keep their names. Prints, for each file, two names that would fall together.
#     python3 tools/respell.py [--dry]
import os, re, sys

top = os.path.join(os.path.dirname(os.path.abspath(__file__)), "..", "crates")
word = re.compile(r"(?<![A-Za-z0-9_])[a-z][a-z0-9]*(?:[A-Z][A-Za-z0-9]*)+(?![A-Za-z0-9_])")
plain = re.compile(r"(?<![A-Za-z0-9_])[a-z][a-z0-9_]*(?![A-Za-z0-9_])")
name = re.compile(r"[A-Za-z_][A-Za-z0-9_'-]*")
# Names of the older library inside lemma names, as its today's definition is called.
also = {"getD": "get_or", "get_d_map": "get_or_map", "get_d_past": "get_or_past"}
# Lemmas that would have the name of a definition beside them: they keep their hyphen.
lemma = re.compile(r"(?<![A-Za-z0-9_.'-])(end_token|by_mode|rest_from)(?![A-Za-z0-9_'-])")


def snake(w):
    return also.get(w) or re.sub(r"(?<=[a-z0-9])[A-Z]", lambda m: "_" + m.group().lower(), w).lower()


def respelt(t, antt):
    if antt:
        t = lemma.sub(lambda m: m.group().replace("_", "-"), t)
    t = word.sub(lambda m: snake(m.group()), t)
    return plain.sub(lambda m: also.get(m.group(), m.group()), t)


def files():
    for folder, folders, names in os.walk(top):
        folders[:] = sorted(f for f in folders if f != "out")
        for n in sorted(names):
            if n.endswith((".antt", ".rt")):
                yield os.path.join(folder, n)


for f in files():
    text = open(f, encoding="utf-8").read()
    antt = f.endswith(".antt")
    lines = [l for l in text.split("\n") if not l.lstrip().startswith(("--", "//"))]
    names = set(name.findall("\n".join(lines)))
    for n in sorted(names):
        if respelt(n, antt) != n and respelt(n, antt) in names:
            print(f"falls together in {os.path.relpath(f, top)}: {n} -> {respelt(n, antt)}")
    new = respelt(text, antt)
    if new != text and "--dry" not in sys.argv:
        open(f, "w", encoding="utf-8").write(new)
