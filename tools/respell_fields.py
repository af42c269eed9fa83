#!/usr/bin/env python3
# Brings the fields, the constructors and the definitions that tools/respell.py left with a hyphen to snake case, as the library
# has them: `symbols-few` is `symbols_few`. Lemmas keep their hyphens, as `length-insert` in the library. Runs over every .antt
# and .rt file and every edit of crates/, once, after respell.py, and over code words of the pages. A name keeps its hyphen
# where a file already has the other spelling, so that no two names fall together; those are printed.
#     python3 tools/respell_fields.py [--dry]
import collections, os, re, sys

root = os.path.join(os.path.dirname(os.path.abspath(__file__)), "..")
top = os.path.join(root, "crates")
name = re.compile(r"[A-Za-z_][A-Za-z0-9_'-]*")
made = re.compile(r"(invariant|decreases)-")


def files(ends):
    for folder, folders, names in os.walk(top):
        folders[:] = sorted(f for f in folders if f != "out")
        for n in sorted(names):
            if n.endswith(ends):
                yield os.path.join(folder, n)


def declared(text):
    """The hyphened names that are declared as a field, a constructor or a definition."""
    found, block = set(), None
    for line in text.split("\n"):
        depth = len(line) - len(line.lstrip())
        if re.match(r"\s*(pub )?(record|data) ", line):
            block = depth
            continue
        if block is not None and line.strip() and depth <= block:
            block = None
        m = re.match(r"\s*((?:abbrev |unfoldable |pub |open )*)([^\s:({=;]+)\s*:(?!=)", line)
        if m and not line.lstrip().startswith("--") and "-" in m.group(2) and not made.match(m.group(2)):
            if block is not None or "abbrev" in m.group(1) or "unfoldable" in m.group(1):
                found.add(m.group(2))
    return found


texts = {f: open(f, encoding="utf-8").read() for f in files((".antt", ".rt"))}
code = {f: "\n".join(l for l in t.split("\n") if not l.lstrip().startswith(("--", "//"))) for f, t in texts.items()}
names = {f: set(name.findall(t)) for f, t in code.items()}
turned = set().union(*(declared(t) for f, t in texts.items() if f.endswith(".antt")))
library = set()
for t in code.values():
    for m in re.finditer(r"use (?!Rattle\.)[^{;\n]*\{([^}]*)\}|use Rattle\.(?:std|core|io)\.[^{;\n]*\{([^}]*)\}", t):
        library |= set(name.findall(m.group(1) or m.group(2)))
kept = {}
for n in sorted(turned):
    new = n.replace("-", "_")
    both = [f for f, had in names.items() if n in had and new in had]
    if n in library:
        kept[n] = "the library's"
    elif both:
        kept[n] = ", ".join(os.path.relpath(f, top) for f in both)
turned -= set(kept)
for n, why in kept.items():
    print(f"kept: {n}: {why}")


def respelt(text):
    return name.sub(lambda m: m.group().replace("-", "_") if m.group() in turned else m.group(), text)


def paged(text):
    return re.sub(r"`[^`\n]*`", lambda m: respelt(m.group()), text)


def write(f, old, new):
    if old != new and "--dry" not in sys.argv:
        open(f, "w", encoding="utf-8").write(new)


for f, t in texts.items():
    write(f, t, respelt(t))
for f in files(".edit"):
    t = open(f, encoding="utf-8").read()
    write(f, t, respelt(t))
for page in ["README.md"] + ["docs/" + p for p in sorted(os.listdir(os.path.join(root, "docs"))) if p.endswith(".md") and p != "PORT.md"]:
    f = os.path.join(root, page)
    t = open(f, encoding="utf-8").read()
    write(f, t, paged(t))
print(len(turned), "names")
print(" ".join(sorted(turned)))
