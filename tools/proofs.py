#!/usr/bin/env python3
"""Of the older kit's form: it reads and writes proofs that walk the code by hand (Proof.antt, paths of `.before`), and calls `rt dev`, which is gone. Today `rt check --start F --allow-holes`, in
the crate's folder, writes Invariants.antt and Answers.antt of F with a hole at each goal that is left, and prints what is known there by name; `rt must-fail NAME` tries a crate's edits.

Helps to write proof files. Run it in the root of the repository; it calls `rt dev`.

    proofs.py skeletons CRATE            writes each skeleton that `rt dev` offers, until it offers none
    proofs.py chains CRATE FUNCTION      for each need of a function, the fields that lead to what is known there, with how many `.before`
    proofs.py paths CRATE FILE           writes FILE's terms into the crate's proof files (see below)
    proofs.py moved CRATE OLD            after a parameter or a call was added: rewrites the number of `.before` in every proof of the crate, where
                                         OLD is what `rt dev CRATE --generated OLD` wrote before the change
    proofs.py edit CRATE NAME..          applies a must-fail edit, prints the first error of `rt dev`, and undoes it

FILE has blocks: a line `# FUNCTION`, then lines `NEED: TERM`. In a term `@FIELD` stands for `c .before .. .FIELD`, with as many `.before` as lead there.
"""
import os
import pathlib
import re
import subprocess
import sys
import tempfile

CHAIN = re.compile(r"\bc((?: \.before)*) \.([A-Za-z0-9\-_κ]+)")
PREFIX = re.compile(r"(?:Rattle·\w+(?:·\w+)?|mathlib|lib|Prim|native|borrow|mir|denote)(?:\.\w+)+\.(?=[\w_])")


def dev(crate, *words):
    done = subprocess.run(["rt", "dev", crate, *words], capture_output=True, text=True, env={**os.environ, "RT_CUT": "0"})
    return done.returncode, done.stdout + done.stderr


def records(path):
    """The records of a generated Lts.antt, and the record that each need begins with."""
    lines = path.read_text().split("\n")
    fields, needs, name, indent = {}, {}, None, 0
    for number, line in enumerate(lines):
        depth = len(line) - len(line.lstrip())
        if found := re.match(r"\s*pub record (\S+)", line):
            name, indent = found.group(1), depth
            fields[name] = []
        elif name and line.strip() and depth <= indent:
            name = None
        elif name and depth == indent + 2 and (found := re.match(r"\s*pub (\S+) :\s*(.*)", line)):
            fields[name].append((found.group(1), found.group(2).strip() or lines[number + 1].strip()))
        if found := re.match(r"\s*Need-(\S+) =\s*(.*)", line):
            text = " ".join([found.group(2)] + [more.strip() for more in lines[number + 1 : number + 4]])
            if begins := re.search(r"\(c : (\S+?)[\s)]", text):
                needs[found.group(1)] = begins.group(1)
    return fields, needs


def chain(fields, name):
    """The fields from a record on, each with how many `.before` lead to it."""
    out, depth = [], 0
    while name in fields:
        before = None
        for field, kind in fields[name]:
            if field == "before":
                before = kind.split()[0].strip("()")
            else:
                out.append((field, depth))
        name, depth = before, depth + 1
    return out


def generated(crate, folder, function):
    return pathlib.Path(folder) / f"Rattle·{crate}·proofs" / "proofs" / function / "Lts.antt"


def skeletons(crate):
    while True:
        lines, wrote, number = dev(crate)[1].split("\n"), 0, 0
        while number < len(lines):
            found = re.search(r"help: write (\S+) with these lines", lines[number])
            number += 1
            if not found:
                continue
            body = []
            while number < len(lines) and (lines[number].startswith("    ") or not lines[number].strip()):
                body.append(lines[number][4:])
                number += 1
            path = pathlib.Path(found.group(1))
            if not path.exists():
                path.parent.mkdir(parents=True, exist_ok=True)
                path.write_text("\n".join(body).rstrip("\n") + "\n")
                print(path)
                wrote += 1
        if not wrote:
            return


def chains(crate, function):
    with tempfile.TemporaryDirectory() as folder:
        dev(crate, "--generated", folder)
        fields, needs = records(generated(crate, folder, function))
        for need, name in needs.items():
            print(need, " ".join(f"{field}:{depth}" for field, depth in chain(fields, name)))


def terms(path):
    function, out = None, {}
    for line in path.read_text().split("\n"):
        if line.startswith("# "):
            function = line[2:].strip()
            out[function] = {}
        elif ": " in line:
            need, term = line.split(": ", 1)
            out[function][need.strip()] = term.strip()
    return out


def paths(crate, path):
    with tempfile.TemporaryDirectory() as folder:
        dev(crate, "--generated", folder)
        for function, wanted in terms(pathlib.Path(path)).items():
            fields, needs = records(generated(crate, folder, function))
            proof = pathlib.Path("crates") / crate / "proofs" / function / "Proof.antt"
            text = proof.read_text()
            for need, term in wanted.items():
                depth = {}
                for field, steps in chain(fields, needs[need]):
                    depth.setdefault(field, steps)
                written = re.sub(r"@([A-Za-z0-9\-_κ]+)", lambda at: "c" + " .before" * depth[at.group(1)] + " ." + at.group(1), term)
                begins = re.compile(rf"^({re.escape(need)}(?: c)?(?: κs)?) =.*(?:\n .*)*", re.M)
                text = begins.sub(lambda at: f"{at.group(1)} = {written}", text, count=1)
            proof.write_text(text)


def renumbered(text, old, new):
    """A need's term with its chains as the new records have them."""

    def one(found):
        steps, field = found.group(1).count(".before"), found.group(2)
        same = [k for k, (name, depth) in enumerate(entry for entry in old if entry[0] == field) if depth == steps]
        there = [depth for name, depth in new if name == field]
        if not same or same[0] >= len(there):
            print("left alone:", found.group(0)[-60:])
            return found.group(0)
        return "c" + " .before" * there[same[0]] + " ." + field

    return CHAIN.sub(one, text)


def moved(crate, before):
    with tempfile.TemporaryDirectory() as folder:
        dev(crate, "--generated", folder)
        top = pathlib.Path("crates") / crate / "proofs"
        for proof in sorted(top.rglob("Proof.antt")):
            function = proof.parent.relative_to(top).as_posix()
            was, now = (generated(crate, place, function) for place in (before, folder))
            if not was.exists() or not now.exists():
                continue
            (old_fields, old_needs), (new_fields, new_needs) = records(was), records(now)
            out, need = [], None
            for line in proof.read_text().split("\n"):
                if found := re.match(r"(\S+) : tie\.Need-(\S+)", line):
                    need = found.group(2)
                elif need in old_needs and need in new_needs:
                    line = renumbered(line, chain(old_fields, old_needs[need]), chain(new_fields, new_needs[need]))
                out.append(line)
            proof.write_text("\n".join(out))


def edit(crate, *names):
    for name in names:
        text = (pathlib.Path("crates") / crate / "must-fail" / f"{name}.edit").read_text()
        source = pathlib.Path("crates") / crate / re.search(r"^file: (.*)$", text, re.M).group(1)
        kept = source.read_text()
        changed = kept
        for old, new in zip(re.findall(r"^old: (.*)$", text, re.M), re.findall(r"^new: (.*)$", text, re.M)):
            changed = changed.replace(old, new)
        source.write_text(changed)
        try:
            status, out = dev(crate)
        finally:
            source.write_text(kept)
        lines = out.split("\n")
        first = next((k for k, line in enumerate(lines) if "error" in line), len(lines) - 8)
        print(f"{name}: exit {status}")
        print(re.sub(r"( \.before)+", " ..", PREFIX.sub("", "\n".join(lines[first : first + 8])))[:900])


if __name__ == "__main__":
    commands = {"skeletons": skeletons, "chains": chains, "paths": paths, "moved": moved, "edit": edit}
    if len(sys.argv) < 3 or sys.argv[1] not in commands:
        sys.exit(__doc__)
    commands[sys.argv[1]](*sys.argv[2:])
