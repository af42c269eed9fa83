#!/usr/bin/env python3
# Compares the verdicts of the replayed list with those of another reading of document 01, file by file.
#   compare.py CHECKER [FOLDER]
# CHECKER is a program whose `CHECKER framecheck FILE ..` writes a line `FILE: good, B bytes, S symbols, T statements, ..`
# or `FILE: refused NUMBER PLACE` for each file. FOLDER, if given, has N.frames with N.expect beside it (the first line of
# N.expect is `refused NUMBER PLACE`, or `checked ..` for a good file): these are compared too.
import pathlib
import re
import subprocess
import sys
import tempfile

TESTS = pathlib.Path(__file__).resolve().parent.parent


# What the checker says of each file of a folder, as `good S T` or `refused N P`.
def answers(checker, folder, files):
    said = {}
    for k in range(0, len(files), 200):
        run = subprocess.run([checker, "framecheck"] + files[k : k + 200], cwd=folder, capture_output=True, text=True)
        if run.returncode not in (0, 1):
            sys.exit("the checker stopped: " + run.stderr)
        for line in run.stdout.splitlines():
            name, verdict = line.split(": ", 1)
            found = re.match(r"good, \d+ bytes, (\d+) symbols, (\d+) statements", verdict)
            said[name] = "good %s %s" % found.groups() if found else verdict
    return said


# Prints each file on which the two differ; `alike` says whether two verdicts are the same.
def compare(title, expected, said, alike):
    differ = [name for name in expected if not alike(expected[name], said.get(name, "nothing"))]
    for name in differ:
        print("%s: stated %s, checker %s" % (name, expected[name], said.get(name, "nothing")))
    print("%s: %d files, %d differ" % (title, len(expected), len(differ)))
    return len(differ)


def replayed(checker):
    with tempfile.TemporaryDirectory() as folder:
        subprocess.run([sys.executable, str(TESTS / "make_cases.py"), "--write-files", folder], check=True)
        lines = (pathlib.Path(folder) / "expected.txt").read_text().splitlines()
        expected = dict(line.split(": ", 1) for line in lines)
        said = answers(checker, folder, list(expected))
        return compare("replayed list", expected, said, lambda one, two: one == two)


def vectors(checker, folder):
    expected = {}
    for path in sorted(pathlib.Path(folder).glob("*.expect")):
        first = path.read_bytes().split(b"\n")[0].decode()
        expected[path.stem + ".frames"] = "good" if first.startswith("checked") else first
    said = answers(checker, folder, list(expected))
    return compare("vectors", expected, said, lambda one, two: two == one or one == "good" and two.startswith("good "))


def main():
    if len(sys.argv) not in (2, 3):
        sys.exit("usage: compare.py CHECKER [FOLDER]")
    checker = str(pathlib.Path(sys.argv[1]).resolve())
    differ = replayed(checker)
    if len(sys.argv) == 3:
        differ += vectors(checker, sys.argv[2])
    return 1 if differ else 0


if __name__ == "__main__":
    sys.exit(main())
