# The stored files: tests/corpus (frame files of databases and of document 01's table, all good) and
# tests/vectors (made files). Their verdicts stand in verdicts.txt beside them: NAME VERDICT on each line.
import pathlib

TESTS = pathlib.Path(__file__).resolve().parent.parent


def cases_of(folder):
    listed = []
    for line in (TESTS / folder / "verdicts.txt").read_text().splitlines():
        name, kind, one, two = line.split()
        data = (TESTS / folder / (name + ".frames")).read_bytes()
        listed.append((folder + "/" + name, data, (kind, int(one), int(two))))
    return listed
