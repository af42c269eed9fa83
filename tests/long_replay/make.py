#!/usr/bin/env python3
"""Writes the replayed list of long forms: crates/long_replay/stdin (files and calls) and crates/long_replay/stdout (their answers).

    make.py VECTORS ORACLE                     write both
    make.py VECTORS ORACLE --check             say whether both are what this script would write
    make.py VECTORS ORACLE --whole NAME DIR    write DIR/stdin and DIR/stdout with every line of NAME.long of the corpus, and nothing else

VECTORS has calls/calls.tsv with its files. ORACLE has corpus/ with NAME.frames, NAME.answers and NAME.long. No answer in the list comes from running the code of
this repository (README.md says whose they are).

The form of stdin, all numbers u32 and little-endian: blocks, one for each file: the file's length, its bytes, the number of calls, and for each
call six numbers: statement, pool bytes, stack entries, places, tree entries, output bytes. stdout has a line `NUMBER PLACE STEPS` for each call, in order, and where
NUMBER is 0 the text in the next line.
"""
import collections
import importlib.util
import pathlib
import sys

ROOT = pathlib.Path(__file__).resolve().parent.parent.parent
SPEC = importlib.util.spec_from_file_location("runs", ROOT / "tests/bench_replay/make.py")
RUNS = importlib.util.module_from_spec(SPEC)
SPEC.loader.exec_module(RUNS)
GREATEST = RUNS.GREATEST + (131072, 65536)

# The files of the corpus of whose .long every line is in the list.
WHOLE = RUNS.CORPUS + sorted({"bench-table/" + row[0] for row in RUNS.ROWS})

# So many lines of set-2500.long, the longest: each call checks the file anew, which takes this one 0.08 s (with the older kit).
LONGEST = 10


def bench_table(oracle):
    """th1 and th2 of document 01's table with just enough tree entries and output, one short of each, and none."""
    data = (oracle / "corpus/bench-table/row01.frames").read_bytes()
    first, second = "wp wq wi wp wq wi wi", "wp wq h1 h2 mp"
    for statement, text, place, entries in ((6, first, 13, 9), (9, second, 14, 9)):
        size = len(text)
        for tree, output, answer in (
            (entries, size, "0 %d 5" % size),
            (entries - 1, size, "60 %d 5" % place),
            (entries, size - 1, "61 %d 5" % place),
            (0, 0, "60 %d 5" % place),
        ):
            yield data, (statement,) + RUNS.GREATEST + (tree, output), answer, text


def calls(vectors):
    """Every `longform` line, once. More than the greatest sizes is the greatest sizes; no proof has more than 65,536 steps, so none needs more than 131,071 tree entries."""
    seen = set()
    for line in (vectors / "calls/calls.tsv").read_text().splitlines():
        fields = line.split("\t")
        if fields[1] != "longform" or line in seen:
            continue
        seen.add(line)
        lent = tuple(min(int(size), most) for size, most in zip(fields[3:8], GREATEST))
        yield (vectors / "calls" / fields[0]).read_bytes(), (int(fields[2]),) + lent, fields[8], fields[9] if len(fields) > 9 else ""


def long_forms(oracle, name):
    """A call for each line of NAME.long. Where document 01 refuses a proof that the Rust accepts, the answer is that refusal."""
    path = oracle / "corpus" / (name + ".frames")
    data = path.read_bytes()
    texts = dict(line.split(": ", 1) for line in path.with_suffix(".long").read_text().splitlines())
    lines = path.with_suffix(".answers").read_text().splitlines()
    for (statement, label, length), line in zip(RUNS.provables(data), lines, strict=True):
        if label not in texts:
            continue
        said, text = line.split(), texts.pop(label)
        refused = RUNS.BY_HAND.get((path.stem, label))
        assert said[:2] == [label, "Accepted"] and (refused or text not in ("TOOLONG", "UNSOUND")), (name, label)
        yield data, (statement,) + GREATEST, refused or "0 %d %s" % (len(text), said[2]), text
    assert not texts, (name, sorted(texts))


def corpus(oracle):
    for name in WHOLE:
        yield from long_forms(oracle, name)
    yield from sorted(long_forms(oracle, "set-2500"), key=lambda case: len(case[3]), reverse=True)[:LONGEST]


def packed(parts):
    """stdin and stdout for these calls, and how often each number is answered."""
    blocks, answers, numbers = b"", [], collections.Counter()
    cases = ((data, call, (answer, text)) for part in parts for data, call, answer, text in part)
    for data, asked in RUNS.blocks(cases).items():
        blocks += RUNS.u32(len(data)) + data + RUNS.u32(len(asked))
        for call, (answer, text) in asked:
            blocks += RUNS.u32(*call)
            answers.append(answer)
            number, place = map(int, answer.split()[:2])
            numbers[number] += 1
            if number == 0:
                assert len(text) == place, (answer, text)
                answers.append(text)
    assert len(blocks) <= 1048576
    return {"stdin": blocks, "stdout": ("\n".join(answers) + "\n").encode()}, numbers


def write(folder, texts):
    folder.mkdir(parents=True, exist_ok=True)
    for name, text in texts.items():
        (folder / name).write_bytes(text)


def main():
    if len(sys.argv) not in (3, 4, 6):
        sys.exit(__doc__)
    vectors, oracle = pathlib.Path(sys.argv[1]), pathlib.Path(sys.argv[2])
    if sys.argv[3:4] == ["--whole"]:
        return write(pathlib.Path(sys.argv[5]), packed([long_forms(oracle, sys.argv[4])])[0])
    parts = [list(part) for part in (bench_table(oracle), calls(vectors), corpus(oracle))]
    texts, numbers = packed(parts)
    print("calls: table %d, vectors %d, corpus %d" % tuple(map(len, parts)))
    print("%d and %d bytes; answers %s" % (*map(len, texts.values()), " ".join("%d:%d" % pair for pair in sorted(numbers.items()))))
    folder = ROOT / "crates/long_replay"
    if sys.argv[3:] == ["--check"]:
        stale = [name for name in texts if not (folder / name).exists() or (folder / name).read_bytes() != texts[name]]
        sys.exit("not up to date: " + " ".join(stale) if stale else 0)
    write(folder, texts)


if __name__ == "__main__":
    main()
