#!/usr/bin/env python3
"""Writes the replayed list of runs: crates/bench_replay/stdin (files and calls) and crates/bench_replay/stdout (their answers).

    make.py VECTORS ORACLE           write both
    make.py VECTORS ORACLE --check   say whether both are what this script would write

VECTORS has calls/calls.tsv with its files, and program/N.frames with N.expect. ORACLE has corpus/ with NAME.frames and NAME.answers. No
answer in the list comes from running the code of this repository (README.md says whose they are).

The form of stdin, all numbers u32 and little-endian: blocks, one for each file: the file's length, its bytes, the number of calls, and for each
call five numbers: statement, pool bytes, stack entries, places, 0. stdout has a line `NUMBER PLACE STEPS` for each call, in order.
"""
import collections
import pathlib
import struct
import sys

ROOT = pathlib.Path(__file__).resolve().parent.parent.parent
GREATEST = (65536, 1024, 4096)

# Document 01's table of runs: file of the corpus, statement, pool bytes, answer.
ROWS = [
    ("row01", 6, 65536, "0 13 5"),
    ("row01", 6, 24, "0 13 5"),
    ("row01", 6, 23, "43 12 4"),
    ("row02", 6, 65536, "0 20 7"),
    ("row03", 6, 65536, "31 10 3"),
    ("row04", 6, 65536, "32 8 1"),
    ("row05", 6, 65536, "23 11 3"),
    ("row06", 6, 65536, "22 11 3"),
    ("row07", 6, 65536, "22 8 0"),
    ("row08", 6, 65536, "39 9 2"),
    ("row09", 6, 65536, "42 2 1"),
    ("row10a", 6, 65536, "40 0 0"),
    ("row10b", 6, 65536, "21 1 0"),
    ("row11", 9, 65536, "0 14 5"),
    ("row12", 9, 65536, "41 2 1"),
    ("row13", 9, 65536, "0 28 5"),
]

# Proofs of the corpus for which the Rust's answer is not document 01's, worked out by hand (docs/DIFFERENCES.md). Where theorem1u passes
# 65,536 bytes is told by the oracle: its 2,221st step is the first after which the Rust's buffer is longer.
BY_HAND = {
    ("turned-marks", "turn"): "0 30 5",
    ("turned-marks", "line"): "0 23 5",
    ("turned-marks", "line3"): "0 27 5",
    ("turned-marks", "unk2"): "33 32 4",
    ("turned-marks", "unsound"): "35 13 2",
    ("turned-marks", "unsound3"): "37 44 6",
    ("later-dv", "th1"): "38 6 2",
    ("later-dv", "th2"): "0 9 3",
    ("vars", "n257"): "44 5919 1279",
    ("vars", "n300"): "44 5919 1279",
    ("vars", "r257"): "44 1181 0",
    ("vars", "e7"): "44 5 1",
    ("vars", "e8"): "44 26 7",
    ("vars", "g0"): "44 0 0",
    ("vars", "g1"): "44 0 0",
    ("big-unifier", "theorem1u"): "43 6924 2220",
}

# The files of the corpus whose accepted proofs are in the list.
CORPUS = ["demo0", "miu", "hol", "big-unifier", "set-1000"] + [
    "handmade/" + name for name in ("scopes", "numbers", "turned-marks", "later-dv", "vars")
]

# So many calls of the program's vectors for each number, smallest files first.
FOR_EACH_NUMBER = 8


def provables(data):
    """Statement number, label and length of the proof's text of each $p of a good file."""
    at, number, out = 0, 0, []
    while at < len(data):
        size, kind = struct.unpack_from("<IH", data, at)
        body = data[at + 6 : at + 4 + size]
        if kind == 5:
            h, d, n = struct.unpack_from("<HHH", body)
            out.append([number, body[6 + 4 * h + 4 * d + 2 * n :].decode(), 0])
        if kind == 6:
            out[-1][2] = len(body)
        number += 2 <= kind <= 5
        at += 4 + size
    return out


def bench_table(oracle):
    for name, statement, pool, answer in ROWS:
        data = (oracle / "corpus/bench-table" / (name + ".frames")).read_bytes()
        yield data, (statement, pool) + GREATEST[1:], answer


def record(kind, body):
    return struct.pack("<IH", len(body) + 2, kind) + body


def assertion(kind, symbol, label):
    """A statement `wff` and one symbol, with no hypotheses and no pairs."""
    return record(kind, struct.pack("<HHHHH", 0, 0, 2, 0, symbol) + label.encode())


def number_examples():
    """The book's examples: `UA` is place 20, `YT` 119, `UUA` 120. 130 axioms `aK` state `wff cK`, so that only place K proves `wff cK`."""
    count = 130
    data = record(1, b"\0wff") + b"".join(record(1, b"\0c%d" % k) for k in range(count))
    data += b"".join(assertion(4, 1 + k, "a%d" % k) for k in range(count))
    roster = "( " + " ".join("a%d" % k for k in range(count)) + " ) "
    asked = []
    for letters, place in (("A", 0), ("T", 19), ("UA", 20), ("YT", 119), ("UUA", 120)):
        for claim, number in ((place, 0), (place + 1, 42)):
            text = roster + letters
            asked.append((count + len(asked), "%d %d 1" % (number, len(text))))
            data += assertion(5, 1 + claim, "p%d" % len(asked)) + record(6, text.encode())
    for statement, answer in asked:
        yield data, (statement,) + GREATEST, answer


def calls(vectors):
    """Every `verify` line, once. More than the greatest sizes is the greatest sizes."""
    seen = set()
    for line in (vectors / "calls/calls.tsv").read_text().splitlines():
        fields = line.split("\t")
        if fields[1] != "verify" or line in seen:
            continue
        seen.add(line)
        room = tuple(min(int(lent), most) for lent, most in zip(fields[3:6], GREATEST))
        yield (vectors / "calls" / fields[0]).read_bytes(), (int(fields[2]),) + room, fields[8]


def programs(vectors):
    """Some of the program's vectors, so that every number occurs: a refused file, asked for statement 0, or a $p."""
    met = collections.Counter()
    for path in sorted((vectors / "program").glob("*.frames"), key=lambda path: (path.stat().st_size, path.name)):
        data = path.read_bytes()
        lines = path.with_suffix(".expect").read_text().splitlines()
        if len(data) > 65536:
            continue
        if lines[0].startswith("refused"):
            found = [(0, lines[0].removeprefix("refused ") + " 0")]
        else:
            found = [(p[0], line.removeprefix(p[1] + " ")) for p, line in zip(provables(data), lines[1:])]
        for statement, answer in found:
            number = answer.split()[0]
            met[number] += 1
            if met[number] <= FOR_EACH_NUMBER:
                yield data, (statement,) + GREATEST, answer


def corpus(oracle):
    """The accepted proofs, and those worked out by hand."""
    for name in CORPUS:
        path = oracle / "corpus" / (name + ".frames")
        data = path.read_bytes()
        lines = path.with_suffix(".answers").read_text().splitlines()
        for (statement, label, length), line in zip(provables(data), lines, strict=True):
            said = line.split()
            assert said[0] == label, (name, label)
            by_hand = BY_HAND.get((path.stem, label))
            if by_hand:
                yield data, (statement,) + GREATEST, by_hand
            elif said[1] == "Accepted":
                yield data, (statement,) + GREATEST, "0 %d %s" % (length, said[2])


def blocks(cases):
    """The cases by file, each file once, in the order in which they come."""
    out = collections.OrderedDict()
    for data, call, answer in cases:
        out.setdefault(data, []).append((call, answer))
    return out


def u32(*numbers):
    return struct.pack("<%dI" % len(numbers), *numbers)


def main():
    if len(sys.argv) not in (3, 4):
        sys.exit(__doc__)
    vectors, oracle = pathlib.Path(sys.argv[1]), pathlib.Path(sys.argv[2])
    parts = [list(part) for part in (bench_table(oracle), number_examples(), calls(vectors), programs(vectors), corpus(oracle))]
    packed, answers, numbers = b"", [], collections.Counter()
    for data, asked in blocks(case for part in parts for case in part).items():
        packed += u32(len(data)) + data + u32(len(asked))
        for call, answer in asked:
            packed += u32(*call, 0)
            answers.append(answer)
            numbers[int(answer.split()[0])] += 1
    assert set(numbers) == set(range(9)) | set(range(20, 47)), sorted(numbers)
    texts = {"stdin": packed, "stdout": ("\n".join(answers) + "\n").encode()}
    print("calls: table %d, numbers %d, vectors %d and %d, corpus %d" % tuple(map(len, parts)))
    print("%d bytes; answers %s" % (len(packed), " ".join("%d:%d" % pair for pair in sorted(numbers.items()))))
    folder = ROOT / "crates/bench_replay"
    if sys.argv[3:] == ["--check"]:
        stale = [name for name in texts if not (folder / name).exists() or (folder / name).read_bytes() != texts[name]]
        sys.exit("not up to date: " + " ".join(stale) if stale else 0)
    folder.mkdir(exist_ok=True)
    for name, text in texts.items():
        (folder / name).write_bytes(text)


if __name__ == "__main__":
    main()
