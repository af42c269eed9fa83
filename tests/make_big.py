#!/usr/bin/env python3
# Writes a good frame file of 1,048,576 bytes with 4,096 symbols and 4,096 statements, to time the file check: make_big.py OUT
# Names and labels have 64 bytes. Statements come in groups of eight: two $f, two $e that end with the group, two $a and two
# $p, which list the group's own hypotheses and the $f of the three groups before. The proofs' text fills the file.
import sys

from cases.records import a, const, e, f, p, proof, var

MOST = 1048576
GROUPS = 512


# A name or label of 64 bytes that differs from the others at its start and at its end.
def long_name(word, k):
    number = "%04d" % k
    return word + number + "." * (64 - len(word) - 2 * len(number)) + number


# Every fourth symbol is a variable: variable k is symbol 4k + 3. The others are constants.
def symbols():
    return [(var if k % 4 == 3 else const)(long_name("symbol", k)) for k in range(4096)]


def variable(k):
    return 4 * k + 3


# Group g: statements 8g to 8g + 7; its $f are of the variables 2g and 2g + 1.
def group(g):
    at = 8 * g
    v, w = variable(2 * g), variable(2 * g + 1)
    constant = [4 * g, 4 * g + 1, 4 * g + 2]
    label = lambda k: long_name("statement", at + k)
    earlier = [8 * b + k for b in range(max(0, g - 3), g) for k in (0, 1)]
    known = [variable(2 * b + k) for b in range(max(0, g - 3), g) for k in (0, 1)] + [v, w]
    pairs = [(known[i], known[i + 1]) for i in range(len(known) - 1)]
    listed = earlier + [at, at + 1, at + 2, at + 3]
    claim = [0] + constant + known
    return [
        f(label(0), 0, v),
        f(label(1), 1, w),
        e(label(2), [0, v, constant[0], w, constant[1]], at + 8),
        e(label(3), [0, constant[2], w], at + 8),
        a(label(4), claim, listed, pairs[:2]),
        a(label(5), claim + [v, w], listed, pairs[:1]),
        p(label(6), claim + constant, listed, pairs),
        None,
        p(label(7), claim + constant + [w, v], listed, pairs),
        None,
    ]


def big():
    records = symbols() + sum((group(g) for g in range(GROUPS)), [])
    proofs = records.count(None)
    left = MOST - sum(len(r) for r in records if r is not None) - 6 * proofs
    texts = [left // proofs] * (proofs - 1)
    texts.append(left - sum(texts))
    assert min(texts) > 0 and max(texts) <= 65536
    steps = b"( " + long_name("statement", 4).encode() + b" ) " + b"ABCDZE" * 11000
    sizes = iter(texts)
    return b"".join(proof(steps[: next(sizes)]) if r is None else r for r in records)


def main():
    data = big()
    assert len(data) == MOST
    with open(sys.argv[1], "wb") as out:
        out.write(data)
    return 0


if __name__ == "__main__":
    sys.exit(main())
