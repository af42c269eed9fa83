#!/usr/bin/env python3
"""Writes databases to time the runs on: make_databases.py OUT

    OUT/long.mm          twelve compressed proofs of 60,000 letters each
    OUT/normal-N.mm      20 normal proofs of 1,000 steps in a database of N statements, N from 100 to 4,000
    OUT/compressed-N.mm  the same proofs, compressed
"""
import pathlib
import random
import sys

LETTERS = 60_000
GROWTH = (100, 200, 500, 1000, 2000, 4000)
PROOFS, STEPS = 20, 1000
PLACES = 4096
# Of the labels in a proof of the growing databases, so many are different.
NAMED = 200


def letters_of(place):
    out, rest = chr(ord("A") + place % 20), place // 20
    while rest > 0:
        out = chr(ord("U") + (rest - 1) % 5) + out
        rest = (rest - 1) // 5
    return out


def wrapped(text):
    return "\n".join(text[k : k + 78] for k in range(0, len(text), 78))


def long_proof(chance, padding, saving):
    """Roster and letters of a proof of `|- k` from `|- k` (A) and `|- ( k -> k )` (B). Again and again mp gives another `|- k`, and `both`
    makes one of the two; `same` fills up. With padding the other labels have places of two letters. With saving each result of mp is saved, until no place is left;
    then saved ones are recalled."""
    roster = ["same"] + ["pad%d" % k for k in range(padding)] + ["wk", "mp", "both"]
    same = letters_of(2)
    wk, mp, both = (letters_of(3 + padding + k) for k in range(3))
    first = places = 2 + len(roster)
    out = "A"
    while True:
        if not saving:
            more = wk + wk + "AB" + mp + both
        elif places < PLACES:
            more = wk + wk + "AB" + mp + "Z" + both
        else:
            more = letters_of(chance.randrange(first, PLACES)) + both
        if len(out) + len(more) > LETTERS:
            break
        places += saving and places < PLACES
        out += more
    return roster, out + same * (LETTERS - len(out))


def long_database():
    chance = random.Random(60)
    out = ["$c wff |- ( ) -> k $.", "$v p q $.", "wp $f wff p $.", "wq $f wff q $.", "wk $a wff k $."]
    out += ["pad%d $a wff ( k -> k ) $." % k for k in range(30)]
    out.append("${ min $e |- p $. maj $e |- ( p -> q ) $. mp $a |- q $. $}")
    out.append("${ one $e |- k $. other $e |- k $. both $a |- k $. $}")
    out.append("${ only $e |- k $. same $a |- k $. $}")
    for k in range(12):
        roster, letters = long_proof(chance, (0, 30, 0)[k % 3], k % 3 == 2)
        out.append("${ h1.%d $e |- k $. h2.%d $e |- ( k -> k ) $." % (k, k))
        out.append("long%d $p |- k $= ( %s )\n%s $. $}" % (k, " ".join(roster), wrapped(letters)))
    return "\n".join(out) + "\n"


def growing(count, compressed):
    """`count` statements: a $f, axioms `wff p` that each take `wff p`, and proofs that name them at random."""
    chance = random.Random(count)
    labels = ["ax%d" % k for k in range(count - 1 - PROOFS)]
    out = ["$c wff $.", "$v p $.", "wp $f wff p $."] + ["%s $a wff p $." % label for label in labels]
    for k in range(PROOFS):
        used = chance.sample(labels, min(NAMED, len(labels)))
        steps = used + [chance.choice(used) for _ in range(STEPS - 1 - len(used))]
        if compressed:
            place = {label: letters_of(1 + at) for at, label in enumerate(used)}
            text = "( %s )\n%s" % ("\n".join(used), wrapped("A" + "".join(place[label] for label in steps)))
        else:
            text = "\n".join(["wp"] + steps)
        out.append("th%d $p wff p $= %s $." % (k, text))
    return "\n".join(out) + "\n"


def main():
    if len(sys.argv) != 2:
        sys.exit(__doc__)
    folder = pathlib.Path(sys.argv[1])
    folder.mkdir(parents=True, exist_ok=True)
    (folder / "long.mm").write_text(long_database())
    for count in GROWTH:
        (folder / ("normal-%d.mm" % count)).write_text(growing(count, False))
        (folder / ("compressed-%d.mm" % count)).write_text(growing(count, True))


if __name__ == "__main__":
    main()
