#!/usr/bin/env python3
"""Writes what the program packed_try is run on and must write: crates/packed_try/stdin and stdout. `--check` only compares.

stdin is the corpus file hol.frames. stdout has a line for each $a and $p, worked out here on lists of symbols, which are packed only
at the end: the names one after another, the high bit set on each name's last byte, the typecode apart.

A line tries statement p. The i-th hypothesis that p lists, where it is a $f, has its variable replaced by the symbols of
statement (p / 2 + i / 3) mod p, whose set is {i, p mod 256, 255 - i mod 64}; every other variable is replaced by nothing. The line is

    LABEL USED SUM  LENGTH SUM  EQ OTHERS RAWS  COPIED SUM FULL TURNED  VARS SUM  FULL TURNED

USED SUM     the bytes of the images together, and their checksum
LENGTH SUM   the bytes of p's symbols as substituted, and their checksum
EQ           1: they are p's symbols as substituted
OTHERS       of how many statements of the file they are the symbols as substituted
RAWS         how many statements of the file have p's symbols, not substituted
COPIED SUM   the bytes of a copy of p's symbols as substituted, behind them, and their checksum
FULL         1: with room for one byte less there is no room for the copy
TURNED       1: with the range that is copied turned round, the call is refused
VARS SUM     how many members the images in p's symbols have together, and the sum of these
FULL         1: with room for one byte less there is no room
TURNED       1: with the image of the first listed hypothesis's variable turned round, the call is refused
"""
import os
import struct
import sys

ROOT = os.path.dirname(os.path.dirname(os.path.dirname(os.path.abspath(__file__))))
FILE = f'{ROOT}/tests/corpus/hol.frames'
OUT = f'{ROOT}/crates/packed_try'


def decoded(data):
    """The symbols (is it a variable, name) and the statements (kind, label, listed hypotheses, symbols) of a frame file."""
    symbols, statements, at = [], [], 0
    while at < len(data):
        size, kind = struct.unpack_from('<IH', data, at)
        body, at = data[at + 6:at + 4 + size], at + 4 + size
        if kind == 1:
            symbols.append((body[0] == 1, body[1:]))
        elif kind == 2:
            statements.append((kind, body[8:], (), struct.unpack_from('<HH', body, 4)))
        elif kind == 3:
            n, = struct.unpack_from('<H', body, 4)
            statements.append((kind, body[6 + 2 * n:], (), struct.unpack_from(f'<{n}H', body, 6)))
        elif kind in (4, 5):
            h, d, n = struct.unpack_from('<HHH', body, 0)
            lists = 6 + 4 * h + 4 * d
            statements.append((kind, body[lists + 2 * n:], struct.unpack_from(f'<{h}I', body, 6), struct.unpack_from(f'<{n}H', body, lists)))
    return symbols, statements


def packed(symbols, text):
    return b''.join(symbols[s][1][:-1] + bytes([symbols[s][1][-1] | 128]) for s in text)


def checksum(data):
    total = 0
    for b in data:
        total = (31 * total + b) % 65521
    return total


def line(symbols, statements, p):
    _, label, hyps, claim = statements[p]
    texts = [list(s[3][1:]) for s in statements]
    images, sets, written = {}, {}, b''
    for i, h in enumerate(hyps):
        if statements[h][0] == 2:
            variable = statements[h][3][1]
            images[variable] = texts[(p // 2 + i // 3) % p]
            sets[variable] = {i, p % 256, 255 - i % 64}
            written += packed(symbols, images[variable])

    def substituted(text):
        return [t for s in text for t in (images.get(s, []) if symbols[s][0] else [s])]

    own, result = texts[p], substituted(texts[p])
    whole = packed(symbols, result)
    members = set().union(*(sets.get(s, set()) for s in own if symbols[s][0]))
    turned = bool(hyps) and statements[hyps[0]][0] == 2 and statements[hyps[0]][3][1] in own
    numbers = [len(written), checksum(written), len(whole), checksum(whole), 1, sum(substituted(t) == result for t in texts),
               sum(t == own for t in texts), len(whole), checksum(whole), int(len(whole) > 0), int(len(whole) > 0),
               len(members), sum(members), int(len(whole) > 0), int(turned)]
    return label.decode() + ''.join(f' {n}' for n in numbers) + '\n'


def main():
    data = open(FILE, 'rb').read()
    symbols, statements = decoded(data)
    lines = [line(symbols, statements, p) for p in range(len(statements)) if statements[p][0] in (4, 5)]
    made = {f'{OUT}/stdin': data, f'{OUT}/stdout': ''.join(lines).encode()}
    if sys.argv[1:] == ['--check']:
        stale = [path for path, text in made.items() if open(path, 'rb').read() != text]
        sys.exit('not up to date: ' + ' '.join(stale) if stale else 0)
    for path, text in made.items():
        open(path, 'wb').write(text)


main()
