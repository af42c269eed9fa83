#!/usr/bin/env python3
"""Writes the examples that the definition of a run is computed on, inside the checker.

    make_try.py VECTORS                  the stored samples: crates/machine_try/specs and proofs
    make_try.py VECTORS --all FOLDER N   files of N rows each in FOLDER (crates/machine_try of a copy of the repository, in which this
                                         is run), of 271 vectors and all hand-worked runs; a file above 2,000 bytes has a part of its own.
                                         specs/Lib.antt and proofs/Lib.antt of that copy then name the parts

VECTORS has calls/calls.tsv with its files, and program/N.frames with N.expect. A row is a file, a statement number, the room
lent, and the answer that document 01 gives. Also rewrites crates/machine/proofs/Rows.antt, whose `unfolding` lines name every
definition on the way.
"""
import collections
import os
import random
import re
import struct
import subprocess
import sys
import tempfile

ROOT = os.path.dirname(os.path.dirname(os.path.dirname(os.path.abspath(__file__))))
FRAMES = ['Logic', 'Layout', 'Table', 'Verdict', 'Database', 'Facts']
MACHINE = ['Chain', 'Answer', 'Ground', 'Reading', 'Memory', 'Prepare', 'Apply', 'Run', 'Bench', 'Files', 'BenchTable']


def names(path):
    return re.findall(r'^unfoldable pub (\S+)\s*:', open(path).read(), re.M)


def opened(own, modules):
    """The use lines and the names to unfold, for a file of the crate `own` that also needs these modules of it."""
    use, unfold, seen = [], [], set()
    groups = [('frames', FRAMES), ('book', ['Book']), ('machine', MACHINE)]
    if own != 'machine':
        groups.append((own, modules))
    for crate, mods in groups:
        for mod in mods:
            items = []
            for n in names(f'{ROOT}/crates/{crate}/specs/{mod}.antt'):
                alias = n if n not in seen else f'{n}·{mod}'
                seen.add(alias)
                unfold.append(alias)
                items.append(n if alias == n else f'{n} as {alias}')
            use.append(f"use Rattle.{crate}.specs.{mod}.{{{', '.join(items)}}}")
    return use, unfold


def facts(path, own, modules, head, lists):
    use, unfold = opened(own, modules)
    out = head + ['use mathlib.Core.Path.{◌≡◌, refl}', 'use mathlib.Core.List.{map}'] + use
    for name, comment in lists:
        out += ['', f'-- {comment}', f'pub {name}-hold : map answered {name} ≡ map stated {name}', 'unfolding ' + ' '.join(unfold), f'{name}-hold = refl']
    open(path, 'w').write('\n'.join(out) + '\n')


def rows(path, head, lists):
    out = head + ['use Rattle.std.specs.Prelude.{List, [], ◌∷◌}', 'use Rattle.machine.specs.Files.{Row}', 'use Rattle.machine_try.specs.Hex.{call}']
    for name, comment, cases in lists:
        out += ['', f'-- {comment}', f'unfoldable pub {name} : List Row', f'{name} =']
        for i, c in enumerate(cases):
            out.append(f"    {'∷ ' if i else ''}call \"{c[0]}\" {c[1]} {c[2]} {c[3]} {c[4]} ({c[5]}, {c[6]}, {c[7]})")
        out.append('    ∷ []')
    open(path, 'w').write('\n'.join(out) + '\n')


def proofs_of(data):
    at, number, out = 0, 0, []
    while at < len(data):
        size, kind = struct.unpack_from('<IH', data, at)
        if 2 <= kind <= 5:
            if kind == 5:
                out.append(number)
            number += 1
        at += 4 + size
    return out


def vectors(folder):
    out = []
    for line in open(folder + '/calls/calls.tsv'):
        f = line.rstrip('\n').split('\t')
        if f[1] == 'verify':
            out.append((open(f'{folder}/calls/{f[0]}', 'rb').read().hex(), *f[2:6], *map(int, f[8].split()), 'calls'))
    for name in sorted(os.listdir(folder + '/program')):
        if name.endswith('.frames'):
            data = open(f'{folder}/program/{name}', 'rb').read()
            lines = open(f'{folder}/program/{name[:-7]}.expect').read().split('\n')
            big = ('65536', '1024', '4096')
            if lines[0].startswith('refused'):
                out.append((data.hex(), '0', *big, *map(int, lines[0].split()[1:]), 0, 'program'))
            else:
                for number, line in zip(proofs_of(data), lines[1:]):
                    out.append((data.hex(), str(number), *big, *map(int, line.split()[1:]), 'program'))
    return out


def chosen(all_rows, count, limit, whole=False):
    """For each number, of calls and of the program: the smallest and some others, by a fixed seed; `whole`: one of every
    number, where a file is below 8,000 bytes (the one vector with 44 is of 10,556 bytes: make_big.py)."""
    groups = collections.defaultdict(list)
    for r in all_rows:
        groups[r[5], r[8]].append(r)
    pick = random.Random(1)
    out = []
    for key in sorted(groups):
        small = [r for r in sorted(groups[key], key=lambda r: len(r[0])) if len(r[0]) < limit]
        out += small[:1] + pick.sample(small[1:], max(0, min(count - 1, len(small) - 1)))
        if not small and whole:
            out += [r for r in groups[key] if len(r[0]) < 16000][:1]
    return out


def hand_worked():
    with tempfile.NamedTemporaryFile('r') as t:
        subprocess.run([sys.executable, os.path.dirname(os.path.abspath(__file__)) + '/reading.py', t.name], check=True)
        lines = [line.rstrip('\n').split('\t') for line in open(t.name)]
    return [(f[1], *f[2:6], *map(int, f[6:9]), f[0]) for f in lines]


def sample(cases):
    """The first two of each number in each mode, of small files."""
    seen, out = collections.Counter(), []
    for c in cases:
        mode = 'compressed' if '-c-' in c[8] else 'normal'
        if len(c[0]) < 1000 and seen[c[5], mode] < 2:
            seen[c[5], mode] += 1
            out.append(c)
    return out


def main():
    facts(f'{ROOT}/crates/machine/proofs/Rows.antt', 'machine', [],
          ['-- The rows of the bench table hold: the definition of a run, computed on the bytes of the files, answers what the table gives. The',
           '-- `unfolding` lines name every definition on the way; tests/runs/make_try.py writes them.'],
          [('starred', 'the rows marked *, as one fact'), ('unstarred', 'the other rows'), ('further', 'further rows'),
           ('numbers', "the book's number examples")])
    folder = sys.argv[1]
    crate = f'{ROOT}/crates/machine_try'
    if len(sys.argv) > 2:
        crate, count = sys.argv[3], int(sys.argv[4])
        cases = chosen(vectors(folder), 5, 3000, True) + hand_worked()
        wide = [c for c in cases if 4000 < len(c[0])]
        cases = [c for c in cases if len(c[0]) <= 4000]
        parts = [cases[i:i + count] for i in range(0, len(cases), count)] + [[c] for c in wide]
        cases += wide
        lists = [(f'part{i}', f'part {i}', part) for i, part in enumerate(parts)]
        for name, comment, part in lists:
            rows(f'{crate}/specs/{name.title()}.antt', [f'-- {comment}'], [(name, comment, part)])
            facts(f'{crate}/proofs/{name.title()}.antt', 'machine_try', ['Hex', name.title()], [f'-- {comment}'], [(name, comment)])
        print(len(cases), 'rows')
        return
    rows(f'{crate}/specs/Vectors.antt', ['-- Runs with the answers of another reading of document 01, made apart from this one: for each number but 2, 24 and 44 the smallest files.'],
         [('vectors', 'file in hexadecimal, statement, pool, stack, places, answer', chosen(vectors(folder), 1, 1300))])
    rows(f'{crate}/specs/Reading.antt', ['-- Runs with answers worked out by hand from document 01 (tests/runs/reading.py): two of each number in each mode.'],
         [('reading', 'file in hexadecimal, statement, pool, stack, places, answer', sample(hand_worked()))])
    head = lambda what: [f'-- The definition of a run, computed inside the checker, answers what is stated: {what}.']
    facts(f'{crate}/proofs/Vectors.antt', 'machine_try', ['Hex', 'Vectors'], head('the vectors'), [('vectors', 'all of them, as one fact')])
    facts(f'{crate}/proofs/Reading.antt', 'machine_try', ['Hex', 'Reading'], head('the runs worked out by hand'), [('reading', 'all of them, as one fact')])
    facts(f'{crate}/proofs/Witnesses.antt', 'machine_try', ['Witnesses'], head('each number from 20 to 46'), [('witnesses', 'all of them, as one fact')])


if __name__ == '__main__':
    main()
