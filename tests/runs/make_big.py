#!/usr/bin/env python3
"""Writes the vector with 44 that the definition of a run is computed on, inside the checker: crates/machine_long/specs and
proofs, ManyVariables.antt.

    make_big.py FILE.frames     FILE.expect lies beside it; the file has one proof. The stored vector is program/000360.frames
"""
import os
import sys

sys.path.insert(0, os.path.dirname(os.path.abspath(__file__)))
import make_try

CRATE = make_try.ROOT + '/crates/machine_long'


def example(data, statement, answer):
    out = ['-- The vector with 44, a file of %s bytes, and its answer by another reading of document 01, made apart from this one.' % f'{len(data):,}',
           'use Rattle.machine.specs.Files.{Row}', 'use Rattle.machine_try.specs.Hex.{call}', '',
           '-- file in hexadecimal, statement, pool, stack, places, answer', 'unfoldable pub many_variables : Row',
           'many_variables =', f'    call "{data.hex()}"', f"    {statement} 65536 1024 4096 ({', '.join(answer)})"]
    open(CRATE + '/specs/ManyVariables.antt', 'w').write('\n'.join(out) + '\n')


def fact():
    use, unfold = make_try.opened('machine_long', ['ManyVariables'])
    for module, path in [('machine_try.specs.Hex', 'machine_try/specs/Hex'), ('machine_long.proofs.Quick', 'machine_long/proofs/Quick')]:
        names = make_try.names(f'{make_try.ROOT}/crates/{path}.antt')
        use.append(f"use Rattle.{module}.{{{', '.join(names)}}}")
        unfold += names
    out = ['-- The definition of a run answers 44 on the vector, with its place and steps. The quicker way is computed inside the checker, and its',
           '-- answer is the definition\'s (Same.antt). The `unfolding` line names every definition on the way; tests/runs/make_big.py writes it.',
           'use mathlib.Core.Path.{◌≡◌, refl, ap, ◌∙◌}', *use, 'use Rattle.machine_long.proofs.Same.{answer-same}', '',
           '-- the quicker way, computed',
           'computed : told (quick_answer (quick many_variables.file) many_variables.statement many_variables.room) ≡ many_variables.given',
           'unfolding ' + ' '.join(unfold), 'computed = refl', '',
           '-- the definition', 'pub many_variables-hold : answered many_variables ≡ stated many_variables', 'unfolding answered stated',
           'many_variables-hold =',
           '    ap told (answer-same many_variables.file many_variables.statement many_variables.room) ∙ computed']
    open(CRATE + '/proofs/ManyVariables.antt', 'w').write('\n'.join(out) + '\n')


def main():
    path = sys.argv[1]
    data = open(path, 'rb').read()
    [statement] = make_try.proofs_of(data)
    lines = open(path[:-len('.frames')] + '.expect').read().split('\n')
    example(data, statement, lines[1].split()[1:])
    fact()


if __name__ == '__main__':
    main()
