#!/usr/bin/env python3
"""Writes crates/postorder/proofs/Examples.antt, whose `unfolding` lines name every definition on the way.

    make_long.py
"""
import os
import re
import sys

sys.path.insert(0, os.path.dirname(os.path.abspath(__file__)))
import make_try

PATH = make_try.ROOT + '/crates/postorder/proofs/Examples.antt'
HEAD = ['-- Long forms computed inside the checker, on the bytes of the files. The `unfolding` lines name every definition on the way;',
        '-- tests/runs/make_long.py writes them.']
LISTS = [('limits', 'tree entries and output: just enough, and one short'), ('refusals', "the proof's own refusal comes first"),
         ('shapes', 'marks, local labels, saved steps'), ('huge', 'a derivation of more than 2^110 labels is not written out')]


def names(path):
    """Also the members of a block that unfolds as a whole, by its first name."""
    text = open(path).read()
    return re.findall(r'^unfoldable pub (\S+)\s*:', text, re.M) + re.findall(r'^unfoldable mutual\n  pub (\S+)\s*:', text, re.M)


make_try.names = names
use, unfold = make_try.opened('postorder', ['LongForm', 'LongTable'])
out = HEAD + ['use mathlib.Core.Path.{◌≡◌, refl}', 'use mathlib.Core.List.{map}'] + use
for name, comment in LISTS:
    out += ['', f'-- {comment}', f'pub {name}-hold : map long_answered {name} ≡ map long_stated {name}', 'unfolding ' + ' '.join(unfold),
            f'{name}-hold = refl']
open(PATH, 'w').write('\n'.join(out) + '\n')
