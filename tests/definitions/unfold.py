#!/usr/bin/env python3
"""Writes crates/rules/proofs/Whole.antt: every definition that a whole run unfolds, once, for the theorems that compute one.

    unfold.py CRATE > CRATE/proofs/Whole.antt
"""
import argparse
import os
import re
import sys
from pathlib import Path

sys.dont_write_bytecode = True
sys.path.append(os.path.join(os.path.dirname(os.path.abspath(__file__)), '..'))
from needs import Parser


def crate(path):
    """The type of an argument that is a crate's folder."""
    if not os.path.isfile(os.path.join(path, 'specs', 'Lib.antt')):
        raise argparse.ArgumentTypeError('%s has no specs/Lib.antt' % path)
    return Path(path)


def main():
    options = Parser(__doc__)
    options.add_argument('crate', type=crate)
    folder = options.parse_args().crate
    modules = re.findall(r'^pub mod (\w+)', (folder / 'specs/Lib.antt').read_text(), re.M)
    names = [f'{m}.{n}' for m in modules if m not in ('Accounted', 'OneFunction', 'Plain')
             for n in re.findall(r'^ *unfoldable pub (\S+) :', (folder / f'specs/{m}.antt').read_text(), re.M)]
    print('-- A whole run with every definition unfolded, so that it computes. Written by tests/definitions/unfold.py.')
    print('use mathlib.Core.List.{List}')
    print('use Rattle.rules.specs.Lines.{Line}')
    for m in dict.fromkeys(n.split('.')[0] for n in names):
        print(f'use Rattle.rules.specs.{m}')
    print()
    print('unfoldable pub whole : Given.Given → Map.Capacity → List Line')
    print('unfolding ' + ' '.join(names))
    print('whole g cap = Lines.lines (Run.run g cap)')
    print()
    print('-- lists that no map fills')
    print('abbrev pub enough : Map.Capacity')
    print('enough = record { entries = 1024; numbers = 4194304 }')


if __name__ == '__main__':
    main()
