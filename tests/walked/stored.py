#!/usr/bin/env python3
"""What the program `walked` has to print of the stored cases: by the Rust and by a model of document 01 in Python that was written apart
from this code.

    stored.py MODEL ORACLE            MODEL: the file fmap_model.py, ORACLE: the program of tests/oracle; prints crates/walked/stdout
    stored.py MODEL ORACLE --count    how many walks there are of each answer, and who gave it

The Rust answers where the number is 0 or 5 to 16. It has no limits and no checks: 1 to 4 come from the model, and so do the walks with a
known function that the Rust has no address for. Where both can answer they have to agree, and a case's own number has to be theirs.
"""
import collections
import subprocess
import sys

sys.dont_write_bytecode = True
from asked import answers, parts
from cases import all_cases
from expected import image_of, load_model, number_of
from model import answer
from needs import Parser, program

BOTH = 'the Rust and the model'


def rust_answers(oracle, images):
    """Of each image's walks."""
    text = ''.join(line + '\n' for asked in images for line in [*asked.lines(), '='])
    run = subprocess.run([oracle, 'walks'], input=text, stdout=subprocess.PIPE, stderr=subprocess.DEVNULL, text=True, check=True)
    return [answers(part) for part in parts(run.stdout.splitlines())]


def source(told, rust):
    """Who gives a walk's answer, after the model's was held against the Rust's. The oracle's own 3 and 4 have to be the model's too."""
    number = int(told[0].split()[1])
    if rust is None:
        return "the model's checks of an image"
    if number == 3:
        assert told == rust
        return "the model's checks, and the oracle's"
    if number == 4 and told != rust:
        return 'the model: a list passes its limit before the walk ends'
    if rust == ['R ??']:
        return 'the model: a known function without a section'
    assert told == rust
    return 'the model, and the oracle by the lists that the Rust ends with' if number == 4 else BOTH


def main():
    options = Parser(__doc__)
    options.add_argument('model', type=load_model)
    options.add_argument('oracle', type=program)
    options.add_argument('--count', action='store_true')
    o = options.parse_args()
    model, oracle = o.model, o.oracle
    cases = all_cases()
    passing = [i for i, (_, _, asked, _) in enumerate(cases) if number_of(model, image_of(model, asked.lent)) == 0]
    by_rust = dict(zip(passing, rust_answers(oracle, [cases[i][2] for i in passing])))
    count, lines = collections.Counter(), []
    for i, (group, name, asked, numbers) in enumerate(cases):
        told = answer(model, asked)
        rust = by_rust.get(i, [None] * len(told))
        assert len(told) == len(rust) == len(numbers)
        for j, (walk, wanted) in enumerate(zip(told, numbers)):
            try:
                assert wanted in (None, int(walk[0].split()[1]))
                count[walk[0], source(walk, rust[j])] += 1
            except AssertionError:
                sys.exit('%s; %s: walk %d, wanted %s, the model %s, the Rust %s' % (group, name, j, wanted, walk, rust[j]))
            lines += walk
        lines.append('=')
    if o.count:
        lines = ['%5d  %s  %s' % (n, number, who) for (number, who), n in sorted(count.items())]
    print('\n'.join(lines))


if __name__ == '__main__':
    main()
