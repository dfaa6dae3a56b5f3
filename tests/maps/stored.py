#!/usr/bin/env python3
"""What `replay` has to print of the stored images: by the Rust and by a model of document 01 in Python that was written apart from this code.

    stored.py MODEL ORACLE            MODEL: the file fmap_model.py, ORACLE: the program of tests/oracle; prints crates/replay/stdout
    stored.py MODEL ORACLE --count    how many images there are of each answer, and who gave it
    stored.py MODEL ORACLE --tests    how many images meet each of the tail-call tests, each kind of line, and so on
    stored.py ORACLE --draw           chooses the drawn images, a quota of each answer: prints drawn.txt

The Rust answers where the number is 0, 5 to 9, 11 to 15 or 17. It has no limits and no checks: 1 to 4 come from the model, as do 10 and 16,
where the Rust panics or never returns; the oracle tests for these besides. Where both can answer they have to agree, and an image's own
number has to be theirs.
"""
import collections
import os
import subprocess
import sys

sys.dont_write_bytecode = True
import frames
from by_model import judged
from expected import load, load_model
from needs import Parser, program

HERE = os.path.dirname(os.path.abspath(__file__))

# Drawn images of each answer.
QUOTA = {0: 640, 1: 12, 2: 12, 3: 12, 4: 0, 12: 90, 14: 90, 16: 90}
OTHERS = 60
SEEDS = (2026, 2027)


def by_rust(oracle, images):
    run = subprocess.run([oracle, 'maps'], input=frames.text(images), stdout=subprocess.PIPE, stderr=subprocess.PIPE, text=True, check=True)
    each = frames.parts(run.stdout)
    assert len(each) == len(images)
    return each


def number_of(lines):
    return int(lines[0].split()[1]) if lines[0] != 'R ??' else None


def source(told, rust, place):
    """Who gives an answer, after the model's was held against the Rust's."""
    number = number_of(told)
    if number == 4 and told != rust:
        return 'the model alone: ' + place
    assert told == rust
    if number in (1, 2, 3):
        return "the model's checks, and the oracle's"
    if number in (4, 10, 16):
        return 'the model, and the oracle by its own test: ' + place
    return 'the Rust and the model'


def judge(model, oracle):
    images = load(os.path.join(HERE, 'images.py')).all_images()
    for (group, name, number, lines), rust in zip(images, by_rust(oracle, [i[3] for i in images])):
        told, place = judged(model, lines)
        try:
            assert number in (None, number_of(told))
            yield group, name, lines, told, source(told, rust, place)
        except AssertionError:
            sys.exit('%s; %s: wanted %s, the model %s, the Rust %s' % (group, name, number, told[:3], rust[:3]))


# ---- what the images meet

TESTS = ('a block start', 'inside start to end', 'a prologue is recorded', 'below the start', 'another section', 'a zero word before it', 'no end',
         'a reference or a known entry between', 'a prologue sequence between', 'the trial')


def deciding_test(model, im, s, k, start, end, known):
    """The first test that decides, by its place in TESTS."""
    tests = (lambda: k in s.blocks, lambda: end is not None and start <= k < end, lambda: s.prologue is not None, lambda: k < start,
             lambda: model.section_of(k) != model.section_of(start), lambda: im.word(model.address_of(k) - 4) == 0, lambda: end is None,
             lambda: any(start + 4 <= r <= k for r in s.references) or known.any_between(start + 4, k),
             lambda: any(model.check_prologue_sequence(im, a) for a in range(model.address_of(start), model.address_of(k), 4)))
    return next((i for i, test in enumerate(tests) if test()), len(tests))


def watched(model):
    """Which tail-call tests an image meets, with their answers, gathered while the model runs."""
    met, check = set(), model.check_tail_call

    def watch(*given):
        test = TESTS[deciding_test(model, *given)]
        try:
            told = check(*given)
        except model.Fault as fault:
            met.add('tail call: %s, %d ends the run' % (test, fault.number))
            raise
        met.add('tail call: %s, %s' % (test, told))
        return told

    model.check_tail_call = watch
    return met


def tests(model, oracle):
    met, count = watched(model), collections.Counter()
    for _, _, lines, told, _ in judge(model, oracle):
        kinds = [l[0] for l in told]
        met |= {'line ' + k for k in kinds if k != 'R'}
        met |= {'%d functions or more' % n for n in (2, 5, 10, 50) if kinds.count('F') >= n}
        met |= {'a prologue' for l in told if l[0] == 'F' and l.split()[3] != '-'} | {'an epilogue' for l in told if l[0] == 'F' and l.split()[4] != '-'}
        met |= {'an open block' for l in told if l[0] == 'B' and l.endswith('-')}
        if number_of(told) == 0:
            met |= {'frame %s, and a map' % l[:2].upper() for l in lines}
        count.update(met)
        met.clear()
    return sorted(count.items())


# ---- the choice of drawn images

def draw(oracle):
    images = load(os.path.join(HERE, 'images.py'))
    left = collections.Counter({n: QUOTA.get(n, OTHERS) for n in range(18)})
    print('# The drawn images that are stored: seed, the number that they come to, and which of the seed. Written by stored.py --draw.')
    for seed in SEEDS:
        kept = collections.defaultdict(list)
        for first in range(0, 40000, 2000):
            each = [images.drawn_of(seed, k) for k in range(first, first + 2000)]
            for k, rust in zip(range(first, first + 2000), by_rust(oracle, each)):
                n = number_of(rust)
                if left[n] > 0:
                    left[n] -= 1
                    kept[n].append(k)
            if not +left:
                break
        for n in sorted(kept):
            print(seed, n, *kept[n])
    print('short of', dict(+left), file=sys.stderr)


def main():
    options = Parser(__doc__)
    for name in ('--count', '--tests', '--draw'):
        options.add_argument(name, action='store_true')
    if '--draw' not in sys.argv:
        options.add_argument('model', type=load_model)
    options.add_argument('oracle', type=program)
    o = options.parse_args()
    if o.draw:
        return draw(o.oracle)
    model, oracle = o.model, o.oracle
    if o.tests:
        for what, n in tests(model, oracle):
            print('%5d  %s' % (n, what))
    elif o.count:
        count = collections.Counter((told[0], who) for _, _, _, told, who in judge(model, oracle))
        for (number, who), n in sorted(count.items()):
            print('%5d  %s  %s' % (n, number, who))
    else:
        sys.stdout.write(frames.text(told for _, _, _, told, _ in judge(model, oracle)))


if __name__ == '__main__':
    main()
