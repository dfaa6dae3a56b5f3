#!/usr/bin/env python3
"""Compares the faults of jump tables with the Rust.

    rust.py MODEL ORACLE    MODEL: the file fmap_model.py; ORACLE: the program of tests/oracle

For each table of the images that comes to a fault, an image is made in frames in which the Rust meets that table: the same sections,
bytes and symbols, the word that names the table with that outcome (for a branch to a table, a jump table of no size, since the Rust
never reads a branch's table), and every other code word "go on". The run's number must be the table's fault, and so must the model's.
"""
import collections
import subprocess
import sys

sys.dont_write_bytecode = True
import images
from expected import image_of, load_model, number_of, read, tables_of
from lists import CODE, GO_ON, TABLE
from needs import Parser, program


def frames(im, word, a, size):
    for s in im.sections:
        yield '01%02X%08X%08X' % (s.kind, s.base, s.size)
        for i, w in enumerate(s.words):
            if s.kind != CODE:
                yield '02%08X' % w
                continue
            here = s.base + 4 * i == word
            yield '02%08X%02X00' % (w, TABLE if here else GO_ON)
            if here:
                yield '04%08X%08X' % (a, size)
    for tag, symbols in (('06', im.functions), ('07', im.objects)):
        for symbol in symbols:
            yield tag + '%08X%08X%02X' % symbol


def by_whom(words):
    """Whose words a fault is told by: the Rust's own, or a test that the oracle adds where the Rust has none."""
    if 'Invalid jump table entry' in words:
        return "the Rust's error"
    if 'panic in src/analysis/mod.rs: range end index' in words:
        return "the Rust's panic at a length that is no multiple of 4"
    return "the oracle's test, where the Rust has none"


def main():
    options = Parser(__doc__)
    options.add_argument('model', type=load_model)
    options.add_argument('oracle', type=program)
    o = options.parse_args()
    model, oracle = o.model, o.oracle
    made = []
    for name, l, _ in images.all_images()[1]:
        im = image_of(model, l)
        assert number_of(model, im) == 0
        for word, a, size in tables_of(model, im):
            fault = read(model, im, word, a, size)[0]
            if fault:
                made.append((name, fault, list(frames(im, word, a, size))))
    count, differ = collections.Counter(), []
    for name, fault, lines in made:
        run = subprocess.run([oracle, 'map', '--explain'], input='\n'.join(lines) + '\n', capture_output=True, text=True, check=True)
        rust, whole = run.stdout.split('\n')[0], next(model.run(lines))
        same = rust == whole == 'R %02d' % fault
        count[fault, by_whom(run.stderr), same] += 1
        if not same:
            differ.append('%s: fault %d, the Rust %s, a run of the model %s' % (name, fault, rust, whole))
    for (fault, whom, same), n in sorted(count.items()):
        print('fault %2d: %3d tables %s (%s)' % (fault, n, 'agree' if same else 'DIFFER', whom))
    print(''.join(line + '\n' for line in differ), end='')
    sys.exit(bool(differ))


if __name__ == '__main__':
    main()
