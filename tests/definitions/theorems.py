#!/usr/bin/env python3
"""Images in frames, and the lines that another program printed for them, as theorems about the definitions of `rules`.

    theorems.py IMAGES ANSWERS > FILE.antt

Both files hold many, each ended by a line '='. For each image the theorem says that the definitions, computed, give
exactly the printed lines: `whole given enough ≡ lines`, proved by refl. A line "# NAME" before an image names its
theorem; "# room ENTRIES NUMBERS" lends result lists of that size instead of ample ones.
"""
import os
import re
import sys

sys.dont_write_bytecode = True
sys.path.append(os.path.join(os.path.dirname(os.path.abspath(__file__)), '..'))
from needs import Parser, file

def number(n):
    return hex(n) if n > 9 else str(n)


def listed(items):
    return ' ∷ '.join(list(items) + ['[]'])


def nested(items):
    items = list(items)
    return f'({listed(items)})' if items else '[]'


def record(**fields):
    return 'record { ' + '; '.join(f'{k} = {v}' for k, v in fields.items()) + ' }'


def given(frames):
    """The term for what the frames hand in. Frames that are none are not for this script."""
    sections, outcomes, functions, objects, skips, entries = [], [], [], [], [], []
    for line in frames:
        f = bytes.fromhex(line)
        n = lambda i: int.from_bytes(f[i:i + 4], 'big')
        if f[0] == 1:
            sections.append([f[1], n(2), n(6), b''])
        elif f[0] == 2:
            sections[-1][3] += f[1:5]
            if sections[-1][0] == 1:
                outcomes.append([f[5], f[6], 0, 0, []])
        elif f[0] == 3:
            outcomes[-1][2] = n(1)
        elif f[0] == 4:
            outcomes[-1][2:4] = [n(1), n(5)]
        elif f[0] == 5:
            outcomes[-1][4].append((f[1], f[2], n(3)))
        elif f[0] in (6, 7):
            (functions if f[0] == 6 else objects).append((n(1), n(5), f[9]))
        elif f[0] == 8:
            skips.append((n(1), n(5)))
        elif f[0] == 9:
            entries.append(n(1))
    def outcome(k, m, a, s, bs):
        if k == 4:
            return f'jumps {m} {number(a)}'
        if k == 5:
            return f'uses_table {m} {number(a)} {number(s)}'
        if k == 6:
            return f'lists {m} ' + nested(f'branch {l} {t} {number(x)}' for l, t, x in bs)
        return f'does {k} {m}'

    words = lambda d: nested('0x%08X' % int.from_bytes(d[i:i + 4], 'big') for i in range(0, len(d), 4))
    symbol = lambda s: f'symbol {number(s[0])} {number(s[1])} {s[2]}'
    return 'record {\n      ' + ';\n      '.join((
        'sections = ' + listed(f'section {k} {number(b)} {number(s)} {number(len(d))}' for k, b, s, d in sections),
        'bytes = bytes_of ' + words(b''.join(d for *_, d in sections)),
        'outcomes = ' + listed(outcome(*o) for o in outcomes),
        'functions = ' + listed(map(symbol, functions)),
        'objects = ' + listed(map(symbol, objects)),
        'skips = ' + listed(f'range {number(a)} {number(b)}' for a, b in skips),
        'entries = ' + listed(map(number, entries)))) + ';\n    }'


def split(path):
    """The blocks of a file, each ended by a line '=': its '#' lines, and the others."""
    with open(path) as f:
        blocks = re.split(r'^=\n', f.read(), flags=re.M)
    if blocks and not blocks[-1].strip():
        blocks.pop()
    for b in blocks:
        lines = b.split('\n')
        yield [l[2:].split() for l in lines if l.startswith('# ')], [l for l in lines if l and not l.startswith('#')]


HEAD = '''-- Worked examples: images handed in, and the lines that the Rust gives for them, computed by the definitions.
-- Written by tests/definitions/theorems.py from examples.in and examples.out beside it.
use mathlib.Core.Path.{◌≡◌, refl}
use mathlib.Core.List.{[], ◌∷◌}
use Rattle.rules.specs.Text.{bytes}
use Rattle.rules.specs.Given.{Given}
use Rattle.rules.proofs.Images.{bytes_of, section, does, jumps, uses_table, lists, branch, symbol, range}
use Rattle.rules.proofs.Whole.{whole, enough}
'''


def main():
    options = Parser(__doc__)
    for name in ('images', 'answers'):
        options.add_argument(name, type=file)
    o = options.parse_args()
    print(HEAD)
    for i, ((notes, frames), (_, lines)) in enumerate(zip(split(o.images), split(o.answers), strict=True)):
        name, room = f'image_{i}', 'enough'
        for note in notes:
            if note[0] == 'room':
                room = '(' + record(entries=note[1], numbers=note[2]) + ')'
            else:
                name = note[0].replace('-', '_')
        print(f'unfoldable pub {name} : Given\n{name} =\n    {given(frames)}\n')
        print(f'pub {name}_lines : whole {name} {room} ≡')
        print('    ' + listed(f'bytes "{l}"' for l in lines).replace(' ∷ ', ' ∷\n    '))
        print(f'unfolding whole {name}\n{name}_lines = refl\n')


if __name__ == '__main__':
    main()
