#!/usr/bin/env python3
"""Operations for the program `records`, drawn from a seed.

    cases.py > crates/records/stdin
    cases.py --count                  how many of each there are
"""
import collections
import os
import random
import sys

sys.dont_write_bytecode = True
sys.path.append(os.path.join(os.path.dirname(os.path.abspath(__file__)), ".."))
from needs import Parser


def table(rng, rows, step):
    """A table of so many rows that breaks no rule: closed and open blocks, some with holes between them, some that overlap."""
    at = rng.randrange(0, 64) * 4
    lines = ["z"]
    for _ in range(rows):
        kind = rng.randrange(4)
        length = rng.randrange(1, 2 * step) * 4
        lines.append("r %x %x" % (at, 0 if kind == 0 else at + length))
        at += rng.randrange(1, step) * 4
    return lines, at


def marks(rng, count, top):
    """Marks and cuts, of which some repeat the one before, and some are no multiple of 4."""
    lines, last = [], 0
    for _ in range(count):
        kind = rng.randrange(10)
        last = last if kind == 0 else rng.randrange(0, top + 16) // 4 * 4
        addr = last + 2 if kind == 1 else last
        lines.append("%s %x" % ("c" if rng.randrange(3) == 0 else "m", addr))
    return lines


def broken(rng):
    """Tables and counts that break a rule."""
    lines = []
    for rows in (["10 20", "10 30"], ["20 0", "10 0"], ["10 10"], ["14 10"], ["12 20"], ["10 22"], ["11 0"], ["0 4", "4 4"]):
        lines += ["z"] + ["r " + r for r in rows] + ["m 18", "c 18", "m 18"]
    for n in (1, 2, 259, 260, 261, 999):
        lines += ["z", "r 0 40", "n %x" % n, "m 10", "c 10"]
    edge = 0xFFFFFFFFFFFFFFFC
    lines += ["z", "r %x 0" % edge, "m %x" % edge, "m 0", "c %x" % edge, "z", "r 0 %x" % edge, "c 100", "m 200", "m %x" % (edge - 4)]
    return lines


def full(rng):
    """Tables of about 256 blocks."""
    lines = []
    for rows in (254, 255, 256, 257, 260):
        lines.append("z")
        for i in range(rows):
            length = rng.choice((0, 8, 12, 16, 24))
            lines.append("r %x %x" % (16 * i, 16 * i + length if length else 0))
        for _ in range(40):
            lines.append("%s %x" % (rng.choice("mmc"), rng.randrange(0, rows * 16 + 16) // 4 * 4))
    return lines


def pushes(rng, count, bias, top):
    lines = []
    for _ in range(count):
        lines.append("p %x" % rng.randrange(0, top) if rng.random() < bias else "o")
    return lines


def operations():
    rng = random.Random(1)
    lines = ["m 0", "m 0", "c 0", "c 4", "m 8", "m 4", "m 8"] + broken(rng)
    for rows, step in ((0, 8), (1, 8), (2, 4), (5, 8), (12, 16), (40, 8), (100, 4)):
        for _ in range(4):
            made, top = table(rng, rows, step)
            lines += made + marks(rng, 25, top)
    lines += full(rng)
    lines += ["o", "p 8", "p 8", "p 4", "o", "o", "o", "o"]
    lines += pushes(rng, 300, 0.5, 40) + pushes(rng, 300, 0.7, 1 << 64) + pushes(rng, 300, 0.95, 1 << 32)
    lines += pushes(rng, 100, 0.4, 1 << 32)
    for n in (256, 255, 257, 999, 0, 1):
        lines += ["q %x" % n, "p 7", "p 9", "o", "o"]
    return lines


def main():
    options = Parser(__doc__)
    options.add_argument("--count", action="store_true")
    o = options.parse_args()
    lines = operations()
    if o.count:
        for letter, n in sorted(collections.Counter(l[0] for l in lines).items()):
            print(letter, n)
        return
    print("\n".join(lines))


if __name__ == "__main__":
    main()
