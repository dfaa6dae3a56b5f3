#!/usr/bin/env python3
"""Writes crates/words/stdin: instruction words that cover the tables of registers, and lines that are no words.

    words.py > crates/words/stdin

Every primary opcode, every extended opcode of 31 and those of 19 about the branches, with 0, 1 and 3 in each register field.
Opcodes with a row in our table come with all 27 combinations, so that some of them leave the reserved bits clear.
What stands in crates/words/stdout was made by an independent reading of the manual in Python, and agrees with the program.
"""
import itertools
import os
import re
import sys
from pathlib import Path

sys.dont_write_bytecode = True
sys.path.append(os.path.join(os.path.dirname(os.path.abspath(__file__)), '..'))
from needs import Parser

TABLE = (Path(__file__).parents[2] / 'crates/rules/specs/Registers.antt').read_text()
PLAIN = [(0, 0, 0), (1, 1, 1), (3, 3, 3)]
ALL = list(itertools.product((0, 1, 3), repeat=3))


def known_extended():
    part = TABLE[TABLE.index('extended_table ='):]
    rows = {int(n) for n in re.findall(r'^ +row (\d+) ', part, re.M)}
    arithmetic = {int(n) for n in re.findall(r'^ +row (\d+) ', part[part.index('arithmetic_table ='):], re.M)}
    return rows | {n + 512 for n in arithmetic}


def word(p, d, a, b, x=1, rc=0):
    return p << 26 | d << 21 | a << 16 | b << 11 | x << 1 | rc


def main():
    Parser(__doc__).parse_args()
    words = [word(p, *f) for p in range(64) if p != 31 for f in PLAIN + [(3, 0, 3), (3, 1, 3), (0, 3, 3), (1, 3, 3), (3, 3, 0), (3, 3, 1)]]
    known = known_extended()
    words += [word(31, *f, x) for x in range(1024) for f in (ALL if x in known else PLAIN)]
    words += [word(31, *f, 150, 1) for f in ALL]                                   # stwcx. has Rc set
    words += [word(31, d, a, 8, 371) for d in (0, 1, 3) for a in (12, 13)]          # mftb of its two numbers
    words += [word(19, d, 0, 0, x, lk) for x in (0, 16, 17, 33, 50, 129, 150, 193, 225, 257, 289, 417, 449, 528, 529, 560)
              for d in (0, 4, 12, 20, 21) for lk in (0, 1)]
    words += [0x4E800020, 0x4E800021, 0x60000000, 0x60000001, 0x4C000064, 0x9421FFF0, 0x7C0802A6, 0x7C0803A6, 0x90010014, 0x38210010,
              0x7C2B0B78, 0x7D610B78, 0x7C21196E, 0x80210000, 0x80230000, 0x48000000, 0x48000001, 0x4BFFFFFC, 0x4BFFFFFF, 0x40820008,
              0x4C820020, 0x4D820020, 0x4E800420, 0x7C0902A6, 0x7C2802A6, 0x94210000, 0x94010000, 0x90210000, 0x38010010, 0x38200010,
              0, 0xFFFFFFFF]
    print(*('%08X' % w for w in words), sep='\n')
    print('', '4E80002', '4E8000200', '4e800020', '4E80O020', ' 4E800020', '0x4E800020', 'hello', sep='\n')


if __name__ == '__main__':
    main()
