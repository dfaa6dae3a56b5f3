#!/usr/bin/env python3
"""The stored images of the program `replay`, in frames, each ended by a line `=`.

    images.py            prints crates/replay/stdin
    images.py --count    how many images there are of each group
    images.py --names    a line for each image: its place, its group and its name

Most are drawn; a quota of each answer is taken by their numbers, which drawn.txt holds, so that no other program is needed to print them again
(`stored.py --draw` chose them).
"""
import collections
import itertools
import os
import random
import sys

sys.dont_write_bytecode = True
import frames
from frames import BSS, CODE, JUMP, LIST, TABLE
from lists import DATA, ELSEWHERE, GO_ON, ILLEGAL, LINK, RETURN, RODATA, TO_ADDRESS, TO_TABLE, UNKNOWN, rows
from needs import Parser

HERE = os.path.dirname(os.path.abspath(__file__))

BLR, NOP, BEQ, BCTR, B, BL, ADDI = 0x4E800020, 0x60000000, 0x41820000, 0x4E800420, 0x48000000, 0x48000001, 0x38630001
STWU, MFLR, LWZ_R1, RFI = 0x9421FFF0, 0x7C0802A6, 0x80230000, 0x4C000064
CODE_AT, DATA_AT = 0x1000, 0x8000

# Longest images that are taken from other tests, in bytes.
LONG = 8000


class Case:
    """An image under way: words of code, all `addi` at first, and sections besides."""

    def __init__(self, n, data=(), base=CODE_AT):
        self.words, self.base = [(ADDI, (GO_ON,), 0)] * n, base
        self.before, self.behind = [], []
        if data:
            self.section(DATA, DATA_AT, data)
        self.rest = []

    def like(self, other):
        self.words, self.behind, self.rest = list(other.words), list(other.behind), list(other.rest)
        return self

    def at(self, i):
        return self.base + 4 * i

    def put(self, i, word, *outcome, mark=0):
        self.words[i] = (word, outcome or (GO_ON,), mark)
        return self

    def returns(self, *which):
        for i in which:
            self.put(i, BLR, RETURN)
        return self

    def illegal(self, *which):
        """No instructions, and not zero: a walk goes on behind them without asking what it has visited."""
        for i in which:
            self.put(i, 1, ILLEGAL)
        return self

    def zero(self, *which):
        for i in which:
            self.put(i, 0, ILLEGAL)
        return self

    def jumps(self, i, to, word=B):
        return self.put(i, word, JUMP, self.at(to))

    def ways(self, i, *ways, word=BEQ):
        """To words of code, with link where the number is given as (word, LINK)."""
        each = [(TO_ADDRESS, self.at(w)) if isinstance(w, int) else (TO_ADDRESS + w[1], self.at(w[0])) for w in ways]
        return self.put(i, word, LIST, each)

    def table(self, i, a, size=0):
        return self.put(i, BCTR, TABLE, a, size)

    def section(self, kind, base, words, before=False):
        """Words of another section; for bss how many there are."""
        n = words if kind == BSS else len(words)
        lines = [frames.section(kind, base, 4 * n)] + ([] if kind == BSS else [frames.word(w) for w in words])
        (self.before if before else self.behind).append(lines)
        return self

    def add(self, *lines):
        self.rest += lines
        return self

    def code(self):
        yield frames.section(CODE, self.base, 4 * len(self.words))
        for w in self.words:
            yield from frames.code_word(*w)

    def lines(self):
        return [*itertools.chain(*self.before), *self.code(), *itertools.chain(*self.behind), *self.rest]


# ---- the images: (group, name, number or none where nothing is claimed, lines)

IMAGES, GROUP, THERE = [], [None], set()


def keep(name, number, image):
    lines = image.lines() if isinstance(image, Case) else list(image)
    IMAGES.append((GROUP[0], name, number, lines))
    THERE.add(tuple(lines))


def sample():
    keep('sample', 0, ['01010000100000000008', '024E8000200300', '024E8000200300'])


def worked():
    """Those of the definitions, but for the ones with a short lent list."""
    name, lines, room = None, [], False
    for line in open(os.path.join(HERE, '..', 'definitions', 'examples.in')):
        line = line.rstrip('\n')
        if line == '=':
            if not room and name != 'sample':
                keep(name, None, lines)
            lines, room = [], False
        elif line.startswith('# room'):
            room = True
        elif line.startswith('#'):
            name = line[2:]
        else:
            lines.append(line)


def limits():
    def chain(n):
        """Blocks of one word each, the last one a return."""
        c = Case(n)
        for i in range(n - 1):
            c.ways(i, i + 1)
        return c.returns(n - 1)

    keep('256 blocks', 0, chain(256))
    keep('257 blocks', 4, chain(257))
    c = Case(258).returns(0, 257)
    for i in range(1, 257):
        c.ways(i, i + 1)
    keep('257 blocks in the second function', 4, c)
    c = Case(258).returns(0, 256, 257)
    for i in range(1, 256):
        c.ways(i, i + 1)
    keep('256 blocks in the second of three functions', 0, c)

    def tables(more):
        """256 words that a table leads to; four of them read it again, and one has a way on or some."""
        c = Case(256, [CODE_AT + 4 * i for i in range(256)]).returns(*range(4, 256))
        for i in range(4):
            c.table(i, DATA_AT, 1024)
        if more:
            c.ways(4, *range(5, 5 + more))
        return c

    for more, number in ((0, 0), (1, 4), (2, 4)):
        keep('%d ways on' % (1024 + more), number, tables(more))

    def references(n, last):
        """Calls into bss, one for each block, and the last block's."""
        c = Case(n).section(BSS, DATA_AT, 300)
        for i in range(n - 1):
            c.put(i, BL, LIST, [(TO_ADDRESS, c.at(i + 1)), (TO_ADDRESS + LINK, DATA_AT + 4 * i)])
        return c.put(n - 1, BL, LIST, [(TO_ADDRESS + LINK, DATA_AT + 4 * (n - 1 + i)) for i in range(last)])

    keep('256 references', 0, references(256, 1))
    keep('257 references', 4, references(256, 2))
    keep('256 references, two at the last block', 0, references(255, 2))

    def jump_tables(n):
        """Each block but the last ends with a table of its own, whose one entry is the next word."""
        c = Case(n, [CODE_AT + 4 * i for i in range(1, n)])
        for i in range(n - 1):
            c.table(i, DATA_AT + 4 * i, 4)
        return c.returns(n - 1)

    keep('255 jump tables', 0, jump_tables(256))
    c = jump_tables(256)
    c.behind = []
    c.section(DATA, DATA_AT, [CODE_AT + 4 * i for i in range(1, 256)] + [CODE_AT + 4])
    keep('256 jump tables', 0, c.table(255, DATA_AT + 4 * 255, 4))
    keep('257 jump tables would need 257 blocks', 4, jump_tables(258))

    def possible(n):
        """A table whose entries all lie behind the function's end."""
        return Case(n + 2, [CODE_AT + 4 * i for i in range(2, n + 2)]).table(0, DATA_AT, 4 * n).returns(*range(1, n + 2))

    keep('128 possible blocks', None, possible(128))
    keep('129 possible blocks', 4, possible(129))

    def jumpers(n):
        """A table leads to n jumps, each to a word of its own behind them."""
        c = Case(2 * n + 1, [CODE_AT + 4 * i for i in range(1, n + 1)]).table(0, DATA_AT, 4 * n).returns(*range(n + 1, 2 * n + 1))
        for i in range(1, n + 1):
            c.jumps(i, n + i)
        return c

    keep('128 jumps behind the end', None, jumpers(128))
    keep('129 jumps behind the end', None, jumpers(129))
    keep('130 jumps behind the end', 4, jumpers(131))

    def entries(n, zeros=0, size=None):
        words = [CODE_AT + 4 * (1 + i % 3) for i in range(n)] + [0] * zeros
        return Case(4, words).table(0, DATA_AT, 4 * (n + zeros) if size is None else size).returns(1, 2, 3)

    keep('256 entries of a table', 0, entries(256))
    keep('257 entries of a table', 4, entries(257))
    keep('256 entries of a table and ten zero words', 0, entries(256, 10))
    keep('257 entries of a table without a size', None, entries(257, size=0))
    c = entries(257)
    c.rest.append(frames.symbol(frames.OBJECT, DATA_AT, 1024, 1))
    keep('257 words, and an object symbol that knows of 256', 0, c)
    c = entries(256)
    c.rest.append(frames.symbol(frames.OBJECT, DATA_AT, 1028, 1))
    keep('256 words, and an object symbol that says 257', 0, c)
    keep('1,024 functions of one word', 0, Case(1024).returns(*range(1024)))
    keep('1,024 words of one function', 0, Case(1024).returns(1023))
    keep('a limit in a trial ends the run', None, trial_of(257))


def trial_of(n):
    """A function that jumps behind another one, to n blocks that the trial walk would go through."""
    c = Case(n + 8)
    c.jumps(0, 6)
    c.returns(1)
    for i in range(6, 6 + n):
        c.ways(i, i + 1)
    return c.returns(6 + n, 7 + n)


def tail_calls():
    keep('Not: inside start to end', 0, Case(4).ways(0, 1, 3).jumps(1, 2).returns(2, 3))
    keep('Not: a prologue is recorded', None, Case(6).put(0, STWU).put(1, MFLR).jumps(2, 4).put(3, NOP).returns(4, 5))
    keep('Is: below the start', None, Case(6).returns(0, 3).jumps(5, 1).add(frames.symbol(frames.FUNCTION, 0x1010, 8, 0)))
    keep('Is: another section', 0, Case(2).section(BSS, DATA_AT, 4).put(0, B, JUMP, DATA_AT).returns(1))
    keep('Is: another section, by a table', None, Case(2, [DATA_AT, DATA_AT + 4]).table(0, DATA_AT, 8).returns(1))
    keep('Is: a zero word before it', 0, Case(5).jumps(0, 3).zero(2).returns(1, 3, 4))
    keep('Is: a reference between', None, Case(7).ways(0, 1, (3, LINK), word=BL).jumps(1, 5).returns(2, 3, 4, 5, 6))
    keep('Is: a known entry between', None, Case(7).jumps(0, 5).returns(1, 2, 3, 4, 5, 6).add(frames.symbol(frames.FUNCTION, 0x1008, 4, 1)))
    keep('Is: a prologue sequence between', None, Case(8).jumps(0, 6).put(2, STWU).put(3, MFLR).returns(1, 4, 5, 6, 7))
    keep('a trial that meets no function', None, Case(6).jumps(0, 4).zero(5).returns(1, 2, 3))
    keep('a trial that goes back', None, Case(6).jumps(0, 4).returns(1, 2, 3).jumps(5, 2))
    keep('a trial that loads r1', None, Case(7).jumps(0, 4).put(4, LWZ_R1).returns(1, 2, 3, 5, 6))
    keep('a trial with a prologue', None, Case(8).jumps(0, 4).put(4, STWU).put(5, MFLR).returns(1, 2, 3, 6, 7))
    keep('Possible to the last round', None, Case(7).jumps(0, 4).returns(1, 2, 3, 5, 6))
    keep('two possible blocks, one inside the other', None, Case(9).ways(0, 1, 2).jumps(1, 5).jumps(2, 6).returns(3, 4, 7, 8))
    for number, outcome in ((7, (LIST, [(TO_TABLE, CODE_AT)])), (9, (TABLE, DATA_AT, 4)), (10, (TABLE, DATA_AT + 4, 4)), (10, (TABLE, DATA_AT, 3))):
        c = Case(7, [0x90, CODE_AT + 2]).jumps(0, 4).returns(1, 2, 3, 5, 6).put(4, BCTR, *outcome)
        keep('a trial that meets %d, %s' % (number, outcome[-1]), None, c)
    keep('a trial that walks past the last word', None, Case(6).jumps(0, 4).returns(1, 2, 3))
    keep('a jump to itself', 0, Case(2).jumps(0, 0).returns(1))
    for n in (3, 5, 9):
        c = Case(3 * n)
        for f in range(n):
            c.jumps(3 * f + 1, (3 * f + 6) % (3 * n)).returns(3 * f + 2)
        keep('%d functions, each ends with a jump to the next but one' % n, None, c)
        c = Case(3 * n)
        for f in range(n):
            c.jumps(3 * f + 2, 3 * ((f * 2 + 1) % n))
        keep('%d functions that jump to each other' % n, None, c)


def finalizing():
    """The last words that finalizing adds, or does not; 12, 13 and 17 are among the worked examples and the drawn images."""
    known = lambda c, i: c.add(frames.symbol(frames.FUNCTION, c.at(i), 4, 1))
    returns = lambda c, i: c.put(i, 0x4D820020, LIST, [(TO_ADDRESS, c.at(i + 1)), (ELSEWHERE, 0)])
    rfi = lambda n: Case(n).put(0, RFI, UNKNOWN)
    keep('rfi and nop', None, rfi(4).put(1, NOP).returns(2, 3))
    keep('rfi and two nops', None, rfi(5).put(1, NOP).put(2, NOP).returns(3, 4))
    keep('rfi and another word', None, rfi(4).returns(2, 3))
    keep('rfi and nop, which has a symbol', None, known(rfi(4).put(1, NOP).returns(2, 3), 1))
    keep('rfi and nop, the last word', None, rfi(2).put(1, NOP))
    keep('rfi, the last word', None, rfi(1))
    keep('rfi, nop and blr behind a conditional return', None, returns(Case(6), 0).put(1, RFI, UNKNOWN).put(2, NOP).returns(3, 4, 5))
    for name, last, after in (('a return', (BLR, RETURN), BLR), ('a jump', None, BLR), ('a jump', None, ADDI), ('an unknown jump', (BCTR, UNKNOWN), BLR)):
        c = returns(Case(8), 0)
        c = c.put(1, *last) if last else c.jumps(1, 6)
        c.put(2, after, RETURN).returns(3, 4, 5, 7)
        keep('a conditional return, then %s, then %08x' % (name, after), None, c)
        keep('a conditional return, then %s, then %08x with a symbol' % (name, after), None, known(Case(0).like(c), 2))
        keep('the same with a symbol at the target, %s, %08x' % (name, after), None, known(Case(0).like(c), 6))
    for word, name in ((B | 12, 'b'), (B | 16, 'b to another word'), (BCTR, 'bctr')):
        c = known(Case(8).ways(0, 1, 2).returns(1, 3, 4, 6, 7).put(2, word, JUMP, CODE_AT + 20), 5)
        keep('the last block ends with a jump to a function, by %s, and a way leads to it and another' % name, None, c)
        c = known(Case(8).ways(0, 2).returns(1, 3, 4, 6, 7).put(2, word, JUMP, CODE_AT + 20), 5)
        keep('the last block ends with a jump to a function, by %s, and one way leads to it' % name, None, c)


def set_aside():
    keep('the first word is zero', 0, Case(3).zero(0).returns(1, 2))
    keep('nothing but zero words', 0, Case(4).zero(*range(4)))
    keep('a symbol at a zero word', 0, Case(4).zero(2).returns(0, 1, 3).add(frames.symbol(frames.FUNCTION, 0x1008, 4, 1)))
    keep('a walk into a zero word', None, Case(5).zero(3).returns(0, 4).add(frames.entry(0x1004)))
    two = [frames.symbol(frames.FUNCTION, a, 8, 1) for a in (0x1004, 0x100C)]
    keep('a walk into another function', None, Case(5).returns(0, 4).add(*two))
    for first, past in ((0, 1), (1, 2), (1, 3), (2, 4), (3, 6), (0, 6), (5, 6)):
        for zeros in ((), (1,), (1, 2), (2, 3)):
            c = Case(6).returns(*range(6)).zero(*zeros)
            keep('words %d to %d are skipped, zero words %s' % (first, past, zeros), None, c.add(frames.skip(c.at(first), c.at(past))))
    for second in ((1, 2), (2, 3), (3, 4)):
        for zeros in ((), (1,), (2,)):
            c = Case(5).returns(*range(5)).zero(*zeros)
            c.add(frames.skip(c.at(0) + 4, c.at(2)), frames.skip(c.at(second[0] + 1), c.at(second[1] + 1)))
            keep('two ranges, the second %s, zero words %s' % (second, zeros), None, c)
    for i in range(5):
        keep('entry point at word %d' % i, None, Case(5).returns(1, 4).jumps(2, 4).add(frames.entry(CODE_AT + 4 * i)))


def sections():
    """Code, data, read-only and bss in each order, by address and in the list, with a table, a call and a jump into each of the others."""
    for name, places in (('ascending', (0, 1, 2, 3)), ('descending', (3, 2, 1, 0)), ('crossed', (2, 0, 3, 1))):
        for order in itertools.permutations((CODE, DATA, RODATA, BSS)):
            base = dict(zip(order, (0x1000 + 0x1000 * p for p in places)))
            c = Case(14, base=base[CODE])
            c.ways(0, 1, 3).put(1, BL, LIST, [(TO_ADDRESS, c.at(2)), (TO_ADDRESS + LINK, base[BSS])]).returns(2).table(3, base[DATA], 12)
            c.returns(4, 5).table(6, base[RODATA]).returns(7, 8).put(9, B, JUMP, base[RODATA]).put(10, B, JUMP, base[BSS] + 4).table(11, base[BSS], 8)
            c.put(12, BL, LIST, [(TO_ADDRESS + LINK, base[DATA]), (TO_ADDRESS, c.at(13))]).returns(13)
            lines = {CODE: c.code(), DATA: [frames.section(DATA, base[DATA], 16), *map(frames.word, (c.at(4), c.at(5), 0, base[CODE]))],
                     RODATA: [frames.section(RODATA, base[RODATA], 12), *map(frames.word, (c.at(7), c.at(8), 1))],
                     BSS: [frames.section(BSS, base[BSS], 64)]}
            keep('sections %s, addresses %s' % (order, name), None, [l for kind in order for l in lines[kind]])
    for n in range(1, 11):
        keep('%d sections' % n, 0 if n <= 8 else 1, Case(2).returns(0, 1).lines() + [frames.section(BSS, 0x2000 + 16 * i, 4) for i in range(n - 1)])


def no_frames():
    good = Case(2).ways(0, 1).returns(1).lines()
    assert len(good) == 4
    whole = ['01010000100000000010', '02416200000600', '05000000001004', '024E8000200400', '0300001008', '024E8004200500', '040000800000000008',
             '024E8000200300', '01020000800000000008', '0200001008', '020000100C', '06000010000000000800', '06000010080000000801',
             '07000080000000000801', '080000100C00001010', '0900001000']
    keep('every frame', 0, whole)
    keep('every frame, in small letters', 0, [l.lower() for l in whole])
    for i, line in enumerate(whole):
        for name, other in (('a digit less', line[:-1]), ('two digits less', line[:-2]), ('a digit more', line + '0'), ('two digits more', line + '00'),
                            ('a space behind it', line + ' '), ('a space within', line[:4] + ' ' + line[4:]), ('a letter that is none', line[:-1] + 'G'),
                            ('a carriage return', line + '\r'), ('another frame', '0A' + line[2:])):
            keep('line %d with %s' % (i, name), 1, whole[:i] + [other] + whole[i + 1:])
    for name, line in (('an empty line', ''), ('a space', ' '), ('one digit', '0'), ('a frame without a field', '01'), ('frame 00', '00'),
                       ('frame 10', '10'), ('frame FF', 'FF00001000'), ('two ends', '=='), ('a comment', '# 1'), ('a sign', '-1'), ('kind 00', '01000000200000000004'),
                       ('kind 05', '01050000200000000004'), ('outcome 07', '024E8000200700'), ('mark 02', '024E8000200302'),
                       ('a code word in short', '024E800020'), ('a target for a return', '0300001000'), ('a table for a return', '040000100000000004'),
                       ('a branch for a return', '05000000001000'), ('link 02', '05020000001000'), ('way 03', '05000300001000'),
                       ('known 02', '06000010000000000402')):
        keep(name + ' last', 1, good + [line])
        keep(name + ' first', 1, [line] + good)
    keep('a word before any section', 1, ['024E8000200300'] + good)
    keep('a target before any word', 1, good[:1] + ['0300001000'] + good[1:])
    keep('a data word with an outcome', 1, good + ['01020000800000000004', '024E8000200300'])
    keep('a word of bss', 1, good + ['01040000800000000004', '0200000000'])
    keep('a target behind the next section', 0, Case(1).lines()[:1] + ['02480000000400', '01020000800000000004', '0200001000', '0300001000'])
    keep('a target twice, the last one counts', 0, ['01010000100000000008', '02480000000400', '0300009000', '0300001000', '024E8000200300'])
    keep('a table twice, the last one counts', None,
         ['01010000100000000008', '024E8004200500', '040000900000000004', '040000100000000000', '024E8000200300'])
    keep('1,025 code words', 1, Case(1025).returns(1024))
    keep('1,024 code words, and a size of 1,025', 1, [l.replace('00001000', '00001004') for l in Case(1024).lines()[:1]] + Case(1024).lines()[1:])
    keep('an empty input', 1, [])
    keep('no section', 1, ['0900001000'])
    keep('a section without its words', 1, ['01010000100000000008'])


def outcomes():
    for kind, name in ((4, 'target'), (5, 'table')):
        keep('no %s' % name, 2, ['01010000100000000008', '02480000000%d00' % kind, '024E8000200300'])
        keep('no %s at the second word' % name, 2, ['01010000100000000008', '024E8000200300', '02480000000%d00' % kind])
    ways = ['05000000001004', '05010000001004', '05000200000000']
    keep('no branch', 0, ['01010000100000000008', '02416200000600', '024E8000200300'])
    for n in range(1, 5):
        for which in itertools.product(ways, repeat=n) if n < 3 else [ways[:1] * n, ways * 2]:
            keep('%d branches %s' % (n, which), 2 if len(which) > 2 else None, ['01010000100000000008', '02416200000600', *which, '024E8000200300'])
    keep('a branch to elsewhere with an address', 2, ['01010000100000000008', '02416200000600', '05000200001004', '024E8000200300'])
    keep('two entry points', 3, Case(2).returns(0, 1).add(frames.entry(0x1000), frames.entry(0x1004)))
    keep('one entry point twice', 3, Case(2).returns(0, 1).add(frames.entry(0x1000), frames.entry(0x1000)))


# ---- images of other tests

def of_lists(l):
    """The frames of lent lists, or none where frames can't say what the lists do."""
    if any(len(row) < width for numbers, width in ((l.sections, 4), (l.outcomes, 6), (l.functions, 3), (l.objects, 3), (l.skips, 2))
           for row in rows(numbers, width)[-1:]):
        return None
    out, at, words = [], 0, iter(rows(l.outcomes, 6))
    for kind, base, size, given in rows(l.sections, 4):
        if kind not in (CODE, DATA, RODATA, BSS) or given % 4 or at + given > len(l.data):
            return None
        out.append(frames.section(kind, base, size))
        for w in rows(l.data[at:at + given], 4):
            w = int.from_bytes(w, 'big')
            if kind != CODE:
                out.append(frames.word(w))
                continue
            if (row := next(words, None)) is None or row[0] > LIST or row[1] > 1:
                return None
            rest = {JUMP: (row[2],), TABLE: (row[2], row[3]), LIST: ([way for way in rows(row[2:], 2) if way != [0, 0]],)}.get(row[0], ())
            back = [n for way in rest[0] for n in way] if row[0] == LIST else list(rest)
            if back + [0] * (4 - len(back)) != row[2:] or row[0] == LIST and any(way > 7 or way % 4 == 0 for way, _ in rest[0]):
                return None
            out += frames.code_word(w, (row[0], *rest), row[1])
        at += given
    if at != len(l.data) or next(words, None) is not None or any(s[2] > 1 for s in rows(l.functions, 3) + rows(l.objects, 3)):
        return None
    out += [frames.symbol(frames.FUNCTION, *s) for s in rows(l.functions, 3)]
    out += [frames.symbol(frames.OBJECT, *s) for s in rows(l.objects, 3)]
    return out + [frames.skip(*s) for s in rows(l.skips, 2)] + [frames.entry(a) for a in l.entry]


def taken(name, number, lent):
    """Unless it is long, or there already."""
    lines = of_lists(lent)
    if lines is not None and sum(map(len, lines)) + len(lines) <= LONG and tuple(lines) not in THERE:
        keep(name, number, lines)


def rules():
    import images
    from cases import all_cases
    all_cases()     # it makes those, too, and they can be made once only
    for name, lent, rule in images.BROKEN:
        taken('%s; %s' % (rule, name), {'sections': 1, 'outcomes': 2}.get(rule.split(':')[0], 3), lent)
    for name, lent, _ in images.PASSING:
        taken(name, None, lent)


def walks():
    from cases import all_cases
    for group, name, asked, _ in all_cases():
        if 'drawn' not in group:
            taken('%s; %s' % (group, name), None, asked.lent)


# ---- drawn

def drawn_of(seed, k):
    """At most 48 code words, mostly fewer; one in forty is larger."""
    from drawn_maps import damage, drawn_image, without_elsewhere_address
    r = random.Random('stored %d/%d' % (seed, k))
    d = drawn_image(r, r.choice((12, 16, 24, 32, 48)) if r.random() < 0.975 else r.choice((96, 200)))
    for _ in range(r.choice((0, 0, 1))):
        d.change()
    lines = d.lines()
    return without_elsewhere_address(damage(r, lines)) if r.random() < 0.03 else lines


def drawn():
    for line in open(os.path.join(HERE, 'drawn.txt')):
        if not line.startswith('#'):
            seed, first, *ks = map(int, line.split())
            for k in ks:
                keep('%d/%d' % (seed, k), first, drawn_of(seed, k))


# ---- single places of the Rust

def places():
    """Each reaches one place of the Rust's slices.rs or executor.rs (commit 9d1ac132c4), whose line stands with it; drawn images reach some
    of these seldom or never. They come last, so that the others keep their places in the list."""
    known = lambda c, words: c.add(frames.symbol(frames.FUNCTION, c.at(0), 4 * words, 1))

    def in_each_run(name, number, n, put):
        """The same n words three times: walked from the first; between two blocks; behind a return, up to the end that a symbol knows."""
        def image(size, i):
            c = Case(size)
            put(c, i)
            return c

        keep(name + ', in a walk', number, image(n, 0))
        keep(name + ', in a pass between blocks', number, image(n + 2, 1).ways(0, n + 1).returns(n + 1))
        keep(name + ', in a pass up to a known end', number, known(image(n + 1, 1).returns(0), n + 1))

    # slices.rs 188: the block at 1 goes over the illegal word and steps the prologue at 3 once more, which is the recorded one.
    def prologue_again(c, i):
        c.ways(i, i + 1, i + 3).illegal(i + 2).put(i + 3, STWU).put(i + 4, MFLR).returns(i + 5)

    in_each_run('a prologue is met again behind an illegal word', 0, 6, prologue_again)

    # executor.rs 128: the block at 3 goes over its illegal word to 4 and ends there, as 5 was visited. The mark of 4 then cuts that block,
    # and the rest of it, 4 to 5, takes the place of the block 4 to 6: the word 5 is in no block. The jump to it opens one that nothing closes.
    def jump_to_visited(c, i):
        c.ways(i, i + 1, i + 4).ways(i + 1, i + 2, i + 3).ways(i + 2, i + 4, i + 6).illegal(i + 3).returns(i + 5).jumps(i + 6, i + 5)

    in_each_run('a jump to a visited word in no block', 11, 7, jump_to_visited)

    # The same line, and a map: the block at 2 goes over the start 3, which is pending and open, so that 4 is in no block by the mark's
    # test. The jump from 5 opens a block at 4. Then 3 is taken from the pending list (102), and the marks from 1 cut the block at 2, which
    # closes both.
    def jump_to_visited_and_closed(c, i):
        c.ways(i, i + 1, i + 6).ways(i + 1, i + 3, i + 4).illegal(i + 2).jumps(i + 5, i + 4).ways(i + 6, i + 3, i + 7).jumps(i + 7, i + 2)

    in_each_run('a jump to a visited word behind an open block, both closed by marks', 0, 8, jump_to_visited_and_closed)

    # slices.rs 544: there is no word at the end of code, and the pass that begins there is 15.
    keep('a pass up to a known end that begins at the end of code', 15, known(Case(1).returns(0), 2))
    keep('the same behind nops', 15, known(Case(3).returns(0).put(1, NOP).put(2, NOP), 4))
    c = known(Case(3).returns(0).put(1, NOP).put(2, NOP), 5)
    keep('the same with more nops in a data section right behind code', 15, c.section(DATA, c.at(3), [NOP, NOP]))

    # executor.rs 87: a prologue and no epilogue, so that the unknown jump at the last word makes the end of code a pending address.
    prologue = lambda n: Case(n).put(0, STWU).put(1, MFLR).put(n - 1, BCTR, UNKNOWN)
    keep('a pending address at the end of code, in a walk', 15, prologue(5).ways(2, 3, 4).returns(3))
    keep('a pending address at the end of code, in a pass between blocks', 15, prologue(6).ways(2, 4).ways(3, 5).returns(4))
    keep('a pending address at the end of code, in a pass up to a known end', 15, known(prologue(4).returns(2), 4))

    # executor.rs 102: 2 is pending while the block at 1 goes over it. The jump from 3 marks it, which cuts that block and so closes 2's.
    def pending_visited(c, i):
        c.ways(i, i + 2, i + 4).illegal(i + 1).jumps(i + 3, i + 2).jumps(i + 4, i + 1)

    in_each_run('a pending address that was visited', 0, 5, pending_visited)

    # The same line with the word of executor.rs 128, which a branch list makes pending: its block stays open.
    def pending_in_no_block(c, i):
        c.ways(i, i + 1, i + 4).ways(i + 1, i + 2, i + 3).ways(i + 2, i + 4, i + 5).illegal(i + 3).returns(i + 5)

    in_each_run('a pending address that was visited and is in no block', 11, 6, pending_in_no_block)

    # The same line by a pass's first address, the word 5 again: the pass marks no new word. (Between blocks: pass-marks-nothing.)
    c = Case(6).ways(0, 1, 4).ways(1, 2, 3).ways(2, 4).illegal(3).returns(5)
    keep('a pass up to a known end that begins at a visited word', 16, known(c, 6))


GROUPS = (('document 01', sample), ('the worked examples of tests/definitions', worked), ('limits', limits), ('tail calls', tail_calls), ('finalizing', finalizing),
          ('set aside, skip ranges, entry points', set_aside), ('sections', sections), ('lines that are no frames', no_frames),
          ('outcomes and entry points', outcomes), ('images of tests/checked', rules), ('images of tests/walked', walks), ('drawn', drawn),
          ('single places of the Rust', places))


def all_images():
    if not IMAGES:
        for GROUP[0], make in GROUPS:
            make()
        double = [n for n, c in collections.Counter(i[:2] for i in IMAGES).items() if c > 1]
        assert not double, double
    return IMAGES


def main():
    options = Parser(__doc__)
    options.add_argument('--count', action='store_true')
    options.add_argument('--names', action='store_true')
    o = options.parse_args()
    images = all_images()
    if o.count:
        count = collections.Counter(i[0] for i in images)
        for group, _ in GROUPS:
            print('%5d  %s' % (count[group], group))
        print('%5d  images' % len(images))
    elif o.names:
        for i, (group, name, _, _) in enumerate(images):
            print('%4d  %s; %s' % (i, group, name))
    else:
        sys.stdout.write(frames.text(i[3] for i in images))


if __name__ == '__main__':
    main()
