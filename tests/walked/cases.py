#!/usr/bin/env python3
"""Makes the images of the program `walked` and the walks that are asked of them.

    cases.py            prints them in the form that the program reads (crates/walked/stdin)
    cases.py --count    how many walks there are of each group
"""
import collections
import sys

sys.dont_write_bytecode = True
from asked import MOST, Asked, key
from drawn import (ADDI_R1, BCTR, BCTRL, BEQ, BLR, CONDITIONAL_BLR, LOADS_R1, MFLR, MTLR, NOP, OR_FROM_R1, OR_TO_R1, RFI, STWU, STWUX, STW_R0,
                   drawn)
from lists import (BSS, CODE, DATA, ELSEWHERE, GO_ON, ILLEGAL, JUMP, LINK, LIST, RETURN, RODATA, TABLE, TO_ADDRESS, TO_TABLE, UNKNOWN, Image,
                   Section)
import images       # of the program `checked`
from needs import Parser

CASES = []          # (group, name, Asked, the number of each walk or none where it is not said)
GROUP = ['']        # the group that is being made

PLAIN = 0x38630001  # addi r3,r3,1
CODE_AT, DATA_AT, NOWHERE = 0x1000, 0x80000, 0x20000000


def at(i):
    return CODE_AT + 4 * i


def there(i):
    """The word i of the data section."""
    return DATA_AT + 4 * i


class Made:
    """Code of n words that go on and, if there are words for it, a section of data behind it. Walks are put to it one by one."""

    def __init__(self, n, data=None, kind=DATA, before=()):
        self.n, self.data, self.kind, self.before = n, data, kind, before
        self.words, self.outcomes = [PLAIN] * n, [(GO_ON, 0, 0, 0, 0, 0)] * n
        self.functions, self.objects, self.walks, self.numbers, self.known_list = [], [], [], [], []

    def key(self, i):
        return key(len(self.before), at(i))

    # ---- words

    def put(self, i, word, *outcome):
        if word is not None:
            self.words[i] = word
        if outcome:
            self.outcomes[i] = (outcome + (0,) * 6)[:6]
        return self

    def all(self, i, words):
        """Words that go on."""
        for j, w in enumerate(words):
            self.put(i + j, w)
        return self

    def returns(self, *which):
        for i in which:
            self.put(i, BLR, RETURN)
        return self

    def jumps(self, i, to, word=0x48000000):
        return self.put(i, word, JUMP, 0, to)

    def branches(self, i, *ways, word=BEQ):
        """Ways to addresses or, as a pair, with the kind of way before it."""
        flat = [n for way in ways for n in (way if isinstance(way, tuple) else (TO_ADDRESS, way))]
        return self.put(i, word, LIST, 0, *flat)

    def by_table(self, i, a, size=0):
        return self.put(i, BCTR, TABLE, 0, a, size)

    def unknown(self, i, word=BCTR):
        return self.put(i, word, UNKNOWN)

    def illegal(self, i, word=1):
        return self.put(i, word, ILLEGAL)

    def marked(self, *which):
        for i in which:
            self.outcomes[i] = (self.outcomes[i][0], 1) + self.outcomes[i][2:]
        return self

    # ---- what is asked

    def symbol(self, *rows):
        (self.objects if rows[0][0] >= DATA_AT else self.functions).extend(rows)
        return self

    def known(self, *pairs):
        """Known functions, by words or keys; an end of 0 is none."""
        of = lambda x: self.key(x) if 0 < x < CODE_AT else x
        for entry, end in pairs:
            self.known_list += [self.key(entry) if entry < CODE_AT else entry, of(end)]
        return self

    def asks(self, number, start, end=0, room=MOST):
        """By keys."""
        self.walks.append((start, end, room))
        self.numbers.append(number)
        return self

    def walk(self, number, i=0, end=None, room=MOST):
        """By words."""
        return self.asks(number, self.key(i), 0 if end is None else self.key(end), room)

    def with_room(self, exact, i=0, end=None):
        """A walk whose lists take `exact` numbers, with lists of that length and others."""
        for room in {0, 1, exact - 1}:
            self.walk(4, i, end, room)
        for room in (exact, exact + 1, MOST):
            self.walk(0, i, end, room)
        return self

    def lend(self):
        im = Image()
        code = Section(CODE, CODE_AT, 4 * self.n, b''.join(w.to_bytes(4, 'big') for w in self.words))
        others = []
        if self.data is not None:
            others = [Section(self.kind, DATA_AT, 4 * len(self.data))]
            if self.kind != BSS:
                others[0].put(0, self.data)
        im.sections = list(self.before) + [code] + others
        im.outcomes, im.functions, im.objects = self.outcomes, self.functions, self.objects
        return im.lend()

    def keep(self, name):
        CASES.append((GROUP[0], name, Asked(self.lend(), self.known_list, self.walks), self.numbers))


# ---- one word after the other

def plain():
    Made(1).returns(0).walk(0).keep('one word')
    m = Made(8).returns(3, 7)
    for i in range(8):
        m.walk(0, i)
    m.keep('two functions, from each word')
    Made(3).jumps(2, at(2)).walk(0).walk(0, 2).keep('a jump to itself')
    Made(6).jumps(2, at(0)).returns(5).walk(0).walk(0, 1).walk(0, 3).keep('a jump back to the start')
    Made(6).jumps(2, at(1)).returns(5).walk(0).keep('a jump back that cuts the block')
    Made(6).jumps(1, at(4)).returns(3, 5).walk(0).walk(0, 0, 6).walk(0, 0, 5).walk(0, 0, 4).walk(0, 2).keep('a jump ahead: possible without an end, a block with one')
    Made(8).branches(0, at(6)).jumps(1, at(4)).returns(3, 5, 6, 7).walk(0).keep('a jump ahead below a block that was walked')
    Made(6).jumps(4, at(1)).returns(3, 5).walk(0, 2).walk(0, 4).walk(0, 4, 6).keep('a jump below the start')
    Made(4).jumps(1, at(3), 0).returns(3).walk(0).walk(0, 0, 4).keep('a jump whose own word is zero')
    Made(4, [0]).jumps(1, there(0)).returns(3).walk(0).walk(0, 0, 4).keep('a jump to data')
    Made(6).branches(0, at(1), at(4)).returns(3, 5).walk(0).keep('a branch')
    Made(6).branches(0, at(4), at(1)).returns(3, 5).walk(0).keep('a branch, its ways the other way round')
    Made(6).branches(0, at(3), at(3)).returns(5).walk(0).keep('both ways the same')
    Made(4).branches(0).returns(3).walk(0).walk(0, 0, 4).keep('no way at all')
    Made(4).branches(0, (ELSEWHERE, 0), (ELSEWHERE + LINK, 0)).returns(3).walk(0).walk(0, 0, 4).keep('only elsewhere')
    Made(4).branches(0, (ELSEWHERE, 0), at(2)).returns(1, 3).walk(0).keep('elsewhere, and a way on')
    Made(6).branches(1, at(2), (TO_ADDRESS + LINK, at(4)), word=0x48000001).returns(3, 5).walk(0).walk(0, 1).walk(0, 2).keep('a call')
    Made(6).branches(1, (TO_ADDRESS + LINK, at(4)), at(4)).returns(3, 5).walk(0).keep('a call, and then a branch to the same')
    Made(6).branches(1, at(4), (TO_ADDRESS + LINK, at(4))).returns(3, 5).walk(0).keep('a branch, and then a call of the same')
    Made(6).branches(1, (TO_ADDRESS + LINK, at(3)), at(2)).returns(4, 5).walk(0).keep('a walk into what was called')
    Made(6).branches(1, (TO_ADDRESS + LINK, at(0)), at(2)).returns(4, 5).walk(0).keep('a call of the start itself')
    Made(4, [0] * 4).branches(0, at(1), (TO_ADDRESS + LINK, there(2))).returns(3).walk(0).keep('a call of data')
    for size, known in ((12, 1), (12, 0), (8, 1), (4, 1), (0, 1), (262144, 0)):
        Made(8).branches(0, at(1), (TO_ADDRESS + LINK, at(5))).returns(2, 4, 7).symbol((at(3), size, known)).walk(0).keep('a call into a function of %d bytes, known %d' % (size, known))
    Made(8).branches(0, at(1), (TO_ADDRESS + LINK, at(3))).returns(2, 7).symbol((at(3), 12, 1)).walk(0).keep("a call of a function's own address")
    Made(8).branches(0, at(1), (TO_ADDRESS + LINK, at(6))).returns(2, 7).symbol((at(1), 40, 1), (at(3), 8, 1), (at(7), 4, 1)).walk(0).keep('a call behind the last function below it')
    Made(4).illegal(1, 0).returns(3).walk(0).walk(0, 1).walk(0, 2).walk(0, 0, 4).keep('a zero word that is illegal')
    Made(4).illegal(1).returns(3).walk(0).walk(0, 1).keep('an illegal word that is not zero')
    Made(4).put(1, 0, GO_ON).returns(3).walk(0).keep('a zero word that goes on')
    Made(4).unknown(1).returns(3).walk(0).walk(0, 0, 4).walk(0, 0, 2).keep('an unknown jump')
    Made(6).all(0, [STWU, MFLR]).unknown(2).returns(5).walk(0).keep('an unknown jump behind a prologue')
    Made(6).all(0, [STWU, MFLR, MTLR, ADDI_R1]).unknown(4).returns(5).walk(0).keep('an unknown jump behind prologue and epilogue')
    Made(6).all(0, [MTLR, ADDI_R1]).unknown(4).returns(5).walk(0).keep('an unknown jump behind an epilogue alone')
    Made(6).all(1, [STWU, MFLR]).branches(0, at(1), at(4)).unknown(3).returns(4, 5).walk(0).keep('an unknown jump before a block that was walked')
    Made(5).branches(0, at(1), at(2)).illegal(1).returns(4).walk(0).keep('an illegal word before a block that was walked')
    Made(5).branches(0, at(1), at(2)).returns(4).walk(0).keep('a word that goes on before a block that was walked')
    Made(6).illegal(1).branches(3, at(2), at(1)).returns(4, 5).walk(0).keep('a way back behind an illegal word')
    Made(7).branches(0, at(3), at(1)).illegal(2).branches(4, at(3), at(5)).returns(6).walk(0).keep('words stepped twice behind an illegal word')


# ---- flags, prologues and epilogues

def sequences():
    for word in (BLR, *CONDITIONAL_BLR, 0x4C000020, 0x4E000020, 0x4C800020, 0x4D820021, 0x4D820420, BCTR):
        Made(3).put(0, word).returns(2).walk(0).keep('a word %08x' % word)
    for word in (*LOADS_R1, 0x80010000, 0x80410000, 0x84210000):
        Made(3).put(0, word).returns(2).walk(0).keep('a load %08x' % word)
        Made(3).put(0, word).marked(0).returns(2).walk(0).keep('a load %08x with the mark' % word)
    Made(3).put(0, RFI).returns(2).walk(0).keep('rfi')
    Made(3).unknown(0, RFI).returns(2).walk(0).walk(0, 1).keep('rfi that ends')
    between = [(), (0x38600000,), (0x38600000,) * 5, (NOP,), (BLR,), (0x80010014,), (0x48000001,), (0xFFFFFFFF,), (0x10000000,)]
    for first, second in ((STWU, MFLR), (STWUX, MFLR), (MFLR, STW_R0), (MFLR, STWU), (MFLR, STWUX), (MTLR, ADDI_R1), (MTLR, OR_FROM_R1),
                          (OR_FROM_R1, MTLR), (MTLR, OR_TO_R1), (STWU, STW_R0), (ADDI_R1, MTLR)):
        m = Made(80)
        i = 0
        for words in between:
            m.all(i, (first, *words, second)).returns(i + len(words) + 2)
            m.walk(0, i)
            i += len(words) + 3
        m.all(i, (first,)).returns(i + 1).walk(0, i)
        m.all(79, (first,)).walk(16, 79)
        m.keep('%08x and %08x with words between' % (first, second))
    Made(4).all(0, [STWU, MFLR]).marked(0).returns(3).walk(0).keep('a prologue with the mark')
    Made(4).all(0, [MFLR, STWU, MFLR]).marked(0).returns(3).walk(0).keep('a prologue behind one with the mark')
    Made(4).all(0, [MTLR, ADDI_R1]).marked(0).returns(3).walk(0).keep('an epilogue with the mark')
    Made(8).all(0, [STWU, MFLR]).all(4, [MTLR, ADDI_R1]).returns(7).walk(0).walk(0, 2).keep('both')


def fault_5():
    for name, word, number in (('blr', BLR, 5), ('b', 0x48000000, 5), ('ba', 0x48000002, 5), ('bl', 0x48000001, 0), ('rfi', RFI, 5), ('addi r1', ADDI_R1, 5),
                               ('lwz r1 on r3', 0x80230000, 5), ('lwz r1 on r1', 0x80210000, 0), ('lwz r1 on 0', 0x80200000, 5), ('bclr', 0x4D820020, 0),
                               ('bctr', BCTR, 0), ('a plain word', PLAIN, 0), ('addi r1 on r2', 0x38220010, 0), ('blrl', 0x4E800021, 0)):
        m = Made(8).all(0, [STWU, MFLR, PLAIN, word, STWU, MFLR]).returns(6, 7)
        m.walk(number).walk(number, 0, 7).walk(number, 0, None, 0) if number else m.walk(0)
        m.walk(0, 2).keep('a second prologue behind ' + name)
    Made(8).all(0, [STWU, MFLR, BLR, STWU, MFLR]).marked(3).returns(7).walk(0).keep('a second prologue with the mark')
    Made(8).branches(0, at(1), at(5)).all(1, [STWU, MFLR]).all(5, [STWU, MFLR]).returns(3, 7).walk(5).keep('a second prologue below the first')
    Made(8).branches(0, at(1), at(5)).all(1, [STWU, MFLR]).all(5, [STWU, MFLR]).marked(5).returns(3, 7).walk(0).keep('a second prologue below one with the mark')
    Made(8).all(0, [STWU, MFLR]).all(2, [STWU, MFLR]).returns(7).walk(0).keep('two prologues and nothing between')
    Made(8).branches(0, at(2), at(1)).illegal(1).all(2, [STWU, MFLR]).returns(7).walk(0).keep('one prologue stepped twice')


def fault_6():
    Made(8).all(0, [MTLR, ADDI_R1, PLAIN, MTLR, ADDI_R1]).returns(7).walk(6).walk(6, 0, 8).walk(6, 0, None, 0).walk(0, 1).keep('a second epilogue')
    Made(8).all(0, [MTLR, OR_FROM_R1, MTLR]).returns(7).walk(6).walk(0, 1).keep('an epilogue in another')
    Made(8).branches(0, at(1), at(5)).all(1, [MTLR, ADDI_R1]).all(5, [MTLR, ADDI_R1]).returns(3, 7).walk(6).keep('a second epilogue below the first')
    Made(8).branches(0, at(2), at(1)).illegal(1).all(2, [MTLR, ADDI_R1]).returns(7).walk(0).keep('one epilogue stepped twice')
    Made(8).all(0, [STWU, MFLR, MTLR, ADDI_R1, BLR, MTLR, ADDI_R1]).returns(7).walk(6).keep('an epilogue behind an ended function')
    Made(8).all(0, [STWU, MFLR, BLR, STWU, MTLR, ADDI_R1, MTLR, ADDI_R1]).walk(6).keep('6 before 16')


def fault_7():
    for name, ways in (('first', [(TO_TABLE, there(0)), at(2)]), ('second', [at(2), (TO_TABLE, there(0))]), ('linked', [(TO_TABLE + LINK, there(0))]),
                       ('in code', [(TO_TABLE, at(1))]), ('behind elsewhere', [(ELSEWHERE, 0), (TO_TABLE, there(1))])):
        Made(4, [at(1), 0]).branches(1, *ways).returns(3).walk(7).walk(7, 0, 4).walk(7, 1).walk(0, 2).keep('a branch to a table, ' + name)


def fault_8():
    # The last block is open, since its start lies in a section behind code; so no jump knows where the function ends.
    def open_last(n):
        return Made(n, [0])
    open_last(8).branches(3, at(1), there(0)).branches(1, (TO_ADDRESS + LINK, at(3)), at(2)).jumps(2, at(3)).walk(8, 3).walk(8, 3, None, 0).keep('a jump to the start, which is called')
    open_last(8).branches(3, at(1), there(0)).jumps(1, at(3)).known((3, 0)).walk(8, 3).walk(8, 3, 3).walk(11, 3, 8).keep('a jump to the start, which is known')
    open_last(8).branches(3, at(1), there(0)).jumps(1, at(3)).known((3, 6)).walk(8, 3).keep('a jump to the start, which is known with its end')
    open_last(8).branches(3, at(1), there(0)).jumps(1, at(4)).known((3, 6)).walk(8, 3).keep('a jump into the known start')
    open_last(8).branches(3, at(1), there(0)).jumps(1, at(4)).known((3, 0)).walk(11, 3).keep('a jump behind a known start without an end')
    open_last(8).branches(3, at(1), there(0)).jumps(1, at(3)).walk(11, 3).keep('a jump to the start, which nothing knows')
    Made(8).branches(3, at(4), at(1)).jumps(1, at(3)).known((3, 0)).returns(4).walk(0, 3).keep('a jump to the known start below the end')


def fault_9_and_10():
    some = [at(2), at(4), 0, at(2)]
    for bad, number in ((NOWHERE, 9), (1, 9), (0xFFFFFFFF, 9), (at(8), 9), (at(-1), 9), (at(2) + 2, 10), (at(8) - 1, 10), (DATA_AT + 1, 10)):
        for i in range(4):
            words = some[:i] + [bad] + some[i + 1:]
            Made(8, words + [NOWHERE]).by_table(1, there(0), 16).returns(2, 3, 4, 7).walk(number).keep('%08x at word %d of a table' % (bad, i))
        Made(8, [at(2), bad]).by_table(1, there(0)).returns(2, 3, 4, 7).walk(0).walk(10 if number == 10 and bad < DATA_AT else 0, 0, 8).keep('%08x in a table without a size' % bad)
    for size, number in ((1, 10), (2, 10), (3, 10), (6, 10), (15, 10), (17, 0), (65535, 0), (65536, 0)):
        Made(8, some).by_table(1, there(0), size).returns(2, 3, 4, 7).walk(number).walk(0, 2).keep('a table of %d bytes' % size)
    for size, number in ((1, 10), (7, 10), (8, 0), (16, 0), (262144, 0)):
        Made(8, some).by_table(1, there(0), 6).returns(2, 3, 4, 7).symbol((there(0), size, 1)).walk(number).walk(number, 0, 8).keep("a symbol's table of %d bytes" % size)
    Made(8, [at(2), at(3) + 2, NOWHERE]).by_table(1, there(0), 12).returns(2, 3).walk(10).keep('10 before 9')
    Made(8, [at(2), NOWHERE, at(3) + 2]).by_table(1, there(0), 10).returns(2, 3).walk(9).keep('9 before 10')


def fault_11():
    Made(4, [0]).branches(0, at(1), there(0)).returns(3).walk(11).walk(11, 0, 4).walk(11, 0, None, 0).walk(0, 1).keep('a branch to data')
    Made(4, None, before=(Section(DATA, DATA_AT, 4),)).branches(0, at(1), there(0)).returns(3).walk(11).walk(11, 0, 4).keep('a branch to data before code')
    Made(4, [0], BSS).branches(0, there(0)).walk(11).keep('a branch to bss alone')
    Made(4, [at(1), there(1)]).by_table(0, there(0), 8).returns(1).walk(11).keep('a table that leads to data too')
    Made(4, [at(1), there(1)]).by_table(0, there(0), 8).illegal(1, 0).walk(0).keep('no function, though a block in data is open')
    Made(6, [0]).branches(0, at(2), there(0)).illegal(1).returns(4).walk(11).keep('an open block behind a pass')


def fault_15():
    Made(3).all(0, [STWU, MFLR]).unknown(2).walk(15).walk(15, 0, None, 0).keep('an unknown jump at the last word')
    Made(3).all(0, [STWU, MFLR]).unknown(2).walk(15, 0, 3).walk(15, 0, 2).keep('an unknown jump at the last word, with an end')
    for end in (5, 6, 100, 65536):
        Made(4).returns(3).walk(15, 0, end).walk(15, 3, end).keep('an end %d words from code' % end)
    Made(8).returns(3).all(4, [NOP] * 4).walk(0, 0, 8).walk(15, 0, 9).walk(0, 0, 6).walk(0, 0, 4).keep('nothing but nops up to the end')


def fault_16():
    Made(4).walk(16).walk(16, 3).walk(16, 0, 4).walk(16, 0, None, 0).keep('past the last word')
    Made(4).illegal(3).walk(16).walk(16, 3).keep('past an illegal last word')
    Made(4).branches(1, at(3)).returns(2).walk(16).walk(0, 2).keep('past the last word from a branch')
    Made(4).returns(1).walk(0).walk(16, 0, 4).keep('past the last word in a pass up to the end')
    Made(8).branches(0, at(4)).branches(1, at(6)).returns(3, 4, 5).walk(16).walk(16, 0, 8).keep('past the last word in a pass between blocks')
    stall = Made(6).branches(0, at(2), at(5)).illegal(1).returns(3, 5).jumps(4, at(2))
    stall.walk(16).walk(16, 0, 6).walk(16, 0, None, 0).walk(0, 1).walk(0, 4).keep('a pass that visits no new word')
    Made(8).branches(0, at(2), at(5)).illegal(1).returns(3, 5, 7).jumps(4, at(2)).walk(16, 0, 8).keep('a pass that visits no new word, with an end behind')
    Made(8).branches(0, at(3), at(2)).illegal(2).returns(5, 7).walk(0).walk(0, 0, 8).keep('an illegal word before a block that was walked, and a pass')


# ---- passes

def passes():
    Made(8).branches(0, at(4)).returns(3, 7).walk(0).keep('words between blocks')
    Made(8).branches(0, at(4)).jumps(2, at(6)).returns(3, 7).walk(0).keep('words between blocks that jump')
    Made(12).branches(0, at(8)).returns(2, 4, 6, 11).walk(0).keep('three stretches between blocks')
    Made(8).branches(0, at(4)).illegal(2, 0).returns(7).walk(0).keep('a zero word between blocks')
    Made(8).branches(0, at(4)).illegal(1, 0).returns(7).walk(0).walk(0, 0, 8).keep('a zero word right behind a block')
    Made(8).branches(0, at(4)).jumps(2, at(1)).returns(7).walk(0).keep('words between blocks that never end')
    Made(10).jumps(0, at(6)).branches(1, at(2), at(8)).returns(5, 7, 9).walk(0).walk(0, 0, 10).keep('a possible block before a gap')
    Made(10).branches(0, at(2)).jumps(2, at(5)).returns(3, 7, 9).walk(0).walk(0, 0, 9).keep('a possible block that is walked in a pass')
    for end in range(1, 13):
        m = Made(12).returns(2, 5, 9, 11).all(6, [NOP] * 2).put(10, NOP)
        m.walk(0, 0, end).walk(0, 3, max(3, end)).keep('four parts, an end at %d' % end)
    Made(8).returns(2, 7).all(3, [NOP, NOP]).illegal(5, 0).walk(0).walk(0, 0, 8).walk(0, 0, 5).walk(0, 0, 6).keep('a zero word before the end')
    Made(8).returns(2, 7).jumps(3, at(1)).jumps(4, at(6)).walk(0, 0, 4).walk(0, 0, 5).walk(0, 0, 8).walk(0).keep('jumps before the end')
    Made(8).jumps(2, at(5)).returns(4, 7).walk(0, 0, 3).walk(0, 0, 5).walk(0, 0, 6).walk(0, 0, 8).keep('a jump over the end')
    # The word 4 is stepped behind the illegal word, where the block that it is in ends, since the word 5 was visited. The mark of 4 in
    # the last part then leaves the words from 5 on in no block.
    m = Made(14).branches(0, at(4), at(1)).illegal(3).returns(11).branches(12, at(4), at(13)).jumps(13, at(5))
    m.walk(0).walk(11, 0, 14).keep('a jump to a word that was walked and lies in no block')
    Made(8, [0]).branches(2, there(0)).returns(7).walk(11, 0, 8).walk(11, 0, 3).keep('an end, and an open block in data')
    Made(8, None, before=(Section(DATA, DATA_AT, 4),)).branches(2, there(0)).returns(7).walk(11, 0, 8).keep('an end, and an open block in data before code')


# ---- jump tables

def tables():
    def with_table(words, size=0, n=12, **how):
        return Made(n, words, **how).by_table(1, there(0), size).returns(3, 5, 7, 9, 11)
    some = [at(4), at(2), at(6), at(4)]
    for size in (0, 4, 8, 16, 20):
        with_table(some, size).walk(0).walk(0, 0, 12).walk(0, 0, 5).walk(0, 1).keep('a table of %d bytes' % size)
        with_table(some, size, kind=RODATA).walk(0).keep('a read-only table of %d bytes' % size)
        with_table(some, size, kind=BSS).walk(0).keep('a table of %d bytes in bss' % size)
        Made(12).by_table(1, at(2), size).returns(3, 11).walk(0).keep('a table of %d bytes in code' % size)
    with_table([0] * 4, 16).walk(0).walk(0, 0, 12).keep('nothing but zero words')
    with_table([at(6), at(8), at(10)], 12).walk(0).walk(0, 0, 12).keep('a table of functions')
    with_table([at(6), at(1), at(10)], 12).walk(0).keep('a table of functions and of the word itself')
    with_table([at(6), at(0), at(10)], 12).walk(0).keep('a table of functions and of the start')
    with_table([at(6), at(2)], 8).walk(0).keep('a table of a function and of the next word')
    with_table([at(3)], 4).walk(0).keep('a table of the word behind the next')
    with_table([there(0), at(2)], 8).walk(11).keep('a table of data and of the next word')
    with_table([there(0), there(1)], 8).walk(0).keep('a table of data alone')
    with_table([at(2), at(4)], 8).branches(0, at(1), (TO_ADDRESS + LINK, at(4))).walk(0).keep('a table of a called function')
    with_table([at(2), at(0)], 8).branches(0, at(1), (TO_ADDRESS + LINK, at(0))).walk(0).keep('a table of the start, which is called')
    with_table([at(2), at(4)], 8).known((4, 0)).walk(0).keep('a table of a known function')
    with_table([at(2), at(5)], 8).known((4, 6)).walk(0).keep('a table into a known function')
    with_table([at(2), at(5)], 8).known((0, 12)).walk(0).walk(0, 1).keep('a table into the walked function, which is known')
    for size, known in ((8, 1), (8, 0), (0, 1), (4, 1)):
        with_table(some, 0).symbol((there(0), size, known)).walk(0).walk(0, 0, 12).keep('a symbol of %d bytes for a table without a size, known %d' % (size, known))
        with_table(some, 16).symbol((there(0), size, known)).walk(0).keep('a symbol of %d bytes for a table of 16, known %d' % (size, known))
    Made(12, some).by_table(1, there(0), 8).by_table(3, there(0), 16).returns(4, 5, 6, 7).branches(0, at(1), at(3)).walk(0).keep('a table of two lengths')
    Made(12, some).by_table(1, there(0), 16).by_table(3, there(0), 8).returns(4, 5, 6, 7).branches(0, at(1), at(3)).walk(0).keep('a table of two lengths, the other way round')
    Made(12, some).by_table(1, there(0), 8).by_table(4, there(1), 12).returns(2, 6, 7).walk(0).keep('two tables that overlap')
    Made(12, [at(2), at(3)], before=(Section(DATA, 0x400, 16).put(0, [at(2), at(4)]),)).by_table(1, 0x400, 8).by_table(2, there(0), 8).returns(3, 4).walk(0).keep('tables in sections before and behind code')
    for i in range(1, 9):
        words = [at(2), at(3), at(5), at(8), at(9)]
        Made(12, words).by_table(i, there(0)).returns(9, 10, 11).walk(0).walk(0, 0, 9).walk(0, 1).keep('no size, named by the word %d' % i)


# ---- lists that are full, and one more

def ends_here(m, first, past):
    for i in range(first, past):
        m.returns(i)
    return m


def full_blocks():
    def chain(n, more=4):
        """n blocks, each of one word, but the last."""
        m = Made(n + more)
        for i in range(n - 1):
            m.branches(i, at(i + 1))
        return m
    for n, number in ((255, 0), (256, 0), (257, 4), (300, 4)):
        chain(n).returns(n + 2).walk(number).keep('%d blocks' % n)
        chain(n).walk(16 if n <= 256 else 4).keep('%d blocks, and past the last word' % n)
        chain(n).illegal(n, 0).walk(0 if n <= 256 else 4).keep('%d blocks and no function' % n)
    for n, number in ((255, 0), (256, 4)):
        chain(n).branches(n + 2, at(n + 1)).walk(number).keep('%d blocks and a cut' % n)
        chain(n).jumps(n + 2, at(n)).walk(number).keep('%d blocks and a jump that cuts' % n)
        chain(n).returns(n, n + 3).walk(number, 0, n + 3).walk(0).keep('%d blocks and a part up to the end' % n)
        chain(n).jumps(n, at(n + 2)).returns(n + 1, n + 3).walk(0).walk(number, 0, n + 4 if n == 256 else n + 1).keep('%d blocks and a jump inside the end' % n)
        chain(n).branches(n + 2, at(n - 1)).walk(0).keep('%d blocks and a way to the last' % n)
        chain(n).branches(n + 2, at(0)).walk(0).keep('%d blocks and a way to the first' % n)
        m = chain(n, 6).all(n, [STWU, MFLR]).unknown(n + 2).returns(n + 3)
        m.walk(number).keep('%d blocks and an unknown jump' % n)
    for n, number in ((253, 0), (254, 4), (255, 4)):
        chain(n).branches(n, at(n + 3)).returns(n + 1, n + 2, n + 3).walk(number).keep('%d blocks, a further one and two between' % n)
    chain(256).put(100, BEQ, LIST, 0, TO_ADDRESS, at(101), TO_ADDRESS, at(255)).returns(258).walk(0).keep('256 blocks and two ways to one')


def full_ways():
    entries = [at(i) for i in range(1, 256)]

    def four_tables(more, n=300):
        """The words 0 to 3 lead to the 255 words behind the first: 1,020 ways."""
        m = Made(n, entries)
        for i in range(4):
            m.by_table(i, there(0), 1020)
        ends_here(m, 4, 256)
        return more(m)
    for name, more, number in (
            ('1,024 by two branches', lambda m: m.branches(9, at(10), at(11)).branches(200, at(1), at(0)), 0),
            ('1,025 by a branch more', lambda m: m.branches(9, at(10), at(11)).branches(200, at(1), at(0)).branches(150, at(151)), 4),
            ('1,024 by jumps', lambda m: m.jumps(10, at(10)).jumps(20, at(30)).jumps(255, at(4)).jumps(99, at(98)), 0),
            ('1,025 by jumps', lambda m: m.jumps(10, at(10)).jumps(20, at(30)).jumps(255, at(4)).jumps(99, at(98)).jumps(4, at(4)), 4),
            ('1,024 by words that go on', lambda m: m.put(10, PLAIN, GO_ON).put(20, PLAIN, GO_ON).put(30, PLAIN, GO_ON).put(254, PLAIN, GO_ON), 0),
            ('1,025 by words that go on', lambda m: m.put(10, PLAIN, GO_ON).put(20, PLAIN, GO_ON).put(30, PLAIN, GO_ON).put(254, PLAIN, GO_ON).put(4, PLAIN, GO_ON), 4),
            ('1,025 by two branches of two', lambda m: m.branches(9, at(10), at(11)).branches(200, at(1), at(0)).branches(4, at(5), at(6)), 4),
            ('1,024, the last by a jump that leaves', lambda m: m.branches(9, at(10), at(11)).jumps(5, at(290)).jumps(4, there(0)), 0),
            ('1,025, the last by a jump that leaves', lambda m: m.branches(9, at(10), at(11)).jumps(5, at(290)).jumps(6, at(280)).jumps(4, there(0)), 4)):
        four_tables(more).walk(number).keep(name)
    # behind an illegal word, words are stepped again: their ways are put in the place of the earlier ones
    again = four_tables(lambda m: m.branches(9, at(10), at(11)).branches(200, at(1), at(0)).illegal(8).illegal(199))
    again.walk(0).keep('1,024 ways, some of them twice')
    five = Made(300, entries)
    for i in range(5):
        five.by_table(i, there(0), 1020)
    ends_here(five, 5, 256).walk(4).keep('1,275 ways by tables')


def full_references():
    def callers(n, more, last=(), **how):
        """A table to n words that call two functions each, far behind or in data, and `more` functions by others."""
        m = Made(n + 12, [at(1 + i) for i in range(n)] + [0] * 600, **how).by_table(0, there(0), 4 * n)
        for i in range(n):
            m.branches(1 + i, (TO_ADDRESS + LINK, there(2 * i)), (TO_ADDRESS + LINK, there(2 * i + 1)), word=0x48000001)
        for j, row in enumerate(last):
            m.put(1 + j, 0x48000001, *row)
        return m
    call = lambda *to: (LIST, 0) + tuple(n for a in to for n in (TO_ADDRESS + LINK, a))
    callers(127, 0).walk(0).keep('254 references')
    callers(128, 0).walk(0).keep('256 references')
    callers(129, 0).walk(4).keep('258 references')
    callers(129, 0, [call(there(0))]).walk(4).keep('257 references')
    callers(129, 0, [call(there(9), there(10))]).walk(0).keep('256 references and two that are there')
    callers(129, 0, [(JUMP, 0, there(500))]).walk(4).keep('256 references and a jump to data')
    callers(129, 0, [(JUMP, 0, there(7))]).walk(0).keep('256 references and a jump to one that is there')
    zero = callers(129, 0, [(JUMP, 0, at(139))]).put(1, 0)
    zero.walk(4).keep('256 references and a jump from a zero word')
    callers(129, 0, [call(at(135))]).known((135, 0)).walk(4).keep('256 references and a known function')
    callers(129, 0, [(LIST, 0, TO_ADDRESS, at(135))]).known((135, 0)).walk(4).keep('256 references and a branch to a known function')
    callers(129, 0, [(JUMP, 0, at(136))]).known((135, 139)).walk(4).keep('256 references and a jump into a known function')


def full_tables():
    m = Made(260, [at(i) for i in range(1, 256)] + [at(1)] * 256)
    m.by_table(0, there(0), 1020)
    for i in range(1, 256):
        m.by_table(i, there(254 + i), 4)
    m.walk(0).with_room(2 * (256 + 510 + 256)).keep('256 jump tables')
    ends_here(m, 200, 201)
    m.walks, m.numbers = [], []
    m.walk(0).keep('255 jump tables')


def full_possible():
    def jumpers(n):
        """A table to n words that jump to a word of their own each, far behind. The word 1 comes last."""
        m = Made(700, [at(3)] + [at(10 + i) for i in range(n)] + [at(300 + i) for i in range(260)])
        m.branches(0, at(1), at(2)).by_table(2, there(0), 4 * n + 4).returns(1, 3)
        for i in range(n):
            m.jumps(10 + i, at(300 + i))
        return m.returns(*range(300, 700))
    for n, number in ((127, 0), (128, 0), (129, 4), (200, 4)):
        jumpers(n).walk(number).keep('%d possible blocks by jumps' % n)
        m = Made(700, [at(300 + i) for i in range(n)]).by_table(1, there(0), 4 * n).returns(*range(300, 700))
        m.walk(number).keep('%d possible blocks by a table' % n)
        jumpers(n).branches(1, at(305)).walk(number).keep('%d possible blocks, one of them walked' % n)
    jumpers(128).jumps(1, at(600)).walk(4).keep('128 possible blocks and one by a jump')
    jumpers(128).jumps(1, at(310)).walk(0).keep('128 possible blocks and one that is there')
    jumpers(128).branches(1, at(305), at(4)).jumps(4, at(600)).walk(0).keep('128 possible blocks, one walked and another')
    jumpers(128).branches(1, at(305), at(4)).branches(305, at(306)).branches(4, at(5)).jumps(5, at(600)).walk(0).keep('128 possible blocks, two of them walked, and another')
    jumpers(128).by_table(1, there(129), 400).walk(0).keep('128 possible blocks and a table of some of them')
    jumpers(128).by_table(1, there(129), 516).walk(4).keep('128 possible blocks and a table of two more')
    jumpers(129).illegal(1, 0).walk(4).keep('129 possible blocks before no function')
    jumpers(128).illegal(1, 0).walk(0).keep('128 possible blocks before no function')


def full_entries():
    def one(words, n=400, size=None, word=0):
        return Made(n, words).by_table(word, there(0), 4 * len(words) if size is None else size).returns(*range(word + 1, n))
    for n, number in ((255, 0), (256, 0), (257, 4)):
        one([at(i) for i in range(n)]).walk(number).keep('a table of %d words, the start among them' % n)
        one([at(i) for i in range(n)][::-1]).walk(number).keep('a table of %d words downwards' % n)
        one([at(1 + i % 8) for i in range(n)]).walk(number).keep('%d entries, eight different ones' % n)
        one([at(1 + i % 8) for i in range(n)], size=0).walk(0, 0).walk(number, 0, 9).keep('%d entries without a size, eight different ones' % n)
        one([at(1 + i % 8) for i in range(n)] + [0] * 20).walk(number).keep('%d entries and zero words' % n)
        one([0] * 20 + [at(300 + i % 8) for i in range(n)]).walk(number).keep('%d entries, eight possible blocks' % n)
    one([at(i) for i in range(1, 257)]).walk(4).keep('a table of 256 words, the start not among them')
    one([at(i) for i in range(1, 256)]).walk(0).keep('a table of 255 words, the start not among them')
    one([at(i) for i in range(256)] + [NOWHERE]).walk(9).keep('9 before 4 at the entry after 256')
    one([at(i) for i in range(256)] + [at(1) + 2]).walk(10).keep('10 before 4 at the entry after 256')
    one([at(i) for i in range(257)] + [NOWHERE]).walk(4).keep('4 before 9 at the entry after')
    one([at(i) for i in range(256)], size=1022).walk(10).keep('256 entries and a length of 1,022')


def full_all():
    """Nearly everything at once: tables, references, possible blocks."""
    n = 256
    m = Made(900, [at(i) for i in range(1, n)] + [at(1)] * 100 + [0] * 400).by_table(0, there(0), 4 * (n - 1))
    for i in range(1, 80):
        m.by_table(i, there(254 + i), 4)
    for i in range(80, 128):
        m.branches(i, (TO_ADDRESS + LINK, there(2 * i)), (TO_ADDRESS + LINK, there(2 * i + 1)))
    for i in range(128, 250):
        m.jumps(i, at(300 + i))
    m.returns(*range(250, 256))
    m.with_room(2 * (256 + 255 + 79 + 122 + 80) + 96 + 122).keep('blocks, tables, references and possible blocks')


# ---- much code

def much_code():
    n = 65536
    m = Made(n).returns(n - 1)
    m.walk(0).walk(0, n - 1).walk(0, 1).walk(0, 0, n).walk(0, 0, 0).walk(0, n - 1, n).walk(15, 1, n + 1).walk(15, n - 1, n + 4).walk(0, 0, n, 2).walk(4, 0, n, 1)
    m.asks(3, m.key(0), m.key(n + 1)).asks(3, m.key(n)).keep('65,536 words, straight')
    Made(n).walk(16).walk(16, n - 1).keep('65,536 words and no end')
    Made(n).jumps(n - 1, at(0)).walk(0).walk(0, 40000).keep('65,536 words and a jump back')
    far = [31, 32, 33, 63, 64, 2047, 2048, 4095, 32767, 32768, 65503, 65504, 65534]
    m = Made(n).returns(n - 1)
    for i, to in enumerate(far):
        m.branches(2 * i, at(2 * i + 1), at(to))
    m.walk(0).walk(0, 4).walk(0, 33).keep('65,536 words and far branches')
    Made(n).jumps(3, at(n - 1)).returns(n - 1).walk(0, 0, n).walk(0).keep('65,536 words and a far jump')
    m = Made(n).jumps(3, at(n - 1)).branches(n - 1, at(2), at(n // 2)).returns(n // 2)
    m.walk(0, 0, n).walk(0, n // 2).keep('65,536 words, there and back')
    m = Made(n).returns(n - 1)
    for i in range(0, n - 1, 4096):
        m.put(i, STWU).put(i + 100, MFLR)
    m.walk(0).walk(0, 5).keep('65,536 words with scans')
    m = Made(1000).returns(999).put(0, STWU).put(998, MFLR)
    m.walk(0).keep('a scan of a thousand words')


# ---- rooms, starts and ends, known functions

def rooms():
    Made(1).returns(0).with_room(2).keep('room for one block')
    Made(6).branches(0, at(1), at(4)).returns(3, 5).with_room(2 * (3 + 2)).keep('room for a branch')
    Made(6).branches(1, at(2), (TO_ADDRESS + LINK, at(4))).returns(3, 5).with_room(2 * (2 + 1) + 1).keep('room for a call')
    Made(6).jumps(1, at(4)).returns(3, 5).with_room(2 * (1 + 1) + 1).keep('room for a possible block')
    Made(8, [at(2), at(4)]).by_table(1, there(0), 8).returns(2, 3, 4).with_room(2 * (4 + 2 + 1)).keep('room for a table')
    Made(4).illegal(1, 0).with_room(2).keep('room where there is no function')
    Made(4).put(0, 0, ILLEGAL).walk(0, 0, None, 2).walk(4, 0, None, 1).walk(4, 0, None, 0).keep('room for an open block')
    for number, m in ((5, Made(8).all(0, [STWU, MFLR, BLR, STWU, MFLR])), (6, Made(8).all(0, [MTLR, ADDI_R1, MTLR, ADDI_R1])), (7, Made(2, [0]).branches(0, (TO_TABLE, there(0)))),
                      (9, Made(2, [NOWHERE]).by_table(0, there(0), 4)), (10, Made(2, [2]).by_table(0, there(0), 2)), (11, Made(2, [0]).branches(0, there(0))),
                      (15, Made(3).all(0, [STWU, MFLR]).unknown(2)), (16, Made(2))):
        for room in (0, 1, 2, 7):
            m.walk(number, 0, None, room)
        m.keep('fault %d, whatever the room' % number)
    for name, m in (('start', Made(2).returns(1).asks(3, 0, 0, 0).asks(3, 0, 0, 1).asks(3, 0, 0, 9)), ('end', Made(2).returns(1).asks(3, key(0, at(0)), 3, 0).asks(3, key(0, at(0)), 3, 9)),
                    ('known functions', Made(2).returns(1).known((1, 0), (1, 0)).walk(3, 0, None, 0).walk(3, 0, None, 9))):
        m.keep('bad %s, whatever the room' % name)


def sections_before(n):
    return tuple(Section((DATA, RODATA, BSS)[i % 3], 0x100 + 64 * i, 16) for i in range(n))


def starts_and_ends():
    for before in (0, 1, 3, 6):
        m = Made(8, [0] * 4, before=sections_before(before)).returns(3, 7)
        own = before + 1 << 32
        for i in (0, 2, 4, 7):
            m.walk(0, i)
        for low in (at(0) + 1, at(0) + 2, at(0) + 3, at(7) + 2, at(8), at(-1), 0, 4, there(0), 0xFFFFFFFC, 0xFFFFFFFF, 0x100):
            m.asks(3, own | low)
        for high in sorted({0, 1, 2, before, before + 2, before + 3, 8, 9, 0x100, 0x80000000, 0xFFFFFFFF} - {before + 1}):
            m.asks(3, high << 32 | at(0))
        m.asks(3, before + 2 << 32 | there(0)).asks(3, 0).asks(3, 1).asks(3, (1 << 64) - 1)
        m.keep('starts, code the section %d' % before)

        m = Made(8, [0] * 4, before=sections_before(before)).returns(3, 7)
        for end in range(2, 9):
            m.walk(0, 2, end)
        for end in (9, 10, 1000, 2 + 65536):
            m.walk(15, 2, end)
        for low in (at(1), at(0), at(2) + 1, at(2) + 2, at(2) + 3, at(4) + 2, at(2) + 262145, at(2) + 262146, at(2) + 262148, at(2) + 262152, 4, 1, 0xFFFFFFFC, 0xFFFFFFFF, 0):
            m.asks(3, m.key(2), own | low)
        for high in sorted({0, 1, 2, before, before + 2, before + 3, 9, 0x80000000, 0xFFFFFFFF} - {before + 1}):
            m.asks(3, m.key(2), high << 32 | at(4))
        m.asks(3, m.key(2), 1).asks(3, m.key(2), 4).asks(3, m.key(2), (1 << 64) - 1).asks(3, m.key(2), (1 << 64) - 4)
        m.keep('ends, code the section %d' % before)
    high = Made(4).returns(3)
    lent = high.lend()
    lent.sections[1] = 0xF0000000 - 16
    CASES.append((GROUP[0], 'code up to 0xF0000000', Asked(lent, [], [(key(0, 0xEFFFFFF0), 0, MOST), (key(0, 0xEFFFFFF0), key(0, 0xF0000000), MOST), (key(0, 0xEFFFFFFC), key(0, 0xF0000000), 2),
                  (key(0, 0xEFFFFFF4), key(0, 0xF003FFF4), 2), (key(0, 0xEFFFFFF4), key(0, 0xF003FFF8), 2), (key(0, 0xF0000000), 0, 2)]), [0, 0, 0, 15, 3, 3]))
    lent = Made(4).returns(3).lend()
    lent.sections[1] = 0x100
    CASES.append((GROUP[0], 'code from 0x100 on', Asked(lent, [], [(key(0, 0x100), 0, MOST), (key(0, 0x104), key(0, 0x100), MOST), (key(0, 0xFC), 0, MOST), (key(0, 0x10C), key(0, 0x10C), MOST)]), [0, 3, 3, 0]))


def known_functions():
    def two():
        """A function that calls, jumps and goes on to others."""
        return Made(16).branches(2, at(3), (TO_ADDRESS + LINK, at(8))).branches(4, at(5), at(9)).jumps(6, at(12)).returns(7, 8, 9, 11, 13, 15)
    for name, rows in (
            ('none', ()), ('the start', ((0, 0),)), ('the start with its end', ((0, 7),)), ('the start with an end at itself', ((0, key(0, at(0))),)),
            ('what is called', ((8, 0),)), ('what is called, with its end', ((8, 9),)), ('a function around what is called', ((7, 10),)), ('one below, without an end', ((7, 0),)),
            ('what is jumped to', ((12, 0),)), ('one around what is jumped to', ((11, 14),)), ('where a branch goes', ((9, 0),)), ('a word of the walk', ((3, 0),)),
            ('one around a word of the walk', ((1, 4),)), ('one that ends where the walk goes on', ((1, 2),)), ('the next word', ((1, 0),)), ('the last word of a block', ((6, 0),)),
            ('several', ((0, 7), (8, 9), (9, 12), (12, 0))), ('several, all without an end', ((0, 0), (8, 0), (9, 0), (12, 0))), ('one that covers all behind it', ((7, 16), (10, 11))),
            ('ends below their entries', ((5, 3), (8, 2), (12, 12)))):
        two().known(*rows).walk(0).walk(0, 0, 8).walk(0, 3).walk(0, 8).walk(0, 9).keep('known: ' + name)
    two().known((0, 16)).walk(8).walk(8, 0, 8).walk(0, 0, 13).walk(0, 3).walk(0, 8).keep('known: the start with an end too far')
    # keys of all kinds, which have to ascend and nothing else
    every = [(5, 3), (0xFFFFFFFF, 0), (key(0, 0), 1), (key(0, at(0)), 0), (key(0, at(3) + 1), key(0, at(5))), (key(0, at(8)), key(0, 3)), (key(0, at(8) + 2), key(1, 0)), (key(1, 0), key(9, 0)),
             (key(9, 9), (1 << 64) - 1), ((1 << 64) - 1, (1 << 64) - 1)]
    m = two()
    m.known_list = [n for row in every for n in row]
    for i in (0, 3, 8, 9, 12):
        m.walk(0, i)
    m.keep('known: keys of all kinds')
    m = two()
    m.known_list = [5, key(0, at(20))]
    m.walk(0).walk(0, 8).keep('known: one without a section, around all')
    m = two()
    m.known_list = [key(4, 0x5000), key(5, 0)]
    m.walk(0).keep('known: one in a section that is not there')
    m = Made(4, [0] * 4).branches(0, at(1), (TO_ADDRESS + LINK, there(2))).returns(3)
    m.known_list = [key(1, there(1)), key(1, there(3))]
    m.walk(0).keep('known: one in data around what is called')
    for name, keys, number in (
            ('ascend', [8, 12], 0), ('equal', [8, 8], 3), ('descend', [12, 8], 3), ('the last two equal', [3, 8, 8], 3), ('the last two descend', [3, 12, 8], 3), ('the first two descend', [8, 3, 12], 3),
            ('the first and the last equal', [8, 12, 8], 3)):
        two().known(*((i, 0) for i in keys)).walk(number, 0).walk(number, 8).keep('known: ' + name)
    m = two()
    m.known_list = [m.key(8), m.key(9), m.key(8) + (1 << 32)]
    m.walk(3).keep('known: three numbers')
    m = two()
    m.known_list = [m.key(8)]
    m.walk(3).keep('known: one number')
    m = two()
    m.known_list = [key(1, at(3)), 0, key(0, at(8)), 0]
    m.walk(3).keep('known: descend by section')
    m = two()
    m.known_list = [key(0, at(8)), 0, key(1, at(3)), 0]
    m.walk(0).keep('known: ascend by section')

    def many(n, odd=False):
        m = Made(1100).returns(3, *range(50, 1100)).branches(0, at(1), (TO_ADDRESS + LINK, at(60))).branches(1, at(2), at(1050)).jumps(2, at(1073))
        for i in range(n):
            m.known((50 + i, (51 + i) if i % 3 else 0))
        if odd:
            m.known_list.append(m.key(1099))
        return m
    for n, number in ((1022, 0), (1023, 0), (1024, 0), (1025, 3), (1026, 3)):
        many(n).walk(number).walk(number, 2).walk(number, 1049).keep('%d known functions' % n)
    many(1024, True).walk(3).keep('1,024 known functions and a number more')
    m = many(1024)
    m.known_list[-2] = m.known_list[-4]
    m.walk(3).keep('1,024 known functions, the last two equal')
    m = many(1024)
    m.known_list[:2] = [m.key(1098), 0]
    m.walk(3).keep('1,024 known functions, the first above the second')
    Made(4).returns(3).known((0, 0)).walk(0, 0).walk(0, 1).keep('known: the start alone')
    Made(4).returns(3).known((0, 4)).walk(0, 0).walk(0, 1).walk(0, 3).keep('known: one around the start')


# ---- images that break a rule, and images of the program `checked` that break none

def broken_images():
    broken, passing, _ = images.all_images()
    small = [(name, l, rule) for name, l, rule in broken if len('\n'.join(Asked(l).lines())) < 1500]
    seen = collections.Counter()
    for name, l, rule in small:
        seen[rule] += 1
        if seen[rule] > 2:
            continue
        number = {'sections': 1, 'outcomes': 2}.get(rule.split(':')[0], 3)
        bases = [s[1] for s in zip(*[iter(l.sections)] * 4) if s[0] == CODE] or [0x1000]
        walks = [(key(0, bases[0]), 0, MOST), (key(9, 3), 0, 5)]
        known = [] if seen[rule] == 1 else [key(0, 8), 0, key(0, 4), 0]
        CASES.append((GROUP[0], rule + '; ' + name, Asked(l, known, walks), [number] * 2))


def checked_images():
    for name, l, _ in images.all_images()[1] if not images.PASSING else images.PASSING:
        if not name.startswith('ordinary'):
            continue
        sections = list(zip(*[iter(l.sections)] * 4))
        code = next(i for i, s in enumerate(sections) if s[0] == CODE)
        base, size = sections[code][1:3]
        walks = [(key(code, a), 0 if a % 8 else key(code, min(a + 32, base + size)), MOST) for a in range(base, base + size, 12)]
        CASES.append((GROUP[0], 'checked: ' + name, Asked(l, [], walks), [None] * len(walks)))


# ---- drawn images

# Of the first 6,000: the smallest that meet each fault, some with known functions, some whose lists are all used, three of many words.
DRAWN = (11, 22, 40, 41, 51, 59, 63, 101, 118, 232, 233, 243, 305, 341, 359, 374, 375, 416, 420, 489, 512, 539, 540, 546, 558, 585, 662, 694, 752, 764, 765, 769, 787, 832,
         896, 920, 941, 959, 1004, 1018, 1021, 1163, 1231, 1324, 1380, 1433, 1555, 1657, 1698, 1792, 1794, 1850, 2014, 2082, 2173, 2274, 2294, 2492, 2510, 2722, 2736,
         2818, 2962, 3077, 3158, 3176, 3287, 3346, 3363, 3377, 3461, 3638, 3660, 3815, 4029, 4039, 4204, 4275, 4286, 4430, 4464, 4467, 4532, 4563, 4713, 4757, 4887,
         4896, 4944, 4963, 5056, 5108, 5216, 5227, 5649)


def drawn_images():
    for k in DRAWN:
        asked = drawn(1, k)
        CASES.append((GROUP[0], '1/%d' % k, asked, [None] * len(asked.walks)))


GROUPS = [
    ('one word after the other', plain), ('sequences and flags', sequences), ('5', fault_5), ('6', fault_6), ('7', fault_7), ('8', fault_8), ('9 and 10', fault_9_and_10),
    ('11', fault_11), ('15', fault_15), ('16', fault_16), ('passes', passes), ('jump tables', tables), ('256 blocks', full_blocks), ('1,024 ways on', full_ways),
    ('256 references', full_references), ('256 jump tables', full_tables), ('128 possible blocks', full_possible), ('256 entries of a table', full_entries), ('all lists', full_all),
    ('much code', much_code), ('rooms', rooms), ('starts and ends', starts_and_ends), ('known functions', known_functions), ('images that break a rule', broken_images),
    ('images of `checked`', checked_images), ('drawn images', drawn_images)]


def all_cases():
    if not CASES:
        for GROUP[0], make in GROUPS:
            make()
        double = [n for n, c in collections.Counter((g, n) for g, n, _, _ in CASES).items() if c > 1]
        assert not double, double
    return CASES


def main():
    options = Parser(__doc__)
    options.add_argument('--count', action='store_true')
    o = options.parse_args()
    cases = all_cases()
    if o.count:
        count = collections.Counter()
        for group, _, asked, _ in cases:
            count[group, 'images'] += 1
            count[group, 'walks'] += len(asked.walks)
        for group, _ in GROUPS:
            print('%4d images, %4d walks: %s' % (count[group, 'images'], count[group, 'walks'], group))
        print('%4d images, %4d walks' % (len(cases), sum(len(asked.walks) for _, _, asked, _ in cases)))
        return
    for group, name, asked, _ in cases:
        print('\n'.join(['# %s; %s' % (group, name), *asked.lines(), '=']))


if __name__ == '__main__':
    main()
