#!/usr/bin/env python3
"""Images drawn at random, with walks to make in them. All pass checks 1 to 3, and image K of a seed depends on the two only.

    drawn.py SEED COUNT [FIRST]    prints images FIRST to FIRST + COUNT - 1 in the form that the program `walked` reads
"""
import random
import sys

sys.dont_write_bytecode = True
from asked import MOST, Asked, key
from lists import (BSS, CODE, DATA, ELSEWHERE, GO_ON, ILLEGAL, JUMP, LINK, LIST, RETURN, RODATA, TABLE, TO_ADDRESS, TO_TABLE, UNKNOWN,
                   Image, Section)
from needs import Parser

BLR, NOP, RFI, BCTR, BCTRL, BEQ = 0x4E800020, 0x60000000, 0x4C000064, 0x4E800420, 0x4E800421, 0x41820000
STWU, STWUX, MFLR, STW_R0 = 0x9421FFF0, 0x7C21196E, 0x7C0802A6, 0x90010014
MTLR, ADDI_R1, OR_FROM_R1, OR_TO_R1 = 0x7C0803A6, 0x38210010, 0x7C2B0B78, 0x7D615B78
CONDITIONAL_BLR = (0x4D820020, 0x4D800020, 0x4C820020)
LOADS_R1 = (0x80230000, 0x80210000, 0x80200004, 0x803F0000)
NO_INSTRUCTION = (0x00000001, 0xFFFFFFFF, 0x04000000)

PROLOGUES = ((STWU, MFLR, STW_R0), (MFLR, STWU, STW_R0), (MFLR, STW_R0, STWU), (STWUX, MFLR, STW_R0), (STWU, MFLR), (MFLR, None, STW_R0),
             (STWU, None, MFLR, STW_R0), (MFLR, None, STWU))
EPILOGUES = ((MTLR, ADDI_R1), (MTLR, ADDI_R1), (MTLR, OR_FROM_R1), (OR_FROM_R1, MTLR), (MTLR, None, ADDI_R1), (MTLR, None, OR_FROM_R1),
             (OR_FROM_R1, None, MTLR), (ADDI_R1, MTLR), (MTLR, OR_TO_R1))

# Ordinary words; few name r0 or r1.
PLAIN = (0x38600000, 0x38630001, 0x7C632214, 0x80830008, 0x90830008, 0x7C852378, 0x54631838, 0x7C6428AE, 0xC0230000, 0xFC21082A, 0x2C030000,
         0x7C0903A6, 0x7C641B78, 0x4CC63182)
# Words at the borders of the sequence tests: some name r0 or r1, some only look as if they did, some are branches.
BORDER = (NOP, 0x38000000, 0x80010014, 0x80000004, 0x7C0002A6, 0x7C0902A6, 0x7C000026, 0x7C0004AC, 0x7C00182C, 0x7C6018A8, 0x10000000,
          0x10401420, 0xE0010000, 0x4C00012C, 0x44000002, 0x7C001808, 0x7C000120, 0x7C6000A6, 0x7C0004A6, 0xBC010000, 0xBFC10008, 0x7C6104AA,
          0xD0010010, 0xD0000010, 0xCC010010, 0xFC00008E, 0x50600000, 0x50030000, 0x1C000003, 0x28000001, 0x2C000001, 0x3C000001, 0x3C600001,
          0x64030000, 0x70030001, 0x7C000034, 0x7C031E70, 0x84600004, 0x84610004, 0x7C60006E, 0x7C0000D0, 0x7C6300D0, 0x7C60186E, 0x40820008,
          0x4C000020, 0x4D820020, 0x4D800420, 0x4BFFFFF8, 0x48000001, 0x7C2B0B79, 0x7D615B79, 0x7C0102A6, 0x7C6802A6, 0x7C6803A6, 0x38210000,
          0x38220010, 0x38410010, 0x94210000, 0x9401FFF0, 0x9420FFF0, 0x90010004, 0x90000004, 0x90610014, 0x80210014, 0x803F0000, 0x80610000,
          RFI, 0x4D820021, 0x4E800021, 0x4C820020, *NO_INSTRUCTION, 0x7C00007C)


def any_word(r):
    """A word of any opcode, with r0 and r1 in its fields often."""
    fields = sum(r.choice((0, 1, 3, 3, 4, 11, 31)) << shift for shift in (21, 16, 11))
    primary = r.choice((19, 31, 31, 31, 31, r.randrange(64)))
    return primary << 26 | fields | r.getrandbits(11)


def filler(r):
    x = r.random()
    return r.choice(PLAIN) if x < 0.8 else r.choice(BORDER) if x < 0.9 else any_word(r)


class Drawn:
    """An image under way: the code section's words, outcomes and marks, the words of the others, and functions as (first word, words)."""

    def __init__(self, r, n, others=(1, 2, 4, 8, 16, 16, 24, 40, 64)):
        self.r = r
        kinds = [r.choice((DATA, RODATA, BSS)) for _ in range(r.choices((0, 1, 2, 3, 7), (15, 40, 28, 15, 2))[0])]
        if kinds and r.random() < 0.85:
            kinds[r.randrange(len(kinds))] = r.choice((DATA, RODATA))
        self.code = r.choice((0, r.randint(0, len(kinds))))
        kinds.insert(self.code, CODE)
        self.n, self.kinds = n, kinds
        self.lay_out([n if k == CODE else r.choice(others) for k in kinds])
        self.words = [0] * n
        self.outcomes = [(ILLEGAL,)] * n
        self.marks = [0] * n
        self.data = {i: [0] * self.sizes[i] for i, k in enumerate(kinds) if k in (DATA, RODATA)}
        self.used = dict.fromkeys(self.data, 0)
        self.functions, self.tables, self.starts = [], [], []

    def lay_out(self, sizes):
        r, self.sizes = self.r, sizes
        order = list(range(len(sizes)))
        if r.random() < 0.5:
            r.shuffle(order)
        at = r.choice((0x100, 0x1000, 0x4000, 0x80003000, 0x80003100))
        gaps = r.choice(((0,), (0, 4, 16), (0x100, 0x1000)))
        if r.random() < 0.02:
            at, gaps = 0xF0000000 - 4 * sum(sizes), (0,)
        self.bases = [0] * len(sizes)
        for i in order:
            self.bases[i] = at
            at += 4 * sizes[i] + r.choice(gaps)

    # ---- addresses

    def at(self, i):
        return self.bases[self.code] + 4 * i

    def any_address(self):
        """Mostly in code."""
        r = self.r
        if len(self.kinds) > 1 and r.random() < 0.12:
            i = r.choice([i for i in range(len(self.kinds)) if i != self.code])
            return self.bases[i] + 4 * r.randrange(self.sizes[i])
        return self.at(r.randrange(self.n))

    def near(self, i):
        return self.at(min(self.n - 1, max(0, i + self.r.randint(-8, 12))))

    def callee(self):
        return self.at(self.r.choice(self.functions)[0]) if self.functions and self.r.random() < 0.9 else self.any_address()

    # ---- words

    def put(self, i, word, outcome=(GO_ON,), mark=0):
        if 0 <= i < self.n:
            self.words[i], self.outcomes[i], self.marks[i] = word & 0xFFFFFFFF, outcome, mark

    def branch(self, i, to, link=0):
        return 0x48000000 | to - self.at(i) & 0x03FFFFFC | link

    def table(self, low, high, wild):
        """Entries put down in a section; the outcome that names them, or none where there is no room."""
        r = self.r
        m = r.choice((1, 2, 2, 3, 4, 5, 8, 12))
        entries = [self.at(min(self.n - 1, r.randint(low, max(low, high - 1)))) for _ in range(m)]
        if r.random() < wild:
            for _ in range(r.choice((1, 1, 2))):
                entries[r.randrange(m)] = r.choice((0, 0, 1, 0xF0000000, 0x90, self.any_address(), self.any_address() + 2, self.any_address()))
        if r.random() < 0.2:
            entries.insert(r.randrange(m + 1), 0)
        m = len(entries)
        fit = [i for i in self.data if self.used[i] + m <= self.sizes[i]]
        if not fit:
            return None
        i = r.choice(fit)
        at = self.used[i]
        self.data[i][at:at + m] = entries
        self.used[i] = at + m + (r.randint(0, 2) if r.random() < 0.3 else 0)
        a = self.bases[i] + 4 * at
        self.tables.append((a, m))
        size = r.choice((0, 0, 4 * m, 4 * m, 4 * m, 4 * m - 4))
        if r.random() < wild * 0.3:
            size = r.choice((4 * m + 4, 4 * m - 1, 4 * m + 2, 3, 65536, 1))
        return (TABLE, a, size)

    # ---- a function

    def frame(self, at, n):
        """A prologue and, mostly, an epilogue; the words between them."""
        r = self.r
        low, high = at, at + n - 1
        form = r.choice(PROLOGUES)
        for j, w in enumerate(form):
            self.put(at + j, any_word(r) if w is None else w)
        low += len(form)
        if n >= len(form) + 3 and r.random() < 0.85:
            form = r.choice(EPILOGUES)
            high -= len(form)
            for j, w in enumerate(form):
                self.put(high + j, any_word(r) if w is None else w)
        return low, high

    def inner(self, i, low, high, end, wild, frame):
        """A word that leads elsewhere, now and then."""
        r, x = self.r, self.r.random()
        following = i + 1 < self.n
        later = self.at(r.randint(i + 1, max(i + 1, min(end, self.n) - 1))) if following else self.at(i)
        if x < 0.10 and following:
            to = r.choice((self.at(r.randint(low, max(low, high))), later, later))
            ways = [(TO_ADDRESS, self.at(i + 1)), (TO_ADDRESS, to)]
            self.put(i, BEQ | to - self.at(i) & 0xFFFC, (LIST, ways[::-1] if r.random() < 0.1 else ways))
        elif x < 0.15 and following:
            to = self.callee()
            self.put(i, self.branch(i, to, 1), (LIST, [(TO_ADDRESS, self.at(i + 1)), (TO_ADDRESS + LINK, to)]))
        elif x < 0.17 and following:
            self.put(i, r.choice(CONDITIONAL_BLR), (LIST, [(TO_ADDRESS, self.at(i + 1)), (ELSEWHERE, 0)]))
        elif x < 0.20:
            to = later if r.random() < 0.8 else self.near(i)
            self.put(i, self.branch(i, to), (JUMP, to))
        elif x < 0.21 and (not frame or r.random() < 0.2):
            self.put(i, BLR, (RETURN,))
        elif x < 0.245 and (t := self.table(low, high, wild)):
            self.put(i, BCTR, t)
        elif x < 0.25:
            self.put(i, r.choice(NO_INSTRUCTION), (ILLEGAL,))
        elif x < 0.26:
            self.marks[i] = 1
        elif x < 0.27 and following:
            self.put(i, BCTRL, (LIST, [(TO_ADDRESS, self.at(i + 1)), (ELSEWHERE + LINK, 0)]))
        elif x < 0.275:
            self.put(i, BCTR, (UNKNOWN,))

    def last(self, at, end, wild):
        """How a function ends."""
        r, i, x = self.r, end - 1, self.r.random()
        if x < 0.66:
            self.put(i, BLR, (RETURN,))
        elif x < 0.83:
            to = self.callee()
            self.put(i, self.branch(i, to), (JUMP, to))
        elif x < 0.87:
            self.put(i, RFI, (UNKNOWN,))
        elif x < 0.90:
            self.put(i, BCTR, (UNKNOWN,))
        elif x < 0.95:
            self.put(i, BCTR, self.table(at, end, wild) or (UNKNOWN,))
        elif x < 0.97:
            self.put(i, self.branch(i, self.at(i)), (JUMP, self.at(i)))
        # else it goes on

    def function(self, at, n, wild):
        r, end = self.r, at + n
        frame = n >= 6 and r.random() < 0.55
        for i in range(at, end):
            self.put(i, filler(r))
        low, high = self.frame(at, n) if frame else (at, end - 1)
        if not frame and r.random() < 0.06:
            self.put(at, r.choice(LOADS_R1))
        elif not frame and n >= 3 and r.random() < 0.04:
            self.put(end - 3, MTLR)
            self.put(end - 2, ADDI_R1)
        for i in range(low, high):
            self.inner(i, low, high, end, wild, frame)
        if r.random() < 0.05:
            self.marks[at] = 1
        if frame and high - low > 4 and r.random() < 0.04:
            i = r.randrange(low, high - 1)
            for j, w in enumerate(r.choice(((MTLR, ADDI_R1), (STWU, MFLR)))):
                self.put(i + j, w)
        self.last(at, end, wild)

    def code_of_functions(self, wild):
        r, i = self.r, 0
        while i < self.n:
            n = min(r.choice((1, 1, 2, 3, 4, 6, 8, 10, 12, 16, 24, 40, 64)), self.n - i)
            self.functions.append((i, n))
            i += n + (r.choice((1, 1, 2, 3, 7)) if r.random() < 0.2 else 0)
        for at, n in self.functions:
            self.function(at, n, wild)
        if r.random() < 0.15:
            for i in range(self.n):
                if self.words[i] == 0 and r.random() < 0.3:
                    self.put(i, *r.choice(((NOP,), (BLR, (RETURN,)), (0xFFFFFFFF, (ILLEGAL,)))))
        if r.random() < 0.9 and self.outcomes[-1][0] in (GO_ON, ILLEGAL) and self.words[-1]:
            self.put(self.n - 1, BLR, (RETURN,))
        if r.random() < wild:
            for _ in range(r.choice((1, 1, 1, 2, 3))):
                self.noise_at(r.randrange(self.n))
        if r.random() < 0.15 * wild:
            self.jump_back()
        if r.random() < 0.10 * wild:
            self.stall()

    def jump_back(self):
        """A word below a start that jumps to it while a branch to another section stands open (8, 11)."""
        r = self.r
        others = [i for i in range(len(self.kinds)) if i != self.code]
        if self.n < 4 or not others:
            return
        i = r.randrange(3, self.n)
        other = self.bases[r.choice([o for o in others if o > self.code] or others)]
        self.put(i - 3, self.branch(i - 3, self.at(i), 1), (LIST, [(TO_ADDRESS + LINK, self.at(i)), (TO_ADDRESS, self.at(i - 2))]))
        self.put(i - 2, self.branch(i - 2, self.at(i)), (JUMP, self.at(i)))
        self.put(i - 1, BLR, (RETURN,))
        self.put(i, 0x40820000, (LIST, [(TO_ADDRESS, self.at(i - r.choice((2, 3)))), (TO_ADDRESS, other)]))
        self.starts.append(i)

    def stall(self):
        """An illegal word before a block that was walked, and then a jump back to that: a pass that visits no new word (16)."""
        r = self.r
        at = [0]
        for _ in range(6):
            at.append(at[-1] + r.choice((1, 1, 2)))
        if self.n <= at[6]:
            return
        first = r.choice([i for i, _ in self.functions if i + at[6] < self.n] or [r.randrange(self.n - at[6])])
        at = [first + i for i in at]
        for i in range(at[0], at[6]):
            self.put(i, r.choice(PLAIN))
        self.put(at[0], BEQ, (LIST, [(TO_ADDRESS, self.at(at[2])), (TO_ADDRESS, self.at(at[6]))]))
        self.put(at[1], r.choice(NO_INSTRUCTION), (ILLEGAL,))
        for i in (at[3], at[4], at[6]):
            self.put(i, BLR, (RETURN,))
        self.put(at[5], self.branch(at[5], self.at(at[2])), (JUMP, self.at(at[2])))
        self.starts.append(at[0])

    # ---- words without a plan

    def noise_at(self, i):
        r = self.r
        w = r.choice((0, BLR, NOP, STWU, MFLR, STW_R0, MTLR, ADDI_R1, OR_FROM_R1, LOADS_R1[0], filler(r), filler(r), r.choice(BORDER), any_word(r)))
        kind = r.choices(range(7), (40, 6, 6, 14, 14, 6, 14))[0]
        if w in (0, BLR) and r.random() < 0.8:
            kind = RETURN if w else ILLEGAL
        outcome = (kind,)
        if kind == JUMP:
            to = self.near(i) if r.random() < 0.75 else self.any_address()
            w, outcome = self.branch(i, to) if r.random() < 0.6 else w, (JUMP, to)
        elif kind == TABLE:
            t = self.table(max(0, i - 6), min(self.n, i + 8), 0.3)
            outcome = t if t and r.random() < 0.85 else (TABLE, self.any_address(), r.choice((0, 4, 8, 12, 16, 64, 6)))
        elif kind == LIST:
            outcome = (LIST, [self.any_way(i) for _ in range(r.choice((0, 1, 2, 2, 2, 2, 2)))])
        self.put(i, w, outcome, int(r.random() < 0.03))

    def any_way(self, i):
        r, x = self.r, self.r.random()
        if x < 0.04:
            return (TO_TABLE + r.choice((0, LINK)), self.any_address())
        if x < 0.15:
            return (ELSEWHERE + r.choice((0, LINK)), 0)
        if x < 0.5 and i + 1 < self.n:
            return (TO_ADDRESS, self.at(i + 1))
        return (TO_ADDRESS + (LINK if r.random() < 0.3 else 0), self.near(i) if r.random() < 0.8 else self.any_address())

    def code_of_noise(self):
        r = self.r
        for i in range(self.n):
            self.noise_at(i)
            if r.random() < 0.4:
                self.put(i, filler(r))
        self.put(self.n - 1, BLR, (RETURN,))
        if r.random() < 0.1:
            self.noise_at(self.n - 1)
        self.functions = sorted({(r.randrange(self.n), r.randint(1, 8)) for _ in range(3)})

    # ---- one large function, whose lists come near their limits or pass them

    def code_of_one(self):
        """Blocks of a word or some, with ways to each other, calls and jumps; tables that lead to many of them."""
        r = self.r
        some = r.choice((0.1, 0.3, 0.6, 0.9))
        shares = [r.choice((1, 3, 9)) for _ in range(5)]
        for i in range(self.n):
            self.put(i, r.choice(PLAIN))
            following = [(TO_ADDRESS, self.at(i + 1))] if i + 1 < self.n else []
            if r.random() < some:
                to = r.choice((self.at(r.randrange(self.n)), self.any_address()))
                self.put(i, *r.choices(((BEQ, (LIST, following + [(TO_ADDRESS, to)])), (0x48000001, (LIST, following + [(TO_ADDRESS + LINK, to)])),
                                        (0x48000001, (LIST, [(TO_ADDRESS + LINK, to), (TO_ADDRESS + LINK, self.any_address())])), (0x48000000, (JUMP, to)),
                                        (BLR, (RETURN,))), shares)[0])
        low, high = r.choice(((0, self.n), (0, 100), (self.n // 2, self.n)))
        for i, words in self.data.items():
            words[:] = [self.at(r.randrange(low, min(high, self.n))) for _ in words]
            for _ in range(r.choice((1, 2, 5))):
                first = r.randrange(len(words)) if r.random() < 0.5 else 0
                size = 4 * r.choice((len(words), len(words), r.randint(0, len(words))))
                self.put(r.choice((0, r.randrange(self.n), r.randrange(self.n))), BCTR, (TABLE, self.bases[i] + 4 * first, size))
        self.put(self.n - 1, BLR, (RETURN,))
        self.functions = [(0, self.n)]

    # ---- the rest of an image, and its walks

    def symbols(self, wild):
        r = self.r
        functions, objects = {}, {}
        share = r.choice((0, 0, 0.3, 0.6, 1.0))
        for at, n in self.functions:
            if r.random() < share:
                n += r.choice((-3, -2, -1, 1, 2, 3, 5)) if r.random() < 0.06 + 0.2 * wild else 0
                functions[self.at(at)] = (4 * max(0, n), int(r.random() < 0.75))
        if r.random() < 0.15:
            functions[self.at(r.randrange(self.n))] = (4 * r.randint(0, 6), r.randint(0, 1))
        for a, m in self.tables:
            if r.random() < 0.2:
                size = r.choice((4 * m, 4 * m, 4 * m, 4 * m - 4, 4 * m + 4, 0, 0, 4 * m + 2 if wild else 4 * m, 262144 if wild else 4 * m))
                objects[a] = (size, int(r.random() < 0.8))
        place = lambda a: next((i, a) for i in range(len(self.kinds)) if self.bases[i] <= a < self.bases[i] + 4 * self.sizes[i])
        return [(a, *functions[a]) for a in sorted(functions)], [(a, *objects[a]) for a in sorted(objects, key=place)]

    def image(self, wild):
        im = Image()
        for i, kind in enumerate(self.kinds):
            words = self.words if kind == CODE else self.data.get(i, ())
            im.sections.append(Section(kind, self.bases[i], 4 * self.sizes[i], b''.join(w.to_bytes(4, 'big') for w in words)))
        for outcome, mark in zip(self.outcomes, self.marks):
            rest = outcome[1:]
            if outcome[0] == LIST:
                rest = [n for way in outcome[1] for n in way]
            im.outcomes.append((outcome[0], mark, *rest, *[0] * (4 - len(rest))))
        im.functions, im.objects = self.symbols(wild)
        return im

    def key(self, address):
        return key(self.code, address)

    def known(self):
        """Known functions: mostly none, or some of the others with their ends or without; now and then anything."""
        r = self.r
        x = r.random()
        if x < 0.5:
            return []
        found = {}
        for at, n in self.functions:
            if r.random() < (0.3 if x < 0.8 else 1.0):
                end = r.choice((0, self.at(at + n), self.at(at + n), self.at(at + max(1, n - 1))))
                found[self.key(self.at(at))] = end and self.key(end)
        if r.random() < 0.2:
            i = r.randrange(self.n)
            found[self.key(self.at(i) + r.choice((0, 0, 0, 2)))] = r.choice((0, self.key(self.at(i + r.randint(-2, 9)))))
        if r.random() < 0.05:
            section = r.randrange(len(self.kinds) + 1)
            found[key(section, self.any_address())] = r.choice((0, key(section, 0xF0000000), key(section + 1, 0)))
        return [n for entry in sorted(found) for n in (entry, found[entry])]

    def walk(self, at, n):
        """From a word of a function of n words."""
        r, x = self.r, self.r.random()
        start, end = self.at(at), 0
        if x < 0.35:
            end = self.at(at + n)
        elif x < 0.45:
            end = self.at(max(at, at + n + r.randint(-6, 6)))
        elif x < 0.48:
            end = r.choice((start, start + 4, self.at(self.n), self.at(self.n + 1), start + 262144))
        walk = [self.key(start), end and self.key(end), MOST]
        x = r.random()
        if x < 0.01:
            walk[0] = r.choice((walk[0] + r.choice((1, 2, 3)), self.key(self.at(self.n)), self.key(self.at(-1)), walk[0] + (1 << 32), 0, self.any_address()))
        elif x < 0.02:
            walk[1] = r.choice((walk[0] - 4, walk[0] + r.choice((1, 2, 3)), walk[0] + 262148, walk[0] + (1 << 32), 4))
        elif x < 0.10:
            walk[2] = r.choice((0, 1, 2, 3, 4, 6, 8, 12, 20, 40))
        return tuple(walk)

    def walks(self):
        r = self.r
        chosen = r.sample(self.functions, min(len(self.functions), 6))
        chosen += [(i, r.randint(1, 12)) for i in self.starts]
        chosen += [(r.randrange(self.n), r.randint(1, 12)) for _ in range(r.choice((0, 1, 2)))]
        return [self.walk(*c) for c in chosen]


def drawn(seed, k):
    r = random.Random('%d/%d' % (seed, k))
    x, wild = r.random(), 0.0
    if x < 0.03:
        d = Drawn(r, r.randint(150, 900), (20, 60, 120, 250, 256, 257, 300))
        d.code_of_one()
    elif x < 0.80:
        d = Drawn(r, r.choices((r.randint(1, 8), r.randint(4, 24), r.randint(16, 64), r.randint(64, 256), r.randint(256, 1024)), (10, 30, 45, 14, 1))[0])
        wild = r.choice((0.0, 0.0, 0.2, 0.5, 1.0))
        d.code_of_functions(wild)
    else:
        d, wild = Drawn(r, r.randint(2, 40)), 0.3
        d.code_of_noise()
    return Asked(d.image(wild).lend(), d.known(), d.walks())


def main():
    options = Parser(__doc__)
    for name in ('seed', 'count'):
        options.add_argument(name, type=int)
    options.add_argument('first', type=int, nargs='?', default=0)
    o = options.parse_args()
    for k in range(o.first, o.first + o.count):
        print('\n'.join(['# %d/%d' % (o.seed, k), *drawn(o.seed, k).lines(), '=']))


if __name__ == '__main__':
    main()
