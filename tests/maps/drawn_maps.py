#!/usr/bin/env python3
"""Whole images drawn at random, in frames. Image K of a seed depends on the two only.

    drawn_maps.py SEED COUNT [FIRST]    prints images FIRST to FIRST + COUNT - 1, each ended by a line `=`

The images are those of tests/walked/drawn.py, with skip ranges and an entry point now and then. Of each that is drawn afresh there are
seven more, changed in a word or a few each, in a symbol, a skip range or the entry point. One in sixteen has its frames changed as text
instead, so that it breaks a rule or is no image at all.
"""
import random
import sys

sys.dont_write_bytecode = True
import frames
from drawn import BLR, CONDITIONAL_BLR, NOP, RFI, Drawn, filler
from frames import BSS, CODE, LIST
from lists import ELSEWHERE, RETURN, TO_ADDRESS
from needs import Parser

# Images that are made of one: the image itself and those with changes.
TURNS = 8


class DrawnMap(Drawn):
    """An image under way, with what the whole map asks for besides: skip ranges and an entry point."""

    def finish(self, wild):
        self.wild = wild
        self.function_symbols, self.object_symbols = self.symbols(wild)
        self.skips, self.entry = [], None
        if self.r.random() < 0.15:
            self.skip_ranges()
        if self.r.random() < 0.35:
            self.entry_point()
        return self

    def trailing(self):
        """Behind a function that ends with `rfi` a `nop`, behind one that ends with a jump a `blr`, now and then: finalizing may add them."""
        r = self.r
        for at, n in self.functions:
            last = self.words[at + n - 1]
            if last == RFI and r.random() < 0.4:
                self.put(at + n, NOP)
            elif last >> 26 == 18 and r.random() < 0.15:
                self.put(at + n, BLR, (RETURN,))
                if n > 1 and r.random() < 0.5:
                    self.put(at + n - 2, r.choice(CONDITIONAL_BLR), (LIST, [(TO_ADDRESS, self.at(at + n - 1)), (ELSEWHERE, 0)]))

    def skip_ranges(self):
        """Some ranges that ascend; each begins at a zero word, at the end of the last one or somewhere behind it."""
        r, at = self.r, 0
        self.skips = []
        for _ in range(r.choice((1, 1, 2, 3, 5))):
            zeros = [i for i in range(at, self.n) if self.words[i] == 0]
            first = r.choice(zeros) if zeros and r.random() < 0.4 else at + r.choice((0, 0, 1, 2, 5, 9))
            past = first + r.choice((1, 1, 2, 3, 4, 8))
            if past > self.n:
                break
            self.skips.append((self.at(first), self.at(past)))
            at = past

    def entry_point(self):
        r = self.r
        self.entry = self.at(r.choice(self.functions)[0] if self.functions and r.random() < 0.7 else r.randrange(self.n))

    def change(self):
        """One change that keeps to the rules."""
        r, x = self.r, self.r.random()
        if x < 0.55:
            self.noise_at(r.randrange(self.n))
        elif x < 0.65:
            i = r.randrange(self.n)
            self.put(i, *((BLR, (RETURN,)) if r.random() < 0.5 else (filler(r),)))
        elif x < 0.75:
            i, j = r.randrange(self.n), r.randrange(self.n)
            for column in (self.words, self.outcomes, self.marks):
                column[i], column[j] = column[j], column[i]
        elif x < 0.85:
            self.function_symbols, self.object_symbols = self.symbols(self.wild)
        elif x < 0.90:
            self.skip_ranges()
        elif x < 0.95:
            self.entry_point()
        elif self.data:
            words = r.choice(list(self.data.values()))
            words[r.randrange(len(words))] = r.choice((0, self.any_address(), self.any_address(), self.any_address() + 2, r.getrandbits(32)))

    def lines(self):
        out = []
        for i, kind in enumerate(self.kinds):
            out.append(frames.section(kind, self.bases[i], 4 * self.sizes[i]))
            if kind == CODE:
                for w, o, m in zip(self.words, self.outcomes, self.marks):
                    if len(o) == 1:
                        out.append('02%08X%02X%02X' % (w, o[0], m))
                    else:
                        out += frames.code_word(w, o, m)
            elif kind != BSS:
                out += ['02%08X' % w for w in self.data[i]]
        out += [frames.symbol(frames.FUNCTION, *s) for s in self.function_symbols]
        out += [frames.symbol(frames.OBJECT, *s) for s in self.object_symbols]
        out += [frames.skip(*s) for s in self.skips]
        if self.entry is not None:
            out.append(frames.entry(self.entry))
        return out


def drawn_image(r, most=1024):
    """An image of at most so many code words: of functions, of words without a plan, or one large function."""
    x, wild = r.random(), 0.0
    if x < 0.01 and most >= 900:
        d = DrawnMap(r, r.randint(150, 900), (20, 60, 120, 250, 256, 257, 300))
        d.code_of_one()
    elif x < 0.82:
        n = r.choices((r.randint(1, 8), r.randint(4, 24), r.randint(16, 64), r.randint(64, 256), r.randint(256, 1024)), (14, 36, 40, 9, 1))[0]
        d = DrawnMap(r, min(n, r.randint(min(most, 24), most)))
        wild = r.choice((0.0, 0.0, 0.0, 0.2, 0.5, 1.0))
        d.code_of_functions(wild)
        d.trailing()
    else:
        d, wild = DrawnMap(r, min(most, r.randint(2, 40))), 0.3
        d.code_of_noise()
    return d.finish(wild)


def damage(r, lines):
    """Frames with one line changed in a digit or a byte, left out, doubled, moved or cut, or with a line that is no frame."""
    lines = list(lines)
    i, x = r.randrange(len(lines)), r.random()
    line = lines[i]
    if x < 0.35:
        j = r.randrange(len(line))
        lines[i] = line[:j] + '%X' % r.randrange(16) + line[j + 1:]
    elif x < 0.50:
        del lines[i]
    elif x < 0.65:
        lines.insert(i, line)
    elif x < 0.75:
        lines.insert(r.randrange(len(lines)), lines.pop(i))
    elif x < 0.80:
        lines[i] = line[:-2 * r.randint(1, 3)]
    elif x < 0.85:
        lines[i] = line.lower()
    elif x < 0.95:
        lines.insert(i, '%02X' % r.choice((1, 2, 3, 4, 5, 6, 7, 8, 9, 10)) + ''.join('%08X' % r.getrandbits(32) for _ in range(r.randint(0, 2))) +
                     r.choice(('', '00', '01', '02')))
    else:
        lines.insert(i, r.choice(('', ' ', 'G', '0', '==', line + ' ', line + '0', ' ' + line, '0x' + line, '-' + line[1:], '\t', '#')))
    return lines


def without_elsewhere_address(lines):
    """A branch to elsewhere with an address is refused here and not in the Rust (docs/DECISIONS.md, 11)."""
    return [l[:6] + '00000000' if len(l) == 14 and l.startswith('05') and l[4:6] == '02' else l for l in lines]


def images(seed, first, count):
    """The lines of each."""
    end = first + count
    for k in range(first - first % TURNS, end, TURNS):
        r = random.Random('%d/%d' % (seed, k))
        d = drawn_image(r)
        for turn in range(TURNS):
            if turn:
                for _ in range(r.choice((1, 1, 2, 3))):
                    d.change()
            lines = d.lines()
            if r.random() < 1 / 16:
                lines = without_elsewhere_address(damage(r, lines))
            if first <= k + turn < end:
                yield lines


def main():
    options = Parser(__doc__)
    for name in ('seed', 'count'):
        options.add_argument(name, type=int)
    options.add_argument('first', type=int, nargs='?', default=0)
    o = options.parse_args()
    for lines in images(o.seed, o.first, o.count):
        sys.stdout.write(frames.text([lines]))


if __name__ == '__main__':
    main()
