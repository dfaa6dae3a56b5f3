"""An image made smaller while something stays true of it."""
import sys

sys.dont_write_bytecode = True
import frames
from frames import BSS, CODE

BLR, GOES_ON = ['024E8000200300'], ['02386300010000']


class Parts:
    """Sections as [kind, base, size, words], each word its frame with those that belong to it; the frames behind them."""

    def __init__(self, sections, rest):
        self.sections, self.rest = sections, rest

    @classmethod
    def read(cls, lines):
        """None where the lines are not in this order."""
        sections, rest = [], []
        for line in lines:
            kind = line[:2]
            if kind == '01' and not rest:
                sections.append([int(line[2:4], 16), int(line[4:12], 16), int(line[12:20], 16), []])
            elif kind == '02' and sections and not rest:
                sections[-1][3].append([line])
            elif kind in ('03', '04', '05') and sections and sections[-1][3] and not rest:
                sections[-1][3][-1].append(line)
            elif kind in ('06', '07', '08', '09'):
                rest.append(line)
            else:
                return None
        return cls(sections, rest)

    def lines(self):
        out = []
        for kind, base, size, words in self.sections:
            out.append(frames.section(kind, base, size if kind == BSS else 4 * len(words)))
            out += [line for w in words for line in w]
        return out + self.rest

    def with_section(self, i, *new):
        return Parts(self.sections[:i] + list(new) + self.sections[i + 1:], self.rest)

    def with_word(self, i, j, word):
        kind, base, size, words = self.sections[i]
        return self.with_section(i, [kind, base, size, words[:j] + [word] + words[j + 1:]])

    def without_words(self, i, j, n):
        """Words of code left out; each address behind them moves down."""
        _, base, _, words = self.sections[i]
        first, end = base + 4 * j, base + 4 * len(words)

        def moved(digits):
            a = int(digits, 16)
            return '%08X' % (max(first, a - 4 * n) if first <= a <= end else a)

        def line(l):
            if l[:2] in ('03', '04', '06', '07', '09'):
                return l[:2] + moved(l[2:10]) + l[10:]
            if l[:2] == '05' and l[4:6] != '02':
                return l[:6] + moved(l[6:14])
            if l[:2] == '08':
                return l[:2] + moved(l[2:10]) + moved(l[10:18])
            return l

        sections = []
        for k, (kind, base, size, words) in enumerate(self.sections):
            left = words[:j] + words[j + n:] if k == i else words
            if kind == CODE:
                left = [[line(l) for l in w] for w in left]
            else:
                left = [['02' + moved(w[0][2:])] for w in left]
            sections.append([kind, base, size, left])
        return Parts(sections, [line(l) for l in self.rest])

    def smaller(self):
        """Images with less in them, the largest steps first."""
        for i, (kind, base, size, words) in enumerate(self.sections):
            if kind != CODE:
                yield self.with_section(i)
        for i, (kind, base, size, words) in enumerate(self.sections):
            n = len(words) // 2
            while kind == CODE and n > 0:
                for j in range(0, len(words) - n + 1, n):
                    yield self.without_words(i, j, n)
                n //= 2
        for i in range(len(self.rest)):
            yield Parts(self.sections, self.rest[:i] + self.rest[i + 1:])
        for i, (kind, base, size, words) in enumerate(self.sections):
            if kind == CODE:
                for j, w in enumerate(words):
                    yield from self.simpler(i, j, w)
            else:
                for n in sorted({len(words) // 2, len(words) // 4, 1}, reverse=True):
                    if 0 < n < len(words):
                        yield self.with_section(i, [kind, base, size, words[:-n]])
                        yield self.with_section(i, [kind, base + 4 * n, size, words[n:]])
                for j, w in enumerate(words):
                    if w != ['0200000000']:
                        yield self.with_word(i, j, ['0200000000'])

    def simpler(self, i, j, w):
        """A code word with a simpler one in its place."""
        if w == BLR:
            return
        yield self.with_word(i, j, BLR)
        if w == GOES_ON:
            return
        yield self.with_word(i, j, GOES_ON)
        if w[0][-2:] != '00':
            yield self.with_word(i, j, [w[0][:-2] + '00'] + w[1:])
        if w[0][2:10] not in ('38630001', '4E800020', '00000000'):
            yield self.with_word(i, j, ['0238630001' + w[0][10:]] + w[1:])
        if len(w) == 3:
            yield self.with_word(i, j, w[:2])
            yield self.with_word(i, j, [w[0], w[2]])


def with_lines_left_out(lines):
    n = len(lines) // 2
    while n > 0:
        for i in range(0, len(lines) - n + 1, n):
            yield lines[:i] + lines[i + n:]
        n //= 2


def smaller(lines):
    parts = Parts.read(lines)
    if parts is not None:
        for p in parts.smaller():
            yield p.lines()
    if len(lines) <= 200:
        yield from with_lines_left_out(lines)


AT_ONCE = 400


def shrink(lines, wanted):
    """`wanted` takes images and says of each whether it will do; it is asked about many at once."""
    while True:
        candidates = smaller(lines)
        found = None
        while found is None:
            some = [c for _, c in zip(range(AT_ONCE), candidates)]
            if not some:
                return lines
            found = next((c for c, good in zip(some, wanted(some)) if good), None)
        lines = found
