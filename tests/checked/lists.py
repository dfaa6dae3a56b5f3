"""An image as the lent lists that stand for it, the text in which the program `checked` reads them, and the rules of document 01's
"The image" one by one, so that an image can be held to break just the one it is meant to break."""
import os
import sys

# Every script here and in tests/walked and tests/maps comes by this file, and needs tests/needs.py.
sys.path.append(os.path.join(os.path.dirname(os.path.abspath(__file__)), '..'))

CODE, DATA, RODATA, BSS = 1, 2, 3, 4
GO_ON, ILLEGAL, UNKNOWN, RETURN, JUMP, TABLE, LIST = range(7)
TO_ADDRESS, TO_TABLE, ELSEWHERE, LINK = 1, 2, 3, 4


class Section:
    def __init__(self, kind, base, size, data=None):
        self.kind, self.base, self.size = kind, base, size
        self.data = data if data is not None else b'' if kind == BSS else bytes(size)
        self.given = len(self.data)

    def put(self, at, words):
        """Words at an offset in bytes."""
        put = b''.join(w.to_bytes(4, 'big') for w in words)
        assert at + len(put) <= len(self.data)
        self.data = self.data[:at] + put + self.data[at + len(put):]
        return self

    @property
    def end(self):
        return self.base + self.size


class Image:
    """Rows while it is made; flat lists once `lend` was called, which a case may still change."""

    def __init__(self):
        self.sections, self.outcomes, self.functions, self.objects, self.skips, self.entry = [], [], [], [], [], []

    @property
    def code(self):
        return next(s for s in self.sections if s.kind == CODE)

    def lend(self):
        flat = lambda rows: [n for row in rows for n in row]
        return Lent(flat((s.kind, s.base, s.size, s.given) for s in self.sections), b''.join(s.data for s in self.sections),
                    flat(self.outcomes), flat(self.functions), flat(self.objects), flat(self.skips), list(self.entry))


class Lent:
    def __init__(self, sections, data, outcomes, functions, objects, skips, entry):
        self.sections, self.data, self.outcomes = sections, data, outcomes
        self.functions, self.objects, self.skips, self.entry = functions, objects, skips, entry


def rows(numbers, width):
    """The rows of a list; the last may not be whole."""
    return [numbers[i:i + width] for i in range(0, len(numbers), width)]


# ---- the text

def number_lines(letter, numbers, width):
    each = rows(numbers, width)
    i = 0
    while i < len(each):
        n = 1
        while i + n < len(each) and each[i + n] == each[i]:
            n += 1
        yield letter + ''.join(' %x' % x for x in each[i]) + (' *%x' % n if n > 1 else '')
        i += n


def byte_lines(data):
    """Eight words to a line; words that repeat once, with how often."""
    words = rows(data, 4)
    i, line = 0, []
    while i < len(words):
        n = 1
        while i + n < len(words) and words[i + n] == words[i]:
            n += 1
        if n >= 8:
            if line:
                yield 'b ' + ' '.join(line)
            line = []
            yield 'b %s *%x' % (words[i].hex(), n)
            i += n
            continue
        line.append(words[i].hex())
        i += 1
        if len(line) == 8:
            yield 'b ' + ' '.join(line)
            line = []
    if line:
        yield 'b ' + ' '.join(line)


def text(l):
    yield from number_lines('s', l.sections, 4)
    yield from byte_lines(l.data)
    for letter, numbers, width in (('o', l.outcomes, 6), ('f', l.functions, 3), ('j', l.objects, 3), ('k', l.skips, 2), ('e', l.entry, 1)):
        yield from number_lines(letter, numbers, width)


# ---- the rules

def broken_rules(l):
    """The names of the rules that the lists break. A rule is looked at only where those before it left it a meaning: in a row that is
    whole, with a kind that there is, in the one code section."""
    broken = set()

    def need(rule, holds):
        if not holds:
            broken.add(rule)

    sections = rows(l.sections, 4)
    need('sections: whole rows', len(l.sections) % 4 == 0)
    need('sections: 1 to 8', 1 <= len(sections) <= 8)
    whole = [s for s in sections if len(s) == 4]
    codes = [s for s in whole if s[0] == CODE]
    need('sections: one of code', len(codes) == 1 or not sections)
    for kind, base, size, given in whole:
        need('sections: kind', kind in (CODE, DATA, RODATA, BSS))
        need('sections: base a multiple of 4', base % 4 == 0)
        need('sections: size a multiple of 4', size % 4 == 0)
        need('sections: base at least 256', base >= 256)
        need('sections: size at least 4', size >= 4)
        need('sections: base + size at most 0xF0000000', base + size <= 0xF0000000)
        need('sections: code at most 262,144 bytes', kind != CODE or size <= 262144)
        need('sections: bss has no bytes', kind != BSS or given == 0)
        need('sections: all bytes', kind == BSS or given == size)
    need('sections: no overlap', not any(a[1] < b[1] + b[2] and b[1] < a[1] + a[2] for i, a in enumerate(whole) for b in whole[:i]))
    need('sections: the bytes lent', len(l.data) == sum(s[3] for s in whole))

    def at(a):
        return next((i for i, s in enumerate(whole) if s[1] <= a < s[1] + s[2]), None)

    def located(rule, a):
        need(rule + ': a multiple of 4', a % 4 == 0)
        need(rule + ': inside a section', at(a) is not None)

    code = codes[0] if codes else [CODE, 0, 0, 0]
    in_code = lambda a: code[1] <= a < code[1] + code[2]
    need('outcomes: whole rows', len(l.outcomes) % 6 == 0)
    need('outcomes: one for each code word', len(rows(l.outcomes, 6)) == code[2] // 4)
    for row in set(map(tuple, rows(l.outcomes, 6))):
        if len(row) < 6:
            continue
        kind, mark, first, second, third, fourth = row
        need('outcomes: kind', kind <= LIST)
        need('outcomes: mark', mark <= 1)
        if kind in (JUMP, TABLE):
            located('outcomes: address', first)
            need('outcomes: size at most 65,536', kind == JUMP or second <= 65536)
            need('outcomes: nothing besides', (kind == TABLE or second == 0) and third == fourth == 0)
        elif kind == LIST:
            for way, a in ((first, second), (third, fourth)):
                if way == 0:
                    need('outcomes: nothing besides', a == 0)
                    continue
                need('outcomes: link or not', way // 4 <= 1)
                need('outcomes: to an address, a table or elsewhere', way % 4 != 0)
                if way % 4 in (TO_ADDRESS, TO_TABLE):
                    located('outcomes: address', a)
                else:
                    need('outcomes: nothing besides', a == 0)
        elif kind < JUMP:
            need('outcomes: nothing besides', first == second == third == fourth == 0)

    for name, symbols, function in (('functions', l.functions, True), ('objects', l.objects, False)):
        need(name + ': whole rows', len(symbols) % 3 == 0)
        need(name + ': at most 1,024', len(rows(symbols, 3)) <= 1024)
        whole_symbols = [s for s in rows(symbols, 3) if len(s) == 3]
        for a, size, known in whole_symbols:
            need(name + ': a multiple of 4', a % 4 == 0)
            if function:
                need(name + ': in code', in_code(a))
                need(name + ': size a multiple of 4', size % 4 == 0)
            else:
                need(name + ': in another section', at(a) is not None and not in_code(a))
            need(name + ': size at most 262,144', size <= 262144)
            need(name + ': mark', known <= 1)
        keys = [(at(s[0]), s[0]) for s in whole_symbols if at(s[0]) is not None]
        need(name + ': ascend', all(a < b for a, b in zip(keys, keys[1:])))

    need('skips: whole rows', len(l.skips) % 2 == 0)
    need('skips: at most 64', len(rows(l.skips, 2)) <= 64)
    ranges = [s for s in rows(l.skips, 2) if len(s) == 2]
    for first, past in ranges:
        need('skips: multiples of 4', first % 4 == past % 4 == 0)
        need('skips: nonempty', first < past)
        need('skips: inside code', code[1] <= first <= code[1] + code[2] and code[1] <= past <= code[1] + code[2])
    need('skips: ascend, no overlap', all(max(a) <= min(b) for a, b in zip(ranges, ranges[1:])))

    need('entry: at most one', len(l.entry) <= 1)
    for a in l.entry:
        need('entry: a multiple of 4', a % 4 == 0)
        need('entry: in code', in_code(a))
    return broken
