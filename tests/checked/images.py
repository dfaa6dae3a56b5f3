#!/usr/bin/env python3
"""Makes the images of the program `checked`. Each depends on the seed and its own name only.

    images.py            prints the images in the form that the program reads (crates/checked/stdin)
    images.py --count    how many there are, by the rule they break
"""
import collections
import random
import sys

sys.dont_write_bytecode = True
from lists import *
from needs import Parser

SEED = 1
BROKEN, PASSING, TEXTS = [], [], []     # (name, Lent, rule), (name, Lent, None), (name, lines, answer)


def chance(name):
    return random.Random('%d %s' % (SEED, name))


# ---- an ordinary image, which breaks no rule

def laid_out(r, sizes, start=None):
    """Bases for sections of these sizes, in an order of their own, with gaps that may be empty; some room before and after."""
    at = start if start is not None else r.choice((0x1000, 0x3100, 0x80003100, 0x90000000))
    bases = [0] * len(sizes)
    for i in r.sample(range(len(sizes)), len(sizes)):
        bases[i] = at
        at += sizes[i] + r.choice((0, 0, 4, 8, 64))
    return bases


def ordinary(r, code_words=None, others=None, start=None, symbols=True):
    im = Image()
    kinds = [CODE, DATA] + ([r.choice((DATA, RODATA, BSS)) for _ in range(r.randint(1, 3))] if others is None else list(others))
    r.shuffle(kinds)
    n = code_words or r.randint(6, 24)
    sizes = [4 * n if k == CODE else 4 * r.randint(4, 16) for k in kinds]
    for kind, size, base in zip(kinds, sizes, laid_out(r, sizes, start)):
        im.sections.append(Section(kind, base, size))
    code = im.code
    code.data = b''.join(r.choice((0x60000000, 0x4E800020, 0x38600001, 0)).to_bytes(4, 'big') for _ in range(n))
    words = range(code.base, code.end, 4)
    for s in im.sections:
        if s.kind in (DATA, RODATA):
            s.put(0, [r.choice((0, r.choice(words), r.choice(words), any_address(r, im))) for _ in range(s.size // 4)])
    im.outcomes = [any_outcome(r, im) for _ in words]
    tables = [s for s in im.sections if s.kind in (DATA, RODATA)]
    t = r.choice(tables)
    im.outcomes[r.randrange(n)] = table(t.base + 4 * r.randrange(t.size // 4), r.choice((0, 4, 8, 16, 64)))
    if symbols:
        for a in sorted(r.sample(words, min(n, 4))):
            im.functions.append((a, 4 * r.randint(0, 8), r.randint(0, 1)))
        for s in im.sections:
            if s.kind != CODE:
                for i in sorted(r.sample(range(s.size // 4), 2)):
                    im.objects.append((s.base + 4 * i, r.choice((0, 4, 8, 12, 1, 6)), r.randint(0, 1)))
        a, b, c, d = sorted(r.sample(list(words) + [code.end], 4))
        im.skips = [(a, b), (c, d)] if r.random() < 0.7 else [(a, b), (b, d)]
        im.entry = [r.choice(words)]
    return im


def any_address(r, im):
    s = r.choice(im.sections)
    return s.base + 4 * r.randrange(s.size // 4)


def table(a, size=0, mark=0):
    return (TABLE, mark, a, size, 0, 0)


def any_branch(r, im):
    way = r.choice((0, TO_ADDRESS, TO_ADDRESS, TO_TABLE, ELSEWHERE))
    return (way + r.choice((0, LINK)) if way else 0, any_address(r, im) if way in (TO_ADDRESS, TO_TABLE) else 0)


def any_outcome(r, im):
    kind = r.choice((GO_ON, GO_ON, GO_ON, ILLEGAL, UNKNOWN, RETURN, JUMP, TABLE, LIST, LIST))
    mark = r.choice((0, 0, 1))
    if kind == JUMP:
        return (kind, mark, any_address(r, im), 0, 0, 0)
    if kind == TABLE:
        return table(any_address(r, im), r.choice((0, 4, 12)), mark)
    if kind == LIST:
        return (kind, mark) + any_branch(r, im) + any_branch(r, im)
    return (kind, mark, 0, 0, 0, 0)


def top(im):
    return max(s.end for s in im.sections)


def low(im):
    return min(s.base for s in im.sections)


def names_table(l):
    return any(k == TABLE or k == LIST and TO_TABLE in (first % 4, third % 4) for k, _, first, _, third, _ in rows(l.outcomes, 6))


def kept(name, l, rule):
    found = broken_rules(l)
    assert found == ({rule} if rule else set()), (name, rule, found)
    assert rule or names_table(l), name
    if rule:
        BROKEN.append((name, l, rule))
    else:
        PASSING.append((name, l, None))


def case(rule, name, edit, **how):
    """An ordinary image with one edit, of its rows or, where the edit returns lists, of those."""
    r = chance(name)
    im = ordinary(r, **how)
    l = edit(r, im)
    kept(name, l if l is not None else im.lend(), rule)


# ---- sections: a spare section that nothing refers to is the one that is changed

def with_spare(change, kind=RODATA, size=16, place=None):
    def edit(r, im):
        s = Section(kind, top(im) + 64, size)
        at = len(im.sections) if place is None else place
        im.sections.insert(at, s)
        return change(r, im, s)
    return edit


def spare(rule, name, change, kind=RODATA, size=16, others=(BSS,), last_only=False, **how):
    case(rule, name, with_spare(change, kind, size), others=others, **how)
    if rule and not last_only:
        case(rule, name + ', the first section', with_spare(change, kind, size, 0), others=others, **how)


def set_of(**values):
    def change(r, im, s):
        for k, v in values.items():
            setattr(s, k, v)
    return change


def resized(size):
    def change(r, im, s):
        s.size = size
        if s.kind != BSS:
            s.data = bytes(size)
            s.given = size
    return change


def sections():
    # how many
    def none(r, im):
        return Lent([], b'', [], [], [], [], [])
    case('sections: 1 to 8', 'no section', none)
    for n in (9, 10):
        for kind in (RODATA, BSS):
            case('sections: 1 to 8', '%d sections, the last of kind %d' % (n, kind), filled(n, kind), others=(BSS,))
    for n in (7, 8):
        for kind in (RODATA, BSS):
            case(None, '%d sections, the last of kind %d' % (n, kind), filled(n, kind), others=(BSS,))
    case(None, 'two sections', lambda r, im: None, others=())
    kept('one section, which is code, with a table in itself', only_code(8).lend(), None)

    # one of code
    def no_code(kind):
        def edit(r, im):
            code = im.code
            code.kind = kind
            im.outcomes, im.functions, im.skips, im.entry = [], [], [], []
            im.objects = []
        return edit
    for kind in (DATA, RODATA):
        case('sections: one of code', 'no code but kind %d' % kind, no_code(kind))
    for size in (4, 16, 262144):
        spare('sections: one of code', 'two of code, the second of %d bytes' % size, set_of(), kind=CODE, size=size, last_only=True)

    # kinds
    for kind in (0, 5, 6, 255, 256, 0xFFFFFFFF):
        spare('sections: kind', 'kind %x' % kind, set_of(kind=kind))
    for kind in (DATA, RODATA, BSS):
        spare(None, 'a spare section of kind %d' % kind, set_of(), kind=kind)

    # base
    for off in (1, 2, 3):
        spare('sections: base a multiple of 4', 'base %d above a multiple of 4' % off, lambda r, im, s, off=off: setattr(s, 'base', s.base + off))
    spare('sections: base a multiple of 4', 'base of bss 2 above', lambda r, im, s: setattr(s, 'base', s.base + 2), kind=BSS)

    def code_off(r, im):
        im.code.base += 2
        im.outcomes = [(GO_ON, 0, 0, 0, 0, 0)] * (im.code.size // 4)
    case('sections: base a multiple of 4', 'base of code 2 above', code_off, symbols=False, others=())
    for base in (0, 4, 248, 252):
        spare('sections: base at least 256', 'base %d' % base, set_of(base=base), size=4)
    spare('sections: base at least 256', 'base 252, to 260', set_of(base=252), size=8, start=0x1000)
    spare(None, 'base 256', set_of(base=256), size=8, start=0x1000)
    case(None, 'all from 256 on', lambda r, im: None, start=256)

    # size
    for size in (5, 6, 7, 13, 14, 15, 17):
        spare('sections: size a multiple of 4', 'size %d' % size, resized(size))
    spare('sections: size a multiple of 4', 'size of bss 18', resized(18), kind=BSS)
    spare('sections: size at least 4', 'size 0', resized(0))
    spare('sections: size at least 4', 'size of bss 0', resized(0), kind=BSS)

    def no_words(r, im):
        im.code.size = im.code.given = 0
        im.code.data, im.outcomes = b'', []
    case('sections: size at least 4', 'size of code 0', no_words, symbols=False)
    spare(None, 'size 4', resized(4))
    spare(None, 'size of bss 4', resized(4), kind=BSS)

    # the end
    for base, size in ((0xEFFFFFFC, 8), (0xF0000000, 4), (0xF0000000, 8), (0xFFFFFFF8, 4), (0xFFFFFFFC, 4), (0xFFFFFFFC, 8)):
        spare('sections: base + size at most 0xF0000000', 'from %x for %d' % (base, size), set_of(base=base), size=size)
    for size in (0x6FFFFF04, 0x7FFFFFFC, 0xFFFFFFFC):
        spare('sections: base + size at most 0xF0000000', 'bss from 80000100 for %x' % size, set_of(base=0x80000100, size=size), kind=BSS, start=0x1000)
    for base, size in ((0xEFFFFFFC, 4), (0xEFFFFFF8, 8), (0xEFFFFFF8, 4)):
        spare(None, 'from %x for %d' % (base, size), set_of(base=base), size=size)
    spare(None, 'bss from 80000100 up to f0000000', set_of(base=0x80000100, size=0x6FFFFF00), kind=BSS, start=0x1000)

    # overlap
    def over(which, how):
        def change(r, im, s):
            o = next(x for x in im.sections if x.kind == which and x is not s)
            s.base = {'head': o.base - s.size + 4, 'tail': o.end - 4, 'same': o.base, 'inside': o.base + 4, 'around': o.base - 4}[how]
            if how in ('same', 'inside', 'around'):
                s.size = {'same': o.size, 'inside': 4, 'around': o.size + 8}[how]
                if s.kind != BSS:
                    s.data = bytes(s.size)
                    s.given = s.size
        return change

    def alone(name, rule, which, how, kind):
        """Sections with room on both sides."""
        r = chance(name)
        im = ordinary(r, others=(BSS,), symbols=False)
        moved = {id(s): 0x10000 * (i + 1) for i, s in enumerate(im.sections)}
        shift(im, moved)
        s = Section(kind, 0x200000, 16)
        im.sections.append(s)
        over(which, how)(r, im, s)
        kept(name, im.lend(), rule)
    for which in (CODE, DATA, BSS):
        for how in ('head', 'tail'):
            alone('%s of kind %d overlapped by a word' % (how, which), 'sections: no overlap', which, how, RODATA)
    for how in ('same', 'inside', 'around'):
        alone('data overlapped: %s' % how, 'sections: no overlap', DATA, how, RODATA)
        alone('data overlapped by bss: %s' % how, 'sections: no overlap', DATA, how, BSS)

    def touching(name, which, below):
        r = chance(name)
        im = ordinary(r, others=(BSS,), symbols=False)
        shift(im, {id(s): 0x10000 * (i + 1) for i, s in enumerate(im.sections)})
        o = next(x for x in im.sections if x.kind == which)
        im.sections.append(Section(RODATA, o.base - 16 if below else o.end, 16))
        kept(name, im.lend(), None)
    for which in (CODE, DATA, BSS):
        touching('a section ends where kind %d begins' % which, which, True)
        touching('a section begins where kind %d ends' % which, which, False)

    # how much code
    for words, rule in ((65536, None), (65537, 'sections: code at most 262,144 bytes'), (65535, None)):
        for last in (False, True):
            kept('%d code words, code %s' % (words, 'last' if last else 'first'), much_code(words, last).lend(), rule)

    # bytes
    def given(n, data):
        def change(r, im, s):
            s.given, s.data = n, bytes(data)
        return change
    for n in (1, 4, 16):
        spare('sections: bss has no bytes', 'bss with %d bytes' % n, given(n, n), kind=BSS)
    for n in (0, 1, 4, 12, 15, 17, 20, 32):
        spare('sections: all bytes', '%d bytes of 16' % n, given(n, n))

    def code_bytes(more):
        def edit(r, im):
            c = im.code
            c.given = c.size + more
            c.data = (c.data + bytes(4))[:c.given]
        return edit
    for more in (-4, -1, 1, 4):
        case('sections: all bytes', 'code with %+d bytes' % more, code_bytes(more))

    def lent(change):
        def edit(r, im):
            l = im.lend()
            l.data = change(l.data)
            return l
        return edit
    for name, change in (('a byte more', lambda d: d + b'\0'), ('a word more', lambda d: d + bytes(4)), ('a byte fewer', lambda d: d[:-1]),
                         ('a word fewer', lambda d: d[:-4]), ('no byte', lambda d: b'')):
        case('sections: the bytes lent', name + ' than the rows say', lent(change))

    # rows that are not whole
    def cut(n):
        def change(r, im, s):
            l = im.lend()
            l.sections = l.sections[:-n]
            return l
        return change
    for n in (1, 2, 3):
        spare('sections: whole rows', 'the last row %d short' % n, cut(n), kind=BSS, last_only=True)
        case('sections: whole rows', '%d numbers past the last row' % n, lambda r, im, n=n: longer(im, 'sections', [4, top(im), 16][:n]), others=(BSS,))


def longer(im, name, numbers):
    l = im.lend()
    setattr(l, name, getattr(l, name) + numbers)
    return l


def shorter(im, name, n):
    l = im.lend()
    setattr(l, name, getattr(l, name)[:-n])
    return l


def shift(im, bases):
    """Moves sections to new bases, and every address of the image with them."""
    old = [(s.base, s.end, bases[id(s)]) for s in im.sections]

    def moved(a):
        return next((n + a - b for b, e, n in old if b <= a < e), a)
    for s in im.sections:
        words = rows(s.data, 4)
        s.data = b''.join(moved(int.from_bytes(w, 'big')).to_bytes(4, 'big') for w in words)
        s.base = bases[id(s)]
    im.outcomes = [(k, m, moved(a), b, c, d) if k in (JUMP, TABLE) else (k, m, a, moved(b), c, moved(d)) for k, m, a, b, c, d in im.outcomes]


def filled(n, kind):
    """As many sections as asked, all but those at hand of one kind."""
    def edit(r, im):
        while len(im.sections) < n:
            im.sections.append(Section(kind, top(im) + 4 * r.randrange(3), 4 * r.randint(1, 4)))
    return edit


def only_code(n):
    im = Image()
    im.sections.append(Section(CODE, 0x1000, 4 * n))
    im.code.put(0, [0x1000 + 4 * i for i in range(n)])
    im.outcomes = [table(0x1000, 8), table(0x1004)] + [(GO_ON, 0, 0, 0, 0, 0)] * (n - 2)
    return im


def much_code(words, last):
    """Two branches on each word, but for two tables."""
    im = Image()
    code, data = Section(CODE, 0x80003000, 4 * words), Section(DATA, 0x80003000 + 4 * words, 32)
    code.data = bytes.fromhex('38600001') * words
    data.put(0, [code.base, code.end - 4, 0, data.base, code.base + 4, code.end, 0x100, 0])
    im.sections = [data, code] if last else [code, data]
    branches = (LIST, 0, TO_ADDRESS, code.base, TO_ADDRESS + LINK, code.end - 4)
    im.outcomes = [branches] * words
    im.outcomes[0], im.outcomes[words - 1] = table(data.base, 16), table(data.base)
    im.functions = [(code.base, 262144, 1), (code.base + 131072, 131072, 0)]
    im.skips = [(code.base + 16, code.base + 32), (code.base + 32, code.end)]
    im.entry = [code.end - 4]
    return im


# ---- outcomes

def at_word(which, row):
    """One outcome in the place of the first, a middle or the last."""
    def edit(r, im):
        i = {'first': 0, 'middle': len(im.outcomes) // 2, 'last': -1}[which]
        im.outcomes[i] = row(r, im) if callable(row) else row
    return edit


def outcomes():
    for n, name in ((-1, 'one fewer'), (1, 'one more'), (-2, 'two fewer'), (2, 'two more')):
        case('outcomes: one for each code word', 'outcomes: ' + name, lambda r, im, n=n: setattr(im, 'outcomes', (im.outcomes + im.outcomes[:2])[:im.code.size // 4 + n]))
    case('outcomes: one for each code word', 'outcomes: none', lambda r, im: setattr(im, 'outcomes', []))
    for n in (1, 3, 5):
        case('outcomes: whole rows', 'outcomes: the last row %d short' % n, lambda r, im, n=n: shorter(im, 'outcomes', n))
    kept('one code word', short_code(1).lend(), None)
    kept('two code words', short_code(2).lend(), None)

    for which, kind in (('first', 7), ('middle', 7), ('last', 7), ('middle', 8), ('middle', 255), ('last', 0xFFFFFFFF)):
        case('outcomes: kind', 'kind %x of the %s word' % (kind, which), at_word(which, (kind, 0, 0, 0, 0, 0)))
    for kind in range(7):
        for mark in (0, 1):
            case(None, 'kind %d with mark %d' % (kind, mark), at_word('middle', lambda r, im, k=kind, m=mark: (k, m, any_address(r, im) if k in (4, 5) else 0, 0, 0, 0)))
    for kind, mark in ((0, 2), (3, 2), (6, 2), (1, 3), (2, 0xFFFFFFFF), (0, 256)):
        for which in ('first', 'middle', 'last'):
            case('outcomes: mark', 'mark %x with kind %d of the %s word' % (mark, kind, which), at_word(which, (kind, mark, 0, 0, 0, 0)))

    # where an address may stand: as a jump's target, a table's, in a list of branches
    places = {
        'jump': lambda a: (JUMP, 0, a, 0, 0, 0), 'table': lambda a: table(a, 4), 'first branch': lambda a: (LIST, 0, TO_ADDRESS, a, 0, 0),
        'second branch': lambda a: (LIST, 0, ELSEWHERE, 0, TO_ADDRESS, a), 'branch to a table': lambda a: (LIST, 0, 0, 0, TO_TABLE, a),
        'linked branch': lambda a: (LIST, 1, TO_ADDRESS + LINK, a, 0, 0)}
    for name, row in places.items():
        for off in (1, 2, 3) if name in ('jump', 'table') else (2,):
            case('outcomes: address: a multiple of 4', '%s %d above a multiple of 4' % (name, off), at_word('middle', lambda r, im, f=row, o=off: f(any_address(r, im) + o)))
        case('outcomes: address: inside a section', '%s to where the last section ends' % name, at_word('middle', lambda r, im, f=row: f(top(im))))
        case('outcomes: address: inside a section', '%s to the word below the first section' % name, at_word('last', lambda r, im, f=row: f(low(im) - 4)))
        case(None, '%s to the last word of all' % name, at_word('middle', lambda r, im, f=row: f(top(im) - 4)))
        case(None, '%s to the first word of all' % name, at_word('first', lambda r, im, f=row: f(low(im))))
    for a in (0, 0xF0000000, 0xFFFFFFFC):
        case('outcomes: address: inside a section', 'jump to %x' % a, at_word('middle', (JUMP, 0, a, 0, 0, 0)))
    case('outcomes: address: inside a section', 'table at 0', at_word('middle', table(0, 4)))

    for size in (65537, 65540, 0xFFFFFFFF):
        case('outcomes: size at most 65,536', 'table of size %d' % size, at_word('middle', lambda r, im, n=size: table(any_address(r, im), n)))
    for size in (65535, 65536):
        case(None, 'table of size %d' % size, at_word('middle', lambda r, im, n=size: table(next(s for s in im.sections if s.kind == DATA).base, n)))

    for name, row in (('go on with a target', (GO_ON, 0, 0x1000, 0, 0, 0)), ('illegal with a size', (ILLEGAL, 0, 0, 4, 0, 0)),
                      ('unknown jump with a third number', (UNKNOWN, 0, 0, 0, 1, 0)), ('return with a fourth number', (RETURN, 0, 0, 0, 0, 4)),
                      ('elsewhere with an address', (LIST, 0, ELSEWHERE, 4, 0, 0)), ('linked elsewhere with an address', (LIST, 0, 0, 0, ELSEWHERE + LINK, 4)),
                      ('an address and no branch', (LIST, 0, 0, 4, 0, 0)), ('an address and no second branch', (LIST, 0, ELSEWHERE, 0, 0, 4))):
        for which in ('first', 'middle', 'last'):
            case('outcomes: nothing besides', '%s, the %s word' % (name, which), at_word(which, row))
    for name, more in (('jump with a size', (4, 0, 0)), ('jump with a third number', (0, 1, 0)), ('jump with a fourth number', (0, 0, 1))):
        case('outcomes: nothing besides', name, at_word('middle', lambda r, im, m=more: (JUMP, 0, any_address(r, im)) + m))
    for name, more in (('table with a third number', (4, 1, 0)), ('table with a fourth number', (4, 0, 1))):
        case('outcomes: nothing besides', name, at_word('middle', lambda r, im, m=more: (TABLE, 0, any_address(r, im)) + m))

    for way in (8 + TO_ADDRESS, 8 + TO_TABLE, 16 + TO_ADDRESS, 0x80000000 + TO_ADDRESS):
        case('outcomes: link or not', 'way %x' % way, at_word('middle', lambda r, im, w=way: (LIST, 0, w, any_address(r, im), 0, 0)))
    case('outcomes: link or not', 'way b', at_word('last', (LIST, 0, 0, 0, 8 + ELSEWHERE, 0)))
    case('outcomes: to an address, a table or elsewhere', 'way 4, nowhere', at_word('middle', (LIST, 0, 4, 0, 0, 0)))
    case('outcomes: to an address, a table or elsewhere', 'way 4, the second branch', at_word('last', (LIST, 0, ELSEWHERE, 0, 4, 0)))
    for name, row in (('no branch', (0, 0, 0, 0)), ('elsewhere twice', (ELSEWHERE, 0, ELSEWHERE + LINK, 0)), ('the second branch only', (0, 0, ELSEWHERE, 0))):
        case(None, 'a list: ' + name, at_word('middle', (LIST, 0) + row))


def short_code(n):
    im = Image()
    im.sections = [Section(DATA, 0x2000, 8).put(0, [0x1000, 0x2004]), Section(CODE, 0x1000, 4 * n).put(0, [0x4E800020] * n)]
    im.outcomes = [table(0x2000, 8)] + [table(0x2000)] * (n - 1)
    return im


# ---- symbols

def symbols():
    for name, first in (('functions', lambda im: im.code), ('objects', lambda im: next(s for s in im.sections if s.kind != CODE))):
        def set_at(i, row):
            def edit(r, im):
                l = getattr(im, name)
                a, size, known = l[i]
                l[i] = row(a, size, known)
            return edit
        for i in (0, -1):
            for off in (1, 2, 3):
                case(name + ': a multiple of 4', '%s: %s %d above a multiple of 4' % (name, 'first' if i == 0 else 'last', off), set_at(i, lambda a, s, k, o=off: (a + o, s, k)))
        for size in (262148, 0xFFFFFFFC) + ((262145, 0xFFFFFFFF) if name == 'objects' else ()):
            case(name + ': size at most 262,144', '%s: size %d' % (name, size), set_at(0, lambda a, s, k, n=size: (a, n, k)))
        for size in (0, 4, 262140, 262144):
            for known in (0, 1):
                case(None, '%s: size %d, known %d' % (name, size, known), set_at(1, lambda a, s, k, n=size, m=known: (a, n, m)))
        for known in (2, 3, 256, 0xFFFFFFFF):
            case(name + ': mark', '%s: known %x' % (name, known), set_at(-1, lambda a, s, k, n=known: (a, s, n)))
        case(name + ': ascend', name + ': the same twice', lambda r, im: getattr(im, name).insert(1, getattr(im, name)[0]))
        case(name + ': ascend', name + ': the last twice', lambda r, im: getattr(im, name).append(getattr(im, name)[-1]))
        case(name + ': ascend', name + ': two exchanged', lambda r, im: getattr(im, name).insert(0, getattr(im, name).pop(1)))
        case(name + ': ascend', name + ': the last first', lambda r, im: getattr(im, name).insert(0, getattr(im, name).pop()))
        for n in (1, 2):
            case(name + ': whole rows', '%s: the last row %d short' % (name, n), lambda r, im, n=n: shorter(im, name, n))
            case(name + ': whole rows', '%s: %d numbers past the last row' % (name, n), lambda r, im, n=n: longer(im, name, [first(im).end - 4, 4][:n]))
        for n in (1023, 1024):
            kept('%d %s' % (n, name), many_symbols(n, name).lend(), None)
        kept('1025 ' + name, many_symbols(1025, name).lend(), name + ': at most 1,024')

    for size in (1, 2, 3, 5, 262143):
        case('functions: size a multiple of 4', 'functions: size %d' % size, lambda r, im, n=size: im.functions.__setitem__(0, (im.functions[0][0], n, 1)))
    for size in (1, 2, 3, 262143):
        case(None, 'objects: size %d' % size, lambda r, im, n=size: im.objects.__setitem__(0, (im.objects[0][0], n, 1)))

    # functions lie in code
    for name, where in (('the word below code', lambda im: im.code.base - 4), ('where code ends', lambda im: im.code.end),
                        ('0', lambda im: 0), ('data', lambda im: next(s for s in im.sections if s.kind == DATA).base)):
        case('functions: in code', 'a function at ' + name, lambda r, im, f=where: setattr(im, 'functions', [(f(im), 4, 1)]))
    for name, where in (("code's first word", lambda im: im.code.base), ("code's last word", lambda im: im.code.end - 4)):
        case(None, 'a function at ' + name, lambda r, im, f=where: setattr(im, 'functions', [(f(im), 4, 1)]))
        case('objects: in another section', 'an object at ' + name, lambda r, im, f=where: setattr(im, 'objects', [(f(im), 4, 1)]))
    # objects inside another section
    for name, where in (('where the last section ends', top), ('the word below the first section', lambda im: low(im) - 4), ('0', lambda im: 0), ('fffffffc', lambda im: 0xFFFFFFFC)):
        case('objects: in another section', 'an object at ' + name, lambda r, im, f=where: setattr(im, 'objects', [(f(im), 4, 1)]))
    for kind in (DATA, BSS):
        for name, where in (('first', lambda s: s.base), ('last', lambda s: s.end - 4)):
            case(None, 'an object at the %s word of kind %d' % (name, kind), lambda r, im, f=where, k=kind: setattr(im, 'objects', [(f(next(s for s in im.sections if s.kind == k)), 0, 1)]), others=(BSS, RODATA))

    # the order is by section first
    def two(order):
        im = short_code(2)
        im.sections = [Section(RODATA, 0x5000, 8), im.sections[0], im.sections[1]]
        im.objects = [(0x5000, 4, 1), (0x2000, 4, 1)] if order else [(0x2000, 4, 1), (0x5000, 4, 1)]
        return im.lend()
    kept('objects: ascend by section, not by address', two(True), None)
    kept('objects: ascend by address, not by section', two(False), 'objects: ascend')


def many_symbols(n, name):
    im = Image()
    code, data = Section(CODE, 0x1000, 4 * 1026), Section(DATA, 0x4000, 4 * 1026)
    data.put(0, [0x1000, 0x1004, 0, 0x2004])
    im.sections = [code, data]
    im.outcomes = [table(0x4000, 16)] + [(GO_ON, 0, 0, 0, 0, 0)] * 1024 + [table(0x4000)]
    if name == 'functions':
        im.functions = [(0x1000 + 4 * i, 4, i % 2) for i in range(n)]
    else:
        im.objects = [(0x4000 + 4 * i, 8, 1 - i % 2) for i in range(n)]
    return im


# ---- skip ranges and the entry point

def skips():
    def set_to(ranges):
        return lambda r, im: setattr(im, 'skips', ranges(im.code.base, im.code.end))
    for name, ranges in (('empty, first', lambda b, e: [(b, b)]), ('empty, last', lambda b, e: [(b, b + 4), (e, e)]), ('empty, inside', lambda b, e: [(b + 8, b + 8), (b + 8, b + 12)]),
                         ('reversed', lambda b, e: [(b + 8, b + 4)]), ('reversed, the whole of code', lambda b, e: [(e, b)])):
        case('skips: nonempty', 'skips: ' + name, set_to(ranges))
    for name, ranges in (('first 1 above', lambda b, e: [(b + 1, b + 8)]), ('first 2 above', lambda b, e: [(b, b + 4), (b + 6, b + 12)]), ('past 2 below', lambda b, e: [(b, b + 6)]),
                         ('past 1 below', lambda b, e: [(e - 8, e - 1)]), ('past 3 below', lambda b, e: [(b, b + 4), (e - 8, e - 3)])):
        case('skips: multiples of 4', 'skips: ' + name, set_to(ranges))
    for name, ranges in (('from a word below code', lambda b, e: [(b - 4, b + 4)]), ('to a word past code', lambda b, e: [(b, b + 4), (e - 4, e + 4)]), ('before code', lambda b, e: [(b - 8, b - 4)]),
                         ('behind code', lambda b, e: [(e + 4, e + 8)]), ('from where code ends', lambda b, e: [(e, e + 4)]), ('all addresses', lambda b, e: [(0, 0xFFFFFFFC)])):
        case('skips: inside code', 'skips: ' + name, set_to(ranges))
    for name, ranges in (('overlap by a word', lambda b, e: [(b, b + 8), (b + 4, b + 12)]), ('descend', lambda b, e: [(b + 8, b + 12), (b, b + 4)]), ('descend and touch', lambda b, e: [(b + 4, b + 8), (b, b + 4)]),
                         ('the same twice', lambda b, e: [(b + 4, b + 8)] * 2), ('one inside another', lambda b, e: [(b, b + 16), (b + 4, b + 8)]), ('the last two overlap', lambda b, e: [(b, b + 4), (b + 4, b + 12), (b + 8, e)])):
        case('skips: ascend, no overlap', 'skips: ' + name, set_to(ranges))
    for name, ranges in (('none', lambda b, e: []), ('all of code', lambda b, e: [(b, e)]), ('each word', lambda b, e: [(a, a + 4) for a in range(b, min(e, b + 256), 4)]),
                         ('touch', lambda b, e: [(b, b + 8), (b + 8, b + 12)]), ('first and last word', lambda b, e: [(b, b + 4), (e - 4, e)])):
        case(None, 'skips: ' + name, set_to(ranges))
    for n, rule in ((63, None), (64, None), (65, 'skips: at most 64'), (66, 'skips: at most 64')):
        case(rule, '%d skips' % n, lambda r, im, n=n: setattr(im, 'skips', [(im.code.base + 4 * i, im.code.base + 4 * i + 4) for i in range(n)]), code_words=70)
    case('skips: whole rows', 'skips: the last row short', lambda r, im: shorter(im, 'skips', 1))
    case('skips: whole rows', 'skips: a number past the last row', lambda r, im: longer(im, 'skips', [im.code.end - 4]))

    def entry(name, rule, f):
        case(rule, 'entry: ' + name, lambda r, im: setattr(im, 'entry', f(im)))
    for off in (1, 2, 3):
        entry('%d above a multiple of 4' % off, 'entry: a multiple of 4', lambda im, o=off: [im.code.base + 4 + o])
    for name, f in (('the word below code', lambda im: im.code.base - 4), ('where code ends', lambda im: im.code.end), ('in data', lambda im: next(s for s in im.sections if s.kind == DATA).base),
                    ('0', lambda im: 0), ('fffffffc', lambda im: 0xFFFFFFFC)):
        entry(name, 'entry: in code', lambda im, f=f: [f(im)])
    for name, f in (('two', lambda im: [im.code.base, im.code.base + 4]), ('the same twice', lambda im: [im.code.base] * 2), ('three', lambda im: [im.code.base] * 3)):
        entry(name, 'entry: at most one', f)
    for name, f in (('none', lambda im: []), ("code's first word", lambda im: [im.code.base]), ("code's last word", lambda im: [im.code.end - 4])):
        entry(name, None, f)


# ---- jump tables

class Tables:
    """An image of one code section and one of data, with a table there. The code word at `word` names it."""

    def __init__(self, words, kind=DATA, n=16, word=8, before=(), behind=(), code=0x1000, data=0x4000, code_last=False):
        self.im = im = Image()
        c = Section(CODE, code, 4 * n).put(0, [0x60000000] * n)
        d = Section(kind, data, 4 * (len(before) + len(words) + len(behind)))
        if kind != BSS:
            d.put(0, list(before) + list(words) + list(behind))
        im.sections = [d, c] if code_last else [c, d]
        im.outcomes = [(GO_ON, 0, 0, 0, 0, 0)] * n
        self.at, self.word, self.c, self.d = data + 4 * len(before), word, c, d

    def named(self, size=0, way=None):
        """By a jump table's outcome or, with a way, by a branch."""
        self.im.outcomes[self.word] = table(self.at, size) if way is None else (LIST, 0, way, self.at, 0, 0)
        return self

    def function(self, *rows):
        self.im.functions += rows
        return self

    def object(self, *rows):
        self.im.objects += rows
        return self

    def keep(self, name):
        kept(name, self.im.lend(), None)


def targets(n, base=0x1000):
    return [base + 4 * i for i in range(n)]


NOWHERE, ODD = 0x20000000, 0x1002     # an address in no section, and one in code that is no multiple of 4


def tables():
    some = [0x1008, 0x1000, 0x1004, 0x1008, 0, 0x100C, 0, 0x1004]
    for size in (4, 8, 12, 16, 20, 28, 32):
        Tables(some).named(size).keep('a table of %d bytes' % size)
    for size in (36, 64, 65536):
        Tables(some).named(size).keep("a table of %d bytes, clamped at its section's end" % size)
        Tables(some, before=[1, 2, 3]).named(size).keep("a table of %d bytes in the middle, clamped" % size)
    Tables(some, kind=RODATA, before=[1] * 3, behind=[3] * 3).named(32).keep('a table in the middle of a read-only section')
    Tables(some, code_last=True).named(32).keep('a table in a section before code')
    Tables([0x4000, 0x1000, 0x4004, 0x1004], code_last=True).named(16).keep('entries of two sections, data first')
    Tables([0x4000, 0x1000, 0x4004, 0x1004]).named(16).keep('entries of two sections, code first')
    Tables([0] * 8).named(32).keep('nothing but zero words')
    Tables([0x1000] * 8).named(32).keep('one entry eight times')
    Tables([0, 0, 0x1000, 0, 0x1000, 0]).named(24).keep('zero words and a repeat')
    Tables([0x103C, 0x1000, 0x4014, 0, 0, 0]).named(24).keep('the last words of both sections')
    Tables([0] * 16384).named(65536).keep('65,536 bytes of zeros')
    Tables([0] * 16385).named(65536).keep('65,536 bytes of zeros, and a word behind them')
    Tables([0] * 16385 + [NOWHERE]).named(65536).object((0x4000, 65540, 1)).keep('65,540 bytes of zeros by the symbol, a bad word behind them')

    # lengths that are no multiple of 4 (10, the length last)
    for size in (1, 2, 3, 5, 6, 7, 30, 31):
        Tables(some).named(size).keep('10: a table of %d bytes' % size)
    for size in (33, 65535):
        Tables(some).named(size).keep('a table of %d bytes, clamped to whole words' % size)
    for size in (1, 3, 6, 29):
        Tables(some).named(16).object((0x4000, size, 1)).keep("10: the symbol's %d bytes" % size)
        Tables(some).named(0).object((0x4000, size, 1)).keep("10: the symbol's %d bytes, none given" % size)
    Tables(some).named(3).object((0x4000, 8, 1)).keep("the symbol's 8 bytes before the outcome's 3")

    # entries that can't be taken, and which comes first
    for bad, name in ((NOWHERE, '9: an entry in no section'), (ODD, '10: an entry that is no multiple of 4'), (0x4001, '10: an entry in data, 1 above'), (0x1003, '10: an entry 3 above'),
                      (NOWHERE + 2, '9: in no section before no multiple of 4'), (0x1040, '9: an entry where code ends'), (0x0FFC, '9: an entry below code'), (0x4020, '9: an entry where data ends'),
                      (0xFFFFFFFF, '9: an entry of all ones'), (1, '9: an entry 1'), (0x1041, '9: an entry 1 past the end of code'), (0x103F, '10: an entry in the last byte of code')):
        for i in (0, 3, 7):
            Tables(some[:i] + [bad] + some[i + 1:]).named(32).keep('%s, the word %d' % (name, i))
        Tables(some[:6] + [bad, 0]).named(24).keep('%s, behind the table' % name.split(': ')[1])
    Tables([0x1000, ODD, NOWHERE, 0]).named(16).keep('10 at the second word, 9 at the third')
    Tables([0x1000, NOWHERE, ODD, 0]).named(16).keep('9 at the second word, 10 at the third')
    Tables([0x1000, NOWHERE]).named(6).keep('10: a length of 6, a bad word in its second half')
    Tables([NOWHERE, 0x1000]).named(6).keep('9 before the length of 6')
    Tables([ODD, 0x1000]).named(6).keep('10 at an entry before the length of 6')
    Tables([NOWHERE, 0x1000]).named(3).keep('10: a length of 3, before any word')

    # 256 entries, zero words not counted
    def many(n, last=None, zeros=0, **how):
        words = targets(n) + [0] * zeros + ([] if last is None else [last])
        return Tables(words, n=300, **how)
    for n in (255, 256, 257):
        many(n).named(4 * n).keep('%d distinct entries' % n)
        many(n, code_last=True, kind=RODATA).named(4 * n).keep('%d distinct entries of a read-only section before code' % n)
        many(n, zeros=9).named(4 * n + 36).keep('%d distinct entries and nine zero words' % n)
        Tables([0x1000] * n).named(4 * n).keep('one entry %d times' % n)
        Tables(targets(16) * 16 + [0x1000] * (n - 256)).named(4 * n).keep('sixteen entries again and again, %d in all' % n)
        Tables(targets(n)[::-1], n=300).named(4 * n).keep('%d distinct entries, downwards' % n)
        many(n, word=299).named(0).function((0x1000, 1200, 1)).keep('%d distinct entries, no size' % n)
        Tables([0x1000] * n, n=300).named(0).keep('one entry %d times, no size' % n)
    many(256, last=NOWHERE).named(4 * 257).keep('9 before 4 at the word after 256 entries')
    many(256, last=ODD).named(4 * 257).keep('10 before 4 at the word after 256 entries')
    many(256, last=NOWHERE + 2).named(4 * 257).keep('9 before 10 before 4 at the word after 256 entries')
    many(256, last=0).named(4 * 257).keep('a zero word after 256 entries')
    many(257, last=NOWHERE).named(4 * 258).keep('4 at the word before a 9')
    many(257).named(4 * 257 + 2).keep('4 before the length')
    many(256, last=0x1000).named(4 * 256 + 2).keep('10: the length, after 256 entries')
    many(256, last=ODD, word=299).named(0).function((0x1000, 1200, 1)).keep('10 before 4 after 256 entries, no size')
    many(256, last=NOWHERE, word=299).named(0).function((0x1000, 1200, 1)).keep('an end after 256 entries, no size')
    many(256, last=0, word=299).named(0).function((0x1000, 1200, 1)).keep('a zero word after 256 entries, no size')

    # no size: up to the first word that is no address inside the function
    for i in range(8):
        Tables(targets(8)[:i] + [0] + targets(8)[i:]).named(0).keep('no size, a zero word at %d' % i)
    for bad, name in ((NOWHERE, 'in no section'), (0x0FFC, 'below code'), (0x1040, 'where code ends'), (0x4000, 'in data')):
        Tables([0x1000, 0x1004, bad, 0x1008]).named(0).keep('no size, a word ' + name)
    for bad in (ODD, 0x1001, 0x1003, 0x1021):
        Tables([0x1000, bad, 0x1008]).named(0).keep('10: no size, the word %x' % bad)
    for bad in (0x1024, 0x1025, 0x1028):
        Tables([0x1000, bad, 0x1008]).named(0).keep('no size, the word %x, behind the word that names the table' % bad)
    Tables(some, before=[0x1004] * 3).named(0).keep('no size, in the middle')
    Tables([0x1004] * 8).named(0).keep("no size, to the section's end")
    Tables([0x1020, 0x1024, 0]).named(0).keep('no size, the word itself and the next')
    for size, known in ((16, 1), (48, 1), (0, 1), (16, 0), (0, 0)):
        Tables([0x1010, 0x101C, 0x1020, 0x1024, 0x103C]).named(0).function((0x1000, 8, 1), (0x1010, size, known), (0x1030, 16, 1)).keep('no size, in a function of %d bytes, known %d' % (size, known))
        Tables([0x1020, 0x101C]).named(0).function((0x1020, size, known)).keep('no size, at the start of a function of %d bytes, known %d' % (size, known))
        Tables([0x1000, 0x1020, 0x1024]).named(0).function((0x1024, size, known)).keep('no size, before a function of %d bytes, known %d' % (size, known))
    Tables([0x100C, 0x1010]).named(0).function((0x1010, 64, 1)).keep("no size, a word below the function's start")

    # object symbols
    for size in (0, 4, 8, 262144):
        for known in (0, 1):
            for given in (0, 12):
                Tables(some).named(given).object((0x4000, size, known)).keep('%d bytes given, the symbol has %d, known %d' % (given, size, known))
    Tables(some, before=[0x1000]).named(0).object((0x4000, 8, 1)).keep('a symbol at another address')
    Tables(some, before=[0x1000]).named(0).object((0x4000, 8, 1), (0x4004, 12, 1), (0x4008, 4, 1)).keep('the symbol among others')
    Tables(some, before=[0x1000]).named(8).object((0x4000, 4, 1), (0x4004, 12, 0)).keep('a symbol of no known size')

    # in code or bss there are none; named by a branch, there is no size
    for size in (0, 8, 3):
        Tables(some, kind=BSS).named(size).keep('in bss, %d bytes given' % size)
        t = Tables(some)
        t.at = 0x1000
        t.named(size).keep('in code, %d bytes given' % size)
    Tables(some, kind=BSS).named(0).object((0x4000, 8, 1)).keep('in bss, with a symbol')
    for way in (TO_TABLE, TO_TABLE + LINK):
        Tables(some).named(way=way).keep('by a branch, way %d' % way)
        Tables(some).named(way=way).object((0x4000, 12, 1)).keep('by a branch, way %d, with a symbol' % way)
        Tables([0x1000, ODD]).named(way=way).keep('10: by a branch, way %d' % way)
        Tables([0x1000, NOWHERE]).named(way=way).object((0x4000, 8, 1)).keep('9: by a branch, way %d, with a symbol' % way)
        Tables(some, kind=BSS).named(way=way).keep('by a branch, way %d, in bss' % way)
    t = Tables(some)
    t.im.outcomes[3] = (LIST, 0, TO_TABLE, 0x4000, TO_TABLE + LINK, 0x4008)
    t.im.outcomes[9] = (LIST, 0, TO_ADDRESS, 0x4000, TO_TABLE, 0x4004)
    t.im.outcomes[15] = table(0x4010, 8)
    t.keep('five tables')

    for i in range(12):
        r = chance('ordinary %d' % i)
        kept('ordinary %d' % i, ordinary(r, others=[r.choice((DATA, RODATA, BSS)) for _ in range(r.randint(0, 6))]).lend(), None)


# ---- lines that are not of the format, and too many numbers: what docs of the program say of them

def texts():
    good = list(text(short_code(2).lend()))
    for name, lines in (
            ('an empty line', good + ['']), ('a letter that names no list', good + ['x 1']), ('a number of nine digits', good + ['e 000001000']),
            ('a sign', good + ['e -1000']), ('a capital letter', good + ['e 100C']), ('a list begun again', good + ['e 1000', 's 2 8000 4 4']), ('half a byte', good + ['b 0']), ('no count', good + ['e 1000 *']),
            ('a count that is no number', good + ['e 1000 *g']), ('something behind a count', good + ['e 1000 *1 1']), ('something behind the end', good + ['==']), ('an empty line first', [''] + good)):
        TEXTS.append((name, lines, '?'))
    for name, lines in (('400,001 numbers', ['k 0 *61a81']), ('300,001 bytes', ['b 00 *493e1']), ('a count of 32 bits', ['k 0 0 *ffffffff']), ('numbers one by one past the end', ['k 0 *61a80', 'e 1'])):
        TEXTS.append((name, lines, '!'))
    TEXTS.append(('a line that is none, and too many numbers', ['k 0 *61a81', 'x'], '?'))


def all_images():
    for make in (sections, outcomes, symbols, skips, tables, texts):
        make()
    names = [name for name, _, _ in BROKEN + PASSING + TEXTS]
    double = [n for n, c in collections.Counter(names).items() if c > 1]
    assert not double, double
    return BROKEN, PASSING, TEXTS


def main():
    options = Parser(__doc__)
    options.add_argument('--count', action='store_true')
    o = options.parse_args()
    broken, passing, texts = all_images()
    if o.count:
        for rule, n in sorted(collections.Counter(rule for _, _, rule in broken).items()):
            print('%4d  %s' % (n, rule))
        print('%4d  break one rule\n%4d  pass\n%4d  are not of the format or too long' % (len(broken), len(passing), len(texts)))
        return
    for name, l, rule in broken + passing:
        print('\n'.join(['# ' + (rule + '; ' if rule else '') + name, *text(l), '=']))
    for name, lines, _ in texts:
        print('\n'.join(['# ' + name, *lines, '=']))


if __name__ == '__main__':
    main()
