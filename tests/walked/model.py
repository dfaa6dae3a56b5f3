#!/usr/bin/env python3
"""What the program `walked` has to print, by a model of document 01 in Python that was written apart from this code.

    model.py MODEL < IMAGES    MODEL: the file fmap_model.py
"""
import sys

sys.dont_write_bytecode = True
from asked import parts, read, rows
from expected import image_of, load_model, number_of
from needs import Parser, need_input


def is_allowed(model, im, known, start, end):
    """What is asked beside the image's own rules: known functions that ascend strictly, at most 1,024; a start that is an aligned code
    address with its section; an end, if there is one, that is a multiple of 4 from the start up to 262,144 bytes behind it."""
    entries = known[::2]
    code = im.sections[im.code]
    return (len(known) % 2 == 0 and len(entries) <= 1024 and all(a < b for a, b in zip(entries, entries[1:]))
            and model.section_of(start) == im.code and start % 4 == 0 and code.contains(model.address_of(start))
            and (end == 0 or start <= end <= start + 262144 and end % 4 == 0))


def known_functions(model, known):
    table = model.Known(None)
    table.keys = known[::2]
    table.info = {entry: model.FunctionInfo(end or None) for entry, end in rows(known, 2)}
    return table


def numbers(s):
    """How many numbers the lists take in a lent one."""
    return 2 * (len(s.blocks) + sum(map(len, s.ways.values())) + len(s.tables)) + len(s.references) + len(s.possible)


def printed(k):
    return '-' if k is None else '%09x' % k


def whole_answer(s, found):
    yield 'R 00'
    yield 'A %d %s %s %d%d%d' % (found, printed(s.prologue), printed(s.epilogue), s.conditional_blr, s.rfi, s.r1_load)
    for start in sorted(s.blocks):
        yield 'B %s %s' % (printed(start), printed(s.blocks[start]))
    for at in sorted(s.ways):
        for to in s.ways[at]:
            yield 'C %s %s' % (printed(at), printed(to))
    for a in sorted(s.references):
        yield 'X ' + printed(a)
    for a, size in sorted(s.tables):
        yield 'J %s %08x' % (printed(a), size)
    for a in sorted(s.possible):
        yield 'P ' + printed(a)
    yield 'L zero'


def walked(model, im, known, walk):
    """The lines of one walk over an image that passes checks 1 to 3."""
    start, end, room = walk
    if not is_allowed(model, im, known, start, end):
        return ['R 03', 'L untouched']
    s = model.FunctionSlices()
    try:
        found = model.analyze(im, s, start, start, end or None, known_functions(model, known))
        if numbers(s) > room:
            raise model.Fault(4)
    except model.Fault as fault:
        return ['R %02d' % fault.number, 'L zero']
    return list(whole_answer(s, found))


def answer(model, asked):
    """The lines of each walk."""
    im = image_of(model, asked.lent)
    number = number_of(model, im)
    return [['R %02d' % number, 'L untouched'] if number else walked(model, im, asked.known, walk) for walk in asked.walks]


def main():
    options = Parser(__doc__)
    options.add_argument('model', type=load_model)
    model = options.parse_args().model
    need_input()
    for lines in parts(sys.stdin):
        for each in answer(model, read(lines)):
            print('\n'.join(each))
        print('=')


if __name__ == '__main__':
    main()
