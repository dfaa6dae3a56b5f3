#!/usr/bin/env python3
"""What `replay` has to print, by a model of document 01 in Python that was written apart from this code.

    by_model.py MODEL < IMAGES    MODEL: the file fmap_model.py
"""
import sys
import traceback

sys.dont_write_bytecode = True
import frames
from frames import CODE, JUMP, LIST, TABLE
from expected import load_model
from needs import Parser, need_input

DIGITS = set('0123456789abcdefABCDEF')
WORDS = 1024

# Where the model raises 4, 10 and 16, by the name of its function.
PLACES = {'set_block': 'blocks', 'set_ways': 'ways on', 'add_reference': 'references', 'set_table': 'jump tables', 'add_possible': 'possible blocks',
          'push': 'pending addresses', 'add': 'entries', 'take': 'entries of a table', 'jump_table_entries': 'the length of a table',
          'run': 'past the last word', 'run_pass': 'a pass without a new word'}


class NoFrame(Exception):
    pass


def need(holds):
    if not holds:
        raise NoFrame


def put(model, im, line):
    """One frame, by crates/frames/specs/Frames.antt."""
    need(len(line) >= 2 and set(line) <= DIGITS)
    f = lambda at, n=8: int(line[at:at + n], 16)
    kind, size = f(0, 2), len(line)
    last = im.outcomes[-1] if im.outcomes else None
    if kind == frames.SECTION:
        need(size == 20 and 1 <= f(2, 2) <= 4)
        im.sections.append(model.Section(f(2, 2), f(4), f(12)))
    elif kind == frames.WORD:
        need(im.sections and size == (14 if im.sections[-1].kind == CODE else 10))
        im.sections[-1].words.append(f(2))
        if size == 14:
            need(f(10, 2) <= 6 and f(12, 2) <= 1 and len(im.outcomes) < WORDS)
            im.outcomes.append(model.Outcome(f(10, 2), f(12, 2)))
    elif kind == frames.TARGET:
        need(size == 10 and last and last.kind == JUMP)
        last.target = f(2)
    elif kind == frames.TABLE_OF:
        need(size == 18 and last and last.kind == TABLE)
        last.target = f(2), f(10)
    elif kind == frames.BRANCH:
        need(size == 14 and last and last.kind == LIST and f(2, 2) <= 1 and f(4, 2) <= 2)
        last.branches.append((f(2, 2), f(4, 2), f(6)))
    elif kind in (frames.FUNCTION, frames.OBJECT):
        need(size == 20 and f(18, 2) <= 1)
        (im.functions if kind == frames.FUNCTION else im.objects).append((f(2), f(10), f(18, 2)))
    elif kind == frames.SKIP:
        need(size == 18)
        im.skips.append((f(2), f(10)))
    elif kind == frames.ENTRY:
        need(size == 10)
        im.entries.append(f(2))
    else:
        need(False)


def read(model, lines):
    """The model's image, or none where a line is no frame."""
    im = model.Image()
    try:
        for line in lines:
            put(model, im, line)
    except NoFrame:
        return None
    return im


def judged(model, lines):
    """The answer's lines, and for a fault of the walk where the model raised it."""
    im = read(model, lines)
    if im is None:
        return ['R 01'], None
    for number, check in ((1, model.check_image), (2, model.check_outcomes), (3, model.check_given)):
        if not check(im):
            return ['R %02d' % number], None
    state = model.AnalyzerState(im)
    try:
        state.detect_functions()
    except model.Fault as fault:
        names = [f.name for f in traceback.extract_tb(fault.__traceback__)]
        place = PLACES.get(names[-1], names[-1]) + (', in a trial' if 'check_tail_call' in names else '')
        return ['R %02d' % fault.number], place
    return list(model.lines(0, state)), None


def answer(model, lines):
    return judged(model, lines)[0]


def main():
    options = Parser(__doc__)
    options.add_argument('model', type=load_model)
    model = options.parse_args().model
    need_input()
    sys.stdin.reconfigure(newline='\n')     # a carriage return is a part of its line
    lines = []
    for line in sys.stdin:
        line = line[:-1] if line.endswith('\n') else line
        if line == '=':
            print('\n'.join(answer(model, lines)), '=', sep='\n')
            lines = []
        else:
            lines.append(line)


if __name__ == '__main__':
    main()
