"""Images in frames, the text that `fmap` and `replay` read (crates/frames/specs/Frames.antt has the form of each line)."""
import os
import sys

sys.dont_write_bytecode = True
# In front of this folder: `images` is that of tests/checked.
sys.path[0:0] = [os.path.join(os.path.dirname(os.path.abspath(__file__)), '..', d) for d in ('walked', 'checked')]
from lists import BSS, CODE, JUMP, LINK, LIST, TABLE

SECTION, WORD, TARGET, TABLE_OF, BRANCH, FUNCTION, OBJECT, SKIP, ENTRY = range(1, 10)


def section(kind, base, size):
    return '01%02X%08X%08X' % (kind, base, size)


def branch(way, address):
    """A way as a row of outcomes has it: 1 to an address, 2 to a table, 3 elsewhere, and 4 more with link."""
    return '05%02X%02X%08X' % (way // LINK, way % LINK - 1, address)


def code_word(word, outcome=(0,), mark=0):
    """The frames of a code word. Its outcome is a kind and, for a jump, its target; for a table, address and size; for a list, its ways
    as pairs of a way and an address."""
    kind = outcome[0]
    yield '02%08X%02X%02X' % (word, kind, mark)
    if kind == JUMP:
        yield '03%08X' % outcome[1]
    elif kind == TABLE:
        yield '04%08X%08X' % outcome[1:]
    elif kind == LIST:
        for way in outcome[1]:
            yield branch(*way)


def word(w):
    return '02%08X' % w


def symbol(frame, address, size, known):
    return '%02X%08X%08X%02X' % (frame, address, size, known)


def skip(first, past):
    return '08%08X%08X' % (first, past)


def entry(address):
    return '09%08X' % address


def text(images):
    """Many images, each ended by a line `=`."""
    return ''.join(line + '\n' for lines in images for line in [*lines, '='])


def parts(text):
    """The lines before each line `=`."""
    each, lines = [], []
    for line in text.split('\n'):
        if line == '=':
            each.append(lines)
            lines = []
        else:
            lines.append(line)
    assert lines == [''], 'the last part is not ended'
    return each
