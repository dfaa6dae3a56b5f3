"""An image with the walks that are asked of it, and the text in which the program `walked` reads them: the lists of the program
`checked` (tests/checked/lists.py) and two more, the known functions and the walks."""
import os
import sys

sys.dont_write_bytecode = True
sys.path.insert(0, os.path.join(os.path.dirname(os.path.abspath(__file__)), '..', 'checked'))
from lists import Lent, number_lines, rows, text

# The longest list that the program lends. A walk's lists take at most 3,456 numbers.
MOST = 4096


def key(section, address):
    """An address with its section as one number; the sections are counted from 0."""
    return section + 1 << 32 | address


def halves(keys):
    return [half for k in keys for half in (k >> 32, k & 0xFFFFFFFF)]


def whole(numbers):
    return [high << 32 | low for high, low in zip(numbers[::2], numbers[1::2])]


class Asked:
    """Lent lists; the known functions, entry and end by turns; walks, each its start, its end (0 for none) and the lent list's length."""

    def __init__(self, lent, known=(), walks=()):
        self.lent, self.known, self.walks = lent, list(known), list(walks)

    def lines(self):
        yield from text(self.lent)
        yield from number_lines('n', halves(self.known), 4)
        yield from number_lines('w', [n for start, end, room in self.walks for n in halves((start, end)) + [room]], 5)


def read(lines):
    """The same from its lines."""
    numbers = {letter: [] for letter in 'sofjkenw'}
    data = b''
    for line in lines:
        letter, _, rest = line.partition(' ')
        rest, _, count = rest.partition('*')
        count = int(count, 16) if count else 1
        if letter == 'b':
            data += bytes.fromhex(rest) * count
        elif not letter.startswith('#'):
            numbers[letter] += [int(n, 16) for n in rest.split()] * count
    lent = Lent(numbers['s'], data, *(numbers[letter] for letter in 'ofjke'))
    walks = [(*whole(row[:4]), row[4]) for row in rows(numbers['w'], 5) if len(row) == 5]
    return Asked(lent, whole(numbers['n']), walks)


def parts(lines):
    """The lines before each line `=`."""
    part = []
    for line in lines:
        line = line.rstrip('\n')
        if line == '=':
            yield part
            part = []
        else:
            part.append(line)


def answers(lines):
    """The lines of each walk's answer, of an image's."""
    each = []
    for line in lines:
        if line.startswith('R') or not each:
            each.append([])
        each[-1].append(line)
    return each
