#!/usr/bin/env python3
"""What the program `records` must print, from document 01 alone. It shares nothing with the code.

    expected.py < crates/records/stdin > crates/records/stdout
    expected.py --count < crates/records/stdin                  how often each answer comes
"""
import collections
import os
import sys

sys.dont_write_bytecode = True
sys.path.append(os.path.join(os.path.dirname(os.path.abspath(__file__)), ".."))
from needs import Parser, need_input

ROWS, ADDRESSES, MOST = 260, 256, 256


def total(values):
    h = 0
    for v in values:
        h = h % 2**32 * 31 + v // 2**32
        h = h % 2**32 * 31 + v % 2**32
    return h % 2**32


def breaks_a_rule(rows, addr):
    """3: the address, the order of the starts, an end that is not above its start."""
    if addr % 4:
        return True
    for i, (start, end) in enumerate(rows):
        if start % 4 or end % 4 or (end and end <= start) or (i and start <= rows[i - 1][0]):
            return True
    return False


def changed(table, count, addr, opens):
    """(number, yes, rows) of a mark (opens) or a cut."""
    if count > ROWS or breaks_a_rule(table[:count], addr):
        return 3, False, None
    blocks = dict(table[:count])
    below = [s for s in blocks if s < addr]
    yes = False
    if below and blocks[max(below)] > addr:
        end = blocks[max(below)]
        blocks[max(below)] = addr
        blocks[addr] = end
        yes = not opens
    elif opens and addr not in blocks:
        blocks[addr] = 0
        yes = True
    if len(blocks) > min(MOST, ROWS):
        return 4, False, None
    return 0, yes, sorted(blocks.items())


def run(lines, seen):
    table, count = [(0, 0)] * ROWS, 0
    addresses, pending = [0] * ADDRESSES, 0
    for line in lines:
        letter, *numbers = line.split()
        numbers = [int(n, 16) for n in numbers]
        if letter == "z":
            table, count = [(0, 0)] * ROWS, 0
        elif letter == "r":
            if count < ROWS:
                table[count] = (numbers[0], numbers[1])
                count += 1
        elif letter == "n":
            count = min(numbers[0], 1000)
        elif letter in "mc":
            number, yes, rows = changed(table, count, numbers[0], letter == "m")
            if rows is not None:
                table[: len(rows)] = rows
                count = len(rows)
            answer = "%d %d %d %08x" % (number, yes, count, total(v for row in table for v in row))
            seen[letter, number, yes] += 1
            yield "%s %s | %s" % (letter, answer, answer)
        elif letter == "q":
            pending = min(numbers[0], 1000)
        else:
            yes, top = False, 0
            if letter == "p" and pending < ADDRESSES:
                kept = addresses[:pending]
                # An address goes in front of the last run of higher ones, as the order of what is there decides.
                at = pending
                while at and numbers[0] < kept[at - 1]:
                    at -= 1
                addresses[: pending + 1] = kept[:at] + [numbers[0]] + kept[at:]
                pending, yes = pending + 1, True
            if letter == "o" and 0 < pending <= ADDRESSES:
                pending -= 1
                top, yes = addresses[pending], True
            answer = "%d %d %d %08x" % (top, yes, pending, total(addresses))
            seen[letter, yes] += 1
            yield "%s %s | %s" % (letter, answer, answer)


def main():
    options = Parser(__doc__)
    options.add_argument("--count", action="store_true")
    o = options.parse_args()
    need_input()
    seen = collections.Counter()
    lines = list(run(sys.stdin.read().splitlines(), seen)) + ["disagreements 0"]
    if o.count:
        for key, n in sorted(seen.items()):
            print(*key, n)
        return
    print("\n".join(lines))


if __name__ == "__main__":
    main()
