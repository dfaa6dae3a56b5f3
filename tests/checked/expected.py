#!/usr/bin/env python3
"""What the program `checked` has to print, computed by a model of document 01 in Python that was written apart from this code.

    expected.py MODEL    MODEL: the file fmap_model.py; prints crates/checked/stdout
"""
import argparse
import importlib.util
import sys

sys.dont_write_bytecode = True
import images
from lists import BSS, JUMP, LIST, TABLE, rows
from needs import Parser, file


def load(path):
    spec = importlib.util.spec_from_file_location('model', path)
    model = importlib.util.module_from_spec(spec)
    spec.loader.exec_module(model)
    return model


def load_model(path):
    """The type of an argument that is the model's file."""
    file(path)
    try:
        model = load(path)
        model.AnalyzerState
    except Exception as e:
        raise argparse.ArgumentTypeError('%s is not the file fmap_model.py (%s)' % (path, e))
    return model


def words_of(data):
    return [int.from_bytes(w, 'big') for w in rows(data, 4) if len(w) == 4]


def outcome_of(model, row):
    """A row that is not whole has no kind. A number that the kind has no use for is handed to the model as what its kind may not
    have: a branch where there is no list, a target where there is no jump."""
    if len(row) < 6:
        return model.Outcome(7, 0)
    kind, mark, first, second, third, fourth = row
    o = model.Outcome(kind, mark)
    besides = ()
    if kind == JUMP:
        o.target, besides = first, (second, third, fourth)
    elif kind == TABLE:
        o.target, besides = (first, second), (third, fourth)
    elif kind == LIST:
        # the model's branches go to 0 an address, 1 a table, 2 elsewhere; 3 is none of them
        o.branches = [(way // 4, (way - 1) % 4, a) for way, a in ((first, second), (third, fourth)) if (way, a) != (0, 0)]
    else:
        o.target, besides = first or None, (second, third, fourth)
    if any(besides):
        o.branches.append((0, model.ELSEWHERE, 0))
    return o


def image_of(model, l):
    """The model's image of the lists. It counts a section's words: bytes that make no whole word are a word too many where the section
    has more than its size, and none where it has fewer. Bytes that no section counts are the last section's; missing ones are too."""
    im = model.Image()
    at = 0
    sections = rows(l.sections, 4)
    for i, row in enumerate(sections):
        whole = len(row) == 4
        kind, base, size, given = row if whole else (row + [0, 0, 0, 0])[:4]
        s = model.Section(kind if whole else 0, base, size)
        data = l.data[at:] if i == len(sections) - 1 else l.data[at:at + given]
        at += given
        size = 0 if kind == BSS else size
        s.words = words_of(data)
        if len(data) > size and len(data) % 4:
            s.words.append(0)
        im.sections.append(s)
    im.outcomes = [outcome_of(model, row) for row in rows(l.outcomes, 6)]
    # rows that are not whole begin at no multiple of 4
    im.functions = [tuple(s) if len(s) == 3 else (1, 0, 0) for s in rows(l.functions, 3)]
    im.objects = [tuple(s) if len(s) == 3 else (1, 0, 0) for s in rows(l.objects, 3)]
    im.skips = [tuple(s) if len(s) == 2 else (1, 0) for s in rows(l.skips, 2)]
    im.entries = list(l.entry)
    return im


def number_of(model, im):
    return next((n for n, check in ((1, model.check_image), (2, model.check_outcomes), (3, model.check_given)) if not check(im)), 0)


def bounds(model, im, a):
    """What a walk straight from the function's start hands to the reading of a table at the word a: the start of the last function
    symbol at or below it, else of code, and the end that the symbol knows, else the word's own."""
    code = im.sections[im.code]
    start, size, known = max((f for f in im.functions if f[0] <= a), default=(code.base, 0, 0))
    return model.key(im.code, start), model.key(im.code, start + size if known else a + 4)


def tables_of(model, im):
    """Each table that an outcome names, in order: the code word, the table's address, the size that is given with it."""
    code = im.sections[im.code]
    for i, o in enumerate(im.outcomes):
        word = code.base + 4 * i
        if o.kind == TABLE:
            yield word, o.target[0], o.target[1]
        for link, to, a in o.branches:
            if to == model.TO_TABLE:
                yield word, a, 0


def read(model, im, word, a, size):
    """(fault, entries, size)"""
    try:
        return (0,) + model.jump_table_entries(im, im.locate(a), size, *bounds(model, im, word))
    except model.Fault as f:
        return f.number, [], 0


def answer(model, l):
    im = image_of(model, l)
    number = number_of(model, im)
    yield str(number)
    if number:
        return
    for word, a, size in tables_of(model, im):
        fault, entries, length = read(model, im, word, a, size)
        if fault:
            yield '%08x %08x fault %d' % (a, size, fault)
        else:
            yield '%08x %08x size %08x' % (a, size, length) + ''.join(' %09x' % k for k in entries)


def main():
    options = Parser(__doc__)
    options.add_argument('model', type=load_model)
    model = options.parse_args().model
    broken, passing, texts = images.all_images()
    for name, l, rule in broken + passing:
        lines = list(answer(model, l))
        wanted = {'sections': '1', 'outcomes': '2'}.get(rule.split(':')[0], '3') if rule else '0'
        assert lines[0] == wanted, (name, rule, lines[0])
        print('\n'.join(lines), '=', sep='\n')
    for name, _, told in texts:
        print(told, '=', sep='\n')


if __name__ == '__main__':
    main()
