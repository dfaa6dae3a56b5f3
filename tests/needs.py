"""For the scripts of tests/ and bench/ in Python: `--help` prints a script's first words and starts nothing, and what a script needs is
tested before it begins, with the Debian package that has it (tests/packages.txt)."""
import argparse
import os
import shlex
import shutil
import sys

TESTS = os.path.dirname(os.path.abspath(__file__))
ROOT = os.path.dirname(TESTS)


class Parser(argparse.ArgumentParser):
    """Its help is the script's first words, and its usage their first indented lines. Arguments that don't fit end with the status 2."""

    def __init__(self, words):
        lines = words.split('\n')
        first = next(i for i, line in enumerate(lines) if line.startswith('    '))
        usage = lines[first:lines.index('', first)]
        super().__init__(usage='\n       '.join(line.strip() for line in usage).replace('%', '%%'), allow_abbrev=False)
        self.words = words.strip() + '\n'

    def format_help(self):
        return self.words

    def command(self, words):
        """Words that were given for a command, or stand in its place."""
        try:
            return command(words)
        except argparse.ArgumentTypeError as e:
            self.error(str(e))


def refuse(*lines):
    """The status 2, and a line for each reason."""
    script = os.path.relpath(os.path.abspath(sys.argv[0]), ROOT)
    sys.stderr.write(''.join('%s: %s\n' % (script, line) for line in lines))
    sys.exit(2)


def need(*tools):
    """Each must be on the PATH."""
    with open(os.path.join(TESTS, 'packages.txt')) as f:
        packages = dict(line.rstrip('\n').split(' ', 1) for line in f)
    missing = [t for t in tools if not shutil.which(t)]
    if missing:
        refuse(*('%s is not on the PATH (apt-get install %s)' % (t, packages[t]) for t in missing))


def need_input():
    """Standard input must be something else than a terminal."""
    if sys.stdin.isatty():
        refuse('standard input is a terminal; --help says what is read from it')


# ---- types of arguments

def command(words):
    """A command, of which the first word is a program."""
    words = shlex.split(words) if isinstance(words, str) else words
    if not words or not shutil.which(words[0]):
        path = words[0] if words else ''
        crate = os.path.basename(path)
        ours = os.path.abspath(path) == built(crate)
        raise argparse.ArgumentTypeError('there is no program %s%s' % (path, '; rt run in crates/%s proves and builds it' % crate if ours else ''))
    return words


def program(path):
    return command([path])[0]


def built(name):
    """A program of this repository."""
    return os.path.join(ROOT, 'crates', name, 'out', name)


def file(path):
    """A file to be read."""
    if not (os.path.isfile(path) and os.access(path, os.R_OK)):
        raise argparse.ArgumentTypeError('cannot read %s' % path)
    return path
