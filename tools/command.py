"""What the commands in Python share: --help, the words that they take, statuses and messages.

A command is `command.run(main, __doc__, ..)`: it prints its head for --help, refuses words that it does not know, and
ends with one of three statuses.
"""
import argparse
import os
import random
import re
import shutil
import subprocess
import sys
import traceback

if sys.version_info < (3, 8):
    print('%s: this Python is older than 3.8' % os.path.basename(sys.argv[0]), file=sys.stderr)
    sys.exit(2)

STATUSES = 'Statuses: 0 it ended well; 1 something was refused, or differs; 2 it could not run (usage, files).'
ROOT = os.path.dirname(os.path.dirname(os.path.realpath(__file__)))
NAME = os.environ.get('COMMAND') or os.path.basename(sys.argv[0])


class Unable(Exception):
    """The command cannot run: status 2."""


class Refused(Exception):
    """Something is refused, or differs: status 1."""


def quoted(word):
    """A word from outside, safe to print and short: bytes and control characters escaped, and cut after 40."""
    text = word.decode('ascii', 'backslashreplace') if isinstance(word, bytes) else word
    short = ascii(text[:40])
    return short if len(text) <= 40 else "%s.. (%d characters)" % (short, len(text))


def number(word, what, most, least=0):
    """The number that a word says: decimal ASCII digits, or hexadecimal ones after 0x. Nothing else is a number."""
    text = word.decode('ascii', 'backslashreplace') if isinstance(word, bytes) else word
    if re.fullmatch('[0-9]+', text):
        digits, base = text.lstrip('0') or '0', 10
    elif re.fullmatch('0[xX][0-9a-fA-F]+', text):
        digits, base = text[2:].lstrip('0') or '0', 16
    else:
        raise Unable('%s %s is no number (decimal digits, or 0x and hexadecimal ones)' % (what, quoted(text)))
    value = int(digits, base) if len(digits) <= 20 else most + 1
    if not least <= value <= most:
        raise Unable('%s %s is not within %d to %d' % (what, text if len(text) <= 40 else quoted(text), least, most))
    return value


class Words(argparse.ArgumentParser):
    def __init__(self, doc):
        super().__init__(prog=NAME, usage=argparse.SUPPRESS, allow_abbrev=False, add_help=False)
        self.text = '%s\n\n%s\n' % (doc.strip(), STATUSES)

    def error(self, message):
        raise Unable('%s; %s --help tells what there is' % (message, NAME))

    def numbers(self, *named):
        """Words that are numbers: the name, what is taken without it (None: it has to be there), the bounds."""
        for name, otherwise, least, most in named:
            def read(word, name=name, least=least, most=most):
                return number(word, name.upper(), most, least)
            self.add_argument(name, nargs=None if otherwise is None else '?', type=read, default=otherwise)


def flag(name):
    """Declares an option that is there or not."""
    return lambda parser: parser.add_argument(name, action='store_true')


def count_and_seed(count):
    """Declares [COUNT [SEED]]; with no seed a fresh one is taken."""
    fresh = random.SystemRandom().randrange(2 ** 32)
    return lambda parser: parser.numbers(('count', count, 1, 10 ** 9), ('seed', fresh, 0, 2 ** 64 - 1))


def read(name):
    """The bytes of a file; - is standard input."""
    try:
        with (open(0, 'rb', closefd=False) if name == '-' else open(name, 'rb')) as f:
            return f.read()
    except OSError as e:
        raise Unable('%s cannot be read: %s' % (called(name), e.strerror or e))


def called(name):
    return 'standard input' if name == '-' else name


def program(*names):
    """Proves and builds programs where that is needed (tools/programs.sh); the words that run each."""
    ask = '. "$1/tools/programs.sh"; need rt; shift; program "$@"'
    if subprocess.run(['bash', '-c', ask, NAME, ROOT, *names]).returncode:
        sys.exit(2)
    return [[os.path.join(ROOT, 'crates', name, 'out', name)] for name in names]


def listed():
    """The crates of the repository in the order of crates.txt, each with those that it names itself."""
    with open(os.path.join(ROOT, 'crates.txt'), encoding='utf-8') as f:
        rows = [line.split('#')[0].partition(':') for line in f]
    return {head.split()[0]: rest.split() for head, colon, rest in rows if colon}


def below(name):
    """The crates of the repository that a crate is made of, itself last."""
    known, found = listed(), []

    def visit(one):
        if one in known and one not in found:
            for other in known[one]:
                visit(other)
            found.append(one)

    visit(name)
    return found


def copied(name, folder):
    """Copies a crate and those that it is made of into an empty folder, with a crates.txt of their own."""
    os.mkdir(os.path.join(folder, 'crates'))
    for one in below(name):
        shutil.copytree(os.path.join(ROOT, 'crates', one), os.path.join(folder, 'crates', one),
                        ignore=lambda at, names: {'out'} & set(names))
    with open(os.path.join(ROOT, 'crates.txt'), encoding='utf-8') as f:
        rows = [line for line in f if (line.split('#')[0].partition(':')[0].split() or [''])[0] in below(name)]
    with open(os.path.join(folder, 'crates.txt'), 'w', encoding='utf-8') as f:
        f.writelines(rows)


def say(text):
    print('%s: %s' % (NAME, text), file=sys.stderr)


def run(main, doc, *declare):
    """Runs main(words). Each of `declare` gets the parser and declares words. Does not return."""
    try:
        if '-h' in sys.argv[1:] or '--help' in sys.argv[1:]:
            print(Words(doc).text, end='')
            status = 0
        else:
            parser = Words(doc)
            for each in declare:
                each(parser)
            status = main(parser.parse_intermixed_args()) or 0
        sys.stdout.flush()
    except Refused as e:
        status = said(e, 1)
    except Unable as e:
        status = said(e, 2)
    except BrokenPipeError:
        say('what reads the output was closed before its end')
        status = 2
    except OSError as e:
        status = said('%s: %s' % (e.filename or 'the output cannot be written', e.strerror or e), 2)
    except KeyboardInterrupt:
        status = 130
    except Exception:  # a fault of the command itself: no verdict on what it was given
        traceback.print_exc()
        status = 2
    finish(status)


def said(problem, status):
    """Tells a problem on standard error, after all that stands on standard output."""
    try:
        sys.stdout.flush()
    except OSError as e:
        say('the output cannot be written: %s' % (e.strerror or e))
        status = 2
    say(str(problem))
    return status


def finish(status):
    """Ends with the status. What could not be written is not tried once more, which would print a traceback."""
    try:
        sys.stdout.flush()
    except OSError:
        os.dup2(os.open(os.devnull, os.O_WRONLY), 1)
    sys.exit(status)
