"""What a file holds: lines or bytes, a trace or an input.

A trace is operations alone. An input of the program `replay` has a kind byte and a capacity, its head, before them.
As lines, a first line `arc C` or `car C` is the head. The first byte tells lines from bytes: no trace or input that can
be read starts with one that stands in a text. A trace and an input cannot be told apart by their bytes: a name ends in
.trace or .input, or an option says which it is.
"""
from command import Refused, Unable, called, number, quoted
from model import frame, operations, trace, written

KINDS = {'arc': 1, 'car': 2}
PAGE, FRAME, CAPACITY = ('page', 2 ** 64 - 1), ('frame', 2 ** 32 - 1), ('capacity', 2 ** 32 - 1)
VALUES = {'get': [PAGE], 'insert': [PAGE, FRAME], 'remove': [PAGE], 'clear': [], 'peek': [PAGE]}
MARK = b'\xef\xbb\xbf'  # what some editors put before a text
WIDE_MARKS = (b'\xff\xfe', b'\xfe\xff')  # what starts a text in UTF-16
NUMBER = 'a number is missing, too large or not in shortest form'
TEXT = frozenset([9, 10, 13, *range(32, 127)])  # the bytes that start a text


def is_text(data):
    return bool(data) and data[0] in TEXT or data[:3] == MARK


def values(name, words, wanted):
    if len(words) != len(wanted):
        what = ' and '.join('a ' + w for w, _ in wanted) or 'no number'
        raise Unable('%s takes %s, and not %d words' % (name, what, len(words)))
    return [number(word, what, most) for word, (what, most) in zip(words, wanted)]


def read_lines(data, name):
    """The head, (kind, capacity) or None; the first line that says something, or 0; the bytes of the operations."""
    if data[:2] in WIDE_MARKS:
        raise Unable('%s is a text in UTF-16; save it as UTF-8' % called(name))
    if data and not is_text(data):
        raise Unable('%s: byte 0: %s starts no text: these are bytes, and not lines' % (called(name), quoted(data[:1])))
    out, head, first = bytearray(), None, 0
    for at, line in enumerate(data[3 if data[:3] == MARK else 0:].split(b'\n'), 1):
        words = line.split(b'#', 1)[0].split()
        if not words:
            continue
        word, rest = words[0].decode('ascii', 'replace').lower(), words[1:]
        try:
            if word in VALUES:
                out += trace([(word, *values(word, rest, VALUES[word]))])
            elif word not in KINDS:
                raise Unable('%s is none of %s' % (quoted(words[0]), ', '.join([*VALUES, *KINDS])))
            elif first:
                raise Unable('%s stands only before the operations' % word)
            else:
                head = KINDS[word], *values(word, rest, [CAPACITY])
        except Unable as e:
            raise Unable('%s:%d: %s' % (called(name), at, e))
        first = first or at
    return head, first, bytes(out)


def head_bytes(head):
    return bytes([head[0]]) + written(head[1])


def head_line(head):
    return '%s %d' % ({number: name for name, number in KINDS.items()}[head[0]], head[1])


def read_head(data, name):
    """The head of an input, and how many bytes it takes."""
    if data[:1] not in (b'\x01', b'\x02'):
        what = 'the kind is neither 1 (ARC) nor 2 (CAR) (refusal 4)' if data else 'the kind is missing (refusal 5)'
        raise Refused('%s: byte 0: %s' % (called(name), what))
    got = frame(data, 1)
    if got is None:
        raise Refused('%s: byte 1: the capacity: %s (refusal 5)' % (called(name), NUMBER))
    return (data[0], got[0]), got[1]


def by_name(name, asked):
    """Whether bytes are an input (True) or a trace (False), by the option and the name; None where neither tells."""
    other = {'.trace': 'a trace, operations alone', '.input': 'an input, with its kind and capacity'}
    ending = next((e for e in other if name.lower().endswith(e)), None)
    if ending is None:
        return asked
    if asked is not None and asked != (ending == '.input'):
        raise Unable('%s is, by its name, %s' % (name, other[ending]))
    return ending == '.input'


def shown(data, at, name):
    """The lines of the operations from a byte on."""
    for op, offset in operations(data, at):
        if op[0] == 'stop':
            why = 'the code is not 1 to 5' if op[1] == 4 else NUMBER
            raise Refused('%s: byte %d: %s (refusal %d)' % (called(name), offset, why, op[1]))
        if op[0] != 'end':
            yield ' '.join(map(str, op))
