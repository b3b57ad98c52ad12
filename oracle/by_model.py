#!/usr/bin/env python3
"""The programs' output by the list model of tools/model.py.

by_model.py replay                          on standard input, what `replay` writes
by_model.py states                          on standard input, what `states` writes (oracle/README.md)
by_model.py compare STDIN STDOUT LARGEST    the output STDOUT of `states` on the input STDIN, held against the model case by case; cases of
                                            a capacity above LARGEST are passed over, as the model is slow on them
"""
import os
import sys

sys.dont_write_bytecode = True
sys.path.insert(0, os.path.join(os.path.dirname(os.path.realpath(__file__)), '..', 'tools'))
import command  # noqa: E402
from model import Arc, Car, call, frame, line, operations, program  # noqa: E402

HALF, FACTOR = 2 ** 32, 4294957665


def numbers(kind, cache):
    """The numbers of a state, each with whether it is a page."""
    for n in (kind, cache.c, cache.target, len(cache.t1), len(cache.t2), len(cache.b1), len(cache.b2)):
        yield n, False
    for page, own_frame, bit, slot in cache.t1 + cache.t2:
        yield page, True
        yield own_frame, False
        if kind == 2:
            yield slot, False
            yield bit, False
    for page in cache.b1 + cache.b2:
        yield page, True
    if kind == 2:
        for slot in cache.free:
            yield slot, False


def digest(steps, kind, cache):
    h = steps
    for n, is_page in numbers(kind, cache):
        h = h % HALF * FACTOR + h // HALF + n % HALF
        if is_page:
            h = h % HALF * FACTOR + h // HALF + n // HALF
    assert h < 2 ** 64
    return h


def state(mode, steps, kind, cache):
    if mode:
        return str(digest(steps, kind, cache))
    return ' '.join(['state', str(steps)] + [str(n) for n, _ in numbers(kind, cache)])


def counted(counts, answer, steps):
    """gets, get hits, updates, new pages, evictions, steps, removals"""
    name = answer[0]
    counts[0] += name in ('hit', 'miss')
    counts[1] += name == 'hit'
    counts[2] += name == 'old'
    counts[3] += name == 'new'
    counts[4] += name == 'new' and len(answer) > 2
    counts[5] += steps
    counts[6] += name == 'gone'


def listing(kind, cache):
    entries = cache.t1 + cache.t2
    if kind == 2:
        entries = sorted(entries, key=lambda e: e[3])
    return ' '.join(['list', str(len(entries))] + ['%d %d' % (e[0], e[1]) for e in entries])


def head(data):
    """Kind, c and the place of the operations; or the only line, where they are refused."""
    if not data:
        return 'stop 5 at 0'
    if data[0] not in (1, 2):
        return 'stop 4 at 0'
    got = frame(data, 1)
    if got is None:
        return 'stop 5 at 1'
    return (data[0], *got) if got[0] <= 1024 else 'stop 1 at 1'


def case(mode, data):
    """The lines of one case."""
    made = head(data)
    if isinstance(made, str):
        return [made]
    kind, c, at = made
    cache, lines, done, counts = (Arc if kind == 1 else Car)(c), [], 0, [0] * 7
    for op, offset in operations(data, at):
        if op[0] == 'end':
            lines.append('end %d' % done)
        elif op[0] == 'stop':
            lines.append('stop %d at %d' % (op[1], offset))
        else:
            answer = call(cache, op)
            steps = answer[1] if answer[0] == 'new' else 0
            counted(counts, answer, steps)
            lines += [line(answer), state(mode, steps, kind, cache)]
            done += 1
    return lines + ['counts %s %d' % (' '.join(map(str, counts)), digest(0, kind, cache)), listing(kind, cache)]


def cases(data):
    at = 0
    while at + 3 <= len(data):
        after = at + 3 + data[at + 1] + 256 * data[at + 2]
        if after > len(data):
            return
        yield data[at], data[at + 3:after]
        at = after


def length_of(data):
    """The number of lines of a case: two for each operation, and three."""
    made = head(data)
    return 1 if isinstance(made, str) else 2 * (sum(1 for _ in operations(data, made[2])) - 1) + 3


def compare(given, written, largest):
    compared, passed_over, at = 0, 0, 0
    for number, (mode, data) in enumerate(cases(given)):
        made = head(data)
        if not isinstance(made, str) and made[1] > largest:
            passed_over += 1
            at += length_of(data)
            continue
        wanted = case(mode, data)
        found = written[at:at + len(wanted)]
        if found != wanted:
            first = next(i for i in range(len(wanted)) if found[i:i + 1] != wanted[i:i + 1])
            raise command.Refused('case %d, input %s, line %d: the model has `%s`' % (number, data.hex(), at + first + 1, wanted[first]))
        compared += 1
        at += len(wanted)
    if at != len(written):
        raise command.Refused('%d lines, where the cases have %d' % (len(written), at))
    print('by_model: %d cases are the same by tools/model.py, %d of a capacity above %d passed over' % (compared, passed_over, largest))


def words(parser):
    parser.add_argument('what', choices=('replay', 'states', 'compare'))
    parser.add_argument('files', nargs='*')


def main(asked):
    if len(asked.files) != (3 if asked.what == 'compare' else 0):
        raise command.Unable('%s takes other words; by_model.py --help tells which' % asked.what)
    if asked.what == 'compare':
        largest = command.number(asked.files[2], 'LARGEST', 1024)
        compare(command.read(asked.files[0]), command.read(asked.files[1]).decode().splitlines(), largest)
        return
    data = command.read('-')
    lines = program(data) if asked.what == 'replay' else [text for mode, given in cases(data) for text in case(mode, given)]
    sys.stdout.write(''.join(text + '\n' for text in lines))


command.run(main, __doc__, words)
