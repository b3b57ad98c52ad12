"""./run                      replays the built-in trace (ARC, 2 frames): each operation, and what the cache answers
./run FILE                 replays a file; - is standard input
./run --arc C FILE         replays operations on a cache of ARC with C frames; --car C on one of CAR
./run --input FILE         replays bytes that have a kind and a capacity before the operations
./run --plain ..           the program's lines alone
./run --summary ..         the summary alone, on standard output: for long traces
./run --states ..          the lists and the target after each operation, too
./run --help               this

A FILE holds lines or bytes; its first byte tells which.
Lines: one operation each, `get PAGE`, `insert PAGE FRAME`, `remove PAGE`, `clear`, `peek PAGE`. Blank lines and
what follows a # are left out; numbers are decimal, or hexadecimal after 0x. The first line is `arc C` or `car C`,
or there is an option --arc C or --car C.
Bytes: a trace, operations alone, which a name that ends in .trace says; it needs --arc C or --car C. Or an input,
with a kind byte (1 ARC, 2 CAR) and the capacity before the operations, which a name that ends in .input says, or
--input.
C is 0 to 256; with --summary and --states 0 to 1,024. --states takes inputs below 64 KiB.
tools/trace makes bytes of lines, and lines of bytes.

Answers: `hit F`, `miss` (get); `new`, `new out PAGE FRAME b1` (or `b2`: the victim, and the ghost list that
recorded it), `old F`, `none` (insert); `gone F`, `absent` (remove); `clear`; `see F`, `no` (peek); last `end N`, or
`stop R at O`: refusal R at byte O of the program's input (1: the capacity is above 256; 4: no such kind or operation;
5: a number is missing, too large or not in shortest form).
The summary, on standard error, has the counts of the proved batch. States: the target p, then T1 and T2, ARC's from
the newest page on, CAR's from the hand on, a * where the reference bit is set; then the ghost lists B1 and B2, newest
first.

Status 1: the program refused, with `stop`. Status 2: also where the output could not be written to its end.
"""
import os
import subprocess
import sys
import tempfile

sys.dont_write_bytecode = True
import command  # noqa: E402
import form  # noqa: E402
from command import Refused, Unable, called, say  # noqa: E402

BUILT_IN = os.path.join(command.ROOT, 'tools', 'built_in.txt')
STATED = 65535  # the longest case that the program `states` takes
ROW = '%-32s %s'


def words(parser):
    how = parser.add_mutually_exclusive_group()
    for name in ('--plain', '--summary', '--states'):
        how.add_argument(name, action='store_true')
    cache = parser.add_mutually_exclusive_group()
    cache.add_argument('--input', action='store_true')
    for name, kind in form.KINDS.items():
        def size(word, name=name, kind=kind):
            return kind, command.number(word, '--' + name, 2 ** 32 - 1)
        cache.add_argument('--' + name, dest='cache', type=size, metavar='C')
    parser.add_argument('file', nargs='?')


class Given:
    """What is to be replayed.

    head   the kind and the capacity; None where the bytes of an input have none that can be read
    data   the program's input
    start  where its operations start; past its end where there is no head
    more   the bytes that it has before those of the file
    """

    def __init__(self, name, asked):
        self.name, self.more = name, 0
        data = command.read(name)
        if form.is_text(data) or data[:2] in form.WIDE_MARKS:
            self.head, operations = lines_given(name, data, asked)
        elif bytes_are_input(name, data, asked):
            self.data = data
            try:
                self.head, self.start = form.read_head(data, name)
            except Refused:  # the program will say so
                self.head, self.start = None, len(data) + 1
            return
        else:
            self.head, operations = asked.cache, data
            self.more = len(form.head_bytes(self.head))
        front = form.head_bytes(self.head)
        self.data, self.start = front + operations, len(front)

    def operations(self):
        return form.shown(self.data, self.start, self.name)

    def began(self, last):
        """Whether operations were run: the last line is no refusal of the head."""
        return last.startswith('end ') or int(last.split()[3]) >= self.start

    def refusal(self, last, most):
        """What a last line `stop R at O` means."""
        number, offset = int(last.split()[1]), int(last.split()[3])
        what = 'operation' if self.began(last) else 'kind'
        why = {1: 'the capacity is above ' + most, 4: 'there is no such ' + what, 5: form.NUMBER}[number]
        if not self.began(last):
            return 'refused before the first operation: %s: %s' % (last, why)
        place = '%s: byte %d' % (called(self.name), offset - self.more)
        return '%s: %s (refusal %d); nothing from there on was run' % (place, why, number)


def lines_given(name, data, asked):
    """The head and the operations of lines."""
    head, line, operations = form.read_lines(data, name)
    place = '%s:%d' % (called(name), line or 1)
    if asked.input:
        raise Unable('%s holds lines, and --input is for bytes' % called(name))
    if head and asked.cache:
        raise Unable('%s: `%s` says which cache, and an option does too' % (place, form.head_line(head)))
    if not head and not asked.cache:
        raise Unable('%s: the first line has to be `arc C` or `car C`; or give --arc C or --car C' % place)
    return head or asked.cache, operations


def bytes_are_input(name, data, asked):
    """Whether bytes are an input, and no trace; what they are has to be said."""
    told = form.by_name(name, True if asked.input else False if asked.cache else None)
    if told is None:
        what = 'holds bytes' if data else 'is empty'
        raise Unable('%s %s: give --input for an input, --arc C or --car C for a trace' % (called(name), what))
    if not told and not asked.cache:
        raise Unable('%s is a trace, operations alone: give --arc C or --car C' % called(name))
    return told


def lines_of(program, data):
    """The lines that a program writes, given some bytes."""
    with tempfile.TemporaryFile() as source:
        source.write(data)
        source.seek(0)
        with subprocess.Popen(program, stdin=source, stdout=subprocess.PIPE) as child:
            for line in child.stdout:
                yield line.decode('ascii').rstrip('\n')


def is_last(line):
    return line.startswith(('end ', 'stop '))


def show(given, answers, states=None):
    """Each operation beside its answer; the last line."""
    if given.head:
        print(form.head_line(given.head))
    operations = given.operations()
    for answer in answers:
        if is_last(answer):
            refused = '(refused)' if given.began(answer) else '(before the first operation)'
            print(ROW % ('' if answer.startswith('end ') else refused, answer))
            return answer
        print(ROW % (next(operations), answer))
        if states:
            print(ROW % ('', states(next(answers))))
    raise Unable('the program ended before its last line')


def passed_on(answers):
    last = ''
    for last in answers:
        print(last)
    if not is_last(last):
        raise Unable('the program ended before its last line')
    return last


def state(text):
    """A line of the program `states`, as the lists: see oracle/README.md."""
    numbers = [int(n) for n in text.split()[1:]]
    steps, kind, capacity, target = numbers[:4]
    lengths, at, told = numbers[4:8], 8, ['p %d' % target]
    for name, length in zip(('T1', 'T2'), lengths):
        each = 2 if kind == 1 else 4
        entries = [numbers[at + each * i:at + each * (i + 1)] for i in range(length)]
        told.append(' '.join([name, *('%d%s' % (e[0], '*' if kind == 2 and e[3] else '') for e in entries)]))
        at += each * length
    for name, length in zip(('B1', 'B2'), lengths[2:]):
        told.append(' '.join([name, *map(str, numbers[at:at + length])]))
        at += length
    return ' | '.join(told)


def told(counts, last):
    """The line of a summary: the seven counts of a batch, and the last line of the program."""
    gets, hits, updates, news, evictions, steps, removals = map(int, counts)
    done = '%s operations' % last.split()[1] if last.startswith('end ') else 'before the refusal'
    share = ' (%.1f %% of the gets)' % (100 * hits / gets) if gets else ''
    text = '%s: gets %d, hits %d%s, updates %d, new pages %d, evictions %d, steps %d, removals %d'
    return text % (done, gets, hits, share, updates, news, evictions, steps, removals)


def summary(given, program):
    """The summary, from the counts of the program `pace`, and its last line as `replay` has it."""
    kind, capacity = given.head
    said = list(lines_of(program + [str(kind), str(capacity), '0'], given.data[given.start:]))
    if len(said) != 2 or not is_last(said[1]):
        raise Unable('no summary: the program pace ended before its last line')
    counts, last = said
    if last.startswith('stop '):
        last = 'stop %s at %d' % (last.split()[1], int(last.split()[3]) + given.start)
    return told(counts.split(), last), last


def only_summary(given):
    if given.head is None:
        form.read_head(given.data, given.name)  # says why not
    if given.head[1] > 1024:
        raise Refused('refused before the first operation: the capacity is above 1,024')
    text, last = summary(given, *command.program('pace'))
    print(text)
    return last


def with_states(given):
    if len(given.data) > STATED:
        raise Unable('--states takes at most %d bytes, and these are %d' % (STATED, len(given.data)))
    case = bytes([0, len(given.data) % 256, len(given.data) // 256]) + given.data
    answers = lines_of(*command.program('states'), case)
    last = show(given, answers, state)
    if given.began(last):
        sys.stdout.flush()
        say(told(next(answers).split()[1:8], last))
    return last


def with_answers(given):
    replay, pace = command.program('replay', 'pace')
    last = show(given, lines_of(replay, given.data))
    if given.began(last):
        sys.stdout.flush()
        say(summary(given, pace)[0])
    return last


def main(asked):
    if asked.file is None and (asked.input or asked.cache):
        raise Unable('--arc C, --car C and --input are of a FILE; - is standard input')
    given = Given(asked.file or BUILT_IN, asked)
    if asked.summary:
        last = only_summary(given)
    elif asked.plain:
        last = passed_on(lines_of(*command.program('replay'), given.data))
    elif asked.states:
        last = with_states(given)
    else:
        last = with_answers(given)
    if last.startswith('stop '):
        raise Refused(given.refusal(last, '1,024' if asked.states else '256 (--summary and --states take up to 1,024)'))


command.run(main, __doc__, words)
