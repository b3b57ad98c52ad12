"""ARC and CAR by plain lists, written from docs/RULES.md alone, with the trace format and the program's lines.

It shares nothing with the Rattle code or its definitions, so that they can be held against it. What the published algorithms do
otherwise is a switch of `Rules`, each on its own, so that `differences` can search for the shortest trace that shows it.
"""
from dataclasses import dataclass
from fractions import Fraction


@dataclass(frozen=True)
class Rules:
    start: str = 'half'        # half: c/2 rounded down; zero: as published
    step: str = 'one'          # one; ratio: the other ghost list by the hit one where that is more; down: that rounded down
    missed: str = 'recorded'   # ARC, a page in no list with T1 = c: recorded, as every victim; nowhere: as published
    replaces: str = 'full'     # full: only where residents >= c; always: as published
    fallback: bool = True      # from T1 where T2 is empty
    clock: str = 'arc'         # CAR's test of the clock: ARC's; or published: T1 >= max(1, target)
    order: str = 'adapt'       # CAR on a ghost hit: adapt first; or replace first, as published
    trims: bool = False        # CAR's directory: not trimmed; or as published


PLAIN = Rules()


def start_of(c, rules):
    return 0 if rules.start == 'zero' else c // 2


def recorded(c, x, ghosts):
    return ([x] + ghosts)[:c]


def from_t1(rules, b2_hit, target, t1, t2):
    if t1 > 0 and (t1 > target or (t1 == target and b2_hit)):
        return True
    return rules.fallback and t2 == 0


class Cache:
    """What both policies share. t1 and t2 hold [page, frame, bit, slot]; b1 and b2 pages, newest first."""

    def __init__(self, c, rules=PLAIN):
        self.c, self.rules = c, rules
        self.clear()

    def clear(self):
        self.target = start_of(self.c, self.rules)
        self.t1, self.t2, self.b1, self.b2 = [], [], [], []
        self.free = list(range(self.c))
        return ('clear',)

    def fork(self):
        """A copy that can go another way."""
        other = object.__new__(type(self))
        other.c, other.rules, other.target = self.c, self.rules, self.target
        other.t1, other.t2 = [e[:] for e in self.t1], [e[:] for e in self.t2]
        other.b1, other.b2, other.free = self.b1[:], self.b2[:], self.free[:]
        return other

    def resident(self, x):
        return next((e for e in self.t1 + self.t2 if e[0] == x), None)

    def residents(self):
        return len(self.t1) + len(self.t2)

    def full(self):
        return self.residents() >= self.c

    def peek(self, x):
        e = self.resident(x)
        return ('see', e[1]) if e else ('no',)

    def remove(self, x):
        e = self.resident(x)
        if not e:
            return ('absent',)
        (self.t1 if e in self.t1 else self.t2).remove(e)
        self.free.insert(0, e[3])
        return ('gone', e[1])

    def step_of(self, hit, other):
        if self.rules.step == 'one' or other <= hit:
            return 1
        return other // hit if self.rules.step == 'down' else Fraction(other, hit)

    def adapt(self, in_b1):
        if in_b1:
            self.target = min(self.c, self.target + self.step_of(len(self.b1), len(self.b2)))
        else:
            self.target = max(0, self.target - self.step_of(len(self.b2), len(self.b1)))

    def insert(self, x, f):
        if self.c == 0:
            return ('none',)
        e = self.resident(x)
        if e:
            return self.update(e, f)
        out, steps = self.room(x)
        return ('new', steps) + out

    def record(self, e, first):
        if first:
            self.b1 = recorded(self.c, e[0], self.b1)
        else:
            self.b2 = recorded(self.c, e[0], self.b2)
        self.free.insert(0, e[3])
        return (e[0], e[1], 'b1' if first else 'b2')

    def snapshot(self):
        return (self.target, tuple(map(tuple, self.t1)), tuple(map(tuple, self.t2)), tuple(self.b1), tuple(self.b2), tuple(self.free))


class Arc(Cache):
    def snapshot(self):
        pages = [tuple((e[0], e[1]) for e in t) for t in (self.t1, self.t2)]
        return (self.target, *pages, tuple(self.b1), tuple(self.b2))

    def to_front(self, e):
        (self.t1 if e in self.t1 else self.t2).remove(e)
        self.t2.insert(0, e)

    def get(self, x):
        e = self.resident(x)
        if not e:
            return ('miss',)
        self.to_front(e)
        return ('hit', e[1])

    def update(self, e, f):
        old, e[1] = e[1], f
        self.to_front(e)
        return ('old', old)

    def replace(self, b2_hit):
        first = from_t1(self.rules, b2_hit, self.target, len(self.t1), len(self.t2))
        t = self.t1 if first else self.t2
        if not t:
            return (), 0
        return self.record(t.pop(), first), 1

    def replace_if(self, b2_hit, always=True):
        if self.full() or (self.rules.replaces == 'always' and always):
            return self.replace(b2_hit)
        return (), 0

    def insert(self, x, f):
        self.x, self.f = x, f
        return super().insert(x, f)

    def room(self, x):
        if x in self.b1 or x in self.b2:
            b1 = x in self.b1
            self.adapt(b1)
            (self.b1 if b1 else self.b2).remove(x)
            gone = self.replace_if(not b1)
            self.t2.insert(0, [x, self.f, 0, self.free.pop(0) if self.free else 0])
            return gone
        gone = self.miss()
        self.t1.insert(0, [x, self.f, 0, self.free.pop(0) if self.free else 0])
        return gone

    def miss(self):
        t1, total = len(self.t1), self.residents() + len(self.b1) + len(self.b2)
        if t1 + len(self.b1) >= self.c:
            if self.rules.missed == 'nowhere' and t1 >= self.c:
                e = self.t1.pop()
                self.free.insert(0, e[3])
                return (e[0], e[1], '--'), 1
            if self.b1:
                self.b1.pop()
            return self.replace_if(False)
        if total >= 2 * self.c and self.b2:
            self.b2.pop()
        return self.replace_if(False, always=total >= self.c)


class Car(Cache):
    def get(self, x):
        e = self.resident(x)
        if not e:
            return ('miss',)
        e[2] = 1
        return ('hit', e[1])

    def update(self, e, f):
        old, e[1], e[2] = e[1], f, 1
        return ('old', old)

    def chooses_recent(self, b2_hit):
        if self.rules.clock == 'published':
            return len(self.t1) >= max(1, self.target)
        return from_t1(self.rules, b2_hit, self.target, len(self.t1), len(self.t2))

    def replace(self, b2_hit):
        steps = 0
        while True:
            first = self.chooses_recent(b2_hit)
            t = self.t1 if first else self.t2
            if not t:
                return (), steps
            steps += 1
            e = t.pop(0)
            if not e[2]:
                return self.record(e, first), steps
            e[2] = 0
            self.t2.append(e)

    def insert(self, x, f):
        self.x, self.f = x, f
        return super().insert(x, f)

    def trim(self):
        if len(self.t1) + len(self.b1) >= self.c and self.b1:
            self.b1.pop()
        elif self.residents() + len(self.b1) + len(self.b2) >= 2 * self.c and self.b2:
            self.b2.pop()

    def room(self, x):
        b1, b2 = x in self.b1, x in self.b2
        late = self.rules.order == 'replace'
        if (b1 or b2) and not late:
            self.adapt(b1)
            (self.b1 if b1 else self.b2).remove(x)
        gone = (), 0
        if self.full():
            gone = self.replace(b2)
            if self.rules.trims and not (b1 or b2):
                self.trim()
        if (b1 or b2) and late and (x in self.b1 or x in self.b2):
            self.adapt(b1)
            (self.b1 if b1 else self.b2).remove(x)
        slot = self.free.pop(0) if self.free else 0
        (self.t2 if b1 or b2 else self.t1).append([x, self.f, 0, slot])
        return gone


def call(cache, op):
    name, *values = op
    return getattr(cache, name)(*values)


def line(answer):
    """The line of an answer; an insert's steps do not show in it."""
    if answer[0] == 'new':
        return 'new' if len(answer) == 2 else 'new out %d %d %s' % answer[2:]
    return ' '.join(map(str, answer))


# ---- traces

def number(data, at, most, limit):
    """The number at a place and the place after it, or None."""
    value = 0
    for i in range(most):
        if at + i >= len(data):
            return None
        b = data[at + i]
        if i == most - 1 and b > limit:
            return None
        value += (b % 128) << (7 * i)
        if b < 128:
            return None if b == 0 and i > 0 else (value, at + i + 1)
    return None


def page(data, at):
    return number(data, at, 10, 1)


def frame(data, at):
    return number(data, at, 5, 15)


NAMES = {1: 'get', 2: 'insert', 3: 'remove', 4: 'clear', 5: 'peek'}


def operations(data, at=0):
    """Yields (operation, offset), and last (('stop', R), offset) or (('end',), length)."""
    while at < len(data):
        first, code = at, data[at]
        at += 1
        if code not in NAMES:
            yield ('stop', 4), first
            return
        values = []
        for read in ([] if code == 4 else [page, frame] if code == 2 else [page]):
            got = read(data, at)
            if got is None:
                yield ('stop', 5), first
                return
            values.append(got[0])
            at = got[1]
        yield (NAMES[code], *values), first
    yield ('end',), at


def check(data):
    """The operations that read whole, the refusal's number (0 for none) and its offset (the length for none)."""
    done = 0
    for op, offset in operations(data):
        if op[0] == 'end':
            return done, 0, offset
        if op[0] == 'stop':
            return done, op[1], offset
        done += 1


def program(data):
    """The replay program's lines."""
    if not data:
        return ['stop 5 at 0']
    if data[0] not in (1, 2):
        return ['stop 4 at 0']
    got = frame(data, 1)
    if got is None:
        return ['stop 5 at 1']
    c, at = got
    if c > 256:
        return ['stop 1 at 1']
    cache = (Arc if data[0] == 1 else Car)(c)
    lines, done = [], 0
    for op, offset in operations(data, at):
        if op[0] == 'end':
            lines.append('end %d' % done)
        elif op[0] == 'stop':
            lines.append('stop %d at %d' % (op[1], offset))
        else:
            lines.append(line(call(cache, op)))
            done += 1
    return lines


def written(value):
    """A number in seven-bit groups, lowest first."""
    out = []
    while value >= 128:
        out.append(128 + value % 128)
        value //= 128
    return bytes(out + [value])


def trace(ops):
    """Operations as bytes."""
    codes = {name: code for code, name in NAMES.items()}
    return b''.join(bytes([codes[op[0]]]) + b''.join(map(written, op[1:])) for op in ops)
