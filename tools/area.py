"""Areas by docs/LAYOUT.md: writes the words of a state, and tells whether words are a writing of a well-formed state.

Written from docs/LAYOUT.md and from the state rules (RULES 2) alone, so that the proved check can be held against it.
"""
WORD = 2 ** 64


class Bad(Exception):
    """The words are no writing of a well-formed state."""


def hold(fact):
    if not fact:
        raise Bad


def starts(c):
    return {'residents': 43, 'b1': 5 * c + 52, 'b2': 7 * c + 57, 'lookup': 9 * c + 62, 'end': 24 * c + 64}


# ---- rings: two words a cell, members below m, sentinels from m on

def ring(words, at, m, s, n):
    """The members of the ring of the sentinel s, of which there are exactly n."""
    members, cur = [], s
    while True:
        x = words[at + 2 * cur]
        if x >= m:
            hold(x == s and words[at + 2 * s + 1] == cur and len(members) == n)
            return members
        hold(words[at + 2 * x + 1] == cur and len(members) < n)
        members.append(x)
        cur = x


def link(words, at, s, members):
    cells = [s] + members + [s]
    for a, b in zip(cells, cells[1:]):
        words[at + 2 * a] = b
        words[at + 2 * b + 1] = a


# ---- reading

def read(words, kind):
    """The state that the words are a writing of: c, target, residents (page, frame, slot, bit) of T1 and T2, B1, B2, free slots."""
    hold(len(words) >= 64 and words[0] == kind and words[1] <= 1024)
    c, target = words[1], words[2]
    at = starts(c)
    hold(len(words) >= at['end'] and target <= c)
    r = at['residents']
    counts = words[r:r + 3]
    hold(all(n <= c for n in counts) and sum(counts) == c)
    slots = [ring(words, r + 3 + 3 * c, c, c + i, counts[i]) for i in range(3)]
    for i in range(2):
        for e in slots[i]:
            hold(words[r + 3 + e] < 2 ** 32 and words[r + 3 + c + e] == i and words[r + 3 + 2 * c + e] < 2)
    live, spare = [], []
    for name in ('b1', 'b2'):
        n = words[at[name]]
        hold(n <= c)
        live.append(ring(words, at[name] + 1, c, c, n))
        spare.append(ring(words, at[name] + 1, c, c + 1, c - n))
    k = at['lookup']
    links, m, buckets = k + 3 * c, 3 * c, 3 * c + 1
    held = []
    for b in range(buckets):
        page, cur = -1, m + b
        while words[links + 2 * cur] < m:
            x = words[links + 2 * cur]
            hold(words[links + 2 * x + 1] == cur and words[k + x] % buckets == b and words[k + x] > page and len(held) < m)
            page, cur = words[k + x], x
            held.append(x)
        hold(words[links + 2 * cur] == m + b and words[links + 2 * (m + b) + 1] == cur)
    wanted = slots[0] + slots[1] + [c + g for g in live[0]] + [2 * c + g for g in live[1]]
    hold(len(held) == len(wanted) and set(held) == set(wanted))
    for x in slots[2] + [c + g for g in spare[0]] + [2 * c + g for g in spare[1]]:
        hold(words[links + 2 * x + 1] == x)
    if kind == 1:
        hold(counts[0] + len(live[0]) <= c + 1 and len(wanted) <= 2 * c + 1)
    entry = lambda e: (words[k + e], words[r + 3 + e], e, words[r + 3 + 2 * c + e])
    return {'c': c, 'target': target, 't1': [entry(e) for e in slots[0]], 't2': [entry(e) for e in slots[1]],
            'b1': [words[k + c + g] for g in live[0]], 'b2': [words[k + 2 * c + g] for g in live[1]], 'free': slots[2]}


def good(words, kind):
    try:
        read(words, kind)
        return True
    except Bad:
        return False


# ---- writing

def write(kind, state, junk=None, past=0, order=lambda c: list(range(c))):
    """A writing of a state, with what `junk` gives in the words that LAYOUT.md leaves open, and some words past the need. Without `junk` they are 0, and the
    hint for the buckets is what `new` writes. The cells of a ghost list are taken in the order that `order` gives."""
    c = state['c']
    at = starts(c)
    r, k = at['residents'], at['lookup']
    links, m, buckets = k + 3 * c, 3 * c, 3 * c + 1
    words = [junk() if junk else 0 for _ in range(at['end'] + past)]
    words[0:3] = [kind, c, state['target']]
    if not junk:
        words[3] = 2 ** 32 // buckets
    pages = {}
    for i, name in enumerate(('t1', 't2')):
        words[r + i] = len(state[name])
        for page, frame, slot, bit in state[name]:
            words[r + 3 + slot], words[r + 3 + c + slot], words[r + 3 + 2 * c + slot] = frame, i, bit
            pages[slot] = page
        link(words, r + 3 + 3 * c, c + i, [e[2] for e in state[name]])
    words[r + 2] = len(state['free'])
    link(words, r + 3 + 3 * c, c + 2, state['free'])
    for i, name in enumerate(('b1', 'b2')):
        ghosts = state[name]
        cells = order(c)
        words[at[name]] = len(ghosts)
        link(words, at[name] + 1, c, cells[:len(ghosts)])
        link(words, at[name] + 1, c + 1, cells[len(ghosts):])
        for g, page in zip(cells, ghosts):
            pages[(i + 1) * c + g] = page
    for x in range(m):
        words[links + 2 * x + 1] = x
    held = [[] for _ in range(buckets)]
    for x in sorted(pages, key=pages.get):
        held[pages[x] % buckets].append(x)
    for b in range(buckets):
        link(words, links, m + b, held[b])
    for x, page in pages.items():
        words[k + x] = page
    return words


def of_cache(cache):
    """A state as above from a cache of the list model (tools/model.py)."""
    entry = lambda e: (e[0], e[1], e[3], e[2])
    return {'c': cache.c, 'target': cache.target, 't1': [entry(e) for e in cache.t1], 't2': [entry(e) for e in cache.t2],
            'b1': list(cache.b1), 'b2': list(cache.b2), 'free': list(cache.free)}
