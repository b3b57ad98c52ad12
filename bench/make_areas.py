#!/usr/bin/env python3
"""make_areas.py FOLDER: writes areas of full caches by docs/LAYOUT.md, eight bytes a word, low byte first: FOLDER/KIND-C-SHAPE.area for ARC and CAR and
the capacities 64, 256 and 1,024. `ordered`: cells and pages rise along every list. `run`: after a run of operations, with the cells in any order, as they
are after a long time; its pages have at most 26 bits, as those of the recorded traces have. `wide`: the same with pages of 64 bits. Of 1,024 frames there are four
of each, `run` to `run-4`, to be checked in turn."""
import os
import random
import struct
import sys

sys.path.insert(0, os.path.join(os.path.dirname(os.path.realpath(__file__)), "..", "tools"))
sys.dont_write_bytecode = True
import command  # noqa: E402
import area  # noqa: E402
from model import Arc, Car  # noqa: E402

KINDS = {1: ('arc', Arc), 2: ('car', Car)}


def ordered(kind, c):
    """A full cache whose ghost lists are as long as the kind allows."""
    half = c // 2
    ghosts = (c - half, half + 1) if kind == 1 else (c, c)
    entry = lambda e: (e, 7 * e, e, 0)
    b1 = list(range(c, c + ghosts[0]))
    b2 = list(range(c + ghosts[0], c + sum(ghosts)))
    return {'c': c, 'target': half, 't1': [entry(e) for e in range(half)], 't2': [entry(e) for e in range(half, c)], 'b1': b1, 'b2': b2, 'free': []}


def run(kind, c, bits, rng):
    """The cache after so many operations, on pages of so many bits, that all lists are as full as they come."""
    cache = KINDS[kind][1](c)
    pages = rng.sample(range(2 ** bits), 4 * c) if bits < 63 else [rng.randrange(2 ** bits) for _ in range(4 * c)]
    for _ in range(12 * c):
        page = pages[min(rng.randrange(4 * c), rng.randrange(4 * c))]
        if cache.get(page) == ('miss',):
            cache.insert(page, rng.randrange(2 ** 32))
    return area.of_cache(cache)


def shuffled(rng):
    def order(c):
        cells = list(range(c))
        rng.shuffle(cells)
        return cells
    return order


def moved(state, slots):
    """The state with its residents in other slots."""
    other = dict(state)
    for name in ('t1', 't2'):
        other[name] = [(page, frame, slots[slot], bit) for page, frame, slot, bit in state[name]]
    other['free'] = [slots[slot] for slot in state['free']]
    return other


def words(parser):
    parser.add_argument('folder', metavar='FOLDER')


def main(asked):
    folder = asked.folder
    rng = random.Random(5)
    for kind, (name, _) in KINDS.items():
        for c in (64, 256, 1024):
            any_order = shuffled(rng)
            shapes = {'ordered': area.write(kind, ordered(kind, c))}
            more = ('', '-2', '-3', '-4') if c == 1024 else ('',)
            for shape, bits in [(name_of + n, size) for name_of, size in (('run', 26), ('wide', 64)) for n in more]:
                shapes[shape] = area.write(kind, moved(run(kind, c, bits, rng), any_order(c)), order=any_order)
            for shape, content in shapes.items():
                assert area.good(content, kind)
                with open(os.path.join(folder, f'{name}-{c}-{shape}.area'), 'wb') as out:
                    out.write(struct.pack(f'<{len(content)}Q', *content))


command.run(main, __doc__, words)
