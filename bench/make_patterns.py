#!/usr/bin/env python3
"""make_patterns.py DIR [ACCESSES]: writes traces of plain patterns, with fixed seeds, by the rule that made the recorded ones (bench/traces/README.md):
zipf, 4,000 pages, some much more often than others; loop, 1,300 pages round and round, so that a cache of 1,024 frames evicts too; scan, every page once, with a few that
come back; stride, the pages of zipf 64 apart; fits, 48 pages that 64 frames hold."""
import itertools
import os
import random
import sys

sys.path.insert(0, os.path.join(os.path.dirname(os.path.realpath(__file__)), "..", "tools"))
sys.dont_write_bytecode = True
import command  # noqa: E402
from model import written  # noqa: E402


def window(page):
    """A page that comes back after more accesses than this is inserted again."""
    return 64 << ((page * 0x9E3779B97F4A7C15 % 2**64 >> 32) % 5)


def operations(pages):
    data, last, frame = bytearray(), {}, 0
    for now, page in enumerate(pages):
        data += bytes([1]) + written(page)
        if page not in last or now - last[page] > window(page):
            data += bytes([2]) + written(page) + written(frame)
            frame += 1
        last[page] = now
    return data


def zipf(rng, count, pages):
    weights = list(itertools.accumulate(1 / (i + 1) ** 0.9 for i in range(pages)))
    return rng.choices(range(pages), cum_weights=weights, k=count)


def words(parser):
    parser.add_argument("folder", metavar="DIR")
    parser.numbers(("accesses", 60000, 1, 10**9))


def main(asked):
    folder, count = asked.folder, asked.accesses
    rng = random.Random(9)
    skewed = zipf(rng, count, 4000)
    patterns = {
        "zipf": skewed,
        "loop": [1000 + i % 1300 for i in range(count)],
        "scan": [rng.randrange(40) if rng.random() < 0.2 else 5000 + i for i in range(count)],
        "stride": [64 * page for page in skewed],
        "fits": zipf(rng, count, 48),
    }
    for name, pages in patterns.items():
        with open(os.path.join(folder, name + ".trace"), "wb") as f:
            f.write(operations(pages))


command.run(main, __doc__, words)
