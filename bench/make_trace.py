#!/usr/bin/env python3
"""make_trace.py OUT [OPERATIONS [SEED]]: writes a trace like those that are recorded: gets, inserts and a few others, on
pages of one to six bytes, most of them near pages that came before, with frames that rise."""
import os
import random
import sys

sys.path.insert(0, os.path.join(os.path.dirname(os.path.realpath(__file__)), "..", "tools"))
sys.dont_write_bytecode = True
import command  # noqa: E402
from model import written  # noqa: E402


def words(parser):
    parser.add_argument("out", metavar="OUT")
    parser.numbers(("operations", 200000, 0, 10**9), ("seed", 3, 0, 2**64 - 1))


def main(asked):
    rng = random.Random(asked.seed)

    def base():
        return rng.randrange(1 << rng.choice([5, 12, 16, 24, 30, 36]))

    data, frame = bytearray(), 0
    bases = [base() for _ in range(64)]
    for _ in range(asked.operations):
        if rng.random() < 0.02:
            bases[rng.randrange(64)] = base()
        page = bases[min(rng.randrange(64), rng.randrange(64))] + rng.randrange(32)
        code = rng.choices([1, 2, 3, 4, 5], [65, 30, 2, 0.01, 3])[0]
        data.append(code)
        if code != 4:
            data += written(page)
        if code == 2:
            data += written(frame)
            frame += 1
    with open(asked.out, "wb") as f:
        f.write(data)


command.run(main, __doc__, words)
