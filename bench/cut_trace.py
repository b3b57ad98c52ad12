#!/usr/bin/env python3
"""cut_trace.py IN OUT FROM COUNT: writes COUNT operations of a trace, from operation FROM on."""
import os
import sys

sys.path.insert(0, os.path.join(os.path.dirname(os.path.realpath(__file__)), "..", "tools"))
sys.dont_write_bytecode = True
import command  # noqa: E402
from model import operations  # noqa: E402


def words(parser):
    parser.add_argument("source", metavar="IN")
    parser.add_argument("out", metavar="OUT")
    for name in ("FROM", "COUNT"):
        parser.add_argument(name, type=lambda word, name=name: command.number(word, name, 10**12))


def main(asked):
    data = command.read(asked.source)
    first, last = asked.FROM, asked.FROM + asked.COUNT
    places = [0, 0]
    done = 0
    for op, offset in operations(data):
        if done in (first, last):
            places[done == last] = offset
        if op[0] in ("end", "stop"):
            break
        done += 1
    if done < last:
        raise command.Unable(f"{asked.source} has {done} operations, and not {last}")
    with open(asked.out, "wb") as f:
        f.write(data[places[0] if asked.COUNT else places[1]:places[1]])


command.run(main, __doc__, words)
