#!/usr/bin/env python3
"""counts.py KIND CAPACITY TRACE: what the program `pace` prints with 0 repeats, by the list model: gets, hits, updates,
new pages, evictions, steps, removals; then `end N` or `stop R at O`. KIND is 1 (ARC) or 2 (CAR)."""
import os
import sys

sys.path.insert(0, os.path.join(os.path.dirname(os.path.realpath(__file__)), "..", "tools"))
sys.dont_write_bytecode = True
import command  # noqa: E402
from model import Arc, Car, call, operations  # noqa: E402


def words(parser):
    parser.numbers(("kind", None, 1, 2), ("capacity", None, 0, 1024))
    parser.add_argument("trace", metavar="TRACE")


def main(asked):
    cache, done = (Arc if asked.kind == 1 else Car)(asked.capacity), 0
    gets = hits = updates = news = evictions = steps = removals = 0
    for op, offset in operations(command.read(asked.trace)):
        if op[0] in ("end", "stop"):
            break
        answer = call(cache, op)
        done += 1
        gets += op[0] == "get"
        hits += answer[0] == "hit"
        updates += answer[0] == "old"
        removals += answer[0] == "gone"
        if answer[0] == "new":
            news += 1
            steps += answer[1]
            evictions += len(answer) > 2
    print(gets, hits, updates, news, evictions, steps, removals)
    print(f"end {done}" if op[0] == "end" else f"stop {op[1]} at {offset}")


command.run(main, __doc__, words)
