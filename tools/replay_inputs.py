"""Inputs of the program `replay`, and a run of it held against the list model (model.py): what compare_replay and wrong_shells share. An input is
bytes; what the program must write for it is `wanted`."""
import os
import random
import sys

sys.dont_write_bytecode = True
sys.path.insert(0, os.path.dirname(os.path.abspath(__file__)))
from model import program, trace, written  # noqa: E402

BUFFER = 65536  # the bytes that the program reads at a time
LINES = 262144  # the bytes of lines that it writes at a time


def wanted(data):
    return ''.join(line + '\n' for line in program(data)).encode()


def difference(expected, found):
    """Where the two begin to differ, in words."""
    place = next((i for i, (a, b) in enumerate(zip(expected, found)) if a != b), min(len(expected), len(found)))
    return 'from output byte %d on: the model %r, the program %r' % (place, expected[place:place + 60], found[place:place + 60])


def operation(rng, pages):
    x, kind = rng.choice(pages), rng.random()
    if kind < 0.55:
        return ('insert', x, rng.choice([rng.randrange(2 ** 32), rng.randrange(200)]))
    if kind < 0.85:
        return ('get', x)
    if kind < 0.92:
        return ('remove', x)
    return ('peek', x) if kind < 0.999 else ('clear',)


def header(rng, c):
    return bytes([rng.choice([1, 2])]) + written(c)


def good(rng, count):
    c = rng.choice([0, 1, 1, 2, 2, 3, 4, 5, 8, 16, 100, 255, 256])
    pages = [rng.choice([rng.randrange(2 ** 64), rng.randrange(300), rng.randrange(2 ** 14)]) for _ in range(2 * c + 2)]
    return header(rng, c) + trace([operation(rng, pages) for _ in range(count)])


def of_size(rng, size):
    """So many bytes of a good input: it ends wherever that is, most often inside an operation."""
    data = good(rng, size // 5 + 5)
    return data[:size] if size <= len(data) else data + of_size(rng, size - len(data) + 2)[2:]


def short_lines(rng, size):
    """Operations of one byte, each with a line of six: more lines than the program holds at a time come of one piece of the input."""
    return header(rng, rng.randrange(4)) + b'\x04' * size


def long_lines(rng, count):
    """The longest operations and the longest lines: large pages and frames, each going out for the next."""
    return header(rng, 1) + trace([('insert', 2 ** 64 - 1 - i, 2 ** 32 - 1 - i) for i in range(count)])


def sized(seed=1):
    """Inputs around the sizes at which the loop that reads and writes has something to decide: an operation's sixteen bytes, the buffer of bytes once,
    twice and more, the buffer of lines; at their ends an operation is whole, or cut. The same ones for a seed."""
    rng = random.Random(seed)
    sizes = [0, 1, 2, 3, 15, 16, 17, 18, 40]
    sizes += [BUFFER + d for d in (-17, -16, -15, -1, 0, 1, 15, 16, 17)] + [2 * BUFFER + d for d in (-1, 0, 1)]
    inputs = [of_size(rng, size) for size in sizes + [110002, 300000]]
    inputs += [short_lines(rng, size) for size in (LINES // 6 - 1, LINES // 6 + 1, BUFFER - 2, BUFFER)]
    inputs += [long_lines(rng, count) for count in (30, 4095, 4096, 4097, 7000)]
    return inputs
