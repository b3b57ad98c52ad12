#!/usr/bin/env python3
"""pace.py PLACES [--rounds N] [--capacities A,B,..] [--count] [--least] TRACE..: times the batch against the Rust and a plain C cache, each a program that runs a trace again and
again on fresh caches. PLACES names the programs, `rattle=PATH rust=PATH c=PATH`, one word; bench/pace builds them and calls this.

A program's time for an operation is the processor time of a run with many repeats less that of a run with one, over the operations between: start-up and the reading of
the input cancel. The programs take turns, round after round. A ratio is that of the two medians; its spread, the least and the greatest ratio of a round. With --count the
instructions are counted the same way under valgrind, once, since they do not vary. With --least a program's time is the least of its rounds and not the median: for a machine
that others share, whose processor is at times half as fast, so that two medians come from different times."""
import os
import re
import statistics
import subprocess
import sys
import tempfile

sys.path.insert(0, os.path.join(os.path.dirname(os.path.realpath(__file__)), "..", "tools"))
sys.dont_write_bytecode = True
import command  # noqa: E402

ENOUGH = 0.12  # seconds of processor time that the many repeats are to take
NAMES = {1: "ARC", 2: "CAR"}
middle = statistics.median  # or min


def words(programs, name, kind, capacity, repeats, trace):
    """The command of a program, and whether it reads the trace from standard input."""
    if name == "c":
        return [programs[name], {1: "arc", 2: "car"}[kind], str(capacity), str(repeats), trace]
    if name == "rust":  # kind 3 is CAR with the step of the target set to 1, as the rules have it
        return [programs[name], str({1: 1, 2: 3}[kind]), str(capacity), str(repeats), "reading"]
    return [programs[name], str(kind), str(capacity), str(repeats)]


def started(line, trace, before=()):
    """Runs a command on a trace: what it wrote, its seconds of processor time, and what it wrote to standard error."""
    with open(trace, "rb") as source, tempfile.TemporaryFile() as out, tempfile.TemporaryFile() as err:
        child = subprocess.Popen([*before, *line], stdin=source, stdout=out, stderr=err)
        _, status, used = os.wait4(child.pid, 0)
        child.returncode = status
        out.seek(0)
        err.seek(0)
        said = out.read().decode()
        if status != 0 and "plain_cache" not in line[0]:
            raise command.Unable(f"{' '.join(line)} ended with status {status}: {err.read().decode()[-300:]}")
        return said, used.ru_utime + used.ru_stime, err.read().decode()


def counts(name, said):
    """Gets, hits, updates, new pages, evictions: what all three programs tell."""
    numbers = [int(n) for n in said.replace("ns", "").split() if n.isdigit()]
    return numbers[1:6] if name == "c" else numbers[:5]


def operations_of(programs, trace):
    """How many operations a trace has, by the C program."""
    return int(started(words(programs, "c", 1, 1, 1, trace), trace)[0].split()[0])


def instructions(line, trace):
    with tempfile.NamedTemporaryFile() as log:
        started(line, trace, ("valgrind", "--tool=callgrind", "--callgrind-out-file=/dev/null", f"--log-file={log.name}"))
        return int(re.search(r"Collected : (\d+)", log.read().decode()).group(1))


class Case:
    """One trace, capacity and policy: the times and instructions an operation of each program."""

    def __init__(self, programs, trace, operations, capacity, kind):
        self.programs, self.trace, self.operations, self.capacity, self.kind = programs, trace, operations, capacity, kind
        told = {name: counts(name, started(self.command(name, 1), trace)[0]) for name in programs}
        self.counts = told["rattle"]
        for name in programs:
            if told[name] != self.counts:
                raise command.Refused(f"{self.label()}: {name} counts {told[name]}, and rattle {self.counts}")
        self.repeats = {}
        self.times = {name: [] for name in programs}
        self.executed = {}

    def label(self):
        return f"{os.path.basename(self.trace)} {self.capacity} {NAMES[self.kind]}"

    def command(self, name, repeats):
        return words(self.programs, name, self.kind, self.capacity, repeats, self.trace)

    def seconds(self, name, repeats):
        return started(self.command(name, repeats), self.trace)[1]

    def round(self):
        for name in self.programs:
            if name not in self.repeats:
                many = 2
                while (took := self.seconds(name, 1 + many) - self.seconds(name, 1)) < ENOUGH / 4:
                    many *= 4
                self.repeats[name] = max(2, round(many * ENOUGH / took))
            many = self.repeats[name]
            took = self.seconds(name, 1 + many) - self.seconds(name, 1)
            self.times[name].append(1e9 * took / many / self.operations)

    def count(self):
        for name in self.programs:
            self.executed[name] = (instructions(self.command(name, 2), self.trace) - instructions(self.command(name, 1), self.trace)) / self.operations

    def time(self, name):
        return middle(self.times[name])

    def ratio(self, name):
        return self.time("rattle") / self.time(name)

    def spread(self, name):
        each = [a / b for a, b in zip(self.times["rattle"], self.times[name])]
        return f"{min(each):.2f} to {max(each):.2f}"

    def share(self):
        return self.counts[4] / self.operations

    def line(self):
        gets, hits = self.counts[0], self.counts[1]
        cells = [os.path.basename(self.trace).replace(".trace", ""), NAMES[self.kind], f"{self.capacity}", f"{100 * hits / max(gets, 1):.1f} %", f"{100 * self.share():.1f} %"]
        cells += [f"{self.time(name):.1f}" for name in ("rattle", "rust", "c")]
        if self.executed:
            cells += [f"{self.executed[name]:.0f}" for name in ("rattle", "rust", "c")]
        cells += [f"{self.ratio('rust'):.2f} ({self.spread('rust')})", f"{self.ratio('c'):.2f} ({self.spread('c')})"]
        return "| " + " | ".join(cells) + " |"


def head(counted):
    cells = ["trace", "policy", "frames", "gets hit", "evictions an operation", "ns Rattle", "ns Rust", "ns C"]
    cells += ["instructions Rattle", "Rust", "C"] if counted else []
    cells += ["time / Rust", "time / C"]
    return "| " + " | ".join(cells) + " |\n|" + "---|" * len(cells)


def judged(cases):
    """The bars, each with what was measured; whether all hold."""
    good = True

    def bar(text, value, most):
        nonlocal good
        holds = value <= most
        good = good and holds
        print(f"- {'holds' if holds else 'MISSED'}: {text}: {value:.2f}, at most {most}")

    worst = max(cases, key=lambda k: k.ratio("rust"))
    bar(f"no slower than the Rust anywhere (worst: {worst.label()})", worst.ratio("rust"), 1.0)
    evicting = [k for k in cases if k.share() > 0.25]
    if evicting:
        worst = max(evicting, key=lambda k: k.ratio("rust"))
        bar(f"of the Rust's time with more than one eviction in four operations (worst of {len(evicting)}: {worst.label()})", worst.ratio("rust"), 0.6)
    bar("of the plain C's time on average", statistics.mean(k.ratio("c") for k in cases), 1.2)
    for small in cases:
        for large in cases:
            fits = small.counts[4] == 0 and large.counts[4] == 0
            if fits and (small.trace, small.kind, small.capacity, large.capacity) == (large.trace, large.kind, 64, 1024):
                bar(f"growth from 64 to 1,024 frames, {os.path.basename(small.trace)} {NAMES[small.kind]}", large.time("rattle") / small.time("rattle"), 1.3)
    return good


def sizes(text):
    return [command.number(word, "a capacity", 1024) for word in text.split(",")]


def declared(parser):
    parser.add_argument("places", metavar="PLACES")
    parser.add_argument("--rounds", type=lambda word: command.number(word, "--rounds", 10**6, 1), default=7)
    parser.add_argument("--capacities", type=sizes, default=[64, 256, 1024])
    parser.add_argument("--count", action="store_true")
    parser.add_argument("--least", action="store_true")
    parser.add_argument("traces", nargs="+", metavar="TRACE")


def main(asked):
    global middle
    programs = dict(word.split("=", 1) for word in asked.places.split())
    rounds, capacities, counted, traces = asked.rounds, asked.capacities, asked.count, asked.traces
    middle = min if asked.least else middle
    for trace in traces:
        command.read(trace)
    cases = []
    for trace in traces:
        operations = operations_of(programs, trace)
        cases += [Case(programs, trace, operations, capacity, kind) for kind in (1, 2) for capacity in capacities]
        print(f"{os.path.basename(trace)}: {operations} operations, the same counts by all three", file=sys.stderr)
    for i in range(rounds):
        for case in cases:
            case.round()
        print(f"round {i + 1} of {rounds}", file=sys.stderr)
    if counted:
        for case in cases:
            case.count()
    said = "least times" if middle is min else "medians"
    print(f"{len(cases)} cases, {rounds} rounds, the programs in turn; nanoseconds of processor time an operation, {said}; ratios of {said}, with the least and the greatest of a round.\n")
    print(head(counted))
    for case in cases:
        print(case.line())
    print()
    return 0 if judged(cases) else 1


if __name__ == "__main__":
    command.run(main, __doc__, declared)
