#!/usr/bin/env python3
"""The program `gate`, fed through a pipe by a process on another core, against gate_bench on the same records in a file, and
against a C program (bench/gate/feed.c) that reads them from such a pipe too and computes the same digests by libcrypto. And the
program `report` from such a pipe against `gate`."""

import collections
import os
import subprocess
import sys
import time

sys.path.insert(0, os.path.dirname(os.path.dirname(os.path.abspath(__file__))))
import tables  # noqa: E402
from processes import *  # noqa: E402, F403

OBJECT = 8192
CASES = [
    ("look, level 0, empty", ("look", 0, 0, "empty"), 300_000),
    ("look, level 0, full", ("look", 0, 0, "full"), 200_000),
    ("look, level 2, empty", ("look", 0, 2, "empty"), 200_000),
    ("read of 4,096, level 2, empty", ("read", 4096, 2, "empty"), 30_000),
    ("write of 512, level 1, empty", ("write", 512, 1, "empty"), 150_000),
    ("write of 4,096, level 1, empty", ("write", 4096, 1, "empty"), 30_000),
    ("refused by row 3, empty", ("3", 0, 0, "empty"), 600_000),
]


def elsewhere():
    """Leaves the core on which the measured process runs, where there is another."""
    here = os.sched_getaffinity(0)
    others = set(range(os.cpu_count())) - here
    if others:
        os.sched_setaffinity(0, others)


def piped(words):
    """Processor time of a process that reads the input from a pipe, and the time by the clock."""
    start = time.perf_counter()
    source = subprocess.Popen(["cat", INPUT], stdout=subprocess.PIPE, preexec_fn=elsewhere)
    reader = subprocess.Popen(words, stdin=source.stdout, stdout=subprocess.DEVNULL)
    source.stdout.close()
    used = ended(reader)
    clock = time.perf_counter() - start
    ended(source)
    return used, clock


def from_file(words):
    start = time.perf_counter()
    used = spent(words, INPUT)
    return used, time.perf_counter() - start


def check_report():
    """On this input report counts as many calls of each row as gate prints lines of."""
    *lines, last = text_of(GATE, INPUT).splitlines()
    *counts, calls = text_of(REPORT, INPUT).splitlines()
    rows = collections.Counter()
    for line in counts:
        _, row, count = line.split()
        rows[row] += int(count)
    if rows != collections.Counter(line.split()[1] for line in lines) or calls.split()[1] != last.split()[1]:
        sys.exit("report counts other calls than gate")


def ratios(over, under):
    """By processor time and by the clock: the speed of the second divided by that of the first, turn by turn."""
    return [tables.quartiles([o[i] / u[i] for o, u in zip(over, under)]) for i in [0, 1]]


def speeds(calls, side):
    """Records a second, by the clock."""
    return tables.quartiles([calls / clock for _, clock in side])


def cells(name, case, frames):
    """Of a case: the cells for gate, and those for report."""
    calls = make(INPUT, *case, frames, OBJECT)
    check_report()
    sides = {"gate": [], "report": [], "library": [], "libcrypto": []}
    for _ in range(TURNS):
        sides["gate"].append(piped(GATE))
        sides["report"].append(piped(REPORT))
        sides["library"].append(from_file(GATE_BENCH))
        sides["libcrypto"].append(piped(feed("libcrypto")))
    gate = [speeds(calls, sides["gate"])]
    for side in ["library", "libcrypto"]:
        gate += ratios(sides[side], sides["gate"])
    report = [speeds(calls, sides["report"])] + ratios(sides["gate"], sides["report"])
    tables.keep(f"program {name}", gate)
    tables.keep(f"report {name}", report)
    return [[tables.shown(*f) for f in found] for found in (gate, report)]


def main():
    of_gate, of_report = [], []
    for name, case, frames in CASES:
        gate, report = cells(name, case, frames)
        of_gate.append([name] + gate)
        of_report.append([name] + report)
    tables.table("The program through a pipe: records a second, and its speed divided by the other's", [
        "", "records a second", "library, by processor time", "by the clock", "libcrypto, by processor time", "by the clock"
    ], of_gate)
    tables.table("The program `report` through a pipe: records a second, and its speed divided by that of `gate`", [
        "", "records a second", "by processor time", "by the clock"
    ], of_report)
    remove(INPUT)


if __name__ == "__main__":
    main()
