#!/usr/bin/env python3
"""The gate against its own hashing, of calls on a record and, for looks, refusals and reads through a group, on lent parts. For each
case two inputs are made (frames.c), one of them without the frames that are measured, and gate_bench and the programs that it is
compared with (feed.c) are run on both by turns. A process's time is its processor time on the one input less that on the other, and
less what the process that only reads takes. A read through a group has two inputs more, of the same read by the log's own
credential."""

import os
import sys

sys.path.insert(0, os.path.dirname(os.path.dirname(os.path.abspath(__file__))))
import tables  # noqa: E402
from processes import *  # noqa: E402, F403

BEFORE = os.path.join(FOLDER, "input-before")
OWN = [os.path.join(FOLDER, "input-own"), os.path.join(FOLDER, "input-own-before")]
MOST_BYTES = 512 << 20
MOST_FRAMES = 500_000  # the entries that fill the memories stay for 600,000
BIG = 1 << 20          # an object that is read and written
SMALL = 8192           # one that the program `gate` has room for as well
SIZES = [64, 512, 4096, 65536]
LISTS = [1, 16, 4096]  # numbers in a group


def check_rows():
    """The frames made for a row are refused by it: the program `gate` prints which."""
    for kind in ["look", "2", "3", "4", "5", "6", "7", "9"]:
        for state in ["empty", "full", "steady"]:
            make(INPUT, kind, 0, 0, state, 1000, SMALL)
            rows = [line.split()[1] for line in text_of(GATE, INPUT).splitlines()[:-1]]
            if rows[-1000:] != ["0" if kind == "look" else kind] * 1000:
                sys.exit(f"not refused by row {kind}")


def taken(words, inputs=(INPUT, BEFORE)):
    """What the frames that are measured cost a process."""
    return spent(words, inputs[0]) - spent(words, inputs[1])


def frames_of(kind, size, level):
    """How many frames take about as long as asked for, or longer."""
    hashed = size if level and kind in ("write", "9") or level == 2 and kind == "read" else 0
    carried = size if kind in ("write", "9") else 0
    if kind in "234567":
        return int(SECONDS / 4e-7)
    return int(min(SECONDS / (2e-6 + 2.4e-9 * hashed + 5e-11 * size), MOST_FRAMES, MOST_BYTES / (110 + carried)))


def others_of(kind, size, level):
    """What the gate is compared with, and how often each does its work: oftener where it is little beside the reading."""
    hashings = max(1, size // 4096) if kind == "write" and level == 0 else 1
    others = {"ours": (feed("ours", hashings), hashings), "libcrypto": (feed("libcrypto", hashings), hashings)}
    if kind in ("read", "write"):
        copies = max(8, 65536 // size)
        others["copy"] = (feed("copy", copies), copies)
    return others


def nanoseconds(seconds):
    return tables.quartiles([t * 1e9 for t in seconds])


def ratio(over, under):
    """Turn by turn."""
    return tables.quartiles([o / u if u > 0 else float("inf") for o, u in zip(over, under)])


def cells(kind, size, level, state):
    """The gate's ns a call, and how often it takes the time of each other; for looks and refusals then the same of the lent gate,
    over our hashing and over the gate on a record."""
    big = BIG if kind in ("read", "write") else max(SMALL, size)
    frames = frames_of(kind, size, level)
    calls = make(INPUT, kind, size, level, state, frames, big) - make(BEFORE, kind, size, level, state, 0, big)
    others = others_of(kind, size, level)
    times = {name: [] for name in ["gate", "lent", *others]}
    lent = LENT if kind not in ("read", "write") else None
    for _ in range(TURNS):
        read = taken(READ)
        times["gate"].append((taken(GATE_BENCH) - read) / calls)
        if lent:
            times["lent"].append((taken(lent) - read) / calls)
        for name, (words, often) in others.items():
            times[name].append((taken(words) - read) / often / calls)
    found = [nanoseconds(times["gate"])] + [ratio(times["gate"], times[name]) for name in others]
    if lent:
        found += [nanoseconds(times["lent"]), ratio(times["lent"], times["ours"]), ratio(times["lent"], times["gate"])]
    tables.keep(f"{kind} {size} {level} {state}", found)
    return [tables.shown(*f) for f in found]


HEADS = ["", "ns a call", "over our hashing", "over libcrypto's"]
LENT_HEADS = HEADS + ["lent: ns a call", "over our hashing", "over a record"]


def print_looks():
    rows = [[f"look, level {level}, {state}"] + cells("look", 0, level, state)
            for level in [0, 2] for state in ["empty", "full", "steady"]]
    tables.table("Looks", LENT_HEADS, rows)


def print_moves(kind, sizes):
    rows = [[f"{kind} of {size:,}, level {level}, {state}"] + cells(kind, size, level, state)
            for level in [0, 1, 2] for size in sizes for state in ["empty", "full"]]
    tables.table(f"{kind.title()}s", HEADS + ["over a plain copy"], rows)


def group_cells(numbers, size, state):
    """Of reads at level 0 through a group, on a record and then lent: ns a call, over our hashing, and how often it takes the time of the
    same read by the log's own credential."""
    frames = int(SECONDS / (2e-6 + 1e-9 * numbers))
    calls, own = [make(path, f"{kind}{numbers}", size, 0, state, frames, SMALL) - make(before, f"{kind}{numbers}", size, 0, state, 0, SMALL)
                  for kind, (path, before) in [("group", (INPUT, BEFORE)), ("own", OWN)]]
    sides = {"gate": GATE_BENCH, "lent": LENT}
    times = {name: [] for name in ["ours", *sides, "own gate", "own lent"]}
    for _ in range(TURNS):
        read, own_read = taken(READ), taken(READ, OWN)
        times["ours"].append((taken(feed("ours")) - read) / calls)
        for name, words in sides.items():
            times[name].append((taken(words) - read) / calls)
            times[f"own {name}"].append((taken(words, OWN) - own_read) / own)
    found = []
    for name in sides:
        found += [nanoseconds(times[name]), ratio(times[name], times["ours"]), ratio(times[name], times[f"own {name}"])]
    tables.keep(f"group{numbers} {size} 0 {state}", found)
    return [tables.shown(*f) for f in found]


def print_groups(size):
    rows = [[f"read of {size:,}, a list of {numbers:,}, {state}"] + group_cells(numbers, size, state)
            for numbers in LISTS for state in ["empty", "full"]]
    columns = ["ns a call", "over our hashing", "over the plain read"]
    tables.table("Reads through a group, level 0", [""] + columns + ["lent: ns a call"] + columns[1:], rows)


def print_refusals():
    rows = [[f"refused by row {row}, {state}"] + cells(str(row), 0, 0, state)
            for row in range(2, 8) for state in ["empty", "full"]]
    tables.table("Junk, which needs no digest: over what hashing the frame would take", LENT_HEADS, rows)
    rows = [[f"{what}, {state}"] + cells("9", size, level, state)
            for what, size, level in [("look, level 0", 0, 0), ("write of 65,536, level 1", 65536, 1)]
            for state in ["empty", "full"]]
    tables.table("Refused by row 9", LENT_HEADS, rows)


def main():
    check_rows()
    print_looks()
    print_moves("read", SIZES)
    print_moves("write", SIZES + [BIG])
    print_groups(SIZES[0])
    print_refusals()
    remove(INPUT, BEFORE, *OWN)


if __name__ == "__main__":
    main()
