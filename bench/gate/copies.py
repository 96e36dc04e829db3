#!/usr/bin/env python3
"""What a call of the gate copies, on a record and on lent parts: calls of memcpy and their bytes, counted (copies.c) on an input with the
frames and on one without them. Run by bench/gate/copies from the repository's top."""

import os
import subprocess
import sys

sys.path.insert(0, os.path.dirname(os.path.dirname(os.path.abspath(__file__))))
import tables  # noqa: E402
from processes import *  # noqa: E402, F403

FEW = 1000   # frames: each copies the same
SMALL = 8192  # bytes of the object


def counted(words, path):
    environment = dict(os.environ, LD_PRELOAD=os.path.abspath("target/bench/copies.so"))
    with open(path, "rb") as source:
        run = subprocess.run(words, stdin=source, env=environment, check=True, capture_output=True, text=True)
    return [int(n) for n in run.stderr.split()]


def cells(words, kind, state):
    with_frames, before = INPUT, INPUT + "-before"
    calls = make(with_frames, kind, 0, 0, state, FEW, SMALL) - make(before, kind, 0, 0, state, 0, SMALL)
    difference = [a - b for a, b in zip(counted(words, with_frames), counted(words, before))]
    remove(with_frames, before)
    return [f"{n / calls:,.1f}" for n in difference]


def main():
    rows = [[f"{what}, {state}"] + cells(GATE_BENCH, kind, state) + cells(LENT, kind, state)
            for what, kind in [("look, level 0", "look"), ("refused by row 3", "3")] for state in ["empty", "full"]]
    tables.table("What a call copies", ["", "on a record: copies", "bytes", "lent: copies", "bytes"], rows)


if __name__ == "__main__":
    main()
