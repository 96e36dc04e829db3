#!/usr/bin/env python3
"""The bars set for speed, and what the run just made found (tables.py keeps it): medians."""

import json

import tables


def main():
    with open(tables.KEPT, encoding="ascii") as f:
        kept = dict(json.loads(line) for line in f)
    rows = []

    def bar(what, value, most=None, least=None):
        met = value <= most if most is not None else value >= least
        limit = f"at most {most}" if most is not None else f"at least {least}"
        rows.append([what, limit, f"{value:.2f}", "yes" if met else "no"])

    for column, least in [("libcrypto, no SHA instr.", 0.85), ("libsodium", 1.0), ("BearSSL", 1.0), ("mbedTLS", 1.0)]:
        bar(f"SHA-256 of 1 MiB, of the speed of {column}", kept["sha256"][column][-1][2], least=least)
    for state in ["empty", "full", "steady"]:
        bar(f"look, level 0, {state}: times its own hashing", kept[f"look 0 0 {state}"][1][0], most=1.3)
    for state in ["empty", "full", "steady"]:
        bar(f"look, level 0, {state}, lent: times its own hashing", kept[f"look 0 0 {state}"][4][0], most=1.15)
    for state in ["empty", "full"]:
        bar(f"write of 1 MiB, level 1, {state}: times its own hashing", kept[f"write {1 << 20} 1 {state}"][1][0], most=1.05)
    for state in ["empty", "full"]:
        worst = max(kept[f"{row} 0 0 {state}"][0][0] for row in range(2, 8))
        bar(f"junk, the slowest of rows 2 to 7, {state}: µs", worst / 1000, most=1.0)
    worst = max(kept[f"{row} 0 0 empty"][3][0] for row in range(2, 8))
    bar("junk, the slowest of rows 2 to 7, empty, lent: µs", worst / 1000, most=0.1)
    for name, found in kept.items():
        if name.startswith("program "):
            for how, f in [("processor time", found[1]), ("the clock", found[2])]:
                bar(f"program through a pipe, {name[8:]}: of the library's calls a second, by {how}", f[0], least=0.8)
    for name, found in kept.items():
        if name.startswith("report "):
            for how, f in [("processor time", found[1]), ("the clock", found[2])]:
                bar(f"report through a pipe, {name[7:]}: of gate's records a second, by {how}", f[0], least=0.95)
    tables.table("Bars", ["", "bar", "found", "met"], rows)


if __name__ == "__main__":
    main()
