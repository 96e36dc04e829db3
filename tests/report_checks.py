#!/usr/bin/env python3
"""What tests/differential-report asks beside the model. Knows nothing of it: reads records and lines by itself.

    table IN LINES PRINTED ..       is what `report` printed the table of the calls that `gate` printed these lines of, both from IN?
                                    Of any number of threes
    pieces FILE SIZE.. -- PROGRAM   the program's output where FILE comes in pieces of these sizes, in turn, each when the last is read
    many FRAME COUNT -- PROGRAM     the program's output on COUNT records of that frame (hexadecimal; the clock is 0)
    memory FRAME -- PROGRAM         does it hold about as much memory after a million such records as after ten?
"""
import collections
import fcntl
import os
import re
import struct
import subprocess
import sys
import termios
import time

HEAD = struct.Struct(">2sQI")  # mark, clock, frame length
PLACES = ["0", "1", "2", "3", "none"]
SECONDS = 60
FEW, MANY = 10, 1_000_000
GROWTH = 0.1  # of the memory held after FEW records


def calls_of(records, lines):
    """Place and row of each call: the row by gate's line, the place by the row and byte 2 of the frame."""
    *answers, last = [line.split() for line in lines.splitlines()]
    at = 0
    for number, (call, row, _) in enumerate(answers, 1):
        mark, _, length = HEAD.unpack_from(records, at)
        frame = records[at + HEAD.size:at + HEAD.size + length]
        at += HEAD.size + length
        assert int(call) == number and mark == b"LI" and len(frame) == length, f"line {number} has no record"
        yield "none" if row in ("2", "3", "4") else str(frame[2]), int(row)
    assert last == ["end" if at == len(records) else "cut", str(len(answers))], f"{last} at byte {at} of {len(records)}"


def table_of(printed):
    """The counts that were printed, by place and row, and the total; the lines in order, none of them twice or zero."""
    *counts, last = printed.splitlines()
    table, before = collections.Counter(), (-1, -1)
    for line in counts:
        found = re.fullmatch(r"([0-3]|none) (0|[1-9]\d*) ([1-9]\d*)", line)
        assert found, f"no count: {line}"
        here = PLACES.index(found[1]), int(found[2])
        assert before < here, f"out of order: {line}"
        before = here
        table[found[1], int(found[2])] = int(found[3])
    total = re.fullmatch(r"calls (0|[1-9]\d*)", last)
    assert total and printed.endswith("\n"), f"no total: {last}"
    return table, int(total[1])


def check_table(records, lines, printed):
    with open(records, "rb") as r, open(lines, encoding="ascii") as l, open(printed, encoding="ascii") as p:
        calls = list(calls_of(r.read(), l.read()))
        table, total = table_of(p.read())
    due = collections.Counter(calls)
    for place, row in sorted(set(due) | set(table)):
        n, printed_n = due[place, row], table[place, row]
        assert n == printed_n, f"{records}: {place} {row}: {n} calls, and {printed_n} is printed"
    assert sum(table.values()) == total == len(calls), f"{records}: {len(calls)} calls, and {total} is printed"


def waiting(process):
    """Bytes that the process has not yet read from its standard input."""
    return struct.unpack("i", fcntl.ioctl(process.stdin, termios.FIONREAD, bytes(4)))[0]


def read_all(process):
    """Waits until the process has read what it was given, or has ended."""
    ends = time.monotonic() + SECONDS
    while waiting(process) and process.poll() is None:
        assert time.monotonic() < ends, "the program does not read"
        os.sched_yield()


def started(program):
    return subprocess.Popen(program, stdin=subprocess.PIPE, bufsize=0)


def ended(process):
    process.stdin.close()
    assert process.wait(SECONDS) == 0, f"{process.args}: status {process.returncode}"


def put_pieces(path, sizes, program):
    with open(path, "rb") as f:
        left = f.read()
    process = started(program)
    try:
        while left:
            for size in sizes:
                piece, left = left[:size], left[size:]
                while piece:
                    piece = piece[process.stdin.write(piece):]
                read_all(process)
    except BrokenPipeError:
        pass  # it saw that the input is broken, and ended
    ended(process)


def put_many(frame, count, process):
    record = HEAD.pack(b"LI", 0, len(frame)) + frame
    chunk = record * 1000
    for first in range(0, count, 1000):
        piece = memoryview(chunk)[:len(record) * min(1000, count - first)]
        while piece:
            piece = piece[process.stdin.write(piece):]


def held(frame, count, program):
    """Of the most memory that the program held until it had read all and waits for more: its own, and pages of files, in kB. How many
    of those there are changes from run to run."""
    process = subprocess.Popen(program, stdin=subprocess.PIPE, stdout=subprocess.DEVNULL, bufsize=0)
    put_many(frame, count, process)
    read_all(process)
    status, ends = "", time.monotonic() + SECONDS
    while "State:\tS" not in status:
        assert time.monotonic() < ends and process.poll() is None, "the program does not wait for more"
        with open(f"/proc/{process.pid}/status", encoding="utf-8") as f:
            status = f.read()
    ended(process)
    peak, files = [int(re.search(rf"{name}:\s*(\d+) kB", status)[1]) for name in ["VmHWM", "RssFile"]]
    return peak - files, files


def check_memory(frame, program):
    few, files = held(frame, FEW, program)
    many, _ = held(frame, MANY, program)
    assert many - few <= GROWTH * (few + files), f"{few} kB and {files} of files after {FEW} records, {many - few} more after {MANY}"


def main():
    word, *words = sys.argv[1:]
    program = words[words.index("--") + 1:] if "--" in words else None
    try:
        if word == "table":
            for i in range(0, len(words), 3):
                check_table(*words[i:i + 3])
        elif word == "pieces":
            put_pieces(words[0], [int(w) for w in words[1:words.index("--")]], program)
        elif word == "many":
            process = started(program)
            put_many(bytes.fromhex(words[0]), int(words[1]), process)
            ended(process)
        else:
            check_memory(bytes.fromhex(words[0]), program)
    except (AssertionError, BrokenPipeError, subprocess.TimeoutExpired) as fault:
        sys.exit(f"report_checks: {word}: {fault}")


if __name__ == "__main__":
    main()
