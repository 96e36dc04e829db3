"""What bench/gate and bench/program share: inputs made by frames.c, and processes timed on them."""

import os
import subprocess
import sys

TURNS = int(os.environ.get("BENCH_TURNS", "7"))
SECONDS = float(os.environ.get("BENCH_SECONDS", "0.35"))
FOLDER = os.environ.get("BENCH_FOLDER", "target/bench")
INPUT = os.path.join(FOLDER, "input")
GATE_BENCH = ["target/bin/gate_bench"]
GATE = ["target/bin/gate"]
REPORT = ["target/bin/report"]
FRAMES = "target/bench/frames"


def feed(what, times=1):
    return ["target/bench/feed", what, str(times)]


READ = ["target/bench/feed", "read"]
LENT = ["target/bench/feed", "lent"]


def text_of(words, path):
    """What a process prints on an input."""
    with open(path, "rb") as source:
        return subprocess.run(words, stdin=source, check=True, capture_output=True, text=True).stdout


def ended(process):
    """Waits for a process; the processor time that it took."""
    _, status, usage = os.wait4(process.pid, 0)
    process.returncode = status
    if status:
        sys.exit(f"{process.args}: status {status}")
    return usage.ru_utime + usage.ru_stime


def spent(words, path):
    with open(path, "rb") as source:
        return ended(subprocess.Popen(words, stdin=source, stdout=subprocess.DEVNULL))


def make(path, kind, size, level, state, frames, big):
    """Makes an input, and sees that the gate, on a record and on lent parts, grants and refuses what it should. The calls in it."""
    words = [str(w) for w in [FRAMES, path, kind, size, level, state, frames, big]]
    due = subprocess.run(words, check=True, capture_output=True, text=True).stdout
    for process in [GATE_BENCH, LENT]:
        got = text_of(process, path)
        if got != due:
            sys.exit(f"{words}: {process}: {got.strip()}, and not {due.strip()}")
    granted, _, refused, _ = due.split()
    return int(granted) + int(refused)


def remove(*paths):
    for path in paths:
        if os.path.exists(path):
            os.remove(path)
