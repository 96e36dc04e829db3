"""What the measuring scripts share: medians with their spread, tables, and the numbers kept for the bars (bars.py)."""

import json
import statistics

KEPT = "target/bench/kept"


def keep(name, numbers):
    with open(KEPT, "a", encoding="ascii") as f:
        f.write(json.dumps([name, numbers]) + "\n")


def quartiles(values):
    """Median, and the ends of the middle half."""
    v = sorted(values)
    n = len(v)
    return statistics.median(v), v[n // 4], v[n - 1 - n // 4]


def shown(middle, low, high):
    """As `1.23 (1.20-1.27)`, with fewer digits for larger numbers."""
    digits = 2 if middle < 10 else 1 if middle < 100 else 0
    return f"{middle:,.{digits}f} ({low:,.{digits}f}-{high:,.{digits}f})"


def table(title, heads, rows):
    """Prints a table that Markdown reads too; the first column is text."""
    cells = [heads] + [[str(c) for c in row] for row in rows]
    widths = [max(3, *(len(row[i]) for row in cells)) for i in range(len(heads))]
    print(f"\n{title}\n")
    for k, row in enumerate(cells):
        print("| " + " | ".join([row[0].ljust(widths[0])] + [c.rjust(w) for c, w in zip(row[1:], widths[1:])]) + " |")
        if k == 0:
            print("|" + "|".join("-" * (w + 2) if i == 0 else "-" * (w + 1) + ":" for i, w in enumerate(widths)) + "|")
    print(end="", flush=True)
