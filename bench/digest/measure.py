#!/usr/bin/env python3
"""Runs target/bench/digest once for each setting of the libraries (they read it as they are loaded), and prints the ratios."""

import os
import subprocess
import sys

HERE = os.path.dirname(os.path.abspath(__file__))
sys.path.insert(0, os.path.dirname(HERE))
import tables  # noqa: E402

NO_SHA = ":~0x20000000"
# neither SHA, nor AVX2, BMI1, BMI2, nor AVX, SSSE3: what is left is the integer code
INTEGER = "~0x1000020000000000:~0x20000128"
SETTINGS = [
    ({}, {"libcrypto": "libcrypto", "libcrypto-call": "its one call", "nettle": "nettle", "libsodium": "libsodium",
          "BearSSL": "BearSSL", "mbedTLS": "mbedTLS"}),
    ({"OPENSSL_ia32cap": NO_SHA, "NETTLE_FAT_OVERRIDE": "vendor:intel"},
     {"libcrypto": "libcrypto, no SHA instr.", "nettle": "nettle, no SHA instr."}),
    ({"OPENSSL_ia32cap": INTEGER}, {"libcrypto": "libcrypto, integer code"}),
]
COLUMNS = ["libcrypto, no SHA instr.", "libcrypto, integer code", "libsodium", "BearSSL", "mbedTLS",
           "nettle, no SHA instr.", "nettle", "libcrypto", "its one call"]


def measured():
    """Digest, bytes and column: our MB/s, theirs, and the ratio's median and quartiles."""
    found = {}
    for setting, names in SETTINGS:
        words = ["target/bench/digest", *names]
        text = subprocess.run(words, env={**os.environ, **setting}, check=True, capture_output=True, text=True).stdout
        for line in text.splitlines():
            digest, size, name, *numbers = line.split()
            found[digest, int(size), names[name]] = [float(x) for x in numbers]
    return found


def main():
    found = measured()
    for digest in ["sha256", "hmac"]:
        sizes = sorted({size for d, size, _ in found if d == digest})
        rows = []
        for column in COLUMNS:
            rows.append([column] + [tables.shown(*found[digest, size, column][2:]) for size in sizes])
        tables.keep(digest, {c: [found[digest, s, c] for s in sizes] for c in COLUMNS})
        title = {"sha256": "SHA-256", "hmac": "HMAC-SHA-256, key of 32 bytes"}[digest]
        tables.table(f"{title}: our speed divided by theirs", ["bytes"] + [f"{size:,}" for size in sizes], rows)
        rows = []
        for column in COLUMNS:
            rows.append([column] + ["{:.0f} / {:.0f}".format(*found[digest, size, column]) for size in sizes])
        tables.table(f"{title}: MB/s, ours / theirs", ["bytes"] + [f"{size:,}" for size in sizes], rows)


if __name__ == "__main__":
    main()
