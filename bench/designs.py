#!/usr/bin/env python3
"""Runs a built `bench` on large designs kept in rows, and prints a table in Markdown.

  bench/designs.py PROGRAM

- `flat`: N cells of three pins each in one top, with two nets a cell.
- `nested`: N instances of a block of 300 cells whose names have some 1,000 bytes.

Each is made and read whole: owners, next bits, names and paths.
"""
import os
import sys
import tempfile
import time

RUNS = [("flat", 10000), ("flat", 100000), ("flat", 1000000), ("nested", 300), ("nested", 3000)]


def main():
    print("| kind | N | instances | bits | bytes of names | seconds | peak memory, MB |\n|:--|--:|--:|--:|--:|--:|--:|")
    for kind, n in RUNS:
        with tempfile.TemporaryFile() as out:
            begun = time.monotonic()
            child = os.fork()
            if child == 0:
                try:
                    os.dup2(out.fileno(), 1)
                    os.execv(sys.argv[1], [sys.argv[1], kind, str(n)])
                finally:
                    os._exit(127)
            _, status, used = os.wait4(child, 0)
            seconds = time.monotonic() - begun
            out.seek(0)
            words = out.read().decode().split()
        if status or len(words) != 10:
            sys.exit("%s %d: status %d, %s" % (kind, n, status, " ".join(words)))
        print("| %s | %s | %s | %s | %s | %.2f | %.0f |" % (kind, format(n, ","), format(int(words[1]), ","), format(int(words[3]), ","),
              format(int(words[9]), ","), seconds, used.ru_maxrss * 1024 / 1e6), flush=True)


main()
