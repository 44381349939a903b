#!/usr/bin/env python3
"""Runs a built `bench` on sets of states of a known form, and prints a table in Markdown.

  bench/diagrams.py PROGRAM [--runs KIND:N,KIND:N:M,..] [--times N]

The program makes the sets and counts the nodes of their table; at most 1,048,576 nodes are made, and a form that needs
more ends there.

- `pairs`: N pairs of supplies that are both on or both off, the two of a pair side by side.
- `apart`: the same, with all first ones of the pairs before all second ones, which needs 2 to the power of N nodes.
- `chain`: N supplies, each on only where the one before is.
- `pairs-walk`, `apart-walk`, `chain-walk`: the same, with the links built one by one before they are joined.
- `modes:N,M`: a table of M rows over N supplies, with conditions between neighbours besides.
- `random`: the intersection of two sets of about N nodes each that look random.

The table has the nodes after the run, and those before the intersection where there is one. A peak of memory below
that of this script, some 11 MB, isn't seen.

Milliseconds are those of a processor. A run of some thousand nodes takes little longer than the program takes to begin, so
that a short run is taken up to 50 times, each time beside one of `pairs 1`: beyond the beginning is the median of the one less
that of the other, and nanoseconds a node are of that.
"""
import argparse
import os
import shutil
import statistics
import sys
import tempfile

import readers

RUNS = ("pairs:100,pairs:500,pairs-walk:500,apart:12,apart:16,apart-walk:16,chain:300,chain:1000,chain-walk:1000,modes:300:100,"
        "modes:700:100,random:100000")
LEAST = ["pairs", "1"]
TIMES = 50
# A run is taken no more often than fills so many seconds.
SECONDS = 1.0
# Nanoseconds a node that `pairs` and `chain` may take.
MOST = 400
SIMPLE = ("pairs", "pairs-walk", "chain", "chain-walk")


def beside_least(program, words, times, folder):
    """The first of so many runs, and the medians of their seconds and of those of as many least runs."""
    runs, least = [], []
    while len(runs) < times and sum(run.seconds for run in runs) < SECONDS:
        runs.append(readers.Run([program] + words, folder))
        least.append(readers.Run([program] + LEAST, folder))
    return runs[0], statistics.median(run.seconds for run in runs), statistics.median(run.seconds for run in least)


def measure(program, words, times, folder):
    """Prints the row of a form. The answer is the nanoseconds a node, or nothing where the run fails."""
    run, seconds, least = beside_least(program, words, times, folder)
    line = run.printed.split()
    kind, size = words[0], " x ".join(format(int(n), ",") for n in words[1:])
    if run.status or len(line) not in (2, 4) or line[0] not in ("nodes", "bound"):
        print("| %s | %s | WRONG: status %d, %s |" % (kind, size, run.status, run.printed), flush=True)
        return None
    nodes = int(line[1])
    before = format(int(line[3]), ",") if len(line) == 4 else ""
    each = (seconds - least) * 1e9 / nodes
    print("| %s | %s | %s%s | %s | %.1f | %.1f | %.0f | %.0f | %.0f |" % (
        kind, size, format(nodes, ","), " (bound)" if line[0] == "bound" else "", before, seconds * 1e3, (seconds - least) * 1e3,
        each, run.megabytes, run.megabytes * 1e6 / nodes), flush=True)
    return each


def main():
    parser = argparse.ArgumentParser(description=__doc__, formatter_class=argparse.RawDescriptionHelpFormatter)
    parser.add_argument("program")
    parser.add_argument("--runs", default=RUNS, help="these in place of " + RUNS)
    parser.add_argument("--times", type=int, default=TIMES)
    options = parser.parse_args()
    program = os.path.abspath(options.program)
    runs = [word.split(":") for word in options.runs.split(",")]
    folder = tempfile.mkdtemp(prefix="upfsign-diagrams-")
    try:
        print("| kind | N | nodes | before | ms | beyond the beginning | ns a node | peak memory, MB | bytes a node |")
        print("|:--|--:|--:|--:|--:|--:|--:|--:|--:|")
        measured = [(words[0], measure(program, words, options.times, folder)) for words in runs]
    finally:
        shutil.rmtree(folder)
    simple = [each for kind, each in measured if kind in SIMPLE and each is not None]
    if simple:
        print("\nPairs and chains take at most %.0f ns a node; wanted are at most %d." % (max(simple), MOST))
    return 1 if None in [each for _, each in measured] else 0


if __name__ == "__main__":
    sys.exit(main())
