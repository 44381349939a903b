#!/usr/bin/env python3
"""Times the readers of libraries and netlists beside OpenSTA, on the same made files, and prints tables in Markdown.

  bench/readers.py [BENCH] [--sizes N,N,..] [--cells N,N,..] [--times N] [--keep FOLDER] [--seed S]

BENCH is the built program `crates/bench/out/bench`, of which the words `library FILE`, `modules NETLIST` (a netlist is read) and
`netlist LIBRARY NETLIST TOP` (it is read and elaborated) are run. Where it is left out or has no such words yet, that is said and
OpenSTA is measured alone. OpenSTA is a package of Debian:
`apt-get install opensta`; where its program `sta` isn't there, that is said too.

Seconds are those of a processor that one run takes, in the program and in the system for it, then those on the clock; MB are its
peak memory, and a peak below that of this script, some 12 MB, isn't seen. The ratio of time is that of ours to OpenSTA's seconds of a
processor. The exponent says how these grow between the smallest and the greatest size, without what an empty run of OpenSTA takes:
1 is linear. With --times N each run is the one of N that took the fewest seconds.

The whole with its default sizes takes some half a minute for OpenSTA alone, and 300 MB of disk.
"""
import argparse
import math
import os
import shutil
import sys
import tempfile
import time

import make_library
import make_netlist

# The top counts too, and a design has at most 1,000,000 instances.
SIZES = [10_000, 100_000, 999_999]
CELLS = [80, 800, 8_000]
# A netlist by hierarchy is made for so many of the instances.
BY_HIERARCHY = 0.9


class Run:
    """What one run of a program took and printed."""

    def __init__(self, words, folder):
        out, errors = (os.path.join(folder, name) for name in ("run.out", "run.err"))
        begun = time.monotonic()
        child = os.fork()
        if child == 0:
            try:
                for number, name in ((1, out), (2, errors)):
                    os.dup2(os.open(name, os.O_WRONLY | os.O_CREAT | os.O_TRUNC, 0o644), number)
                os.execvp(words[0], words)
            finally:
                os._exit(127)
        _, status, used = os.wait4(child, 0)
        self.seconds, self.clock = used.ru_utime + used.ru_stime, time.monotonic() - begun
        # Linux counts in units of 1,024 bytes
        self.megabytes = used.ru_maxrss * 1024 / 1e6
        self.status = os.waitstatus_to_exitcode(status)
        with open(out, errors="replace") as f:
            self.printed = f.read().strip()
        with open(errors, errors="replace") as f:
            self.complaint = f.read().strip()


def quickest(times, run):
    """The run of so many that took the fewest seconds of a processor, or nothing where there is none."""
    runs = [run() for _ in range(times)]
    return None if None in runs else min(runs, key=lambda done: done.seconds)


class Files:
    """The folder of the made files, and how often each is read."""

    def __init__(self, folder, seed, times=1):
        self.folder, self.seed, self.times = folder, seed, times

    def path(self, name):
        return os.path.join(self.folder, name)

    def library(self, cells):
        path = self.path("cells%d.lib" % cells)
        with open(path, "w") as f:
            make_library.write_library(f, cells, self.seed)
        return path

    def netlist(self, form, count):
        path = self.path("%s%d.v" % (form, count))
        with open(path, "w") as f:
            instances = make_netlist.write_netlist(f, form, count, self.seed)
        return path, instances

    def script(self, lines):
        path = self.path("sta.tcl")
        with open(path, "w") as f:
            f.write("\n".join(lines) + "\n")
        return path


def sta_run(files, lines):
    """A run of OpenSTA on the lines of a script. Its answers to them are looked at for faults, since it goes on behind them."""
    words = ["sta", "-no_splash", "-no_init", "-exit", files.script(lines)]
    done = quickest(files.times, lambda: Run(words, files.folder))
    if done.status != 0 or "rror" in done.printed + done.complaint:
        sys.exit("OpenSTA fails: %s %s" % (done.printed[:400], done.complaint[:400]))
    return done


def sta_library(files, library):
    return sta_run(files, ["read_liberty " + library])


def sta_modules(files, netlist):
    return sta_run(files, ["read_verilog " + netlist])


def sta_netlist(files, library, netlist):
    """A run that reads and links, and how many instances another one counts, the top among them: counting takes long."""
    linked = ["read_liberty " + library, "read_verilog " + netlist, "link_design top"]
    counted = sta_run(Files(files.folder, files.seed), linked + ["puts [llength [get_cells -hierarchical *]]"])
    return sta_run(files, linked), int(counted.printed.split()[-1]) + 1


def own_run(bench, files, words):
    """A run of our program, or nothing where it has no such words or refuses the text."""
    def run():
        done = Run([bench] + words, files.folder)
        return done if done.status == 0 else None
    return quickest(files.times, run)


def has_words(bench, files):
    """Which of the words the program has, by a run on small files."""
    library = files.library(len(make_library.KINDS))
    netlist, _ = files.netlist("flat", 100)
    asked = {"library": [library], "modules": [netlist], "netlist": [library, netlist, "top"]}
    if bench is None:
        print("No program was given: OpenSTA is measured alone.\n")
        return set()
    found = {word for word, files_of in asked.items() if own_run(bench, files, [word] + files_of)}
    for word in sorted(set(asked) - found):
        print("%s has no word `%s` that reads a small file: OpenSTA is measured alone there.\n" % (bench, word))
    return found


def figures(done):
    return "%.2f | %.2f | %.0f" % (done.seconds, done.clock, done.megabytes) if done else "- | - | -"


def ratio(own, theirs):
    if not own or not theirs:
        return "- | -"
    return "%.2f | %.2f" % (own.seconds / theirs.seconds, own.megabytes / theirs.megabytes)


def head(size):
    print("| %s | MB of file | OpenSTA s | on the clock | MB | ours s | on the clock | MB | ratio of time | of memory | what ours prints |" % size)
    print("|--:|--:|--:|--:|--:|--:|--:|--:|--:|--:|:--|", flush=True)


def row(size, path, theirs, own):
    told = " ".join(own.printed.split()) if own else ""
    print("| %s | %.1f | %s | %s | %s | %s |" % (
        format(size, ","), os.path.getsize(path) / 1e6, figures(theirs), figures(own), ratio(own, theirs), told), flush=True)


def exponent(runs, empty):
    """How seconds grow from the first size to the last, without those of an empty run."""
    (small, first), (large, last) = runs[0], runs[-1]
    if first is None or last is None or small == large:
        return None
    return math.log(max(last.seconds - empty, 1e-3) / max(first.seconds - empty, 1e-3)) / math.log(large / small)


def tell_exponents(theirs, own, empty):
    for name, runs, least in (("OpenSTA", theirs, empty), ("ours", own, 0.0)):
        grown = exponent(runs, least)
        if grown is not None:
            print("\nThe exponent of %s from %s to %s is %.2f." % (name, format(runs[0][0], ","), format(runs[-1][0], ","), grown))
    print("", flush=True)


def measure_libraries(bench, files, sizes, has_sta, empty):
    head("cells")
    theirs, own = [], []
    for cells in sizes:
        path = files.library(cells)
        theirs.append((cells, sta_library(files, path) if has_sta else None))
        own.append((cells, own_run(bench, files, ["library", path]) if bench else None))
        row(cells, path, theirs[-1][1], own[-1][1])
        os.remove(path)
    tell_exponents(theirs, own, empty)


def measure_modules(bench, files, form, sizes, has_sta, empty):
    head("instances, %s, read alone" % form)
    theirs, own = [], []
    for size in sizes:
        path, instances = files.netlist(form, size)
        theirs.append((instances, sta_modules(files, path) if has_sta else None))
        own.append((instances, own_run(bench, files, ["modules", path]) if bench else None))
        row(instances, path, theirs[-1][1], own[-1][1])
        os.remove(path)
    tell_exponents(theirs, own, empty)


def measure_netlists(bench, files, form, sizes, has_sta, empty):
    library = files.library(len(make_library.KINDS))
    head("instances, " + form)
    theirs, own = [], []
    for size in sizes:
        path, instances = files.netlist(form, size)
        done = None
        if has_sta:
            done, counted = sta_netlist(files, library, path)
            if counted != instances:
                sys.exit("OpenSTA counts %d instances, not %d" % (counted, instances))
        theirs.append((instances, done))
        own.append((instances, own_run(bench, files, ["netlist", library, path, "top"]) if bench else None))
        row(instances, path, done, own[-1][1])
        os.remove(path)
    tell_exponents(theirs, own, empty)


def numbers(text):
    return [int(word.replace("_", "")) for word in text.split(",")]


def options():
    words = argparse.ArgumentParser(description=__doc__, formatter_class=argparse.RawDescriptionHelpFormatter)
    words.add_argument("bench", nargs="?")
    words.add_argument("--sizes", type=numbers, default=SIZES)
    words.add_argument("--cells", type=numbers, default=CELLS)
    words.add_argument("--times", type=int, default=1)
    words.add_argument("--keep", help="a folder for the made files")
    words.add_argument("--seed", type=int, default=1)
    return words.parse_args()


def main():
    given = options()
    folder = given.keep or tempfile.mkdtemp(prefix="upfsign-readers-")
    os.makedirs(folder, exist_ok=True)
    files = Files(folder, given.seed, given.times)
    try:
        has_sta = shutil.which("sta") is not None
        if not has_sta:
            print("OpenSTA isn't installed (`apt-get install opensta`): it isn't measured.\n")
        bench = os.path.abspath(given.bench) if given.bench else None
        found = has_words(bench, files)
        empty = sta_run(files, ["puts empty"]).seconds if has_sta else 0.0
        measure_libraries(bench if "library" in found else None, files, given.cells, has_sta, empty)
        by_hierarchy = [int(size * BY_HIERARCHY) for size in given.sizes]
        for word, measured in (("modules", measure_modules), ("netlist", measure_netlists)):
            own = bench if word in found else None
            measured(own, files, "flat", given.sizes, has_sta, empty)
            measured(own, files, "hierarchy", by_hierarchy, has_sta, empty)
    finally:
        if not given.keep:
            shutil.rmtree(folder)


if __name__ == "__main__":
    main()
