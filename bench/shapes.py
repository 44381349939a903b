#!/usr/bin/env python3
"""Times the readers on texts that are large in one way each, at a size and at ten times that size, and prints a table in Markdown.

  bench/shapes.py BENCH [--size N] [--only TEXT] [--refused] [--list] [--keep FOLDER]

BENCH is the built program `crates/bench/out/bench`, of which the words `library FILE` and `netlist LIBRARY NETLIST TOP` are run.
Where it has no such word yet, that is said and its shapes are left out. A shape is a readable text whose design has no fault. Where a
reader or an elaboration does something for each thing with each other one, the exponent of its shape shows it: it should be some 1.
`--list` prints the shapes alone. `--refused` times texts as long as a file may be that are refused, each by both words, in place of
the shapes: what is refused at its first token should take no longer than reading the file.
"""
import argparse
import math
import os
import shutil
import sys
import tempfile

import readers

SIZE = 30_000
# An exponent above it is marked.
MOST = 1.3
CELLS = """library(c) {
cell(BUF) { pin(A) { direction : input; } pin(Y) { direction : output; } }
cell(AND) { pin(A, B) { direction : input; } pin(Y) { direction : output; } }
}
"""


def library(inside):
    return "library(c) {\n%s}\n" % "".join(inside)


def long_name(k):
    return "n" * 1000 + str(k)


def of_cell(inside):
    return library(["cell(C) {\n"] + list(inside) + ["}\n"])


# For each shape of a library its text of a size.
LIBRARIES = {
    "cells": lambda n: library("cell(C%d) { pin(A) { direction : input; } }\n" % k for k in range(n)),
    "one cell again and again": lambda n: library("cell(C) { pin(A) { direction : input; } }\n" for _ in range(n)),
    "cells with long names": lambda n: library("cell(%s) { }\n" % long_name(k) for k in range(n // 30)),
    "pins of one cell": lambda n: of_cell("pin(P%d) { direction : input; }\n" % k for k in range(n)),
    "pins in one quoted text": lambda n: of_cell(['pin("%s") { direction : input; }\n' % ", ".join("P%d" % k for k in range(n))]),
    "pins in one group": lambda n: of_cell(["pin(%s) { direction : input; }\n" % ", ".join("P%d" % k for k in range(n))]),
    "one pin again and again": lambda n: of_cell("pin(P) { direction : input; }\n" for _ in range(n)),
    "attributes of one pin": lambda n: of_cell(["pin(P) {\n"] + ["direction : input;\n"] * n + ["}\n"]),
    "attributes of one cell": lambda n: of_cell(["is_isolation_cell : false;\n"] * n),
    "arguments of one group": lambda n: library(["x(%s);\n" % ", ".join("a%d" % k for k in range(n))]),
    "words of one value": lambda n: library(["x : %s;\n" % " ".join("a%d" % k for k in range(n))]),
    "groups 100 deep": lambda n: library(["g() { " * 99 + "} " * 99 + "\n"] * (n // 100)),
    "one long word": lambda n: library(["x : %s;\n" % ("a" * 10 * n)]),
    "one long comment": lambda n: library(["/*%s*/\n" % ("* " * 5 * n)]),
    "one long quoted text": lambda n: library(["x : \"%s\";\n" % ("\\\" " * 3 * n)]),
    "empty lines": lambda n: library(["\n" * 10 * n]),
}


def top(inside, header=""):
    return "module top%s;\n%sendmodule\n" % (header, "".join(inside))


def modules(n):
    return "".join("module m%d(input a, output y);\nBUF b(.A(a), .Y(y));\nendmodule\n" % k for k in range(n)) + top(
        "m%d u%d(.a(n%d), .y(n%d));\n" % (k, k, k, k + 1) for k in range(n))


def many_ports(n):
    ports = ", ".join("input p%d" % k for k in range(n))
    conns = ", ".join(".p%d(n%d)" % (k, k) for k in reversed(range(n)))
    return "module m(%s);\nendmodule\n%s" % (ports, top(["m u(%s);\n" % conns]))


def deep(n):
    levels = 99
    cells = "".join("BUF b%d(.A(x), .Y(y%d));\n" % (k, k) for k in range(n // levels))
    text = ["module m%d;\nm%d u();\n%sendmodule\n" % (level, level + 1, cells) for level in range(levels)]
    return "".join(text) + "module m%d;\nendmodule\n" % levels + top(["m0 u();\n"])


def doubled(n):
    levels = int(math.log2(n))
    text = ["module m%d;\nm%d a();\nm%d b();\nendmodule\n" % (level, level + 1, level + 1) for level in range(levels)]
    return "".join(text) + "module m%d;\nendmodule\n" % levels + top(["m0 u();\n"])


def buffers(names):
    return ["BUF %s(.A(x), .Y());\n" % name for name in names]


# For each shape of a netlist its text of a size. The top is `top`.
NETLISTS = {
    "modules": modules,
    "unused modules": lambda n: "".join("module m%d(input a);\nendmodule\n" % k for k in range(n)) + top([]),
    "wires of one item": lambda n: top(["wire %s;\n" % ", ".join("n%d" % k for k in range(n))]),
    "undeclared wires": lambda n: top("assign n%d = x;\n" % k for k in range(n)),
    "assignments of one item": lambda n: top(["assign %s;\n" % ", ".join("n%d = x" % k for k in range(n))]),
    "ports and connections of one module": many_ports,
    "names of one header": lambda n: top(["input p%d;\nwire p%d;\n" % (k, k) for k in reversed(range(n))],
                                         "(%s)" % ", ".join("p%d" % k for k in range(n))),
    "parts of one concatenation": lambda n: top(["assign {%s} = {%s};\n" % (
        ", ".join("n%d" % k for k in range(n)), ", ".join("m%d" % k for k in range(n)))]),
    "loads of one wire": lambda n: top(buffers("u%d" % k for k in range(n))),
    "a chain of assignments": lambda n: top("assign n%d = n%d;\n" % (k, k + 1) for k in range(n)),
    "a chain of assignments, the other way": lambda n: top("assign n%d = n%d;\n" % (k, k + 1) for k in reversed(range(n))),
    "chains through vectors": lambda n: top("wire [999:0] v%d;\nassign v%d[999:1] = v%d[998:0];\n" % (k, k, k) for k in range(n // 300)),
    "bits of vectors": lambda n: top("wire [1023:0] v%d;\n" % k for k in range(n // 100)),
    "instances with long names": lambda n: top(buffers(long_name(k) for k in range(n // 30))),
    "escaped names with slashes": lambda n: top(buffers("\\u/%d " % k for k in range(n))),
    "escaped names with brackets": lambda n: top([], "(%s)" % ", ".join("input \\a[%d] " % k for k in range(n))),
    "one block again and again": lambda n: "module m;\nBUF b();\nendmodule\n" + top("m u%d();\n" % k for k in range(n)),
    "blocks within blocks, 100 deep": deep,
    "blocks within blocks, two in each": doubled,
    "constants": lambda n: top("AND u%d(.A(1'b0), .B(1'hz), .Y());\n" % k for k in range(n)),
    "comments": lambda n: top(["// (* /* `\n", "/* // */ (* x = \"*/\" *)\n", "`define X\n"] * (n // 3)),
    "one long name": lambda n: top(buffers(["u" * 10 * n])),
}


# Bytes of which a file as long as it may be is full, and is refused.
LONGEST = 67_108_864
FULL_OF = {
    "opening braces": "{", "opening parentheses": "(", "slashes": "/", "slashes and stars": "/*", "parentheses and stars": "(*", "quotes": '"',
    "backslashes": "\\", "backslashes and blanks": "\\ ", "semicolons": ";", "newlines": "\n", "back quotes": "`", "zeros": "0",
    "letters": "a", "constants": "1'b0 ", "openings of groups": "library(l) {\n", "openings of modules": "module m;\n",
}


def measure_refused(bench, files, words):
    """Prints a table of texts that are refused, with the status and the answer of each word."""
    print("| full of | word | s | MB memory | status | what it prints |\n|:--|:--|--:|--:|--:|:--|")
    for name, part in FULL_OF.items():
        path = written(files, lambda: (part * (LONGEST // len(part) + 1))[:LONGEST])
        for word in sorted(words):
            done = readers.Run([bench] + of_word(word, files, path), files.folder)
            told = " ".join((done.printed + " " + done.complaint).split())[:80].replace("|", "\\|")
            print("| %s | %s | %.2f | %.0f | %d | %s |" % (name, word, done.seconds, done.megabytes, done.status, told), flush=True)


def written(files, make):
    """The path of a file with a text. Another process makes it, since what this one has in memory counts as memory of its children."""
    path = files.path("shape.txt")
    child = os.fork()
    if child == 0:
        status = 1
        try:
            with open(path, "w") as f:
                f.write(make())
            status = 0
        finally:
            os._exit(status)
    if os.waitstatus_to_exitcode(os.waitpid(child, 0)[1]) != 0:
        sys.exit("a text could not be written")
    return path


def of_word(word, files, path):
    """The words for the program, about the text in a file."""
    if word == "library":
        return [word, path]
    cells = files.path("cells.lib")
    with open(cells, "w") as f:
        f.write(CELLS)
    return [word, cells, path, "top"]


def figures_of(bench, files, word, make, size):
    """The seconds of a run on the text of a size, and the figures of its row, or nothing where the text is refused."""
    path = written(files, lambda: make(size))
    run = readers.own_run(bench, files, of_word(word, files, path))
    return run and (run.seconds, "%.1f | %.2f | %.0f | " % (os.path.getsize(path) / 1e6, run.seconds, run.megabytes))


def measure(bench, files, word, shapes, size, only):
    """Prints the rows of a table. The answer is whether all of them are as wanted."""
    print("| %s | MB | s | MB memory | MB, ten times | s | MB memory | exponent |\n|:--|--:|--:|--:|--:|--:|--:|--:|" % word)
    good = True
    for name, make in shapes.items():
        if only not in name:
            continue
        runs = [figures_of(bench, files, word, make, of) for of in (size, 10 * size)]
        if None in runs:
            print("| %s | REFUSED |" % name, flush=True)
            good = False
            continue
        (first, told), (last, told_last) = runs
        grown = math.log10(max(last, 0.01) / max(first, 0.01))
        print("| %s | %s%s%.2f%s |" % (name, told, told_last, grown, " TOO MUCH" if grown > MOST else ""), flush=True)
        good = good and grown <= MOST
    print("")
    return good


def main():
    words = argparse.ArgumentParser(description=__doc__, formatter_class=argparse.RawDescriptionHelpFormatter)
    words.add_argument("bench", nargs="?")
    words.add_argument("--size", type=int, default=SIZE)
    words.add_argument("--only", default="")
    words.add_argument("--refused", action="store_true")
    words.add_argument("--list", action="store_true")
    words.add_argument("--keep", help="a folder for the made files")
    given = words.parse_args()
    if given.list or given.bench is None:
        print("\n".join("library: " + name for name in LIBRARIES) + "\n" + "\n".join("netlist: " + name for name in NETLISTS))
        return
    folder = given.keep or tempfile.mkdtemp(prefix="upfsign-shapes-")
    os.makedirs(folder, exist_ok=True)
    files = readers.Files(folder, 1)
    bench = os.path.abspath(given.bench)
    try:
        found = readers.has_words(bench, files)
        if given.refused:
            measure_refused(bench, files, found)
            return
        good = [measure(bench, files, word, shapes, given.size, given.only)
                for word, shapes in (("library", LIBRARIES), ("netlist", NETLISTS)) if word in found]
    finally:
        if not given.keep:
            shutil.rmtree(folder)
    sys.exit(0 if all(good) else 1)


if __name__ == "__main__":
    main()
