#!/usr/bin/env python3
"""Runs the program `bench` on libraries and netlists that are made to be hard, and compares what it prints.

  tests/hostile.py BENCH [--small] [--only TEXT] [--list] [--keep FOLDER]

BENCH is the built program `crates/bench/out/bench`. Each case is a library or a netlist with the answer that was worked out by
hand: how much the design holds, or the code, line and name of the first fault. It has some seconds of a processor and some
memory, and fails where it takes more: texts of 64 MiB of one byte, names that fall on one place of a table, long names in a
block with thousands of instances, hierarchies that are far larger than their text, rings of a million bits. `--small` divides all
sizes by a thousand, for a program that is built with checks.

The exit status is 1 where a case fails. It takes some minutes, and 200 MB of disk.
"""
import argparse
import os
import resource
import shutil
import sys
import tempfile

sys.path.insert(0, os.path.join(os.path.dirname(os.path.abspath(__file__)), "..", "bench"))
import colliding  # noqa: E402

# A file may have so many bytes.
LONGEST = 67_108_864
# So many instances or bits a case has, or a part of them.
MANY = 1_000_000
BLOCK_CELLS = 300
# The limits of a case: seconds of a processor, and MB of memory.
SECONDS, MEGABYTES = 10, 1000
CELLS = """library(c) {
cell(BUF) { pin(A) { direction : input; } pin(Y) { direction : output; } }
cell(ISO) { is_isolation_cell : true; pin(EN) { direction : input; }
  pin(D) { direction : input; isolation_cell_data_pin : true; } pin(Y) { direction : output; } }
cell(NOP) { }
}
"""
CASES = []


class Case:
    """A case: its name, the word that reads its text, the pieces of its text, and what is printed."""

    def __init__(self, name, word, pieces, answer):
        self.name, self.word, self.pieces, self.answer = name, word, pieces, answer

    def status(self):
        return 0 if self.answer.split(" ")[0] in ("cells", "modules") else 2


def library(name, pieces, answer):
    CASES.append(Case(name, "library", pieces, answer))


def netlist(name, pieces, answer):
    CASES.append(Case(name, "netlist", pieces, answer))


def design(modules, instances, bits, fed, tied=0):
    return "modules %d instances %d bits %d fed %d tied %d" % (modules, instances, bits, fed, tied)


def full_of(piece, longest, begin=""):
    """A text as long as may be that is full of whole pieces behind its beginning."""
    def pieces():
        yield begin
        count, many = (longest - len(begin)) // len(piece), max(1, (1 << 20) // len(piece))
        for at in range(0, count, many):
            yield piece * min(many, count - at)
    return pieces


def text(*parts):
    """A text of strings and of generators of strings."""
    def pieces():
        for part in parts:
            if isinstance(part, str):
                yield part
            else:
                yield from part()
    return pieces


def lines(line, count, first=0):
    """The lines of so many numbers."""
    return lambda: (line(k) for k in range(first, first + count))


def texts_of_one_byte(longest):
    """Texts that are full of one byte or of a few."""
    # A library begins with the word `library`, so that each other first token is its fault. Words have `/`, `*` and brackets too.
    for byte in "{}([\"\\;:,/*)]a0~`":
        library("full of `%s`" % byte, full_of(byte, longest), "L1 1 -")
    library("full of newlines", full_of("\n", longest), "L1 %d -" % (longest + 1))
    library("full of blanks", full_of(" ", longest), "L1 1 -")
    library("full of `/*`", full_of("/*", longest), "L1 1 -")
    library("full of backslashes with newlines", full_of("\\\n", longest), "L1 %d -" % (longest // 2 + 1))
    library("full of open groups", full_of("library(l) {\n", longest), "L1 101 -")
    for begun, what in (("library(l) {\n x", "("), ("library(l) {\n", "}")):
        library("full of `%s` from its second line on" % what, full_of(what, longest, begun), "L1 2 -")
    for begun in ("library(l) { x : \"", "library(l) { /*"):
        library("full of newlines behind `%s`" % begun, full_of("\n", longest, begun), "L1 %d -" % (longest - len(begun) + 1))

    # A netlist without a module has no top. Each other first token is a fault but where it is skipped.
    for byte in "{}([\";:,*)]~":
        netlist("full of `%s`" % byte, full_of(byte, longest), "N1 1 " + byte)
    for piece in ("/", "`", "\n", " ", "(* *)\n"):
        netlist("full of %s" % repr(piece), full_of(piece, longest), "N5 0 top")
    netlist("full of `\\`", full_of("\\", longest), "N1 1 -")
    netlist("full of `/*`", full_of("/*", longest), "N1 1 *")
    netlist("full of `(*`", full_of("(*", longest), "N1 1 -")
    netlist("full of constants", full_of("1'b0 ", longest), "N1 1 1'b0")
    netlist("full of begun modules", full_of("module m;\n", longest), "N1 2 module")
    netlist("full of empty modules", full_of("module m;\nendmodule\n", longest), "N11 3 m")
    netlist("full of `{` in an assignment", full_of("{", longest, "module top;\nassign a =\n"), "N1 3 {")
    netlist("full of `,` in a header", full_of(",", longest, "module top(\n"), "N1 2 ,")
    netlist("full of newlines in an open comment", full_of("\n", longest, "module top; /*"), "N1 %d -" % (longest - 14 + 1))
    netlist("full of an open escaped name", full_of("a", longest, "module top;\nwire \\"), "N1 2 -")


def long_lists(many):
    """Long concatenations, items and lists of ports, with `many` things."""
    begin = "module top(input x);\n"
    vector = begin + "wire [65535:0] v;\n"
    netlist("a concatenation of many vectors of 65,536 bits", text(vector, "assign v = {v", lines(lambda k: ",v", 8 * many), "};\nendmodule\n"),
            "N7 3 v")
    netlist("a concatenation of 65,535 bits for 65,536", text(vector, "assign v = {x", lines(lambda k: ",x", 65_534), "};\nendmodule\n"),
            "N7 3 v")
    netlist("a concatenation of 65,536 bits", text(vector, "assign v = {x", lines(lambda k: ",x", 65_535), "};\nendmodule\n"),
            design(1, 1, 65_537, 65_536))
    netlist("assignments of one item", text(begin, "assign n = x", lines(lambda k: ",n%d = x" % k, many - 1), ";\nendmodule\n"),
            design(1, 1, many + 1, many))
    netlist("the first of many wires is fed again", text(begin, lines(lambda k: "assign n%d = x;\n" % k, many), "assign n0 = x;\nendmodule\n"),
            "N8 %d n0" % (many + 2))
    netlist("loads of one net", text(begin, lines(lambda k: "BUF u%d(.A(x));\n" % k, many - 1), "endmodule\n"),
            design(1, many, 2 * many - 1, many - 1))
    ports = many // 3
    module = text("module m(input p0", lines(lambda k: ", p%d" % k, ports - 1, 1), ");\nendmodule\n", begin)
    netlist("ports, connected the other way round", text(module, "m u(.p0(x)", lines(lambda k: ", .p%d(x)" % (ports - k), ports - 1, 1),
                                                         ");\nendmodule\n"), design(2, 2, ports + 1, ports))
    netlist("one of many ports isn't there", text(module, "m u(.p0(x)", lines(lambda k: ", .p%d(x)" % k, ports, 1), ");\nendmodule\n"),
            "N6 4 p%d" % ports)
    cells = text("library(l) {\n", lines(lambda k: "cell(a%d) { pin(A) { direction : input; } }\n" % k, ports))
    library("the first of many cells again, with another pin", text(cells, "cell(a0) { pin(B) { direction : input; } }\n}\n"),
            "L2 %d a0" % (ports + 2))
    library("one cell again and again", text("library(l) {\n", lines(lambda k: "cell(a) { pin(A) { direction : input; } }\n", many), "}\n"),
            "cells 1 pins 1")


def long_name(k):
    return "n" * 990 + "_%08d" % k


def block_with_long_names():
    yield "module block(input a, output y);\nassign %s = a, y = %s;\n" % (long_name(0), long_name(BLOCK_CELLS))
    for k in range(BLOCK_CELLS):
        yield "BUF u%s(.A(%s), .Y(%s));\n" % (long_name(k), long_name(k), long_name(k + 1))
    yield "endmodule\n"


def names(many):
    """Long names, and names that are joined to one another."""
    begin = "module top(input x);\n"
    blocks = max(1, 3 * many // 1000)
    # A block has two bits of ports, 301 of wires and 600 of pins. All are fed but the outputs of cells.
    netlist("instances of a block of 300 cells with names of 1,000 bytes", text(block_with_long_names, begin, lines(
        lambda k: "block u%d(.a(x));\n" % k, blocks), "endmodule\n"), design(2, 301 * blocks + 1, 903 * blocks + 1, 603 * blocks))
    cells = 60 * many // 1000
    netlist("cells with names of 1,000 bytes", text(begin, lines(lambda k: "BUF %s(.A(x));\n" % long_name(k), cells), "endmodule\n"),
            design(1, cells + 1, 2 * cells + 1, cells))
    netlist("a name of many bytes", text(begin, "BUF ", lambda: ("u" * 64 for _ in range(many)), "(.A(x));\nendmodule\n"), design(1, 2, 3, 1))
    some = many // 3
    netlist("escaped slashes", text(begin, lines(lambda k: "BUF \\u/%d (.A(x));\n" % k, some), "endmodule\n"),
            design(1, some + 1, 2 * some + 1, some))
    netlist("the last of many joined names is there twice", text("module m;\n", lines(lambda k: "NOP \\%d ();\n" % k, some),
            "endmodule\nmodule top;\nNOP \\u/%d ();\nm u();\nendmodule\n" % (some - 1)), "N12 %d u/%d" % (some + 1, some - 1))
    netlist("scalar ports named as bits", text("module top(input \\a[0] ", lines(lambda k: ", \\a[%d] " % k, some - 1, 1), ");\nendmodule\n"),
            design(1, 1, some, 0))


def names_that_collide(many):
    """Names that all fall on one place of a table."""
    count = many // 5

    def each(line):
        return lambda: (line(name.decode()) for name in colliding.colliding(count))
    begin = "module top(input x);\n"
    netlist("wires whose names collide", text(begin, each(lambda name: "assign %s = x;\n" % name), "endmodule\n"),
            design(1, 1, count + 1, count))
    netlist("instances whose names collide", text(begin, each(lambda name: "BUF %s(.A(x));\n" % name), "endmodule\n"),
            design(1, count + 1, 2 * count + 1, count))
    netlist("modules whose names collide", text(each(lambda name: "module %s(input a);\nendmodule\n" % name), begin, each(
        lambda name: "%s u_%s(.a(x));\n" % (name, name)), "endmodule\n"), design(count + 1, count + 1, count + 1, count))
    netlist("ports whose names collide", text("module m(input z", each(lambda name: ", %s" % name), ");\nendmodule\n", begin, "m u(.z(x)", each(
        lambda name: ", .%s(x)" % name), ");\nendmodule\n"), design(2, 2, count + 2, count + 1))
    library("cells whose names collide", text("library(l) {\n", each(lambda name: "cell(%s) { }\n" % name), "}\n"), "cells %d pins 0" % count)
    library("pins whose names collide", text("library(l) {\ncell(a) {\n", each(lambda name: "pin(%s) { direction : input; }\n" % name), "}\n}\n"),
            "cells 1 pins %d" % count)


def doubled(levels, bottom):
    """Modules with two of the next each, four lines a module. The bottom has these lines."""
    def pieces():
        yield "module top;\nm0 a();\nm0 b();\nendmodule\n"
        for k in range(levels):
            yield "module m%d;\nm%d a();\nm%d b();\nendmodule\n" % (k, k + 1, k + 1)
        yield "module m%d;\n%sendmodule\n" % (levels, bottom)
    return pieces


def deep(levels):
    """A top with so many instances within one another."""
    return text("module top;\nm1 u();\nendmodule\n", lines(lambda k: "module m%d;\nm%d u();\nendmodule\n" % (k, k + 1), levels - 1, 1),
                "module m%d;\nendmodule\n" % levels)


def hierarchies(many):
    """Hierarchies that are deep, far larger than their text, or within themselves."""
    netlist("60 levels with two blocks in each", doubled(60, ""), "X1 0 -")
    netlist("60 levels with two blocks in each, and a type that isn't there", doubled(60, "Q u();\n"), "N5 246 Q")
    netlist("60 levels with two blocks in each, and the top within itself", doubled(60, "top u();\n"), "N9 246 top")
    levels = many.bit_length() - 2
    netlist("%d levels with two blocks in each" % levels, doubled(levels - 1, ""), design(levels + 1, 2 ** (levels + 1) - 1, 0, 0))
    netlist("100 instances within one another", deep(100), design(101, 101, 0, 0))
    netlist("101 instances within one another", deep(101), "X1 0 -")
    half = many // 2
    netlist("many modules within one another", deep(half), "X1 0 -")
    netlist("modules in a ring", text("module top;\nm0 u();\nendmodule\n", lines(
        lambda k: "module m%d;\nm%d u();\nendmodule\n" % (k, (k + 1) % half), half)), "N9 %d m0" % (3 * half + 2))


def limits():
    """Designs that are just as large as they may be, or larger."""
    vectors = lines(lambda k: "wire [65535:0] v%d;\n" % k, 122)
    netlist("8,000,000 bits", text("module top;\nwire [4607:0] r;\n", vectors, "endmodule\n"), design(1, 1, 8_000_000, 0))
    netlist("8,000,001 bits", text("module top;\nwire [4607:0] r;\nwire q;\n", vectors, "endmodule\n"), "X1 0 -")
    cells = lines(lambda k: "NOP u%d();\n" % k, 999_999)
    netlist("1,000,000 instances", text("module top;\n", cells, "endmodule\n"), design(1, 1_000_000, 0, 0))
    netlist("1,000,001 instances", text("module top;\n", cells, "NOP v();\nendmodule\n"), "X1 0 -")
    netlist("1,000,001 instances in a module that nothing uses", text("module m;\n", cells, "NOP v();\nNOP w();\nendmodule\n"
            "module top;\nendmodule\n"), design(2, 1, 0, 0))
    netlist("10,000,000,000 instances", text("module m;\n", lines(lambda k: "NOP u%d();\n" % k, 100_000), "endmodule\nmodule top;\n",
                                             lines(lambda k: "m u%d();\n" % k, 100_000), "endmodule\n"), "X1 0 -")


def rings(many):
    """Bits that feed one another."""
    netlist("a ring of bits", text("module top;\n", lines(lambda k: "assign n%d = n%d;\n" % (k, k - 1), many - 1, 1),
            "assign n0 = n%d;\nendmodule\n" % (many - 1)), "N10 %d n0" % (many + 1))
    netlist("a ring of bits, the other way", text("module top;\n", lines(lambda k: "assign n%d = n%d;\n" % (k, (k + 1) % many), many),
            "endmodule\n"), "N10 2 n0")
    netlist("a row of bits", text("module top;\n", lines(lambda k: "assign n%d = n%d;\n" % (k, k - 1), many - 1, 1), "endmodule\n"),
            design(1, 1, many, many - 1))
    some = many // 3
    netlist("rings of two bits", text("module top;\n", lines(lambda k: "assign a%d = b%d;\nassign b%d = a%d;\n" % (k, k, k, k), some),
            "endmodule\n"), "N10 2 a0")
    # `i0/D` comes before the wire `n0`, and the line of its instance feeds it.
    netlist("a ring through isolation cells", text("module top(input e);\n", lines(
        lambda k: "ISO i%d(.EN(e), .D(n%d), .Y(n%d));\n" % (k, k, (k + 1) % some), some), "endmodule\n"), "N10 2 i0/D")
    netlist("a row of isolation cells", text("module top(input e, input n0);\n", lines(
        lambda k: "ISO i%d(.EN(e), .D(n%d), .Y(n%d));\n" % (k, k, k + 1), some), "endmodule\n"),
        design(1, some + 1, 4 * some + 2, 4 * some))
    width = min(65_536, many)
    netlist("a ring through a vector", text("module top;\nwire [%d:0] v;\nassign v = {v[0], v[%d:1]};\nendmodule\n" % (width - 1, width - 1)),
            "N10 3 v[0]")


def add_cases(small):
    """Puts all cases into the list, at their sizes or a thousandth of them."""
    longest, many = (LONGEST // 1000, MANY // 1000) if small else (LONGEST, MANY)
    texts_of_one_byte(longest)
    long_lists(many)
    names(many)
    names_that_collide(many)
    hierarchies(many)
    rings(many)
    if not small:
        limits()


def written(path, pieces):
    """Writes a text to a file. Another process does it, since what this one has in memory counts as memory of its children."""
    child = os.fork()
    if child == 0:
        status = 1
        try:
            with open(path, "w") as f:
                f.writelines(pieces())
            status = 0
        finally:
            os._exit(status)
    if os.waitstatus_to_exitcode(os.waitpid(child, 0)[1]) != 0:
        sys.exit("a text could not be written")


class Ran:
    """How a run of a program ended: the status, what it printed, seconds of a processor and MB at its peak."""

    def __init__(self, words, folder, limited):
        out = os.path.join(folder, "out")
        child = os.fork()
        if child == 0:
            try:
                os.dup2(os.open(out, os.O_WRONLY | os.O_CREAT | os.O_TRUNC, 0o644), 1)
                if limited:
                    resource.setrlimit(resource.RLIMIT_CPU, (SECONDS, SECONDS))
                    resource.setrlimit(resource.RLIMIT_AS, (MEGABYTES * 1_000_000, MEGABYTES * 1_000_000))
                os.execv(words[0], words)
            finally:
                os._exit(127)
        _, status, used = os.wait4(child, 0)
        self.status = os.waitstatus_to_exitcode(status)
        self.seconds, self.megabytes = used.ru_utime + used.ru_stime, used.ru_maxrss * 1024 / 1e6
        with open(out, errors="replace") as f:
            self.printed = f.read()


def words_of(case, bench, folder):
    path = os.path.join(folder, "text")
    written(path, case.pieces)
    if case.word == "library":
        return [bench, "library", path]
    cells = os.path.join(folder, "cells.lib")
    written(cells, lambda: [CELLS])
    return [bench, "netlist", cells, path, "top"]


def is_right(case, bench, folder, limited):
    """Runs a case, and prints its figures."""
    ran = Ran(words_of(case, bench, folder), folder, limited)
    right = ran.status == case.status() and ran.printed == case.answer + "\n"
    print("| %s | %s | %.2f | %.0f | %s |" % (case.word, case.name.replace("|", "\\|"), ran.seconds, ran.megabytes,
                                           case.answer.replace("|", "\\|") if right else "FAILED"), flush=True)
    if not right:
        print("  is     %d %s\n  wanted %d %s" % (ran.status, ran.printed[:200].strip(), case.status(), case.answer), flush=True)
    return right


def main():
    options = argparse.ArgumentParser(description=__doc__, formatter_class=argparse.RawDescriptionHelpFormatter)
    options.add_argument("bench", nargs="?")
    options.add_argument("--only", default="", help="only the cases whose names have this text")
    options.add_argument("--small", action="store_true", help="each size divided by a thousand, and no limits")
    options.add_argument("--list", action="store_true", help="print the cases and their answers alone")
    options.add_argument("--keep", help="a folder for the made files")
    given = options.parse_args()
    add_cases(given.small)
    cases = [case for case in CASES if given.only in case.name]
    if given.list or given.bench is None:
        print("\n".join("%s, %s: %s" % (case.word, case.name, case.answer) for case in cases))
        return
    folder = given.keep or tempfile.mkdtemp(prefix="upfsign-hostile-")
    os.makedirs(folder, exist_ok=True)
    try:
        print("| word | text | s | MB | answer |\n|:--|:--|--:|--:|:--|")
        failed = [case for case in cases if not is_right(case, os.path.abspath(given.bench), folder, not given.small)]
    finally:
        if not given.keep:
            shutil.rmtree(folder)
    print("%d passed, %d failed" % (len(cases) - len(failed), len(failed)))
    sys.exit(1 if failed else 0)


if __name__ == "__main__":
    main()
