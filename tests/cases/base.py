"""What the cases are made of: the texts of the first example, and helpers that make a case.

A case names the words and files of one run of the program, and the exit status and output that are wanted. What is
wanted was worked out by hand from the rules in docs/FORMATS.md and docs/CODES.md, never taken from the program.
"""
import os

HERE = os.path.dirname(os.path.abspath(__file__))
EXAMPLE = os.path.join(HERE, "..", "..", "examples", "first-path")

CLEAN, FINDINGS, REFUSED, USAGE, BOUND, OUTSIDE, MEMORY = range(7)

# the longest file that is read
LONGEST = 67_108_864


def example(name):
    with open(os.path.join(EXAMPLE, name), "rb") as f:
        return f.read()


LIB = example("cells.lib")
AB = example("ab.v")
AB_ISO = example("ab_iso.v")
BASE = example("base.upf")
REPORT = example("report.txt")

FLAT = [b"flat", b"-lib", b"cells.lib", b"-net", b"ab.v", b"-upf", b"base.upf", b"-top", b"top"]

# one supply that is always on, and one domain
ONE = b"""create_supply_net V
add_supply_state V -state {on 0.8}
create_supply_set S -function {power V}
create_power_domain PT -elements {.} -supply {primary S}
"""

# The module of the driver and that of the receiver, as in the example.
BLKA = b"module blka(input x, output y);\nBUF o(.A(x), .Y(y));\nendmodule\n"
BLKB = b"module blkb(input a, output z);\nBUF i(.A(a), .Y(z));\nendmodule\n"

# a folder in the place of a file
FOLDER = object()


class Sparse:
    """A file of zero bytes that takes no room on the disk."""

    def __init__(self, size):
        self.size = size


class Made:
    """A file that is written when its case comes. `parts` gives the bytes piece by piece."""

    def __init__(self, parts):
        self.parts = parts


class Case:
    def __init__(self, name, words, files, status, out=b"", err=b"", how=None, big=False):
        self.name, self.words, self.files = name, words, files
        self.status, self.out, self.err = status, out, err
        self.how, self.big = how, big


CASES = []


def case(name, files, status, out=b"", err=b"", words=FLAT, how=None, big=False):
    """A case. `how` says what is special about its output or memory (tests/run.py); a `big` one runs alone."""
    CASES.append(Case(name, list(words), files, status, out, err, how, big))


def job(lib=LIB, net=AB, upf=BASE):
    return {b"cells.lib": lib, b"ab.v": net, b"base.upf": upf}


def words_for(top):
    return FLAT[:8] + [top]


def usage(name, words, files=None):
    case("words: " + name, job() if files is None else files, USAGE, err=b"upfsign: usage\n", words=words)


def refused(name, line, files, words=FLAT, **more):
    case(name, files, REFUSED, err=line + b"\n", words=words, **more)


def z1(name, lib=LIB, net=AB, upf=BASE, top=b"top", **more):
    """A job that is not of the form."""
    refused(name, b"base.upf:0: Z1 -", job(lib, net, upf), words_for(top), **more)


def bound(name, upf, lib=LIB, net=AB, **more):
    case(name, job(lib, net, upf), BOUND, err=b"upfsign: bound\n", **more)


def report(chains, found=(), top=b"top"):
    """The report: for each finding its receiver, its driver and its state."""
    lines = [b"upfsign report 1", b"top " + top, b"chains %d" % chains, b"passed 0"]
    for receiver, driver, state in found:
        lines += [b"ISO_MISSING %s from %s" % (receiver, driver), b"  state " + state]
    lines.append(b"findings %d" % len(found))
    return b"".join(line + b"\n" for line in lines)


def clean(name, chains, lib=LIB, net=AB, upf=BASE, top=b"top", **more):
    case(name, job(lib, net, upf), CLEAN, report(chains, top=top), words=words_for(top), **more)


def found(name, chains, findings, lib=LIB, net=AB, upf=BASE, top=b"top", **more):
    case(name, job(lib, net, upf), FINDINGS, report(chains, findings, top), words=words_for(top), **more)


def same(name, lib=LIB, net=AB, upf=BASE, **more):
    """A job with the report of the first example."""
    case(name, job(lib, net, upf), FINDINGS, REPORT, **more)


def swapped(text, old, new):
    """The text with one piece changed, which stands in it exactly once."""
    assert text.count(old) == 1, (text.count(old), old)
    return text.replace(old, new)


def with_line(number, line, text=BASE):
    """The text with another line in the place of line `number`, which counts from 1."""
    lines = text.splitlines(keepends=True)
    lines[number - 1] = line
    return b"".join(lines)


def lib(*cells):
    """The library of the example with more cells."""
    return LIB[:-2] + b"".join(cells) + b"}\n"


def cell(name, *lines):
    return b"cell(%s) {\n" % name + b"".join(line + b"\n" for line in lines) + b"}\n"


def pin(name, direction, role=b""):
    return b"pin(%s) { direction : %s; %s}" % (name, direction, role and role + b" : true; ")


def module(name, ports, *lines):
    return b"module %s(%s);\n" % (name, ports) + b"".join(line + b"\n" for line in lines) + b"endmodule\n"


def top(ports, *lines):
    return module(b"top", ports, *lines)
