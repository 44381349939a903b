#!/usr/bin/env python3
"""Writes a gate-level netlist over the first cells of `make_library.py` to standard output, or to a file.

  bench/make_netlist.py flat|hierarchy INSTANCES [--seed S] [-o FILE]

`flat` is one module with so many cells: 999,999 of them, the most that a design may have beside its top, are some 64 MB.
`hierarchy` has about so many instances from a small file: blocks of 300 cells, each block 20 times, through a level between:
900,000 instances are some 2.4 MB. Both have vectors, bits and parts of them, escaped names, concatenations, constants,
assignments, attributes, comments and wires that no line declares. The top is `top`. Nothing is fed twice and nothing runs in a
ring, so that a reader of netlists finds no fault.

The same words write the same bytes.
"""
import argparse
import random
import sys

# The cells that are used, with their inputs and the output. `CK` is a clock and comes from a port.
CELLS = [("BUF_X1", "A", "Y"), ("INV_X1", "A", "Y"), ("NAND2_X1", "AB", "Y"), ("NOR2_X1", "AB", "Y"), ("XOR2_X1", "AB", "Y"),
         ("MUX2_X1", "ABS", "Y"), ("DFF_X1", "D", "Q")]
# An assignment has no concatenation on its left side, since OpenSTA doesn't read it.
# So many cells stand in a block of `hierarchy`, and so many instances of a block in the design.
BLOCK_CELLS = 300
INNER, OUTER = 5, 4
WIDTH = 16
# A cell takes its inputs from one of so many nets before it.
WINDOW = 200


def row_of_nets(number):
    """The net that the cell of this number feeds. Of each 64 nets 32 are bits of a vector and 32 are wires."""
    row, place = divmod(number, 32)
    return "v%d[%d]" % (row, place) if row % 2 == 0 else "n%d" % number


def wires(count):
    """The lines that declare the nets. Each tenth row of wires isn't declared: its nets are wires all the same."""
    for row in range(0, (count + 31) // 32):
        if row % 2 == 0:
            yield "  wire [31:0] v%d;\n" % row
        elif row % 20 != 19:
            yield "  wire %s;\n" % ", ".join("n%d" % number for number in range(32 * row, min(32 * row + 32, count)))


def instance_name(number, kind):
    if kind == "DFF_X1":
        return "\\q_reg[%d] " % number
    return "\\g/%d " % number if number % 64 == 5 else "u%d" % number


def cells(rng, count, sources):
    """The lines of so many cells, which take what is fed before them, and at first the sources."""
    for number in range(count):
        kind, inputs, output = CELLS[rng.randrange(len(CELLS))]
        pins = []
        for pin in inputs:
            before = number - 1 - rng.randrange(WINDOW)
            pins.append(".%s(%s)" % (pin, row_of_nets(before) if before >= 0 else sources[before % len(sources)]))
        if kind == "DFF_X1":
            pins.append(".CK(ck)")
        pins.append(".%s(%s)" % (output, row_of_nets(number)))
        yield "  %s %s(%s);\n" % (kind, instance_name(number, kind), ", ".join(pins))


def ends(count):
    """The lines that feed the port `y` from the last cells, in a concatenation and bit by bit."""
    last = [row_of_nets(number) for number in range(count - WIDTH, count)]
    yield "  assign y[0:1] = {%s, 1'b0};\n" % last[0]
    yield "  assign y[2:3] = {%s, %s}, y[4] = %s;\n" % tuple(last[1:4])
    for place in range(5, WIDTH):
        yield "  assign y[%d] = %s;\n" % (place, last[place])


def block(rng, name, count):
    """A module of so many cells between two ports of 16 bits."""
    yield "(* keep_hierarchy = 1 *)\nmodule %s(input ck, input [%d:0] a, output [0:%d] y);\n" % (name, WIDTH - 1, WIDTH - 1)
    yield from wires(count)
    yield from cells(rng, count, ["a[%d]" % place for place in range(WIDTH)])
    yield from ends(count)
    yield "endmodule\n\n"


def row_of_instances(kind, count, source):
    """Instances in a row, the output of each at the input of the next, with its halves turned or a constant for one."""
    yield "  wire [%d:0] %s;\n" % (WIDTH - 1, ", ".join("t%d" % k for k in range(count)))
    for k in range(count):
        turned = "{%s[7:0], %s[15:8]}" % (source, source) if k % 2 else "{8'h5a, %s[7:0]}" % source
        yield "  %s i%d(\n    .ck(ck),\n    .a(%s),\n    .y(t%d)\n  );\n" % (kind, k, turned, k)
        source = "t%d" % k


def flat(rng, count):
    """A netlist of one module, and how many instances it has, the top with them."""
    yield "`timescale 1ns/1ps\n// made, flat, of %d cells\n" % count
    yield from block(rng, "top", count)


def flat_count(count):
    return 1 + count


def hierarchy(rng, count):
    """A netlist of about so many instances by hierarchy."""
    yield "`timescale 1ns/1ps\n/* made, by hierarchy */\n"
    kinds = kinds_of(count)
    for kind in range(kinds):
        yield from block(rng, "block%d" % kind, BLOCK_CELLS)
        yield "module group%d(ck, a, y);\n  input ck;\n  input [%d:0] a;\n  output [%d:0] y;\n" % (kind, WIDTH - 1, WIDTH - 1)
        yield from row_of_instances("block%d" % kind, INNER, "a")
        yield "  assign y = t%d;\nendmodule\n\n" % (INNER - 1)
    yield from whole(kinds)


def whole(kinds):
    """The top, which holds 4 of each group."""
    yield "module top(input ck, input [%d:0] a, output [%d:0] y);\n  wire [%d:0] o;\n" % (WIDTH - 1, kinds - 1, kinds * OUTER - 1)
    for kind in range(kinds):
        for k in range(OUTER):
            yield "  wire [%d:0] w%d_%d;\n  group%d g%d_%d(.ck(ck), .a(%s), .y(w%d_%d));\n" % (
                WIDTH - 1, kind, k, kind, kind, k, "w%d_%d" % (kind, k - 1) if k else "a", kind, k)
            yield "  assign o[%d] = w%d_%d[0];\n" % (kind * OUTER + k, kind, k)
        yield "  assign y[%d] = w%d_%d[%d];\n" % (kind, kind, OUTER - 1, WIDTH - 1)
    yield "endmodule\n"


def kinds_of(count):
    return max(1, count // (OUTER * (1 + INNER * (1 + BLOCK_CELLS))))


def hierarchy_count(count):
    return 1 + kinds_of(count) * OUTER * (1 + INNER * (1 + BLOCK_CELLS))


FORMS = {"flat": (flat, flat_count), "hierarchy": (hierarchy, hierarchy_count)}


def write_netlist(out, form, count, seed=1):
    """Writes the netlist. The answer is how many instances the design has, the top with them."""
    make, instances = FORMS[form]
    out.writelines(make(random.Random(seed), count))
    return instances(count)


def main():
    words = argparse.ArgumentParser(description=__doc__, formatter_class=argparse.RawDescriptionHelpFormatter)
    words.add_argument("form", choices=sorted(FORMS))
    words.add_argument("instances", type=int)
    words.add_argument("--seed", type=int, default=1)
    words.add_argument("-o", "--out")
    given = words.parse_args()
    if given.instances < WIDTH:
        words.error("at least %d instances" % WIDTH)
    with (open(given.out, "w") if given.out else sys.stdout) as out:
        write_netlist(out, given.form, given.instances, given.seed)


if __name__ == "__main__":
    main()
