#!/usr/bin/env python3
"""Times our readers and OpenSTA on netlists that Yosys writes, and prints a table in Markdown.

  bench/synthesized.py [BENCH] [--lanes N,N,..] [--keep FOLDER]

The design is written here: a top with so many lanes, each of which counts, and queues what comes in. Yosys maps it to the cells of
examples/synthesized, as a user would: once by hierarchy, and once flat. Our program and OpenSTA have to find the same number of
instances. Yosys and OpenSTA are packages of Debian: `apt-get install yosys berkeley-abc opensta`. A lane is some 2,300 cells, and
Yosys takes some seconds for each flat one.
"""
import argparse
import os
import shutil
import subprocess
import sys
import tempfile

import readers

CELLS = os.path.join(os.path.dirname(os.path.abspath(__file__)), "..", "examples", "synthesized", "cells.lib")
LANES = [1, 4, 16]

DESIGN = """
module queue #(parameter WIDTH = 16, parameter PLACES = 5) (
    input clk, input rst_n, input push, input pop, input [WIDTH-1:0] in, output [WIDTH-1:0] out, output full, output empty
);
    reg [WIDTH-1:0] words [0:(1 << PLACES) - 1];
    reg [PLACES:0] first, last;
    assign empty = first == last;
    assign full = first[PLACES-1:0] == last[PLACES-1:0] && first[PLACES] != last[PLACES];
    assign out = words[first[PLACES-1:0]];
    always @(posedge clk) if (push && !full) words[last[PLACES-1:0]] <= in;
    always @(posedge clk or negedge rst_n)
        if (!rst_n) begin
            first <= 0;
            last <= 0;
        end else begin
            if (push && !full) last <= last + 1;
            if (pop && !empty) first <= first + 1;
        end
endmodule

module lane (input clk, input rst_n, input push, input pop, input [15:0] in, output [15:0] out, output ready);
    reg [15:0] count;
    wire full, empty;
    assign ready = !full;
    always @(posedge clk or negedge rst_n)
        if (!rst_n) count <= 0;
        else if (push) count <= count + {in[0], in[15:1]};
    queue u_queue (.clk(clk), .rst_n(rst_n), .push(push), .pop(pop && !empty), .in(in ^ count), .out(out), .full(full), .empty(empty));
endmodule
"""

SCRIPT = """read_verilog design.v
hierarchy -check -top top
synth -top top%s
dfflibmap -liberty cells.lib
abc -liberty cells.lib
hilomap -hicell TIE1_X1 Y -locell TIE0_X1 Y
opt_clean -purge
write_verilog -noattr mapped.v
"""


def top_of(lanes):
    """The top with so many lanes, the output of each at the input of the next."""
    lines = ["module top(input clk, input rst_n, input [%d:0] push, input pop, input [15:0] in, output [15:0] out, output [%d:0] ready);" % (
        lanes - 1, lanes - 1), "    wire [15:0] w0 = in;"]
    for k in range(lanes):
        lines.append("    wire [15:0] w%d;" % (k + 1))
        lines.append("    lane u%d (.clk(clk), .rst_n(rst_n), .push(push[%d]), .pop(pop), .in(w%d), .out(w%d), .ready(ready[%d]));" % (
            k, k, k, k + 1, k))
    return "\n".join(lines + ["    assign out = w%d;" % lanes, "endmodule"]) + "\n"


def library(files):
    """The path of the example's library, with the thresholds that OpenSTA wants."""
    with open(CELLS) as f:
        head, begins, rest = f.read().partition("library (small_cells) {\n")
    path = files.path("cells.lib")
    with open(path, "w") as f:
        f.write(head + begins)
        for edge in ("rise", "fall"):
            f.write("  input_threshold_pct_%s : 50;\n  output_threshold_pct_%s : 50;\n" % (edge, edge))
            f.write("  slew_lower_threshold_pct_%s : 20;\n  slew_upper_threshold_pct_%s : 80;\n" % (edge, edge))
        f.write(rest)
    return path


def mapped(files, lanes, form):
    """The path of the netlist that Yosys writes."""
    with open(files.path("design.v"), "w") as f:
        f.write(DESIGN + top_of(lanes))
    with open(files.path("synthesis.ys"), "w") as f:
        f.write(SCRIPT % (" -flatten" if form == "flat" else ""))
    done = subprocess.run(["yosys", "-q", "synthesis.ys"], cwd=files.folder, capture_output=True, text=True)
    if done.returncode != 0:
        sys.exit("Yosys fails: " + (done.stdout + done.stderr)[:400])
    return files.path("mapped.v")


def measure(bench, files, form, sizes):
    cells = library(files)
    readers.head("lanes, " + form)
    for lanes in sizes:
        path = mapped(files, lanes, form)
        theirs, counted = readers.sta_netlist(files, cells, path)
        own = readers.own_run(bench, files, ["netlist", cells, path, "top"]) if bench else None
        if bench and own is None:
            sys.exit("the netlist is refused: " + readers.Run([bench, "netlist", cells, path, "top"], files.folder).printed)
        if own and " instances %d " % counted not in own.printed:
            sys.exit("OpenSTA finds %d instances, and ours: %s" % (counted, own.printed))
        readers.row(lanes, path, theirs, own)
    print("", flush=True)


def main():
    words = argparse.ArgumentParser(description=__doc__, formatter_class=argparse.RawDescriptionHelpFormatter)
    words.add_argument("bench", nargs="?")
    words.add_argument("--lanes", type=readers.numbers, default=LANES)
    words.add_argument("--keep", help="a folder for the made files")
    given = words.parse_args()
    for program in ("yosys", "sta"):
        if shutil.which(program) is None:
            sys.exit("%s isn't installed: `apt-get install yosys berkeley-abc opensta`" % program)
    folder = given.keep or tempfile.mkdtemp(prefix="upfsign-synthesized-")
    os.makedirs(folder, exist_ok=True)
    try:
        for form in ("hierarchy", "flat"):
            measure(given.bench and os.path.abspath(given.bench), readers.Files(folder, 1), form, given.lanes)
    finally:
        if not given.keep:
            shutil.rmtree(folder)


if __name__ == "__main__":
    main()
