#!/usr/bin/env python3
"""Makes jobs of N modules and N instances of them, runs a built program on each, and prints a table in Markdown.

  bench/first_form.py PROGRAM [--big] [--sizes N,N,..] [--nets K] [--domains D] [--keep FOLDER]

Module k is `mk` with one buffer; the top holds one instance `uk` of it, and the instances stand in a row, the output of
each on the input of the next. So a job has N modules beside the top, N instances of them with one cell each, and N
chains. D instances, evenly spread, have domains of their own. Domain d has the switched net d modulo K, and all other
instances are in the top's domain, which is always on: each of these D instances gives one finding. K switched nets, the
net that is always on and the ground have two values each, so there are 2 to the power of K + 2 states.

The same words make the same files. The report is compared with the one that this construction has.
"""
import argparse
import os
import shlex
import shutil
import sys
import tempfile
import time

SIZES = [1_000, 3_000, 10_000]
# 499,999 modules with a cell each, and the top, are just below the most instances that a job may have.
BIG_SIZES = SIZES + [30_000, 100_000, 300_000, 499_999]

LIBRARY = """library(bench) {
cell(BUF) {
pin(A) { direction : input; }
pin(Y) { direction : output; }
}
}
"""
WORDS = "flat -lib bench.lib -net bench.v -upf bench.upf -top top".split()


def switched(n, domains):
    """The instances that have domains of their own. Behind each stands one that has none."""
    count = min(domains, n // 2)
    return [at * (n // count) for at in range(count)]


def write_netlist(f, n):
    for k in range(n):
        f.write("module m%d(input a, output y);\nBUF b(.A(a), .Y(y));\nendmodule\n" % k)
    f.write("module top(input n0);\n")
    for k in range(n):
        f.write("wire n%d;\nm%d u%d(.a(n%d), .y(n%d));\n" % (k + 1, k, k, k, k + 1))
    f.write("endmodule\n")


def write_script(f, own, nets):
    for net in range(nets):
        f.write("create_supply_net V%02d\n" % net)
        f.write("add_supply_state V%02d -state {off off} -state {on 0.8}\n" % net)
    f.write("create_supply_net VON\nadd_supply_state VON -state {on 0.9}\n")
    f.write("create_supply_net VSS\nadd_supply_state VSS -state {gnd 0}\n")
    for net in range(nets):
        f.write("create_supply_set S%02d -function {power V%02d} -function {ground VSS}\n" % (net, net))
    f.write("create_supply_set SON -function {power VON} -function {ground VSS}\n")
    f.write("create_power_domain PT -elements {.} -supply {primary SON}\n")
    for at, k in enumerate(own):
        f.write("create_power_domain P%d -elements {u%d} -supply {primary S%02d}\n" % (at, k, at % nets))


def wanted_report(n, own, nets):
    """The report: behind each instance whose net may be off stands one that is always on."""
    found = []
    for at, k in enumerate(own):
        values = ["V%02d=off" % net for net in range(nets)] + ["VON=0.900000", "VSS=0.000000"]
        found.append(("u%d/b/A" % (k + 1), "u%d/b/Y" % k, " ".join(values)))
    lines = ["upfsign report 1", "top top", "chains %d" % n, "passed 0"]
    for receiver, driver, state in sorted(found):
        lines += ["ISO_MISSING %s from %s" % (receiver, driver), "  state " + state]
    lines.append("findings %d" % len(found))
    return "".join(line + "\n" for line in lines)


def make(folder, n, domains, nets):
    own = switched(n, domains)
    with open(os.path.join(folder, "bench.lib"), "w") as f:
        f.write(LIBRARY)
    with open(os.path.join(folder, "bench.v"), "w") as f:
        write_netlist(f, n)
    with open(os.path.join(folder, "bench.upf"), "w") as f:
        write_script(f, own, nets)
    return own


def run(program, folder):
    """Exit status, seconds and peak memory in MB of one run, whose output goes to a file of the folder."""
    out = os.path.join(folder, "report")
    begun = time.monotonic()
    child = os.fork()
    if child == 0:
        try:
            os.chdir(folder)
            os.dup2(os.open(out, os.O_WRONLY | os.O_CREAT | os.O_TRUNC, 0o644), 1)
            os.execvp(program[0], program + WORDS)
        finally:
            os._exit(127)
    _, status, used = os.wait4(child, 0)
    seconds = time.monotonic() - begun
    with open(out) as f:
        report = f.read()
    # Linux counts in units of 1,024 bytes
    return os.waitstatus_to_exitcode(status), seconds, used.ru_maxrss * 1024 / 1e6, report


def measure(program, n, options):
    folder = options.keep and os.path.join(options.keep, str(n)) or tempfile.mkdtemp(prefix="upfsign-bench-")
    os.makedirs(folder, exist_ok=True)
    try:
        own = make(folder, n, options.domains, options.nets)
        size = sum(os.path.getsize(os.path.join(folder, name)) for name in ("bench.lib", "bench.v", "bench.upf"))
        status, seconds, peak, report = run(program, folder)
        right = status == (1 if own else 0) and report == wanted_report(n, own, options.nets)
        print("| %s | %.1f | %s | %d | %d | %.2f | %.0f |%s" % (
            format(n, ","), size / 1e6, format(n, ","), len(own), 2 ** (options.nets + 2), seconds, peak,
            "" if right else " WRONG: status %d" % status), flush=True)
        return right
    finally:
        if not options.keep:
            shutil.rmtree(folder, ignore_errors=True)


def main():
    parser = argparse.ArgumentParser()
    parser.add_argument("program")
    parser.add_argument("--big", action="store_true", help="up to the most instances that a job may have")
    parser.add_argument("--sizes", help="these N in place of the others")
    parser.add_argument("--nets", type=int, default=6, help="switched nets, 1 to 14")
    parser.add_argument("--domains", type=int, default=24, help="instances with a domain of their own")
    parser.add_argument("--keep", help="leave the files in this folder")
    options = parser.parse_args()
    if not 1 <= options.nets <= 14:
        parser.error("--nets is 1 to 14, since there are at most 65,536 states")
    sizes = BIG_SIZES if options.big else SIZES
    if options.sizes:
        sizes = [int(word.replace("_", "")) for word in options.sizes.split(",")]
    program = [os.path.abspath(word) if os.path.exists(word) else word for word in shlex.split(options.program)]
    print("| N | files, MB | chains | findings | states | seconds | peak memory, MB |")
    print("|--:|--:|--:|--:|--:|--:|--:|")
    return 0 if all([measure(program, n, options) for n in sizes]) else 1


if __name__ == "__main__":
    sys.exit(main())
