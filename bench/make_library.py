#!/usr/bin/env python3
"""Writes a Liberty library of a given number of cells to standard output, or to a file.

  bench/make_library.py CELLS [--seed S] [--points P] [-o FILE]

It has what the library of a foundry has: templates, operating conditions and voltage maps at its head, comments, lines that
a backslash continues, `pg_pin`, `bus`, `ff` and `timing` groups, and tables of P times P values (7 by default), so that groups
nest 3 to 6 deep. The kinds of cells come in turn, each with growing strengths: `BUF_X1`, `INV_X1`, .. `BUF_X2`, .. Among them
are isolation cells, level shifters and a memory with buses. With the default of points, 8,000 cells are some 46 MB.

The same words write the same bytes.
"""
import argparse
import random
import sys

# The kinds of cells: the name, the input pins, the output pin, its function and what kind of cell it is.
KINDS = [
    ("BUF", ["A"], "Y", "A", "gate"),
    ("INV", ["A"], "Y", "!A", "gate"),
    ("NAND2", ["A", "B"], "Y", "!(A & B)", "gate"),
    ("NOR2", ["A", "B"], "Y", "!(A | B)", "gate"),
    ("XOR2", ["A", "B"], "Y", "(A ^ B)", "exact"),
    ("MUX2", ["A", "B", "S"], "Y", "((A & !S) | (B & S))", "gate"),
    ("AOI21", ["A", "B", "C"], "Y", "!((A & B) | C)", "gate"),
    ("DFF", ["D", "CK"], "Q", "IQ", "flop"),
    ("ISO", ["D", "EN"], "Y", "(D & EN)", "isolation"),
    ("LS", ["A"], "Y", "A", "shifter"),
    ("RAM", ["CK", "WE"], "Q", "", "memory"),
]


# What stands before the cells. INDEX is put in.
HEAD = """/* A made library: no foundry's data. */
library (made) {
  technology (cmos);
  delay_model : table_lookup;
  date : "2026-12-01 00:00";
  revision : 1.0;
  time_unit : "1ns";
  voltage_unit : "1V";
  current_unit : "1mA";
  pulling_resistance_unit : "1kohm";
  leakage_power_unit : "1nW";
  capacitive_load_unit (1, pf);
  nom_process : 1.0;
  nom_temperature : 25.0;
  nom_voltage : 0.8;
  slew_lower_threshold_pct_rise : 30.0;
  slew_upper_threshold_pct_rise : 70.0;
  slew_lower_threshold_pct_fall : 30.0;
  slew_upper_threshold_pct_fall : 70.0;
  input_threshold_pct_rise : 50.0;
  input_threshold_pct_fall : 50.0;
  output_threshold_pct_rise : 50.0;
  output_threshold_pct_fall : 50.0;
  default_max_transition : 0.5
  voltage_map (VDD, 0.8);
  voltage_map (VDDL, 0.6);
  voltage_map (VSS, 0);
  operating_conditions (typical) {
    process : 1.0;
    temperature : 25.0;
    voltage : 0.8;
  }
  default_operating_conditions : typical;
  lu_table_template (delay_table) {
    variable_1 : input_net_transition;
    variable_2 : total_output_net_capacitance;
    index_1 ("INDEX");
    index_2 ("INDEX");
  }
  type (word8) {
    base_type : array;
    data_type : bit;
    bit_width : 8;
    bit_from : 7;
    bit_to : 0;
    downto : true;
  }
"""


def cell_name(number):
    """The name of the cell of this number, from 0 on."""
    return "%s_X%d" % (KINDS[number % len(KINDS)][0], number // len(KINDS) + 1)


def head(points):
    return HEAD.replace("INDEX", ", ".join("%.4f" % (0.001 * 2 ** i) for i in range(points)))


def table(rng, name, points, indent="          "):
    """A table of values, whose lines a backslash continues."""
    base = rng.uniform(0.01, 0.05)
    rows = []
    for i in range(points):
        row = ", ".join("%.7f" % (base * (1 + 0.21 * i + 0.17 * j) + rng.uniform(0, 0.001)) for j in range(points))
        rows.append('%s  "%s"' % (indent, row))
    return "%s%s (delay_table) {\n%s  values ( \\\n%s);\n%s}\n" % (indent, name, indent, ", \\\n".join(rows), indent)


def timing(rng, related, kind, points):
    """The timing of an output against one pin."""
    text = ['        timing () {\n          related_pin : "%s";\n' % related]
    if kind == "flop":
        text.append("          timing_type : rising_edge;\n")
    for name in ("cell_rise", "rise_transition", "cell_fall", "fall_transition"):
        text.append(table(rng, name, points))
    if kind == "exact":
        text.append("          receiver_capacitance () {\n")
        text += [table(rng, "receiver_capacitance1_" + edge, points, "            ") for edge in ("rise", "fall")]
        text.append("          }\n")
    text.append("        }\n")
    return "".join(text)


def supply_pins(kind):
    """The power pins of a cell, which netlists don't name."""
    text = []
    names = [("VDD", "primary_power"), ("VSS", "primary_ground")]
    for name, what in names + ([("VDDL", "primary_power")] if kind == "shifter" else []):
        text.append("    pg_pin (%s) {\n      voltage_name : %s;\n      pg_type : %s;\n    }\n" % (name, name, what))
    return "".join(text)


def marks_of_cell(kind):
    return {"isolation": "    is_isolation_cell : true;\n", "shifter": "    is_level_shifter : true;\n"}.get(kind, "")


def marks_of_pin(kind, pin):
    if kind == "isolation":
        return "      isolation_cell_%s_pin : true;\n" % ("enable" if pin == "EN" else "data")
    if kind == "shifter":
        return "      level_shifter_data_pin : true;\n"
    return ""


def input_pin(rng, kind, pin):
    clock = "      clock : true;\n" if pin == "CK" else ""
    return ("    pin (%s) {\n      direction : input;\n      related_power_pin : VDD;\n      related_ground_pin : VSS;\n"
            "      capacitance : %.6f;\n%s%s    }\n" % (pin, rng.uniform(0.0005, 0.003), clock, marks_of_pin(kind, pin)))


def output_pin(rng, kind, pin, inputs, function, points):
    text = ["    pin (%s) {\n      direction : output;\n      max_capacitance : 0.1;\n      function : \"%s\";\n" % (pin, function)]
    for related in (["CK"] if kind == "flop" else inputs):
        text.append(timing(rng, related, kind, points))
    text.append("    }\n")
    return "".join(text)


def memory_buses(rng):
    """The buses of a memory, within which the pins aren't those of the cell itself."""
    text = []
    for name, direction in (("D", "input"), ("Q", "output")):
        text.append("    bus (%s) {\n      bus_type : word8;\n      direction : %s;\n" % (name, direction))
        if direction == "input":
            text.append("      capacitance : %.6f;\n" % rng.uniform(0.001, 0.002))
        text.append("    }\n")
    return "".join(text)


def cell(rng, number, points):
    name, inputs, output, function, kind = KINDS[number % len(KINDS)]
    text = ["  /* %s */\n  cell (%s) {\n    area : %.4f;\n" % (kind, cell_name(number), rng.uniform(0.5, 9.0))]
    text += [marks_of_cell(kind), supply_pins(kind)]
    if kind == "flop":
        text.append('    ff (IQ, IQN) {\n      clocked_on : "CK";\n      next_state : "D";\n    }\n')
    text += [input_pin(rng, kind, pin) for pin in inputs]
    if kind == "memory":
        text.append(memory_buses(rng))
    else:
        text.append(output_pin(rng, kind, output, inputs, function, points))
    text.append("  }\n")
    return "".join(text)


def write_library(out, cells, seed=1, points=7):
    """Writes the library. The answer is how many cells it has."""
    rng = random.Random(seed)
    out.write(head(points))
    for number in range(cells):
        out.write(cell(rng, number, points))
    out.write("}\n")
    return cells


def main():
    words = argparse.ArgumentParser(description=__doc__, formatter_class=argparse.RawDescriptionHelpFormatter)
    words.add_argument("cells", type=int)
    words.add_argument("--seed", type=int, default=1)
    words.add_argument("--points", type=int, default=7)
    words.add_argument("-o", "--out")
    given = words.parse_args()
    with (open(given.out, "w") if given.out else sys.stdout) as out:
        write_library(out, given.cells, given.seed, given.points)


if __name__ == "__main__":
    main()
