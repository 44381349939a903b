"""Files that are not made of the lines that are read, and odd ones that are."""
from .base import AB, BASE, BLKA, BLKB, LIB, ONE, clean, same, swapped, z1

# --- what is wrong in every file

SPOILED = [
    ("CR LF", lambda t: t.replace(b"\n", b"\r\n")),
    ("one CR", lambda t: t.replace(b"\n", b"\r\n", 1)),
    ("CR in place of newlines", lambda t: t.replace(b"\n", b"\r")),
    ("a tab in place of a blank", lambda t: t.replace(b" ", b"\t", 1)),
    ("tabs in place of blanks", lambda t: t.replace(b" ", b"\t")),
    ("a double blank", lambda t: t.replace(b" ", b"  ", 1)),
    ("a blank in front", lambda t: b" " + t),
    ("a tab in front", lambda t: b"\t" + t),
    ("a blank at the end of a line", lambda t: t.replace(b"\n", b" \n", 1)),
    ("a blank at the end", lambda t: t + b" "),
    ("an empty line in front", lambda t: b"\n" + t),
    ("an empty line within", lambda t: t.replace(b"\n", b"\n\n", 1)),
    ("an empty line at the end", lambda t: t + b"\n"),
    ("no newline at the end", lambda t: t[:-1]),
    ("all on one line", lambda t: t.replace(b"\n", b" ")),
    ("a byte 0 at the end", lambda t: t + b"\0"),
    ("a byte 0 in front", lambda t: b"\0" + t),
    ("a byte 0 in a name", lambda t: t.replace(b"A", b"A\0", 1)),
    ("a byte ff in a name", lambda t: t.replace(b"A", b"A\xff", 1)),
    ("a byte ff at the end", lambda t: t + b"\xff"),
    ("a letter of another alphabet", lambda t: t.replace(b"A", b"\xc3\x84", 1)),
    ("a mark of byte order", lambda t: b"\xef\xbb\xbf" + t),
    ("two bytes a character", lambda t: t.decode().encode("utf-16-le")),
    ("a line comment", lambda t: b"// text\n" + t),
    ("a block comment", lambda t: b"/* text */\n" + t),
    ("a hash comment", lambda t: b"# text\n" + t),
    ("a backslash at the end of a line", lambda t: t.replace(b"\n", b"\\\n", 1)),
    ("capital letters", lambda t: t.upper()),
    ("twice the same", lambda t: t + t),
    ("backwards", lambda t: t[::-1]),
]
for name, spoil in SPOILED:
    z1("library: " + name, lib=spoil(LIB))
    z1("netlist: " + name, net=spoil(AB))
    z1("script: " + name, upf=spoil(BASE))
z1("files in another order", lib=AB, net=BASE, upf=LIB)

# --- libraries

HEAD = b"library(cells) {\n"
for new in (b"library(cells){", b"library (cells) {", b"library( cells ) {", b"library() {", b"library(1cells) {",
            b'library("cells") {', b"library(my-cells) {", b"library(cells, more) {", b"Library(cells) {",
            b"library(cells) {}", b"library(cells) {\n{", b"module cells();", b"", b"}"):
    z1("library: first line %r" % new.decode(), lib=swapped(LIB, HEAD, new + b"\n"))
z1("library: no first line", lib=swapped(LIB, HEAD, b""))
z1("library: not closed", lib=LIB[:-2])
z1("library: closed twice", lib=LIB + b"}\n")
z1("library: closed by };", lib=LIB[:-2] + b"};\n")
z1("library: another one behind it", lib=LIB + b"library(more) {\n}\n")

BUF = b"cell(BUF) {\npin(A) { direction : input; }\npin(Y) { direction : output; }\n}\n"
CELL = b"cell(BUF) {\n"
for new in (b"cell (BUF) {", b"cell(BUF){", b"cell() {", b"cell(BUF, BUG) {", b'cell("BUF") {', b"cell(2BUF) {",
            b"cell(BUF$) {", b"cell(BUF) {\narea : 1.0;", b"cell(BUF) {\n\n", b"cell(BUF) {\ncell(X) {\n}",
            b"cell(BUF) {\nis_isolation_cell : false;", b'cell(BUF) {\nis_isolation_cell : "true";',
            b"cell(BUF) {\nis_isolation_cell: true;", b"cell(BUF) {\nis_isolation_cell : true",
            b"cell(BUF) {\nis_level_shifter : false;", b"cell(BUF) {\nis_macro_cell : true;", b"type(BUF) {"):
    z1("library: cell %r" % new.decode(), lib=swapped(LIB, CELL, new + b"\n"))
z1("library: a cell that is not closed", lib=swapped(LIB, BUF, BUF[:-2]))
z1("library: a cell that is closed by };", lib=swapped(LIB, BUF, BUF[:-2] + b"};\n"))
z1("library: a cell that is both", lib=swapped(LIB, b"is_level_shifter : true;\n",
                                                b"is_level_shifter : true;\nis_isolation_cell : true;\n"))
z1("library: a cell that is both, the other way", lib=swapped(LIB, b"is_isolation_cell : true;\n",
      b"is_isolation_cell : true;\nis_level_shifter : true;\n"))
z1("library: a kind twice", lib=swapped(LIB, b"is_isolation_cell : true;\n", b"is_isolation_cell : true;\n" * 2))
z1("library: a kind behind the pins", lib=swapped(
    LIB, b"is_level_shifter : true;\npin(A) { direction : input; level_shifter_data_pin : true; }\n",
    b"pin(A) { direction : input; level_shifter_data_pin : true; }\nis_level_shifter : true;\n"))

PIN = CELL + b"pin(A) { direction : input; }\n"
for new in (b"pin(A) { direction : inout; }", b"pin(A) { direction : internal; }", b"pin(A) { direction : INPUT; }",
            b'pin(A) { direction : "input"; }', b"pin(A) { direction: input; }", b"pin(A) { direction : input }",
            b"pin(A) {direction : input;}", b"pin(A) { direction : input;}", b"pin(A) { direction : input; };",
            b"pin(A) { }", b"pin(A)", b"pin(A, B) { direction : input; }", b"pin() { direction : input; }",
            b'pin("A") { direction : input; }', b"pin(A[0]) { direction : input; }", b"pin (A) { direction : input; }",
            b"pin(A) { direction : input; capacitance : 1.0; }", b"pin(A) {\ndirection : input;\n}",
            b"pin(A) { direction : input; direction : input; }",
            b"pin(A) { direction : input; isolation_cell_data_pin : false; }",
            b"pin(A) { direction : input; isolation_cell_data_pin : true }",
            b"pin(A) { isolation_cell_data_pin : true; direction : input; }",
            b"pin(A) { isolation_cell_data_pin : true; }",
            b"pin(A) { direction : input; isolation_cell_data_pin : true; isolation_cell_enable_pin : true; }",
            b"pin(A) { direction : input; level_shifter_data_pin : true; level_shifter_data_pin : true; }",
            b"pin(A) { direction : input; retention_pin : true; }", b"bus(A) { direction : input; }",
            b"pin(A) { direction : input; } pin(B) { direction : input; }"):
    z1("library: pin %r" % new.decode(), lib=swapped(LIB, PIN, CELL + new + b"\n"))

same("library: another name", lib=swapped(LIB, HEAD, b"library(_0) {\n"))
same("library: a name as long as you like", lib=swapped(LIB, HEAD, b"library(" + b"n" * 100_000 + b") {\n"))
same("library: a cell more, without pins", lib=LIB[:-2] + b"cell(NOP) {\n}\n}\n")
same("library: all four roles", lib=LIB[:-2] + b"""cell(ELS) {
is_level_shifter : true;
pin(A) { direction : input; level_shifter_data_pin : true; }
pin(EN) { direction : input; level_shifter_enable_pin : true; }
pin(X) { direction : input; isolation_cell_enable_pin : true; }
pin(Y) { direction : output; }
}
}
""")
same("library: words as names", lib=LIB[:-2] + b"""cell(library) {
pin(library) { direction : input; }
pin(cell) { direction : output; }
pin(pin) { direction : input; }
pin(direction) { direction : output; }
pin(input) { direction : input; }
pin(wire) { direction : input; }
}
cell(endmodule) {
pin(module) { direction : input; isolation_cell_data_pin : true; }
}
cell(is_isolation_cell) {
}
}
""")
clean("library: no cells", 0, lib=b"library(l) {\n}\n", net=b"module top(input x, output y);\nendmodule\n", upf=ONE)

# --- netlists

HEADER = b"module blka(input x, output y);\n"
for new in (b"module blka(input x,output y);", b"module blka(input x , output y);", b"module blka( input x, output y);",
      b"module blka(input x, output y );", b"module blka (input x, output y);", b"module blka(input x, output y) ;",
      b"module blka(input x, output y)", b"module blka(input x, output y,);", b"module blka(input x, output y, );",
      b"module blka(, input x, output y);", b"module blka(input x output y);", b"module blka(input x, y);",
      b"module blka(x, y);\ninput x;\noutput y;", b"module blka(input wire x, output y);",
      b"module blka(input [0:0] x, output y);", b"module blka(inout x, output y);", b"module blka(input x, output);",
      b"module blka(input, output y);", b"module blka(input 1x, output y);", b"module blka(input x$, output y);",
      b"module blka(input \\x , output y);", b"module blka(input x, output y);;",
      b"macromodule blka(input x, output y);", b"module (input x, output y);", b"module 1blka(input x, output y);",
      b"module blka #(N = 1) (input x, output y);", b"MODULE blka(input x, output y);",
      b"modul blka(input x, output y);", b"primitive blka(input x, output y);"):
    z1("netlist: header %r" % new.decode(), net=swapped(AB, HEADER, new + b"\n"))
z1("netlist: a header without parentheses", net=b"module top;\nendmodule\n", upf=ONE)
clean("netlist: a header without ports", 0, net=b"module top();\nendmodule\n", upf=ONE)

BODY = b"wire n;\n"
for new in (b"wire n ;", b"wire n, m;", b"wire  n;", b"wire n", b"wire n;;", b"wire [0:0] n;", b"wire;", b"wire 1n;",
      b"wire n = x;", b"Wire n;", b"tri n;", b"reg n;", b"wire \\n ;", b"wire n;\nassign n = x;", b"wire n; // net",
      b"wire n;\n`define X", b"wire n;\n;", b"wire n;\nwire;", b"wire n;\nnand (n, x, x);", b"wire n;\nn;",
      b"wire n;\nmodule in(input x);\nendmodule", b"wire n.m;"):
    z1("netlist: wire %r" % new.decode(), net=swapped(AB, BODY, new + b"\n"))

INST = b"blkb u_b(.a(n), .z());\n"
for new in (b"blkb u_b(.a(n),.z());", b"blkb u_b(.a(n) , .z());", b"blkb u_b (.a(n), .z());",
      b"blkb u_b( .a(n), .z() );", b"blkb u_b(.a (n), .z());", b"blkb u_b(.a( n ), .z());", b"blkb u_b(.a(n), .z( ));",
      b"blkb u_b(.a(n), .z);", b"blkb u_b(.a(n), );", b"blkb u_b(.a(n),);", b"blkb u_b(, .a(n));", b"blkb u_b(n, );",
      b"blkb u_b(n);", b"blkb u_b(.a(n), .z())", b"blkb u_b(.a(n), .z());;", b"blkb u_b(.a(n), .z()) ;",
      b"blkb (.a(n), .z());", b"blkb u_b;", b"blkb #(1) u_b(.a(n), .z());", b"blkb u_b(.a(1'b0), .z());",
      b"blkb u_b(.a(1), .z());", b"blkb u_b(.a(n[0]), .z());", b"blkb u_b(.a({n}), .z());",
      b"blkb u_b(.a(n, n), .z());", b"blkb u_b(.(n), .z());", b"blkb u_b(.a(n), .z()), u_c(.a(n), .z());",
      b"blkb \\u_b (.a(n), .z());", b"blkb u_b[0](.a(n), .z());", b"blkb u_b(a(n), .z());", b"blkb u_b(.a(n), .z())); ",
      b"blkb u.b(.a(n), .z());", b"blkb u_b(.*);", b"blkb u_b(.a(n), .z(),\n.y());", b"blkb  u_b(.a(n), .z());"):
    z1("netlist: instance %r" % new.decode(), net=swapped(AB, INST, new + b"\n"))
z1("netlist: no endmodule", net=AB[:-len(b"endmodule\n")])
z1("netlist: endmodule twice", net=AB + b"endmodule\n")
z1("netlist: endmodule with a name", net=AB[:-1] + b" : top\n")
z1("netlist: endmodule and a semicolon", net=AB[:-1] + b";\n")
z1("netlist: a line behind the modules", net=AB + b"wire n;\n")
z1("netlist: a directive", net=b"`timescale 1ns/1ps\n" + AB)

RESERVED = b"""always initial reg integer parameter localparam defparam function task generate genvar specify
primitive tri tri0 tri1 wand wor supply0 supply1 and nand or nor xor xnor not buf bufif0 bufif1 notif0 notif1 real time
event module endmodule input output inout wire assign""".split()
TOP = b"module top(input x);\n%sendmodule\n"
for word in RESERVED:
    z1("netlist: a wire named %s" % word.decode(), net=TOP % (b"wire %s;\n" % word), upf=ONE)
for word in (b"and", b"wire", b"endmodule", b"event", b"inout", b"tri"):
    text = word.decode()
    z1("netlist: a module named " + text, net=AB + b"module %s();\nendmodule\n" % word)
    z1("netlist: a port named " + text, net=AB + b"module m(input %s);\nendmodule\n" % word)
    z1("netlist: an instance named " + text, net=TOP % (b"BUF %s();\n" % word), upf=ONE)
    z1("netlist: an instance of " + text, lib=LIB[:-2] + b"cell(%s) {\n}\n}\n" % word, net=TOP % (b"%s u();\n" % word),
       upf=ONE)
    z1("netlist: a connection of " + text, lib=LIB[:-2] + b"cell(C) {\npin(%s) { direction : input; }\n}\n}\n" % word,
       net=TOP % (b"C u(.%s(x));\n" % word), upf=ONE)
    z1("netlist: a connection to " + text, net=TOP % (b"wire n;\nBUF u(.A(%s));\n" % word), upf=ONE)
for word in (b"logic", b"begin", b"end", b"if", b"case", b"signed", b"tri2", b"Wire", b"WIRE", b"wires", b"endmodules",
             b"module1", b"_and", b"inputs", b"assign_", b"create_supply_net", b"cell", b"off", b"_", b"__", b"a1_B2"):
    clean("netlist: a wire named %s" % word.decode(), 0, net=TOP % (b"wire %s;\n" % word), upf=ONE)
# names that begin as words of the form do
clean("netlist: names that begin with reserved words", 1, upf=ONE,
      lib=LIB[:-2] + b"cell(wire2) {\npin(inputs) { direction : input; }\n}\n}\n",
      net=b"module endmodule2();\nendmodule\nmodule top(input input1, output output1);\nwire wire1;\n"
          b"wire2 module1(.inputs(input1));\nendmodule2 endmodule1();\nendmodule\n")

# --- scripts

NET = b"create_supply_net VSS\n"
for new in (b"create_supply_net VSS ", b"create_supply_net  VSS", b"create_supply_net", b"create_supply_net ",
      b"create_supply_net {VSS}", b'create_supply_net "VSS"', b"create_supply_net V.SS", b"create_supply_net 1VSS",
      b"create_supply_net VSS -domain PT", b"create_supply_net VSS;", b"create_supply_net VSS ; # ground",
      b"create_supply_net VSS VDD", b"create_supply_net -resolve unresolved VSS", b"create_supply_port VSS",
      b"Create_supply_net VSS", b"create_supply_net VSS-", b"create_supply_net V/SS", b"create_supply_net $VSS"):
    z1("script: net %r" % new.decode(), upf=swapped(BASE, NET, new + b"\n"))

STATE = b"add_supply_state VB -state {on 0.8}\n"
for new in (b"add_supply_state VB", b"add_supply_state VB ", b"add_supply_state VB -state",
      b"add_supply_state VB -state {}", b"add_supply_state VB -state {on}", b"add_supply_state VB -state {on }",
      b"add_supply_state VB -state { on 0.8}", b"add_supply_state VB -state {on 0.8 }",
      b"add_supply_state VB -state {on  0.8}", b"add_supply_state VB -state on 0.8",
      b"add_supply_state VB -state {on 0.8} -state", b"add_supply_state VB -state {on 0.8}-state {off off}",
      b"add_supply_state VB -state {on 0.8}  -state {off off}", b"add_supply_state VB -state {on 0.8} ",
      b"add_supply_state VB -state {on 0.7 0.8}", b"add_supply_state VB -state {on 0.7 0.8 0.9}",
      b"add_supply_state VB -state {on {0.8}}", b'add_supply_state VB -state {on "0.8"}',
      b"add_supply_state VB -state {1n 0.8}", b"add_supply_state VB -state {o.n 0.8}",
      b"add_supply_state VB -state {0.8 on}", b"add_supply_state VB -states {on 0.8}",
      b"add_supply_state -state {on 0.8} VB", b"add_supply_state VB -state {on 0.8} -update",
      b"add_port_state VB -state {on 0.8}", b"add_supply_state VB -state [on 0.8]", b"add_supply_state -state {on 0.8}",
      b"add_supply_state VB VA -state {on 0.8}", b"add_supply_state VB -state {on 0.8",
      b"add_supply_state VB -state {on 0.8}}"):
    z1("script: state %r" % new.decode(), upf=swapped(BASE, STATE, new + b"\n"))
for word in (b"OFF", b"Off", b"on", b".", b"..", b"0.8.", b"0..8", b"0.8000000", b"1000.000001", b"1001", b"10000",
      b"-1", b"+1", b"-0", b"1e0", b"1V", b"0x1", b"0,8", b"1_0", b"\xd9\xa1", b"99999999999999999999",
      b"18446744073709551616", b"4294967296", b"4294967.296", b"340282366920938463463374607431768211456", b"9" * 1000,
      b"1" + b"0" * 100_000, b"0.00000001", b"inf", b"nan", b"*", b"off off", b"$v", b"0.8 ", b"{}", b""):
    z1("script: value %r" % word[:40].decode("latin-1"), upf=swapped(BASE, b"{on 0.8}\nadd_supply_state VSS",
                                                                     b"{on " + word + b"}\nadd_supply_state VSS"))

SET = b"create_supply_set SA -function {power VA} -function {ground VSS}\n"
for new in (b"create_supply_set SA", b"create_supply_set SA -function {ground VSS}",
      b"create_supply_set SA -function {power}", b"create_supply_set SA -function {ground VSS} -function {power VA}",
      b"create_supply_set SA -function power VA", b"create_supply_set SA -function {power VA} -function {power VA}",
      b"create_supply_set SA -function {power VA VB}",
      b"create_supply_set SA -function {power VA} -function {ground VSS} -function {nwell VA}",
      b"create_supply_set SA -function {power VA} -function {nwell VSS}", b"create_supply_set SA -function {Power VA}",
      b"create_supply_set SA -function { power VA}", b"create_supply_set SA -function {power VA} ",
      b"create_supply_set SA -function {power VA} -update", b"create_supply_set SA -function {power V.A}",
      b"create_supply_set PA.primary -function {power VA}", b"create_supply_set -function {power VA} SA",
      b"create_supply_set SA -function {power VA}  -function {ground VSS}",
      b"create_supply_set SA -function {power VA};", b"create_supply_set SA -function {power VA} -function {ground }",
      b"create_supply_set SA -function {power VA} -ground {VSS}"):
    z1("script: set %r" % new.decode(), upf=swapped(BASE, SET, new + b"\n"))

DOMAIN = b"create_power_domain PB -elements {u_b} -supply {primary SB}\n"
for new in (b"create_power_domain PB", b"create_power_domain PB -elements {u_b}",
      b"create_power_domain PB -supply {primary SB}", b"create_power_domain PB -supply {primary SB} -elements {u_b}",
      b"create_power_domain PB -elements u_b -supply {primary SB}",
      b"create_power_domain PB -elements {} -supply {primary SB}",
      b"create_power_domain PB -elements {..} -supply {primary SB}",
      b"create_power_domain PB -elements {./u_b} -supply {primary SB}",
      b"create_power_domain PB -elements {u_b/i} -supply {primary SB}",
      b"create_power_domain PB -elements { u_b} -supply {primary SB}",
      b"create_power_domain PB -elements {u_b } -supply {primary SB}",
      b"create_power_domain PB -elements {u_b u_c} -supply {primary SB}",
      b"create_power_domain PB -elements {u*} -supply {primary SB}",
      b"create_power_domain PB -elements {u_b} -supply {primary}",
      b"create_power_domain PB -elements {u_b} -supply {SB}",
      b"create_power_domain PB -elements {u_b} -supply {default_isolation SB}",
      b"create_power_domain PB -include_scope -supply {primary SB}",
      b"create_power_domain PB -elements {u_b} -supply {primary SB} -supply {primary SB}",
      b"create_power_domain PB -elements {u_b} -elements {u_b} -supply {primary SB}",
      b"create_power_domain PB -elements {u_b} -supply {primary SB} -update",
      b"create_power_domain PB -elements {u_b} -supply {primary SB} ",
      b"create_power_domain P.B -elements {u_b} -supply {primary SB}",
      b"create_power_domain PB  -elements {u_b} -supply {primary SB}",
      b"create_power_domain PB -elements {u_b} -supply {primary S.B}",
      b"create_power_domain PB -elements {u_b}-supply {primary SB}"):
    z1("script: domain %r" % new.decode(), upf=swapped(BASE, DOMAIN, new + b"\n"))

for line in (b"upf_version 3.0", b"set v 0.8", b"set_scope .", b"# power", b";", b" ", b"load_upf more.upf", b"}",
      b"create_pst P -supplies {VA VB}", b"add_pst_state on -pst P -state {on on}", b"create_power_state_group G",
      b"set_isolation IB -domain PB -applies_to inputs -isolation_supply SB", b"set_level_shifter LB -domain PB",
      b"connect_supply_net VA -ports {VA}", b"create_supply_port VP", b"add_power_state SA -state {up}",
      b"create_power_switch SW -output_supply_port {o VA} -input_supply_port {i VB} -on_state {run i {c}}",
      b"set_design_attributes -elements {.} -is_soft_macro FALSE",
      b"create_power_domains P -elements {.} -supply {primary SA}"):
    z1("script: a line %r more" % line.decode(), upf=BASE + line + b"\n")

clean("script: words as names", 2, upf=ONE + b"""create_supply_net create_supply_net
create_supply_net off
create_supply_net wire
add_supply_state off -state {off off} -state {on 1}
add_supply_state wire -state {power 0} -state {off .5}
create_supply_set power -function {power off} -function {ground wire}
create_supply_set ground -function {power create_supply_net}
create_power_domain primary -elements {u_a} -supply {primary S}
""")
clean("script: names as long as you like", 2, upf=ONE.replace(b"V", b"V" * 100_000))
z1("netlist: a name with a letter that is none", net=BLKA + BLKB.replace(b"blkb", b"blkb\xc3\xa9"), upf=ONE)
