"""Names, roles of cells, connections, depth and feeders of a design."""
from .base import AB, BLKA, BLKB, LIB, ONE, cell, clean, lib, module, pin, same, swapped, top, z1


IN, OUT = b"input", b"output"

# --- names

z1("names: two cells of one name", lib=lib(cell(b"BUF", pin(b"A", IN))))
z1("names: a cell given again alike", lib=lib(cell(b"BUF", pin(b"A", IN), pin(b"Y", OUT))))
z1("names: two unused cells of one name", lib=lib(cell(b"X"), cell(b"X")))
z1("names: two pins of one name", lib=lib(cell(b"X", pin(b"A", IN), pin(b"A", IN))))
z1("names: an input and an output of one name", lib=lib(cell(b"X", pin(b"A", IN), pin(b"A", OUT))))
z1("names: two modules of one name", net=AB + BLKA)
z1("names: two modules of one name, one of another form of ports", net=AB + module(b"blka", b""))
z1("names: two modules named as the top", net=AB + top(b""))
z1("names: a module with a cell's name", net=AB + module(b"BUF", b""))
z1("names: a module with an unused cell's name", net=AB + module(b"ISO", b""))
z1("names: two ports of one name", net=AB + module(b"m", b"input a, input a"))
z1("names: two ports of one name, in and out", net=AB + module(b"m", b"input a, output a"))
z1("names: a wire with a port's name", net=swapped(AB, b"wire n;\n", b"wire n;\nwire x;\n"))
z1("names: two wires of one name", net=swapped(AB, b"wire n;\n", b"wire n;\nwire n;\n"))
z1("names: two wires of one name, apart", net=swapped(AB, b"blkb u_b(.a(n), .z());\n",
      b"blkb u_b(.a(n), .z());\nwire n;\n"))
z1("names: two instances of one name", net=swapped(AB, b"blkb u_b", b"blkb u_a"))
z1("names: an instance with a wire's name", net=swapped(AB, b"blkb u_b", b"blkb n"))
z1("names: an instance with a port's name", net=swapped(AB, b"blkb u_b", b"blkb x"))
z1("names: a wire with the name of a later instance", net=swapped(AB, b"wire n;\n", b"wire n;\nwire u_b;\n"))
z1("names: twice in an unused module", net=AB + module(b"m", b"", b"wire a;", b"wire a;"))
same("names: letters in capitals are other letters", lib=lib(cell(b"buf_"), cell(b"Buf"), cell(b"BUf")),
     net=AB + module(b"Top", b"input a, input A") + module(b"TOP", b"", b"wire w;", b"wire W;"))
same("names: pins of two cells", lib=lib(cell(b"X", pin(b"A", IN)), cell(b"A", pin(b"X", OUT))))
same("names: a cell, a module and a library of other kinds of one name",
     lib=lib(cell(b"cells", pin(b"cells", IN))), net=AB + module(b"u_a", b"input u_a"))
clean("names: all of one name", 1, upf=ONE,
      lib=b"library(top) {\n" + cell(b"BUF", pin(b"BUF", IN), pin(b"top", OUT)) + b"}\n",
      net=top(b"input top", b"BUF BUF(.BUF(top), .top());"))
clean("names: of a module and an instance", 1, upf=ONE, net=BLKB + top(b"input blkb", b"blkb top(.a(blkb));"))

# --- roles of cells

ISO_D, ISO_E = b"isolation_cell_data_pin", b"isolation_cell_enable_pin"
LS_D, LS_E = b"level_shifter_data_pin", b"level_shifter_enable_pin"
for text, kind in (("isolation cell", b"is_isolation_cell : true;"), ("level shifter", b"is_level_shifter : true;")):
    for name, pins in [
        ("no pins", ()),
        ("no data pin", (pin(b"D", IN), pin(b"Y", OUT))),
        ("only an enable pin", (pin(b"D", IN, ISO_E), pin(b"Y", OUT))),
        ("two data pins", (pin(b"D", IN, ISO_D), pin(b"E", IN, ISO_D), pin(b"Y", OUT))),
        ("a data pin of each kind", (pin(b"D", IN, ISO_D), pin(b"E", IN, LS_D), pin(b"Y", OUT))),
        ("a data pin and an output marked so", (pin(b"D", IN, ISO_D), pin(b"Y", OUT, ISO_D))),
        ("no output", (pin(b"D", IN, LS_D), pin(b"E", IN, LS_E))),
        ("two outputs", (pin(b"D", IN, LS_D), pin(b"Y", OUT), pin(b"Z", OUT))),
    ]:
        z1("roles: %s, %s" % (text, name), lib=lib(cell(b"X", kind, *pins)))
    for name, pins in [
        ("without enable pin", (pin(b"D", IN, ISO_D), pin(b"Y", OUT))),
        ("with a data pin of the other kind", (pin(b"Y", OUT), pin(b"D", IN, LS_D))),
        ("with two enable pins", (pin(b"D", IN, ISO_D), pin(b"E", IN, ISO_E), pin(b"F", IN, LS_E), pin(b"Y", OUT))),
        ("with more inputs", (pin(b"D", IN, LS_D), pin(b"E", IN), pin(b"F", IN), pin(b"Y", OUT))),
        ("with an output as data pin", (pin(b"D", IN), pin(b"Y", OUT, ISO_D))),
        ("with an output as enable pin", (pin(b"D", IN, ISO_D), pin(b"Y", OUT, ISO_E))),
    ]:
        same("roles: %s, %s, unused" % (text, name), lib=lib(cell(b"X", kind, *pins)))
same("roles: a plain cell with any pins", lib=lib(cell(b"X", pin(b"D", IN, ISO_D), pin(b"E", IN, LS_D), pin(b"F", IN,
      LS_E))))
# the data pin of a cell that is neither is a receiver as any other input
clean("roles: a plain cell's data pins receive", 2, upf=ONE,
      lib=lib(cell(b"X", pin(b"D", IN, ISO_D), pin(b"E", IN, LS_D), pin(b"Y", OUT))),
      net=top(b"input x", b"X u(.D(x), .E(x), .Y());"))

# --- isolation cells and level shifters in a design

ISO = b"ISO s(.D(%s), .EN(%s), .Y());"
LS = b"LS s(.A(%s), .Y());"
z1("shielded: an isolation cell in a block", net=swapped(AB, b"BUF i(.A(a), .Y(z));\n", b"BUF i(.A(a), .Y(z));\n" +
      ISO % (b"a", b"a") + b"\n"))
z1("shielded: a level shifter in a block", net=swapped(AB, b"BUF i(.A(a), .Y(z));\n", b"BUF i(.A(a), .Y(z));\n" + LS %
      b"a" + b"\n"))
z1("shielded: an isolation cell in the top", net=swapped(AB, b"wire n;\n", b"wire n;\n" + ISO % (b"n", b"x") + b"\n"))
z1("shielded: a level shifter in the top", net=swapped(AB, b"wire n;\n", b"wire n;\n" + LS % b"n" + b"\n"))
z1("shielded: an isolation cell without connections", net=swapped(AB, b"wire n;\n", b"wire n;\nISO s();\n"))
same("shielded: an isolation cell in a module that is not used", net=AB + module(b"m", b"input a", ISO % (b"a", b"a")))
same("shielded: a level shifter in a module that is not used", net=AB + module(b"m", b"input a", LS % b"a"))

# --- types and connections

z1("types: no such type", net=swapped(AB, b"blkb u_b", b"blkc u_b"))
z1("types: no such type, in a block", net=swapped(AB, b"BUF i", b"BUG i"))
z1("types: no such type, in a module that is not used", net=AB + module(b"m", b"", b"blkc u();"))
z1("types: a type in other letters", net=swapped(AB, b"BUF i", b"Buf i"))
z1("types: the library's name", net=swapped(AB, b"BUF i", b"cells i"))
z1("types: an instance's name", net=swapped(AB, b"blkb u_b", b"u_a u_b"))
z1("connections: no such port", net=swapped(AB, b".z());\n", b".y());\n"))
z1("connections: no such pin", net=swapped(AB, b"BUF i(.A(a), .Y(z));", b"BUF i(.A(a), .Z(z));"))
z1("connections: a pin in other letters", net=swapped(AB, b"BUF i(.A(a), .Y(z));", b"BUF i(.a(a), .Y(z));"))
z1("connections: a wire of the block is no port", net=swapped(AB, b"endmodule\nmodule top",
      b"wire w;\nendmodule\nmodule top").replace(b".z());\n", b".w());\n"))
z1("connections: a port twice", net=swapped(AB, b".z());\n", b".a(n));\n"))
z1("connections: a port twice, once open", net=swapped(AB, b".z());\n", b".a());\n"))
z1("connections: an output twice", net=swapped(AB, b".z());\n", b".z(), .z());\n"))
z1("connections: a pin twice", net=swapped(AB, b"BUF i(.A(a), .Y(z));", b"BUF i(.A(a), .A(a), .Y(z));"))
z1("connections: no such net", net=swapped(AB, b"blkb u_b(.a(n)", b"blkb u_b(.a(m)"))
z1("connections: a net of another module", net=swapped(AB, b"BUF i(.A(a), .Y(z));", b"BUF i(.A(n), .Y(z));"))
z1("connections: a net that is not declared", net=swapped(AB, b"wire n;\n", b""))
z1("connections: an instance is no net", net=swapped(AB, b"blkb u_b(.a(n)", b"blkb u_b(.a(u_a)"))
z1("connections: no such net, in a module that is not used", net=AB + module(b"m", b"", b"BUF u(.A(a));"))
z1("connections: no such pin, in a module that is not used", net=AB + module(b"m", b"input a", b"BUF u(.B(a));"))
z1("connections: a pin twice, in a module that is not used", net=AB + module(b"m", b"input a", b"BUF u(.A(a), .A());"))
same("connections: an output that is left out", net=swapped(AB, b", .z());\n", b");\n"))
same("connections: in another order", net=swapped(AB, b".x(x), .y(n)", b".y(n), .x(x)"))
same("connections: a wire behind its use", net=swapped(swapped(AB, b"wire n;\n", b""), b"blkb u_b(.a(n), .z());\n",
      b"blkb u_b(.a(n), .z());\nwire n;\n"))
same("order: the top stands first", net=AB[len(BLKA + BLKB):] + BLKB + BLKA)

# --- the top, and how deep it is

z1("top: no such module", top=b"tip")
z1("top: a cell", top=b"BUF")
z1("top: an instance", top=b"u_a")
z1("top: in capitals", top=b"TOP")
z1("top: with a blank", top=b"top ")
z1("top: with a newline", top=b"top\n")
z1("top: two of them", top=b"top blka")
z1("top: a path", top=b"./top")
z1("top: other letters", top=b"t\xc3\xb6p")
z1("top: the script is for another one", top=b"blka")
clean("top: another module", 2, upf=ONE, top=b"blka")
clean("top: another module, that holds nothing", 0, net=AB + module(b"_0", b"output y"), upf=ONE, top=b"_0")
z1("depth: the top in itself", net=swapped(AB, b"wire n;\n", b"wire n;\ntop t();\n"))
z1("depth: the top in a block", net=swapped(AB, b"BUF i(.A(a), .Y(z));\n", b"BUF i(.A(a), .Y(z));\ntop t();\n"))
z1("depth: a block in itself", net=swapped(AB, b"BUF i(.A(a), .Y(z));\n", b"BUF i(.A(a), .Y(z));\nblkb b();\n"))
z1("depth: a block in a block", net=swapped(AB, b"BUF i(.A(a), .Y(z));\n", b"BUF i(.A(a), .Y(z));\nblka b();\n"))
z1("depth: an empty module in a block", net=swapped(AB, b"BUF i(.A(a), .Y(z));\n", b"BUF i(.A(a), .Y(z));\nm b();\n") +
      module(b"m", b""))
same("depth: the top in a module that is not used", net=AB + module(b"bench", b"", b"wire w;", b"top t(.x(w));"))
same("depth: modules that are not used and hold themselves", net=AB + module(b"m", b"", b"l u();") + module(b"l", b"",
      b"m u();") + module(b"k", b"", b"k k1();", b"k k2();"))
same("depth: a module that is not used and holds blocks", net=AB + module(b"m", b"", b"wire w;", b"blka a(.y(w));",
      b"blkb b(.a(w));"))

# --- feeders

TWO = b"BUF p(.A(x), .Y(n));", b"BUF q(.A(x), .Y(n));"
z1("feeders: two cells on a wire", net=top(b"input x", b"wire n;", *TWO), upf=ONE)
z1("feeders: two cells on a wire of a block", net=module(b"m", b"input x", b"wire n;", *TWO) + top(b"input x",
      b"m u(.x(x));"), upf=ONE)
z1("feeders: two cells on an output of the top", net=top(b"input x, output n", *TWO), upf=ONE)
z1("feeders: two cells on an output of a block", net=module(b"m", b"input x, output n", *TWO) + top(b"input x",
      b"m u(.x(x));"), upf=ONE)
z1("feeders: two cells on an output of a block without connections", net=module(b"m", b"input x, output n", *TWO) +
      top(b"", b"m u();"), upf=ONE)
z1("feeders: two outputs of one cell on a wire", lib=lib(cell(b"X", pin(b"Y", OUT), pin(b"Z", OUT))), net=top(b"",
      b"wire n;", b"X u(.Y(n), .Z(n));"), upf=ONE)
z1("feeders: two blocks on a wire", net=swapped(AB, b".z());\n", b".z(n));\n"))
z1("feeders: a block and a cell on a wire", net=BLKA + top(b"input x", b"wire n;", b"blka u(.x(x), .y(n));",
      b"BUF b(.A(x), .Y(n));"), upf=ONE)
z1("feeders: a block without inner driver and a cell on a wire", net=module(b"m", b"output y") + top(b"input x",
      b"wire n;", b"m u(.y(n));", b"BUF b(.A(x), .Y(n));"), upf=ONE)
z1("feeders: a cell on an input of the top", net=top(b"input x, input w", b"BUF b(.A(x), .Y(w));"), upf=ONE)
z1("feeders: a cell on its own input of the top", net=top(b"input x", b"BUF b(.A(x), .Y(x));"), upf=ONE)
z1("feeders: a block on an input of the top", net=BLKA + top(b"input x, input w", b"blka u(.x(x), .y(w));"), upf=ONE)
z1("feeders: a cell on an input of a block that is fed", net=module(b"m", b"input a", b"BUF p(.Y(a));") +
      top(b"input x", b"m u(.a(x));"), upf=ONE)
z1("feeders: a cell on an input of a block on a dead wire", net=module(b"m", b"input a", b"BUF p(.Y(a));") + top(b"",
      b"wire n;", b"m u(.a(n));"), upf=ONE)
z1("feeders: two in one of many blocks", upf=ONE, net=BLKA + top(
    b"input x", *[b"wire n%d;" % k for k in range(9)], *[b"blka u%d(.x(x), .y(n%d));" % (k, k % 9) for k in range(10)]))
clean("feeders: a cell on an input of a block that is open", 1, upf=ONE,
      net=module(b"m", b"input a", b"BUF p(.Y(a));", b"BUF q(.A(a));") + top(b"", b"m u();"))
clean("feeders: a cell on an input of a block that is left open", 1, upf=ONE,
      net=module(b"m", b"input a", b"BUF p(.Y(a));", b"BUF q(.A(a));") + top(b"", b"m u(.a());"))
clean("feeders: two cells on a wire of a module that is not used", 0, upf=ONE, net=module(b"m", b"input x", b"wire n;",
      *TWO) + top(b"input x"))
clean("feeders: a cell on an input of a module that is not used", 0, upf=ONE, net=module(b"m", b"input x",
      b"BUF b(.Y(x));") + top(b"input x"))
clean("feeders: one each, in two instances", 4, upf=ONE, net=BLKA + top(b"input x", b"wire n;", b"wire m;",
      b"blka u(.x(x), .y(n));", b"blka v(.x(x), .y(m));", b"BUF b(.A(n));", b"BUF c(.A(m));"))
clean("feeders: a ring of cells", 2, upf=ONE, net=top(b"", b"wire n;", b"wire m;", b"BUF p(.A(m), .Y(n));",
      b"BUF q(.A(n), .Y(m));"))
clean("feeders: a cell that feeds itself", 1, upf=ONE, net=top(b"", b"wire n;", b"BUF p(.A(n), .Y(n));"))
clean("feeders: a ring through blocks", 2, upf=ONE, net=BLKA + top(
    b"", b"wire n;", b"wire m;", b"blka u(.x(m), .y(n));", b"blka v(.x(n), .y(m));"))
clean("feeders: a block whose output feeds its input", 1, upf=ONE, net=BLKA + top(b"", b"wire n;",
      b"blka u(.x(n), .y(n));"))
clean("feeders: an empty block whose output feeds its input", 0, upf=ONE, net=module(b"m", b"input a, output b") +
      top(b"", b"wire n;", b"m u(.a(n), .b(n));"))

# --- which walks are chains

clean("chains: none in an empty top", 0, net=top(b""), upf=ONE)
clean("chains: none without cells", 0, net=top(b"input x, output y", b"wire n;"), upf=ONE)
clean("chains: an open input is no receiver of one", 1, net=BLKB + top(
    b"input x", b"BUF p();", b"BUF q(.A(), .Y());", b"blkb u();", b"blkb v(.a(), .z());", b"blkb w(.a(x));"), upf=ONE)
clean("chains: a wire that nothing feeds", 0, net=BLKB + top(b"", b"wire n;", b"BUF p(.A(n));", b"blkb u(.a(n));"),
      upf=ONE)
clean("chains: an output of a block that nothing feeds", 0, net=module(b"m", b"output y") + BLKB + top(
    b"output z", b"wire n;", b"m u(.y(n));", b"blkb v(.a(n));", b"m w(.y(z));"), upf=ONE)
clean("chains: an output of a block whose cell is left open", 1, net=module(b"m", b"input x, output y",
      b"BUF p(.A(x));") + top(b"input x, output z", b"m u(.x(x), .y(z));"), upf=ONE)
clean("chains: each receiver of a driver", 5, net=module(b"m", b"input a", b"BUF p(.A(a));", b"BUF q(.A(a));") + top(
    b"input x", b"m u(.a(x));", b"m v(.a(x));", b"BUF p(.A(x));"), upf=ONE)
clean("chains: an output of the top that is read", 3, net=top(b"input x, output y", b"BUF p(.A(x), .Y(y));",
      b"BUF q(.A(y));"), upf=ONE)
clean("chains: an output of a block that is read inside", 3, net=module(b"m", b"input x, output y",
      b"BUF p(.A(x), .Y(y));", b"BUF q(.A(y));") + top(b"input x, output z", b"m u(.x(x), .y(z));"), upf=ONE)
clean("chains: through four ports and nets", 3, net=BLKA + BLKB + top(
    b"input x, output z", b"wire n;", b"blka u(.x(x), .y(n));", b"blkb v(.a(n), .z(z));"), upf=ONE)
clean("chains: cells without inputs or outputs", 2, upf=ONE,
      lib=lib(cell(b"TIE", pin(b"Y", OUT)), cell(b"END", pin(b"A", IN), pin(b"B", IN)), cell(b"NOP")),
      net=top(b"input x", b"wire n;", b"TIE t(.Y(n));", b"END e(.A(n), .B(x));", b"NOP o();"))
clean("chains: a cell with two outputs", 3, upf=ONE, lib=lib(cell(b"X", pin(b"Y", OUT), pin(b"A", IN), pin(b"Z", OUT))),
      net=top(b"input x", b"wire n;", b"wire m;", b"X u(.A(x), .Y(n), .Z(m));", b"BUF p(.A(n));", b"BUF q(.A(m));"))
