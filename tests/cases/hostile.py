"""Files that are cut or spoiled at every byte, and files that are as long as can be."""
from .base import (AB, BASE, BLKA, BLKB, LIB, LONGEST, ONE, Made, Sparse, clean, found, job, module, refused, same,
                   swapped, top, z1)

# --- each file cut at every byte

# A library ends with the line that closes it, and a netlist without its last module has no top.
for cut in range(len(LIB)):
    z1("cut: the library after %d bytes" % cut, lib=LIB[:cut])
for cut in range(len(AB)):
    z1("cut: the netlist after %d bytes" % cut, net=AB[:cut])
# A script without its last lines is one where the top has a domain by then: after line 9 all is in one domain, and
# after line 10 the receiver's block is still in the top's, which has the same supplies.
ENDS = [len(b"".join(BASE.splitlines(keepends=True)[:count])) for count in range(12)]
for cut in range(len(BASE)):
    name = "cut: the script after %d bytes" % cut
    if cut == ENDS[9]:
        clean(name, 2, upf=BASE[:cut])
    elif cut == ENDS[10]:
        same(name, upf=BASE[:cut])
    else:
        z1(name, upf=BASE[:cut])

# --- a byte put in at every place, or in the place of another

TEXTS = (("library", "lib", LIB), ("netlist", "net", AB), ("script", "upf", BASE))
for what, key, text in TEXTS:
    for at in range(len(text) + 1):
        z1("spoiled: the %s with a blank put in at byte %d" % (what, at), **{key: text[:at] + b" " + text[at:]})
    for at in range(len(text)):
        z1("spoiled: the %s with byte %d set to ff" % (what, at), **{key: text[:at] + b"\xff" + text[at + 1:]})
    for at in range(len(text) + 1):
        if text[at - 1:at] not in (b"\n", b""):
            z1("spoiled: the %s with a newline put in at byte %d" % (what, at), **{key: text[:at] + b"\n" + text[at:]})

# --- files of the greatest length


def repeated(piece, before=b"", after=b"", size=LONGEST):
    """A file of whole pieces, as many as the size allows."""
    count, many = (size - len(before) - len(after)) // len(piece), 1 << 16

    def parts():
        yield before
        for at in range(0, count, many):
            yield piece * min(many, count - at)
        yield after
    return Made(parts)


def filled(byte, before=b"", after=b"", size=LONGEST):
    """A file of exactly that size, filled up with a byte."""
    return repeated(byte, before, after, size)


def counted(line, count, before=b"", after=b""):
    """A file of lines that hold a number each."""
    many = 1 << 14

    def parts():
        yield before
        for at in range(0, count, many):
            yield b"".join(line(k) for k in range(at, min(at + many, count)))
        yield after
    return Made(parts)


for byte in (b"\n", b"a", b"}", b" ", b"\xff", b"{"):
    for what, key, _ in TEXTS:
        z1("long: a %s of 64 MiB of %r" % (what, byte.decode("latin-1")), **{key: filled(byte)}, big=True)
z1("long: a script of one net again and again", upf=repeated(b"create_supply_net a\n"), big=True)
z1("long: a script of one state again and again", upf=repeated(b"add_supply_state V -state {on 1}\n", ONE), big=True)
z1("long: a script of one set again and again", upf=repeated(b"create_supply_set S -function {power V}\n", ONE),
      big=True)
z1("long: a script of one domain again and again",
      upf=repeated(b"create_power_domain PT -elements {.} -supply {primary S}\n", ONE), big=True)
z1("long: a script of one state on a line again and again", upf=repeated(b" -state {on 1}", ONE + b"add_supply_state V",
      b"\n"), big=True)
z1("long: a netlist of one module again and again", net=repeated(b"module a();\nendmodule\n"), big=True)
z1("long: a netlist of one wire again and again", net=repeated(b"wire n;\n", b"module top(input x);\n", b"endmodule\n"),
      big=True)
z1("long: a netlist of one instance again and again", net=repeated(b"BUF b(.A(x), .Y());\n", b"module top(input x);\n",
      b"endmodule\n"), big=True)
z1("long: a netlist of one port again and again", net=repeated(b"input x, ", b"module top(", b"input y);\nendmodule\n"),
      big=True)
z1("long: a netlist of one connection again and again", net=repeated(b".A(x), ", b"module top(input x);\nBUF b(",
      b".Y());\nendmodule\n"), big=True)
z1("long: a library of one cell again and again", lib=repeated(b"cell(a) {\n}\n", b"library(l) {\n", b"}\n"), big=True)
z1("long: a library of one pin again and again", lib=repeated(b"pin(A) { direction : input; }\n",
      b"library(l) {\ncell(a) {\n", b"}\n}\n"), big=True)
z1("long: a library of open cells", lib=repeated(b"cell(a) {\n", b"library(l) {\n"), big=True)

# Files of exactly the greatest length that are of the form, by one long name, and one byte more.
NAME = b"create_supply_net V", b"\n" + ONE.split(b"\n", 1)[1].replace(b"add_supply_state V -state {on 0.8}\n",
      b"").replace(b"create_supply_set S", b"create_supply_net W\ncreate_supply_set S").replace(b"{power V}",
      b"{power W}")
same("long: a library with a name of 64 MiB", lib=filled(b"n", LIB[:-2] + b"cell(", b") {\n}\n}\n"), big=True)
same("long: a netlist with a name of 64 MiB", net=filled(b"n", AB + b"module m(input ", b");\nendmodule\n"), big=True)
clean("long: a script with a name of 64 MiB", 2, upf=filled(b"V", *NAME), big=True)
refused("long: one byte more in the name, library", b"cells.lib:0: F2 cells.lib",
        job(lib=filled(b"n", LIB[:-2] + b"cell(", b") {\n}\n}\n", LONGEST + 1)), big=True)
refused("long: one byte more in the name, netlist", b"ab.v:0: F2 ab.v",
        job(net=filled(b"n", AB + b"module m(input ", b");\nendmodule\n", LONGEST + 1)), big=True)
refused("long: one byte more in the name, script", b"base.upf:0: F2 base.upf", job(upf=filled(b"V", *NAME, LONGEST +
      1)), big=True)
# a name of 20 MiB that the report has twice
LONG = b"n" * (20 << 20)
found("long: a net's name of 20 MiB in the report", 2, [(b"u_b/i/A", b"u_a/o/Y", b"VA=off VB=0.800000 VSS=0.000000 " +
      LONG + b"=off")], upf=BASE + b"create_supply_net " + LONG + b"\nadd_supply_state " + LONG +
      b" -state {off off}\n", big=True)
found("long: an instance's name of 20 MiB in the report", 2, [(LONG + b"/i/A", b"u_a/o/Y",
      b"VA=off VB=0.800000 VSS=0.000000")], net=swapped(AB, b"blkb u_b", b"blkb " + LONG), upf=swapped(BASE,
      b"create_power_domain PB -elements {u_b} -supply {primary SB}\n", b""), big=True)

# --- many of each thing, each of its own name

clean("many: 500,000 modules", 1, net=counted(lambda k: b"module m%06d();\nendmodule\n" % k, 500_000, BLKB,
      b"module top(input x);\nblkb u(.a(x));\nendmodule\n"), upf=ONE, big=True)
clean("many: 300,000 cells", 2, lib=counted(lambda k: b"cell(c%06d) {\npin(A) { direction : input; }\n}\n" % k, 300_000,
      LIB[:-2], b"}\n"), upf=ONE, big=True)
clean("many: 100,000 pins and connections", 100_000, upf=ONE, big=True,
      lib=counted(lambda k: b"pin(a%05d) { direction : input; }\n" % k, 100_000, b"library(l) {\ncell(X) {\n",
      b"}\n}\n"), net=counted(lambda k: b".a%05d(x), " % k, 99_999, b"module top(input x);\nX u(",
      b".a99999(x));\nendmodule\n"))
clean("many: 100,000 ports", 100_000, upf=ONE, big=True,
      lib=b"library(l) {\ncell(T) {\npin(Y) { direction : output; }\n}\n}\n", net=counted(lambda k: b"output y%05d, " %
      k, 99_999, b"module top(", b"output y99999);\nwire n;\n" + b"".join(b"T t%05d(.Y(y%05d));\n" % (k, k) for k in
      range(100_000)) + b"endmodule\n"))
clean("many: 100,000 cells in a row", 100_000, upf=ONE, big=True,
      net=counted(lambda k: b"wire n%06d;\nBUF b%06d(.A(n%06d), .Y(n%06d));\n" % (k + 1, k, k, k + 1), 100_000,
      b"module top(input n000000);\n", b"endmodule\n"))
clean("many: 20,000 blocks, each in a domain of its own", 20_000, big=True,
      net=counted(lambda k: b"blka u%05d(.x(x), .y());\n" % k, 20_000, BLKA + b"module top(input x);\n",
      b"endmodule\n"), upf=counted(lambda k: b"create_power_domain D%05d -elements {u%05d} -supply {primary S}\n" % (k,
      k), 20_000, ONE))
# the text has them in falling order
FALLING = [b"i%05d" % k for k in range(50_000)]
found("many: 50,000 findings", 50_000, [(b"u_b/%s/A" % i, b"x", b"VA=off VB=0.800000 VSS=0.000000") for i in FALLING],
      big=True, net=b"module m(input a);\n" + b"".join(b"BUF %s(.A(a));\n" % i for i in reversed(FALLING)) +
      b"endmodule\nmodule top(input x);\nm u_b(.a(x));\nBUF u_a();\nendmodule\n",
      upf=BASE.replace(b"{.} -supply {primary SB}", b"{.} -supply {primary SA}"))
same("many: 500,000 states of one value on a net", upf=counted(lambda k: b" -state {s%06d 0.8}" % k, 500_000, BASE +
      b"add_supply_state VB", b"\n"), big=True)
# 1,000,000 lines, and one more
SETS = 1_000_000 - 4
clean("many: a script of 1,000,000 lines", 2, upf=counted(lambda k: b"create_supply_set s%06d -function {power V}\n" %
      k, SETS, ONE), big=True)
z1("many: a script of 1,000,001 lines", upf=counted(lambda k: b"create_supply_set s%06d -function {power V}\n" % k,
      SETS + 1, ONE), big=True)

# --- designs that are far larger than their text

NOP = LIB[:-2] + b"cell(NOP) {\n}\n}\n"


def blocks(inner, count):
    """A top with so many instances of a module of these lines."""
    return b"module m();\n" + inner + b"endmodule\nmodule top(input x);\n" + b"".join(b"m u%d();\n" % k for k in
          range(count)) + b"endmodule\n"


def nops(count):
    return b"".join(b"NOP c%d();\n" % k for k in range(count))


# the top, 999 blocks and 999,000 cells are 1,000,000 instances
clean("size: 1,000,000 instances", 0, lib=NOP, net=blocks(nops(1000), 999), upf=ONE, big=True)
z1("size: 1,000,002 instances", lib=NOP, net=blocks(nops(1000), 999).replace(b"module top(input x);\n",
      b"module top(input x);\nNOP d();\nNOP e();\n"), upf=ONE, big=True)
z1("size: 400,000,000 instances", lib=NOP, net=blocks(nops(20_000), 20_000), upf=ONE, big=True)
z1("size: 10,000,000,000 instances", lib=NOP, net=blocks(nops(100_000), 100_000), upf=ONE, big=True)
z1("size: 8,008,000 bits", net=blocks(b"".join(b"wire w%d;\n" % k for k in range(8000)), 1001), upf=ONE, big=True)
z1("size: 10,000,000,000 bits", net=blocks(b"".join(b"wire w%d;\n" % k for k in range(100_000)), 100_000), upf=ONE,
      big=True)
z1("size: too many bits, in cells alone", upf=ONE, big=True, lib=b"library(l) {\ncell(X) {\n" +
      b"".join(b"pin(a%d) { direction : input; }\n" % k for k in range(9000)) + b"}\n}\n", net=b"module top();\n" +
      b"".join(b"X u%d();\n" % k for k in range(1000)) + b"endmodule\n")
clean("size: 400,000,000 instances in a module that is not used", 2, lib=NOP, upf=ONE, big=True,
      net=blocks(nops(20_000), 20_000).replace(b"module top(input x)", b"module huge(input x)") + AB)

# --- little memory: the right answer, or that memory ran out

FEW = FALLING[:20_000]
for size in (32, 48, 64, 96, 128, 192, 256):
    how = "memory %d" % size
    z1("memory: %d MB, and files of 64 MiB" % size, lib=Sparse(LONGEST), net=Sparse(LONGEST), upf=Sparse(LONGEST),
       how=how, big=True)
    found("memory: %d MB, and 20,000 findings" % size, 20_000,
          [(b"u_b/%s/A" % i, b"x", b"VA=off VB=0.800000 VSS=0.000000") for i in FEW], how=how, big=True,
          net=module(b"m", b"input a", *[b"BUF %s(.A(a));" % i for i in FEW])
          + top(b"input x", b"m u_b(.a(x));", b"BUF u_a();"),
          upf=BASE.replace(b"{.} -supply {primary SB}", b"{.} -supply {primary SA}"))
    clean("memory: %d MB, and 65,536 states" % size, 2, how=how, big=True,
          upf=b"".join(b"create_supply_net N%02d\n" % k for k in range(15)) + ONE)
