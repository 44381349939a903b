"""Which findings a report has, in which order, and the states that show them."""
from .base import BASE, BLKA, BLKB, cell, clean, found, lib, module, pin, same, swapped, top, with_line

NETS = b"create_supply_net VA\ncreate_supply_net VB\ncreate_supply_net VSS\n"
DOMAINS = b"".join(BASE.splitlines(keepends=True)[8:])
A_FROM_X, B_FROM_A = (b"u_a/o/A", b"x"), (b"u_b/i/A", b"u_a/o/Y")


def intent(nets, sets):
    """A script of nets with their states and sets with their functions, and the domains of the example."""
    lines = [b"create_supply_net %s\n" % name for name, _ in nets]
    for name, states in nets:
        if states:
            stated = b"".join(b" -state {s%d %s}" % (k, word) for k, word in enumerate(states))
            lines.append(b"add_supply_state %s%s\n" % (name, stated))
    for name, power, ground in sets:
        more = b" -function {ground %s}" % ground if ground else b""
        lines.append(b"create_supply_set %s -function {power %s}%s\n" % (name, power, more))
    return b"".join(lines) + DOMAINS


OFF, ON = b"off", b"0.8"

# --- supplies stand in order of their names

same("supplies: nets made in another order", upf=swapped(BASE, NETS,
      b"create_supply_net VSS\ncreate_supply_net VB\ncreate_supply_net VA\n"))
found("supplies: by bytes", 2, [B_FROM_A +
      (b"A10=5.000000 A2=2.000000 B=6.000000 _=3.000000 _0=8.000000 a=4.000000 a1=off a10=7.000000 b=1.000000",)],
      upf=intent([(b"b", [b"1"]), (b"_", [b"3"]), (b"a10", [b"7"]), (b"a1", [OFF, b"1"]), (b"A2", [b"2"]), (b"a",
      [b"4"]), (b"_0", [b"8"]), (b"A10", [b"5"]), (b"B", [b"6"])], [(b"SA", b"a1", None), (b"SB", b"b", None)]))
found("supplies: those that no set has are there too", 2, [B_FROM_A + (b"U=off VA=off VB=0.800000 W=0.300000",)],
      upf=intent([(b"W", [b"0.4", b"0.3"]), (b"VA", [OFF, ON]), (b"VB", [ON]), (b"U", None)], [(b"SA", b"VA", None),
      (b"SB", b"VB", None)]))
found("supplies: without a ground", 2, [B_FROM_A + (b"VA=off VB=0.800000",)],
      upf=intent([(b"VA", [OFF, ON]), (b"VB", [ON])], [(b"SA", b"VA", None), (b"SB", b"VB", None)]))

# --- the state is the least one

found("state: the least of several voltages", 2, [B_FROM_A + (b"VA=off VB=0.700000 VSS=0.000000",)],
      upf=intent([(b"VA", [b"0.5", OFF, b"0.9"]), (b"VB", [b"0.9", b"0.7", b"0.75"]), (b"VSS", [b"0"])],
                 [(b"SA", b"VA", b"VSS"), (b"SB", b"VB", b"VSS")]))
found("state: off before the least voltage", 2, [B_FROM_A + (b"U=off VA=off VB=0.000000",)], upf=intent([(b"VA", [b"0",
      OFF]), (b"VB", [b"1", b"0"]), (b"U", [b"0.000001", b"0", OFF])], [(b"SA", b"VA", None), (b"SB", b"VB", None)]))
found("state: by number, not by text", 2, [B_FROM_A + (b"VA=off VB=9.000000",)],
      upf=intent([(b"VA", [OFF, ON]), (b"VB", [b"10", b"9", b"100"])], [(b"SA", b"VA", None), (b"SB", b"VB", None)]))
found("state: the driver's ground is off", 2, [B_FROM_A + (b"GA=off VA=0.800000 VB=0.800000",)],
      upf=intent([(b"VA", [ON]), (b"VB", [ON]), (b"GA", [OFF, b"0"])], [(b"SA", b"VA", b"GA"), (b"SB", b"VB", None)]))
found("state: the driver's power or ground is off", 2, [B_FROM_A + (b"GA=off VA=off VB=0.800000",)], upf=intent([(b"VA",
      [ON, OFF]), (b"VB", [ON]), (b"GA", [OFF, b"0"])], [(b"SA", b"VA", b"GA"), (b"SB", b"VB", None)]))
found("state: the first supply is on, since the second must be off", 2, [B_FROM_A +
      (b"VA=0.500000 VB=0.800000 VSS=off",)], upf=intent([(b"VA", [ON, b"0.5"]), (b"VB", [ON]), (b"VSS", [OFF, b"0"])],
      [(b"SA", b"VA", b"VSS"), (b"SB", b"VB", None)]))
found("state: the receiver's ground is on", 2, [A_FROM_X + (b"VA=0.800000 VB=0.800000 VSS=off",), B_FROM_A +
      (b"VA=off VB=0.800000 VSS=0.000000",)], upf=intent([(b"VA", [ON, OFF]), (b"VB", [ON]), (b"VSS", [OFF, b"0"])],
      [(b"SA", b"VA", None), (b"SB", b"VB", b"VSS")]))
found("state: nets without states are off or at 0 V", 2, [A_FROM_X + (b"VA=0.000000 VB=off",), B_FROM_A +
      (b"VA=off VB=0.000000",)], upf=intent([(b"VA", None), (b"VB", None)], [(b"SA", b"VA", None), (b"SB", b"VB",
      None)]))
found("state: a net with states has one of them", 2, [B_FROM_A + (b"VA=off VB=0.000000",)],
      upf=intent([(b"VA", None), (b"VB", [b"0"])], [(b"SA", b"VA", None), (b"SB", b"VB", None)]))
FIRST = [b"N%02d" % k for k in range(14)]
found("state: among 65,536", 2, [A_FROM_X + (b" ".join(n + b"=off" for n in FIRST) + b" VA=0.000000 VB=off",),
      B_FROM_A + (b" ".join(n + b"=off" for n in FIRST) + b" VA=off VB=0.000000",)], upf=intent([(n, None) for n in
      FIRST] + [(b"VA", None), (b"VB", None)], [(b"SA", b"VA", None), (b"SB", b"VB", None)]))
found("state: the last but one of 65,536", 2, [B_FROM_A + (b" ".join(n + b"=1.000000" for n in FIRST) +
      b" VA=1.000000 VB=off",)], upf=intent([(n, [b"1"]) for n in FIRST] + [(b"VA", [b"1"]), (b"VB", [b"1", OFF])],
      [(b"SA", b"VA", b"VB"), (b"SB", b"N00", None)]))
clean("state: none among 65,536", 2, upf=intent([(n, None) for n in FIRST] + [(b"VA", None), (b"VB", None)], [(b"SA",
      b"VA", b"VB"), (b"SB", b"VB", b"VA")]))

for word, text in ((b".5", b"0.500000"), (b"5.", b"5.000000"), (b"1000", b"1000.000000"), (b"1000.", b"1000.000000"),
      (b"1000.000000", b"1000.000000"), (b"0.000001", b"0.000001"), (b"00.10", b"0.100000"), (b"0", b"0.000000"),
      (b"0.", b"0.000000"), (b".0", b"0.000000"), (b".000000", b"0.000000"), (b"999.999999", b"999.999999"),
      (b"12.345678", b"12.345678"), (b"1.05", b"1.050000"), (b"0" * 100_000 + b"1.5", b"1.500000"), (b"010",
      b"10.000000")):
    found("volts: %s" % word[:30].decode(), 2, [B_FROM_A + (b"VA=off VB=%s VSS=0.000000" % text,)], upf=with_line(5,
          b"add_supply_state VB -state {on %s}\n" % word))

# --- where isolation is not missing

found("quiet: the driver is always on", 2, [A_FROM_X + (b"VA=0.800000 VB=off",)],
      upf=intent([(b"VA", [ON]), (b"VB", [ON, OFF])], [(b"SA", b"VA", None), (b"SB", b"VB", None)]))
found("quiet: the receiver is always off", 2, [A_FROM_X + (b"VA=0.800000 VB=off",)],
      upf=intent([(b"VA", [ON, OFF]), (b"VB", [OFF])], [(b"SA", b"VA", None), (b"SB", b"VB", None)]))
clean("quiet: all are always off", 2, upf=intent([(b"VA", [OFF]), (b"VB", [OFF])], [(b"SA", b"VA", None), (b"SB", b"VB",
      None)]))
clean("quiet: one ground for both, which may be off", 2, upf=intent([(b"VA", [ON]), (b"VB", [ON]), (b"VSS", [OFF,
      b"0"])], [(b"SA", b"VA", b"VSS"), (b"SB", b"VB", b"VSS")]))
clean("quiet: two sets of the same nets", 2, upf=intent([(b"VA", [ON, OFF])], [(b"SA", b"VA", None), (b"SB", b"VA",
      None)]))
clean("quiet: power and ground the other way round", 2, upf=intent([(b"VA", [ON, OFF]), (b"VB", [ON, OFF])], [(b"SA",
      b"VA", b"VB"), (b"SB", b"VB", b"VA")]))
clean("quiet: one domain that may be off", 2, upf=intent([(b"VA", [ON, OFF])], [(b"SA", b"VA", None), (b"SB", b"VA",
      None)]).split(b"create_power_domain PA")[0])
clean("quiet: different voltages", 2, upf=intent([(b"VA", [b"0.5"]), (b"VB", [b"1000"])], [(b"SA", b"VA", None), (b"SB",
      b"VB", None)]))
found("quiet: not where one set has a ground more", 2, [B_FROM_A + (b"VA=0.800000 VSS=off",)],
      upf=intent([(b"VA", [ON]), (b"VSS", [b"0", OFF])], [(b"SA", b"VA", b"VSS"), (b"SB", b"VA", None)]))

# --- drivers and receivers of all kinds

PLAIN = [(b"VA", [ON, OFF]), (b"VB", [ON])]
AND_SETS = [(b"SA", b"VA", None), (b"SB", b"VB", None)]
SHOWN = b"VA=off VB=0.800000"


def domains(**elements):
    """The script with these domains in place of the example's. `top` is the top's set."""
    script = intent(PLAIN, AND_SETS).split(b"create_power_domain")[0]
    return script + b"".join(b"create_power_domain P%d -elements {%s} -supply {primary %s}\n" % (k, b"." if
          e == "top" else e.encode(), s) for k, (e, s) in enumerate(elements.items()))


SA, SB = b"SA", b"SB"
found("ends: from an input of the top to a block", 1, [(b"u_b/i/A", b"x", SHOWN)],
      net=BLKB + top(b"input x", b"blkb u_b(.a(x), .z());"), upf=domains(top=SA, u_b=SB))
found("ends: from an input of the top to a cell in it", 1, [(b"u/A", b"x", SHOWN)],
      net=top(b"input x", b"BUF u(.A(x));"), upf=domains(top=SA, u=SB))
found("ends: from a block to an output of the top", 2, [(b"y", b"u_a/o/Y", SHOWN)],
      net=BLKA + top(b"input x, output y", b"blka u_a(.x(x), .y(y));"), upf=domains(u_a=SA, top=SB))
found("ends: from a cell in the top to an output", 2, [(b"y", b"u/Y", SHOWN)],
      net=top(b"input x, output y", b"BUF u(.A(x), .Y(y));"), upf=domains(u=SA, top=SB))
found("ends: from a cell in the top to another", 3, [(b"v/A", b"u/Y", SHOWN)],
      net=top(b"input x, output y", b"wire n;", b"BUF u(.A(x), .Y(n));", b"BUF v(.A(n), .Y(y));"),
      upf=domains(top=SB, u=SA))
found("ends: through the top, whose own supply doesn't matter", 2, [(b"u_b/i/A", b"u_a/o/Y", SHOWN)],
      upf=domains(top=SA, u_a=SA, u_b=SB))
found("ends: cells of a block have its domain", 4, [(b"u/p/A", b"x", SHOWN), (b"u/q/A", b"x", SHOWN)],
      net=module(b"m", b"input a", b"BUF q(.A(a));", b"wire w;", b"BUF p(.A(a), .Y(w));", b"BUF r(.A(w));")
      + top(b"input x", b"m u(.a(x));", b"BUF t(.A(x));"), upf=domains(top=SA, u=SB))
clean("ends: from a block that is always on to one that is not", 2, upf=domains(top=SB, u_a=SB, u_b=SA))
found("ends: one driver, receivers with and without", 4, [(b"u_b/i/A", b"u_a/o/Y", SHOWN), (b"y", b"u_a/o/Y", SHOWN)],
      net=BLKA + BLKB + top(b"input x, output y", b"blka u_a(.x(x), .y(y));", b"blkb u_b(.a(y));", b"blkb u_c(.a(y));"),
      upf=domains(top=SB, u_a=SA, u_b=SB, u_c=SA))
found("ends: two pins of one cell", 3, [(b"u/A", b"v/Y", SHOWN), (b"u/B", b"v/Y", SHOWN)],
      lib=lib(cell(b"X", pin(b"B", b"input"), pin(b"A", b"input"), pin(b"Y", b"output"))),
      net=top(b"input x", b"wire n;", b"X u(.A(n), .B(n));", b"X v(.B(x), .Y(n));"), upf=domains(top=SB, v=SA))

# --- findings stand in order of the receivers' names

NAMES = [b"u2", b"u_", b"u", b"U", b"u10", b"uu", b"u1", b"_u", b"u_1", b"Z9", b"t"]
ORDER = [b"U/i/A", b"Z9/i/A", b"_u/i/A", b"t/i/A", b"u/i/A", b"u0/A", b"u1/i/A", b"u10/i/A", b"u2/i/A", b"u_/i/A",
         b"u_1/i/A", b"uu/i/A", b"v/A"]
found("order: by the bytes of the receivers' names", 15, [(name, b"u_a/o/Y", SHOWN) for name in ORDER],
      net=BLKA + BLKB + top(b"input x, output y, output T", b"wire n;", b"blka u_a(.x(x), .y(n));",
                            b"BUF u0(.A(n), .Y(T));", b"BUF v(.A(n));", *[b"blkb %s(.a(n));" % name for name in NAMES]),
      upf=domains(top=SB, u_a=SA))
found("order: ports of the top among the others", 7,
      [(b"A", b"u/Q", SHOWN), (b"a/A", b"u/P", SHOWN), (b"b", b"u/R", SHOWN), (b"b1/A", b"u/P", SHOWN),
       (b"b_", b"u/P", SHOWN), (b"c/A", b"u/R", SHOWN)],
      lib=lib(cell(b"X", pin(b"A", b"input"), *[pin(name, b"output") for name in (b"P", b"Q", b"R")])),
      net=top(b"input x, output b_, output A, output b", b"X u(.A(x), .P(b_), .Q(A), .R(b));", b"X c(.A(b));",
              b"X b1(.A(b_));", b"X a(.A(b_));"), upf=domains(top=SB, u=SA))
found("order: findings with states of their own", 5,
      [(b"u_b/i/A", b"u_a/o/Y", b"VA=off VB=0.800000 VC=off"),
       (b"u_c/A", b"u_a/o/Y", b"VA=off VB=0.800000 VC=0.900000"), (b"y", b"u_c/Y", b"VA=off VB=0.800000 VC=off")],
      net=BLKA + BLKB + top(b"input x, output y", b"wire n;", b"blka u_a(.x(x), .y(n));", b"BUF u_c(.A(n), .Y(y));",
                            b"blkb u_b(.a(n));", b"BUF u_d(.A(y));"),
      upf=intent([(b"VC", [b"0.9", OFF]), (b"VA", [ON, OFF]), (b"VB", [ON])],
                 [(b"SA", b"VA", None), (b"SB", b"VB", None), (b"SC", b"VC", None)])
      + b"create_power_domain PC -elements {u_c} -supply {primary SC}\n"
      + b"create_power_domain PD -elements {u_d} -supply {primary SC}\n")
