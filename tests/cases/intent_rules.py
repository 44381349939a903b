"""Names, order and sizes of what a script makes, and domains."""
from .base import AB, BASE, bound, clean, found, same, swapped, with_line, z1


def moved(old, new):
    """The script of the example with line `old` moved, to be line `new`."""
    lines = BASE.splitlines(keepends=True)
    lines.insert(new - 1, lines.pop(old - 1))
    return b"".join(lines)


# --- a line names what lines before it made

z1("order: states before their net", upf=moved(3, 6))
z1("order: a set before its power", upf=moved(7, 1))
z1("order: a set before its ground", upf=moved(3, 7))
z1("order: a domain before its set", upf=moved(9, 7))
z1("order: the last line first", upf=moved(11, 1))
same("order: each net with its states", upf=moved(4, 2))
same("order: states last", upf=moved(4, 11))
same("order: sets before states", upf=moved(7, 4))
same("order: domains in another order", upf=moved(11, 9))
same("order: sets in another order", upf=moved(8, 7))

z1("names: states of no net", upf=BASE + b"add_supply_state VC -state {on 1}\n")
z1("names: states of a set", upf=BASE + b"add_supply_state SA -state {up 1}\n")
z1("names: states of a domain", upf=BASE + b"add_supply_state PA -state {up 1}\n")
z1("names: a net in other letters", upf=BASE + b"add_supply_state va -state {up 1}\n")
z1("names: a set without such a power", upf=BASE + b"create_supply_set SC -function {power VC}\n")
z1("names: a set without such a ground", upf=BASE +
      b"create_supply_set SC -function {power VA} -function {ground VC}\n")
z1("names: a set of a set", upf=BASE + b"create_supply_set SC -function {power SA}\n")
z1("names: a set whose ground is a set", upf=BASE +
      b"create_supply_set SC -function {power VA} -function {ground SB}\n")
z1("names: a set of itself", upf=BASE + b"create_supply_set SC -function {power SC}\n")
z1("names: a domain without such a set", upf=with_line(11,
      b"create_power_domain PB -elements {u_b} -supply {primary SC}\n"))
z1("names: a domain on a net", upf=with_line(11, b"create_power_domain PB -elements {u_b} -supply {primary VB}\n"))
z1("names: a domain on a domain", upf=with_line(11, b"create_power_domain PB -elements {u_b} -supply {primary PT}\n"))
z1("names: a domain on itself", upf=with_line(11, b"create_power_domain PB -elements {u_b} -supply {primary PB}\n"))

# --- names are taken once

for name in (b"VA", b"SA", b"PA"):
    text = name.decode()
    z1("names: a net named %s again" % text, upf=BASE + b"create_supply_net %s\n" % name)
    z1("names: a set named %s again" % text, upf=BASE + b"create_supply_set %s -function {power VA}\n" % name)
    z1("names: a domain named %s again" % text, net=swapped(AB, b"wire n;\n", b"wire n;\nBUF u_c();\n"),
       upf=BASE + b"create_power_domain %s -elements {u_c} -supply {primary SA}\n" % name)
same("names: the same with a new name", net=swapped(AB, b"wire n;\n", b"wire n;\nBUF u_c();\n"), upf=BASE +
      b"create_supply_set SC -function {power VA}\ncreate_power_domain PC -elements {u_c} -supply {primary SC}\n")
# Instances, ports, wires and modules have their own names.
found("names: nets, sets and domains named as parts of the design", 2,
      [(b"u_b/i/A", b"u_a/o/Y", b"VA=off VB=0.800000 VSS=0.000000 n=off u_a=off")],
      upf=swapped(BASE.replace(b"SA", b"x").replace(b"PA", b"u_b").replace(b"PT", b"top"),
                  b"create_supply_net VSS\n", b"create_supply_net VSS\ncreate_supply_net n\ncreate_supply_net u_a\n"))

z1("states: one name twice in a line", upf=with_line(5, b"add_supply_state VB -state {on 0.8} -state {on 0.9}\n"))
z1("states: one name twice in a line, with one value", upf=with_line(5,
      b"add_supply_state VB -state {on 0.8} -state {on 0.8}\n"))
z1("states: one name in two lines", upf=BASE + b"add_supply_state VB -state {on 0.9}\n")
z1("states: one name in two lines, with one value", upf=BASE + b"add_supply_state VB -state {on 0.8}\n")
same("states: one name on two nets, each in its line", upf=BASE.replace(b"{gnd 0}", b"{on 0}"))
same("states: two names with one value", upf=with_line(5, b"add_supply_state VB -state {on 0.8} -state {up .80}\n"))
same("states: names in other letters", upf=with_line(5,
      b"add_supply_state VB -state {on 0.8} -state {On 0.8} -state {ON 0.8}\n"))
same("states: in two lines", upf=with_line(4,
      b"add_supply_state VA -state {off off}\nadd_supply_state VA -state {on 0.8}\n"))
same("states: in two lines, the second behind the domains", upf=with_line(4, b"add_supply_state VA -state {on 0.8}\n") +
      b"add_supply_state VA -state {off off}\n")
same("states: a name that a net has", upf=with_line(5,
      b"add_supply_state VB -state {VB 0.8} -state {SA 0.8} -state {PT 0.8}\n"))
same("states: a voltage named off", upf=with_line(5, b"add_supply_state VB -state {off 0.8}\n"))

# --- sets

same("sets: one that is not used", upf=BASE + b"create_supply_set SC -function {power VSS} -function {ground VA}\n")
same("sets: many of one net", upf=BASE +
      b"".join(b"create_supply_set S%d -function {power VA} -function {ground VA}\n" % k for k in range(100)))
same("sets: power and ground are one net",
     upf=BASE.replace(b"{power VA} -function {ground VSS}", b"{power VA} -function {ground VA}"))

# --- domains

z1("domains: none", upf=b"".join(BASE.splitlines(keepends=True)[:8]))
z1("domains: none for the top", upf=swapped(BASE, b"create_power_domain PT -elements {.} -supply {primary SB}\n", b""))
z1("domains: none for the top, which is empty", net=b"module top();\nendmodule\n",
      upf=b"create_supply_net V\ncreate_supply_set S -function {power V}\n")
z1("domains: none for the top, whose instances all have one", net=b"module top();\nBUF u_a();\nBUF u_b();\nendmodule\n",
   upf=swapped(BASE, b"create_power_domain PT -elements {.} -supply {primary SB}\n", b""))
z1("domains: two for the top", upf=BASE + b"create_power_domain PU -elements {.} -supply {primary SB}\n")
z1("domains: two for one block", upf=BASE + b"create_power_domain PC -elements {u_b} -supply {primary SB}\n")
for element in (b"u_c", b"n", b"x", b"top", b"blkb", b"BUF", b"i", b"U_B", b"PB", b"VB"):
    z1("domains: %s is no instance in the top" % element.decode(),
       upf=with_line(11, b"create_power_domain PB -elements {%s} -supply {primary SB}\n" % element))
same("domains: none for the receiver's block, which has the top's", upf=swapped(
    BASE, b"create_power_domain PB -elements {u_b} -supply {primary SB}\n", b""))
clean("domains: the top's alone", 2, upf=b"".join(BASE.splitlines(keepends=True)[:9]))
clean("domains: two with one set", 2, upf=BASE.replace(b"primary SA", b"primary SB"))
same("domains: the top's behind the others", upf=moved(9, 11))
clean("domains: of a block that holds nothing", 0,
      net=b"module m();\nendmodule\nmodule top();\nm u_a();\nm u_b();\nendmodule\n")
clean("domains: of cells without pins joined", 0, net=b"module top();\nBUF u_a();\nBUF u_b();\nendmodule\n")
found("domains: of cells in the top", 3, [(b"u_b/A", b"u_a/Y", b"VA=off VB=0.800000 VSS=0.000000")],
      net=b"module top(input x, output y);\nwire n;\nBUF u_a(.A(x), .Y(n));\nBUF u_b(.A(n), .Y(y));\nendmodule\n")

# --- how many nets, values and states


def nets(count, states=b""):
    """So many nets, named in order, with the same states on each, and one set and domain."""
    names = [b"N%04d" % k for k in range(count)]
    lines = [b"create_supply_net %s\n" % name for name in names]
    lines += [b"add_supply_state %s%s\n" % (name, states) for name in names if states]
    lines.append(b"create_supply_set S -function {power N0000}\n")
    lines.append(b"create_power_domain PT -elements {.} -supply {primary S}\n")
    return b"".join(lines)


OFF = b" -state {off off}"
clean("nets: 1,024 with one value each", 2, upf=nets(1024, OFF))
z1("nets: 1,025 with one value each", upf=nets(1025, OFF))
z1("nets: 1,025 with two values each", upf=nets(1025))
found("nets: 1,024 in the line of a state", 2,
      [(b"u_b/i/A", b"u_a/o/Y", b" ".join(b"N%04d=off" % k for k in range(1022)) + b" VA=off VB=0.800000")],
      upf=nets(1022, OFF).split(b"create_supply_set")[0] + b"""create_supply_net VA
create_supply_net VB
add_supply_state VA -state {off off} -state {on 0.8}
add_supply_state VB -state {on 0.8}
create_supply_set SA -function {power VA}
create_supply_set SB -function {power VB}
create_power_domain PT -elements {.} -supply {primary SB}
create_power_domain PA -elements {u_a} -supply {primary SA}
""")


def volts(first, last):
    """States at 0.01 V for 1, 0.02 V for 2 and so on."""
    return b"".join(b" -state {s%d %d.%02d}" % (k, k // 100, k % 100) for k in range(first, last + 1))


def with_states(states):
    return with_line(5, b"add_supply_state VB%s\n" % states)


# Off is a value of each net, also where no state has it.
MAY_BE_OFF = [(b"u_a/o/A", b"x", b"VA=0.800000 VB=off VSS=0.000000"), (b"u_b/i/A", b"u_a/o/Y",
      b"VA=off VB=0.010000 VSS=0.000000")]
IS_ON = MAY_BE_OFF[1:]
found("values: 64, off among them", 2, MAY_BE_OFF, upf=with_states(OFF + volts(1, 63)))
found("values: 64, off in the middle", 2, MAY_BE_OFF, upf=with_states(volts(30, 63) + OFF + volts(1, 29)))
found("values: 63 voltages", 2, IS_ON, upf=with_states(volts(1, 63)))
z1("values: 64 voltages", upf=with_states(volts(1, 64)))
z1("values: 65, off among them", upf=with_states(OFF + volts(1, 64)))
found("values: 66 states with 64 values", 2, MAY_BE_OFF, upf=with_states(OFF + volts(1, 63) +
      b" -state {a 0.630000} -state {b .01}"))
z1("values: 65 in two lines", upf=with_states(volts(1, 32)) + b"add_supply_state VB" + volts(33, 64) + b"\n")
found("values: 64 in two lines", 2, IS_ON, upf=with_states(volts(1, 32)) + b"add_supply_state VB" + volts(33, 63) +
      b"\n")
z1("values: 65 on a net that is not used", upf=BASE + b"create_supply_net VC\nadd_supply_state VC" + volts(1, 64) +
      b"\n")

# The product of the numbers of values of all nets is at most 65,536.
clean("states: 16 nets without states", 2, upf=nets(16))
bound("states: 17 nets without states", nets(17))
clean("states: 16 nets of one voltage", 2, upf=nets(16, b" -state {on 0.8}"))
bound("states: 17 nets of one voltage", nets(17, b" -state {on 0.8}"))
clean("states: 16 nets that are on or off", 2, upf=nets(16, b" -state {on 0.8} -state {off off}"))
bound("states: 17 nets that are on or off", nets(17, b" -state {on 0.8} -state {off off}"))
clean("states: 16 nets of two values and 1,008 of one", 2,
      upf=b"".join(b"create_supply_net M%04d\nadd_supply_state M%04d -state {off off}\n" % (k, k) for k in
      range(1008)) + nets(16), big=True)
bound("states: 17 nets of two values and 1,007 of one", b"".join(
    b"create_supply_net M%04d\nadd_supply_state M%04d -state {off off}\n" % (k, k) for k in range(1007)) + nets(17))


def three(first, second, third):
    lines = [b"create_supply_net N000%d\nadd_supply_state N000%d%s%s\n" % (k, k, OFF, volts(1, count - 1))
             for k, count in enumerate((first, second, third))]
    return b"".join(lines) + nets(1).split(b"\n", 1)[1]


clean("states: 64 times 64 times 16", 2, upf=three(64, 64, 16))
bound("states: 64 times 64 times 17", three(64, 64, 17))
bound("states: 17 times 64 times 64", three(17, 64, 64))
z1("states: 65 times 64 times 64", upf=three(65, 64, 64))
clean("states: 41 times 41 times 38", 2, upf=three(41, 41, 38))
bound("states: 40 times 40 times 41", three(40, 40, 41))
# products that are 0 in numbers of 32, 64 or 128 bits
for count in (32, 33, 48, 63, 64, 65, 96, 127, 128, 129, 1024):
    bound("states: %d nets of two values" % count, nets(count))
bound("states: 11 nets of 64 values", nets(11, OFF + volts(1, 63)))
bound("states: 22 nets of 64 values", nets(22, OFF + volts(1, 63)))
bound("states: 1,024 nets of 64 values", nets(1024, OFF + volts(1, 63)))
bound("states: 81 nets of three values", nets(81, b" -state {a 1} -state {b 2}"))
bound("states: 17 nets, in an empty design", nets(17), net=b"module top();\nendmodule\n")
z1("states: 17 nets, but no domain of the top", upf=nets(17).replace(b"{.}", b"{u_a}"))
z1("states: 17 nets, but another form of netlist", upf=nets(17), net=AB[:-1])
bound("states: one net more makes it too many", nets(16) + b"create_supply_net M\n")
clean("states: one net more of one value", 2, upf=nets(16) +
      b"create_supply_net M\nadd_supply_state M -state {off off}\n")
