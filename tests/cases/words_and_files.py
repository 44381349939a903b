"""Words of the command line, files that are absent, too long or unreadable, and outputs that fail."""
from .base import (AB, AB_ISO, BASE, BLKA, BLKB, BOUND, CLEAN, FINDINGS, FLAT, FOLDER, LIB, LONGEST, ONE, OUTSIDE,
                   REFUSED, REPORT, USAGE, Sparse, case, job, refused, report, same, swapped, usage, with_line, z1)

# The example, in its four forms.
case("example: words and files as in the example", job(), FINDINGS, REPORT)
case("example: no words", {}, USAGE, err=b"upfsign: usage\n", words=[])
refused("example: without the netlist", b"ab.v:0: F1 ab.v", {b"cells.lib": LIB, b"base.upf": BASE})
case("example: VA always on", job(upf=with_line(4, b"add_supply_state VA -state {on 0.8}\n")), CLEAN, report(2))
z1("example: with an isolation cell", net=AB_ISO)

# --- words

OPTIONS = (1, 3, 5, 7)
VALUES = (2, 4, 6, 8)


def put(at, word):
    return FLAT[:at] + [word] + FLAT[at + 1:]


for name, words in [
    ("none", []),
    ("the command alone", FLAT[:1]),
    ("the last value is missing", FLAT[:8]),
    ("the last option is missing", FLAT[:7]),
    ("one word more", FLAT + [b"more"]),
    ("an empty word more", FLAT + [b""]),
    ("the first word twice", FLAT[:1] + FLAT),
    ("no command", FLAT[1:]),
    ("two libraries", FLAT[:3] + FLAT[1:]),
    ("two scripts", FLAT[:7] + FLAT[5:]),
    ("--help", [b"--help"]),
    ("-h", [b"-h"]),
    ("help", [b"help"]),
    ("--version", [b"--version"]),
    ("--help behind the others", FLAT + [b"--help"]),
    ("-net before -lib", FLAT[:1] + FLAT[3:5] + FLAT[1:3] + FLAT[5:]),
    ("-upf before -net", FLAT[:3] + FLAT[5:7] + FLAT[3:5] + FLAT[7:]),
    ("-top before -upf", FLAT[:5] + FLAT[7:] + FLAT[5:7]),
    ("the command last", FLAT[1:] + FLAT[:1]),
    ("-lib in place of -net", put(3, b"-lib")),
    ("option and value in one word", [b"flat", b"-lib=cells.lib"] + FLAT[3:]),
    ("all in one word", [b" ".join(FLAT)]),
    ("another command: model", put(0, b"model")),
    ("another command: hier", put(0, b"hier")),
    ("another command: make", [b"make", b"good", b"40"]),
    ("another command: Flat", put(0, b"Flat")),
    ("another command: flat and a blank", put(0, b"flat ")),
    ("another command: -flat", put(0, b"-flat")),
    ("an empty command", put(0, b"")),
]:
    usage(name, words)

for at in OPTIONS:
    word = FLAT[at]
    for new in (b"-" + word, word.upper(), word[1:], word + b"s", b""):
        usage("%s in place of %s" % (new.decode() or "nothing", word.decode()), put(at, new))
for at in VALUES:
    for new in (b"", b"-", b"--", b"-" + FLAT[at], b"-lib"):
        usage("%r behind %s" % (new.decode(), FLAT[at - 1].decode()), put(at, new))
for at in range(9):
    usage("a byte that is no UTF-8 in word %d" % (at + 1), put(at, FLAT[at] + b"\xff"))
for new in (b"\xc0\xaf", b"\xed\xa0\x80", b"\xe2\x82", b"\xf4\x90\x80\x80", b"\x80"):
    usage("bytes %s behind -top" % new.hex(), put(8, new))
usage("a word more that is no UTF-8", FLAT + [b"\xff"])
usage("wrong words go before absent files", put(8, b"-x"), {})

# --- names of files

NAMED = {b"in/my cells.lib": LIB, b"in/n\xc3\xa9t.v": AB, b"+upf": BASE}
NAMES = [b"flat", b"-lib", b"in/my cells.lib", b"-net", b"./in/../in/n\xc3\xa9t.v", b"-upf", b"+upf", b"-top", b"top"]
case("names: folders, blanks and other letters", NAMED, FINDINGS, REPORT, words=NAMES)
case("names: from the root", job(), FINDINGS, REPORT, words=put(2, b"{folder}/cells.lib"))
refused("names: a refusal has the name as it was given", b"./in/../in/n\xc3\xa9t.v:0: F1 ./in/../in/n\xc3\xa9t.v",
        {b"in/my cells.lib": LIB, b"+upf": BASE}, NAMES)
refused("names: a job that is not of the form names the script", b"my script:0: Z1 -",
        {**job(net=b""), b"my script": BASE}, put(6, b"my script"))
refused("names: with a newline", b"a\nb:0: F1 a\nb", job(), put(4, b"a\nb"))
refused("names: one file for all three", b"base.upf:0: Z1 -", job(),
        [b"flat", b"-lib", b"base.upf", b"-net", b"base.upf", b"-upf", b"base.upf", b"-top", b"top"])

# --- absent files


def without(*names):
    return {k: v for k, v in job().items() if k not in names}


refused("absent: the library", b"cells.lib:0: F1 cells.lib", without(b"cells.lib"))
refused("absent: the netlist", b"ab.v:0: F1 ab.v", without(b"ab.v"))
refused("absent: the script", b"base.upf:0: F1 base.upf", without(b"base.upf"))
refused("absent: all", b"cells.lib:0: F1 cells.lib", {})
refused("absent: netlist and script", b"ab.v:0: F1 ab.v", without(b"ab.v", b"base.upf"))
refused("absent: library and script", b"cells.lib:0: F1 cells.lib", without(b"cells.lib", b"base.upf"))
refused("absent: the folder", b"no/ab.v:0: F1 no/ab.v", job(), put(4, b"no/ab.v"))
refused("absent goes before another form", b"base.upf:0: F1 base.upf", {b"cells.lib": b"x", b"ab.v": b"\xff"})
refused("absent: another case of the name", b"AB.V:0: F1 AB.V", job(), put(4, b"AB.V"))

# --- files that are too long

OVER = Sparse(LONGEST + 1)
MOST = Sparse(LONGEST)
for name, line in ((b"cells.lib", b"cells.lib:0: F2 cells.lib"), (b"ab.v", b"ab.v:0: F2 ab.v"),
                   (b"base.upf", b"base.upf:0: F2 base.upf")):
    refused("too long: " + name.decode(), line, {**job(), name: OVER}, big=True)
    refused("not too long: " + name.decode(), b"base.upf:0: Z1 -", {**job(), name: MOST}, big=True)
refused("too long: a library before an absent netlist", b"cells.lib:0: F2 cells.lib",
        {b"cells.lib": OVER, b"base.upf": BASE}, big=True)
refused("too long: a netlist after an absent library", b"cells.lib:0: F1 cells.lib",
        {b"ab.v": OVER, b"base.upf": BASE}, big=True)
refused("too long: a script after a netlist of another form", b"base.upf:0: F2 base.upf", job(net=b"x", upf=OVER),
        big=True)
refused("too long: a file without end", b"/dev/zero:0: F2 /dev/zero", job(), put(2, b"/dev/zero"), big=True)

# --- empty files, and folders in the place of files

z1("empty: the library", lib=b"")
z1("empty: the netlist", net=b"")
z1("empty: the script", upf=b"")
z1("empty: all", lib=b"", net=b"", upf=b"")
refused("empty: a device", b"/dev/null:0: Z1 -", job(), put(6, b"/dev/null"))
for name in (b"cells.lib", b"ab.v", b"base.upf"):
    case("a folder in the place of " + name.decode(), {**job(), name: FOLDER}, OUTSIDE,
         err=b"upfsign: outside\n")

# --- outputs that fail

case("output: full", job(), OUTSIDE, err=b"upfsign: outside\n", how="out full")
case("output: closed", job(), OUTSIDE, err=b"upfsign: outside\n", how="out closed")
case("output: a pipe without a reader", job(), OUTSIDE, err=b"upfsign: outside\n", how="out broken")
case("output: full, a clean report", job(upf=ONE), OUTSIDE, err=b"upfsign: outside\n", how="out full")
case("output: full, and the error stream too", job(), OUTSIDE, how="both full")
case("output: full, but not used", job(upf=b""), REFUSED, err=b"base.upf:0: Z1 -\n", how="out full")
case("output: closed, but not used", {}, USAGE, err=b"upfsign: usage\n", words=[], how="out closed")
case("error stream: full, usage", {}, USAGE, words=[], how="err full")
case("error stream: closed, usage", {}, USAGE, words=[], how="err closed")
case("error stream: full, absent file", {}, REFUSED, how="err full")
case("error stream: full, another form", job(upf=b""), REFUSED, how="err full")
case("error stream: closed, another form", job(upf=b""), REFUSED, how="err closed")
case("error stream: full, bound", job(upf=b"".join(b"create_supply_net N%d\n" % n for n in range(14)) + BASE), BOUND,
     how="err full")
case("error stream: full, but not used", job(), FINDINGS, REPORT, how="err full")
case("error stream: closed, but not used", job(), FINDINGS, REPORT, how="err closed")

# The output takes 600 bytes and no more: it has the beginning of the report.
READERS = [b"u%02d" % k for k in range(20)]
TOP = b"module top(input x);\nwire n;\nblka u_a(.x(x), .y(n));\n" + b"".join(
    b"blkb %s(.a(n), .z());\n" % u for u in READERS) + b"endmodule\n"
MANY = report(21, [(u + b"/i/A", b"u_a/o/Y", b"VA=off VB=0.800000 VSS=0.000000") for u in READERS])
UPF = swapped(BASE, b"create_power_domain PB -elements {u_b} -supply {primary SB}\n", b"")
assert len(MANY) > 1200
case("output: whole, to a file", job(net=BLKA + BLKB + TOP, upf=UPF), FINDINGS, MANY, how="out to 100000")
case("output: stops after 600 bytes", job(net=BLKA + BLKB + TOP, upf=UPF), OUTSIDE, MANY[:600],
     b"upfsign: outside\n", how="out to 600")
case("output: stops after 1 byte", job(net=BLKA + BLKB + TOP, upf=UPF), OUTSIDE, MANY[:1],
     b"upfsign: outside\n", how="out to 1")
case("output: stops before the last byte", job(net=BLKA + BLKB + TOP, upf=UPF), OUTSIDE, MANY[:-1],
     b"upfsign: outside\n", how="out to %d" % (len(MANY) - 1))
same("output: the report goes out as it is")
