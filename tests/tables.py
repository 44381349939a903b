#!/usr/bin/env python3
"""Reads the tables of tests/libraries, tests/netlists and tests/designs, and checks that they are well-formed, without our program.

  tests/tables.py

A table is a text file. Lines before its first case begin with `#`. A case is

    == its name
    the lines of a text, each with its newline
    -> the answer

- `~` and two hexadecimal digits are that byte. `~.` at a line's end takes its newline away. `~(N:TEXT~)` is TEXT N times, and in it
  `~i` is 1, 2, .. N and `~j` one more; TEXT may have several lines.
- In tests/libraries a line `-- and` begins a further library, to be joined to those before it.
- In tests/designs the text is a netlist over `cells.lib`, and its top is `top`. A line `-- netlist` begins a (further) netlist,
  `-- library` a library in place of `cells.lib`, and `-- model` a model: `module NAME`, then `port in|out NAME [M L]`, then
  `feed BIT BIT` for each output bit that an input bit feeds, in order of the output bits. A line `-- top NAME` says another top.

Answers. Names in them have the bytes of 0x21 to 0x7D as they are, and other bytes as `~XX`.

- A library: `ok N` and the N cells, which may be left out; `CODE LINE NAME`, and the number of the library, from 0 on, where there are
  several. A cell is `NAME(A<,Y>)` with `<` behind inputs and `>` behind outputs, then `+iso` and `+shift`, then `/THROUGH/ENABLE`
  where one of the two is there, with `-` for the other.
- A netlist: `ok N` and the N modules, which may be left out; `CODE LINE NAME`. A module is `NAME@LINE(PORTS)` and then its wires,
  assignments and instances in order: `wire:NAME[M:L];`, `assign:LEFT=RIGHT@LINE;` and `TYPE:NAME(.PORT(EXPR),..)@LINE;`. A port is
  as a pin with its range, and a constant is its width and `'`.
- A design: `ok INSTANCES BITS`, the top among the instances; `CODE LINE NAME MODULE` with the number of the module whose line it is,
  over all netlists from 0 on, and 0 at line 0.
"""
import pathlib
import re
import sys

HERE = pathlib.Path(__file__).parent
FOLDERS = ("libraries", "netlists", "designs")
CODES = {"libraries": "L1 L2 L3".split(), "netlists": "N1 N2 N3 N4".split(),
         "designs": "N5 N6 N7 N8 N9 N10 N11 N12 M5 X1".split()}
LEAST = {"libraries": 60, "netlists": 90, "designs": 40}


class Case:
    """A case: its table, its name, its parts as pairs of a kind and the bytes of a text, and the answer."""

    def __init__(self, table, name, parts, answer):
        self.table, self.name, self.parts, self.answer = table, name, parts, answer

    def texts(self, kind):
        return [text for of, text in self.parts if of == kind]

    def __str__(self):
        return "%s: %s" % (self.table, self.name)


def repeated(text):
    """A text with what is said to be there many times."""
    pieces, rest = [], text
    while "~(" in rest:
        before, _, rest = rest.partition("~(")
        inside, closed, rest = rest.partition("~)")
        count, parted, what = inside.partition(":")
        if not closed or not parted or not count.isdigit():
            raise ValueError("a repetition that isn't closed or has no number")
        times = range(1, int(count) + 1)
        if "~i" in what or "~j" in what:
            made = "".join(what.replace("~i", str(n)).replace("~j", str(n + 1)) for n in times)
        else:
            made = what * int(count)
        pieces += [before, made]
    return "".join(pieces) + rest


def decoded(text):
    """The bytes of a text."""
    raw = text.encode()
    if re.search(rb"~(?![0-9A-F]{2})", raw):
        raise ValueError("`~` before something else than two hexadecimal digits")
    return re.sub(rb"~([0-9A-F]{2})", lambda m: bytes([int(m.group(1), 16)]), raw)


def bytes_of(lines):
    return decoded(repeated("".join(line[:-2] if line.endswith("~.") else line + "\n" for line in lines)))


FIRST_PART = {"libraries": "library", "netlists": "netlist", "designs": "netlist"}


def parts_of(folder, lines):
    """The parts of a case, by the lines that begin them."""
    parts = [(FIRST_PART[folder], [])]
    for line in lines:
        if not line.startswith("-- "):
            parts[-1][1].append(line)
        elif line == "-- and" and folder == "libraries":
            parts.append(("library", []))
        elif line in ("-- netlist", "-- library", "-- model") and folder == "designs":
            parts.append((line[3:], []))
        elif line.startswith("-- top ") and folder == "designs":
            parts.append(("top", [line[7:] + "~."]))
        else:
            raise ValueError("a line `%s`" % line)
    # the first part may be empty where others are begun at once
    if folder == "designs" and len(parts) > 1 and not parts[0][1]:
        parts = parts[1:]
    return [(kind, bytes_of(inside)) for kind, inside in parts]


def cases_of(path):
    """The cases of a table."""
    folder, name, lines = path.parent.name, None, None
    for number, line in enumerate(path.read_text().split("\n"), 1):
        if line.startswith("== "):
            if lines is not None:
                raise ValueError("%s:%d: the case before has no answer" % (path, number))
            name, lines = line[3:], []
        elif line.startswith("-> ") and lines is not None:
            try:
                yield Case("%s/%s" % (folder, path.name), name, parts_of(folder, lines), repeated(line[3:]))
            except ValueError as fault:
                raise ValueError("%s: %s: %s" % (path, name, fault)) from None
            lines = None
        elif lines is not None:
            lines.append(line)
        elif line and not (line.startswith("#") and name is None):
            raise ValueError("%s:%d: a line outside cases" % (path, number))
    if lines is not None:
        raise ValueError("%s: the last case has no answer" % path)


def all_cases(folder):
    return [case for path in sorted((HERE / folder).glob("*.txt")) for case in cases_of(path)]


def last_line(text):
    return text.count(b"\n") + 1


def line_of(text, number):
    return text.split(b"\n")[number - 1]


def counted(words, separator):
    """Whether `ok N` has N things behind it, or none."""
    things = [word for word in words[2:] if word]
    return not things or len(things) == int(words[1])


def ok_fault(folder, words):
    if folder == "designs":
        return None if len(words) == 3 and words[2].isdigit() else "`ok` has no two numbers"
    return None if counted(words, " ") else "`ok` has another number than things behind it"


def library_fault(case, code, line, rest):
    texts = case.texts("library")
    if len(rest) != (2 if len(texts) > 1 else 1):
        return "the number of the library is missing or too much"
    at = int(rest[1]) if len(texts) > 1 else 0
    if line == 0:
        return None if code == "L2" and at > 0 else "line 0"
    if line > last_line(texts[at]):
        return "the text has no such line"
    if code == "L1":
        return None if rest[0] == "-" else "L1 has a name"
    return None if b"cell" in line_of(texts[at], line) else "no `cell` on that line"


def netlist_fault(case, code, line, rest):
    text, name = case.texts("netlist")[0], decoded(rest[0])
    if not 1 <= line <= last_line(text) or len(rest) != 1:
        return "the text has no such line, or the answer too many words"
    if name == b"-" and line == last_line(text):
        return None
    if name not in line_of(text, line):
        return "the name isn't on that line"
    if code == "N2" and name != b"inout":
        return "N2 has another name than `inout`"
    return None


def module_lines(case):
    """For each module the number of its netlist, and its first and last line there."""
    found = []
    for number, text in enumerate(case.texts("netlist")):
        lines = [at for at, line in enumerate(text.split(b"\n"), 1) if line.startswith((b"module ", b"module\t"))]
        found += [(number, first, behind - 1) for first, behind in zip(lines, lines[1:] + [last_line(text) + 1])]
    return found


MODEL = re.compile(rb"module \S+\n(port (in|out) \S+( \d+ \d+)?\n)*(feed \S+ \S+\n)*")


def model_fault(case):
    """What is wrong with the models of a case, by their form alone."""
    return None if all(MODEL.fullmatch(text) for text in case.texts("model")) else "a model of another form"


def design_fault(case, code, line, rest):
    if len(rest) != 2:
        return "a name and the number of a module are wanted"
    if line == 0:
        return None if code in ("N5", "X1") and rest[1] == "0" else "line 0"
    modules = module_lines(case)
    if int(rest[1]) >= len(modules):
        return "there is no such module"
    _, first, last = modules[int(rest[1])]
    if not first <= line <= last:
        return "the line isn't one of that module"
    name = decoded(rest[0]).split(b"/")[-1].split(b"[")[0]
    return None if any(name in text for _, text in case.parts) else "the name isn't in the texts"


FAULTS = {"libraries": library_fault, "netlists": netlist_fault, "designs": design_fault}


def case_fault(folder, case):
    """What is wrong with a case, by its form alone."""
    if model_fault(case):
        return model_fault(case)
    words = case.answer.split(" ")
    if words[0] == "ok" and len(words) > 1 and words[1].isdigit():
        return ok_fault(folder, words)
    if len(words) < 3 or words[0] not in CODES[folder] or not words[1].isdigit():
        return "an answer of no known form"
    return FAULTS[folder](case, words[0], int(words[1]), words[2:])


def folder_faults(folder):
    cases = all_cases(folder)
    faults = ["%s: %s: `%s`" % (case, fault, case.answer) for case in cases for fault in [case_fault(folder, case)] if fault]
    names = [(case.table, case.name) for case in cases]
    faults += ["%s: %s: the name is there twice" % name for name in sorted(set(names)) if names.count(name) > 1]
    said = [case.answer.split(" ")[0] for case in cases]
    faults += ["%s: no case has the answer %s" % (folder, code) for code in CODES[folder] + ["ok"] if code not in said]
    if len(cases) < LEAST[folder]:
        faults.append("%s: fewer than %d cases" % (folder, LEAST[folder]))
    told = ", ".join("%d %s" % (said.count(code), code) for code in ["ok"] + CODES[folder])
    print("%s: %d cases: %s" % (folder, len(cases), told))
    return faults


def main():
    try:
        faults = [fault for folder in FOLDERS for fault in folder_faults(folder)]
    except ValueError as fault:
        sys.exit(str(fault))
    for fault in faults:
        print(fault)
    sys.exit(1 if faults else 0)


if __name__ == "__main__":
    main()
