#!/usr/bin/env python3
"""Feeds the tables of tests/libraries, tests/netlists and tests/designs to the program `probe`, and compares its answers.

  readers.py PROBE [--only TEXT]

Each case is one line to `probe`, and its answer one line. A text is the word `x` with two hexadecimal digits for each byte.

    read_library TEXT ..                the libraries, each joined to those before it
    read_netlist TEXT
    elaborate TOP [library TEXT].. [netlist TEXT].. [model TEXT]..

tests/tables.py says what the answers are. Where a table leaves the things behind `ok N` out, they aren't compared. Behind the module of
a design's fault `probe` gives the number of the netlist that has it, 0 at line 0. A call that `probe` answers by `unknown` isn't
there, or doesn't take such texts: each such case is printed and counted as not tried. The exit status is 1 only where an answer is
another one.

Each short library and netlist of the tables that is readable is also cut behind each of its bytes, and so is each library and netlist of
the examples. All but the last token of such a front go on to a readable text, so a front that isn't readable has the fault of a text that
is no library or netlist, on its last line, at its end or at its last token; where that is a constant without digits, at its width. Which
fronts of an example are readable is known too:

- Of a library those that have the brace which closes it, the last one of the text. All others have L1.
- Of a netlist those that end outside modules in blanks, in a comment to the line's end or in a line that begins with a back quote, or
  right behind another comment, an attribute or an `endmodule`. Each has as many modules as `endmodule`s. All others have N1, N2 or N3.
- Of an example that isn't readable those in front of its first fault are as such ones, and all others have that fault.
"""
import argparse
import re
import subprocess
import sys
import tempfile

import tables

# The call of each folder, and a case that it must know.
CALLS = {"libraries": "read_library", "netlists": "read_netlist", "designs": "elaborate"}
SMALL = {"libraries": "library(l){}\n", "netlists": "module m;\nendmodule\n", "designs": "module top;\nendmodule\n"}
SECONDS = 300
# The faults that a front of a readable text may have, and how many bytes the texts have at most that are cut.
CUT_CODES = {"libraries": ["L1"], "netlists": ["N1", "N2", "N3"], "designs": []}
CUT_BYTES = 500
# The example files that are cut, and those that aren't readable: their first token that can't stand, and its fault.
ROOT = tables.HERE.parent
EXAMPLES = {"libraries": ["examples/*/*.lib", "tests/designs/*.lib"], "netlists": ["examples/*/*.v"]}
UNREADABLE = {"examples/synthesized/soc.v": (b"#", "N1 4 #"), "examples/synthesized/unmapped.v": (b"  reg ", "N3 59 reg")}
# What may stand behind the width of a constant that is cut: the width is a number then, which can't stand there.
CUT_CONSTANT = rb"('[bodhBODH]?)?"
# How many bytes of fronts are asked for at once.
ASKED_BYTES = 1 << 24
# What stands in netlists: what is skipped (to the line's end, or up to its own end), escaped names, words, and single bytes.
PIECE = re.compile(rb"(?P<line>//[^\n]*|^[ \t]*`[^\n]*)|(?P<skipped>/\*.*?\*/|\(\*(?!\)).*?\*\))|(?P<blank>\s+)"
                   rb"|(?P<name>\\[!-~]+|[A-Za-z_][\w$]*)|(?P<other>.)", re.DOTALL | re.MULTILINE)


def word(text):
    return "x" + text.hex()


def call_of(folder, case, cells):
    """The line that asks for a case."""
    if folder != "designs":
        return " ".join([CALLS[folder]] + [word(text) for _, text in case.parts])
    top = (case.texts("top") or [b"top"])[0]
    parts = list(case.parts) if case.texts("library") else [("library", cells)] + case.parts
    words = [CALLS[folder], word(top)]
    for kind in ("library", "netlist", "model"):
        for of, text in parts:
            if of == kind:
                words += [kind, word(text)]
    return " ".join(words)


def answers(probe, calls):
    """What the program answers, a line each. Its input is a file, since of a pipe it reads each byte by itself."""
    if not calls:
        return []
    with tempfile.TemporaryFile("w+") as asked:
        asked.write("\n".join(calls) + "\n")
        asked.seek(0)
        done = subprocess.run([probe], stdin=asked, capture_output=True, text=True, timeout=SECONDS)
    if done.returncode != 0:
        sys.exit("%s ended with %d: %s" % (probe, done.returncode, done.stderr))
    return done.stdout.split("\n")[:-1]


def is_right(wanted, got):
    """Whether an answer is the wanted one; what stands behind `ok N` counts only where the table says it."""
    wanted_words, got_words = wanted.split(" "), got.split(" ")
    if wanted_words[0] == "ok" and len(wanted_words) == 2:
        return got_words[:2] == wanted_words
    return got == wanted


def wanted_answer(folder, case):
    """The answer of a case; behind that of a design's fault stands the netlist of its module."""
    words = case.answer.split(" ")
    if folder != "designs" or words[0] == "ok":
        return case.answer
    netlist = tables.module_lines(case)[int(words[3])][0] if words[1] != "0" else 0
    return "%s %d" % (case.answer, netlist)


def shortened(text):
    return text if len(text) <= 200 else text[:200] + " .."


def fronts(folder, cases):
    """The fronts of the short texts that are readable."""
    return [text[:size] for case in cases if case.answer.startswith("ok ") and len(case.parts) == 1 and CUT_CODES[folder]
            for _, text in case.parts if len(text) <= CUT_BYTES for size in range(len(text))]


def is_cut_fault(folder, front, got):
    """Whether an answer is the fault of a front that isn't readable: on its last line, at its end or at its last token."""
    words = got.split(" ")
    if len(words) != 3 or words[0] not in CUT_CODES[folder] or words[1] != str(tables.last_line(front)):
        return False
    if words[2] == "-" or folder == "libraries":
        return words[2] == "-"
    return re.search(re.escape(tables.decoded(words[2])) + CUT_CONSTANT + rb"\Z", front) is not None


def cut_result(probe, folder, cases):
    """How many fronts of the texts of cases passed and failed."""
    texts = sorted(set(fronts(folder, cases)))
    got = answers(probe, [CALLS[folder] + " " + word(text) for text in texts])
    if len(got) != len(texts):
        sys.exit("%s gave %d answers to %d fronts" % (probe, len(got), len(texts)))
    wrong = [(text, is_) for text, is_ in zip(texts, got) if not is_.startswith("ok ") and not is_cut_fault(folder, text, is_)]
    for text, is_ in wrong:
        print("the front %r\n  answers `%s`" % (text, shortened(is_)))
    return len(texts) - len(wrong), len(wrong)


def library_sizes(text):
    """The sizes of the readable fronts of a library, each with the number of its cells."""
    cells = len(re.findall(rb"\bcell *\(", text))
    return {size: cells for size in range(text.rindex(b"}") + 1, len(text) + 1)}


def netlist_sizes(text):
    """The sizes of the readable fronts of a netlist, each with the number of its modules."""
    sizes, modules, inside = {0: 0}, 0, False
    for piece in PIECE.finditer(text):
        kind, start, end = piece.lastgroup, piece.start(), piece.end()
        if kind == "name" and piece.group() == b"endmodule":
            modules, inside = modules + 1, False
            sizes[end] = modules
        elif kind in ("name", "other"):
            inside = True
        elif not inside:
            first = {"line": start + 2 if piece.group().startswith(b"//") else start + 1, "skipped": end, "blank": start + 1}[kind]
            sizes.update((size, modules) for size in range(first, end + 1))
    return sizes


SIZES = {"libraries": library_sizes, "netlists": netlist_sizes}


def example_wants(folder, path, text):
    """For each front of an example, from the empty one to the whole text, its answer: `ok N`, a fault, or `None` for a fault at its end."""
    mark, fault = UNREADABLE.get(path, (None, None))
    end = text.index(mark) + len(mark) if mark else len(text) + 1
    sizes = SIZES[folder](text[:end - 1] if mark else text)
    return [fault if size >= end else "ok %d" % sizes[size] if size in sizes else None for size in range(len(text) + 1)]


def example_batches(text):
    """The sizes of the fronts of a text, in runs that have about so many bytes as are asked for at once."""
    run, asked = [], 0
    for size in range(len(text) + 1):
        run.append(size)
        asked += size
        if asked >= ASKED_BYTES:
            yield run
            run, asked = [], 0
    yield run


def example_result(probe, folder, path):
    """How many fronts of an example passed and failed."""
    text = (ROOT / path).read_bytes()
    wants, failed = example_wants(folder, path, text), 0
    for sizes in example_batches(text):
        got = answers(probe, [CALLS[folder] + " " + word(text[:size]) for size in sizes])
        if len(got) != len(sizes):
            sys.exit("%s gave %d answers to %d fronts of %s" % (probe, len(got), len(sizes), path))
        for size, is_ in zip(sizes, got):
            want = wants[size]
            if not (is_right(want, is_) if want else is_cut_fault(folder, text[:size], is_)):
                print("%s up to byte %d\n  answers `%s`\n  wanted  `%s`" % (path, size, shortened(is_), want or "a fault at its end"))
                failed += 1
    return len(wants) - failed, failed


def examples_result(probe, only):
    """How many fronts of all examples passed and failed."""
    passed = failed = 0
    for folder, globs in EXAMPLES.items():
        for path in sorted(str(path.relative_to(ROOT)) for glob in globs for path in ROOT.glob(glob)):
            if only in path:
                more_passed, more_failed = example_result(probe, folder, path)
                print("%s: %d fronts passed" % (path, more_passed))
                passed, failed = passed + more_passed, failed + more_failed
    return passed, failed, 0


def folder_result(probe, folder, only, cells):
    """How many cases of a folder passed, failed and weren't tried."""
    cases = [case for case in tables.all_cases(folder) if only in str(case)]
    small = tables.Case(folder, "small", [(tables.FIRST_PART[folder], SMALL[folder].encode())], "")
    if answers(probe, [call_of(folder, small, cells)]) == ["unknown"]:
        print("%s has no call `%s` yet: %d cases of tests/%s aren't tried" % (probe, CALLS[folder], len(cases), folder))
        return 0, 0, len(cases)
    got = answers(probe, [call_of(folder, case, cells) for case in cases])
    if len(got) != len(cases):
        sys.exit("%s gave %d answers to %d calls of `%s`" % (probe, len(got), len(cases), CALLS[folder]))
    left = [case for case, is_ in zip(cases, got) if is_ == "unknown"]
    wrong = [(case, is_) for case, is_ in zip(cases, got) if is_ != "unknown" and not is_right(wanted_answer(folder, case), is_)]
    for case in left:
        print("%s\n  isn't tried: the answer is `unknown`" % case)
    for case, is_ in wrong:
        print("%s\n  answers `%s`\n  wanted  `%s`" % (case, shortened(is_), shortened(wanted_answer(folder, case))))
    passed = len(cases) - len(left) - len(wrong)
    fronts_passed, fronts_failed = cut_result(probe, folder, cases)
    print("tests/%s: %d cases and %d fronts passed" % (folder, passed, fronts_passed))
    return passed + fronts_passed, len(wrong) + fronts_failed, len(left)


def main():
    words = argparse.ArgumentParser(description=__doc__, formatter_class=argparse.RawDescriptionHelpFormatter)
    words.add_argument("probe")
    words.add_argument("--only", default="", help="only cases with this in their table or name, and examples with this in their path")
    given = words.parse_args()
    cells = (tables.HERE / "designs" / "cells.lib").read_bytes()
    results = [folder_result(given.probe, folder, given.only, cells) for folder in tables.FOLDERS]
    results.append(examples_result(given.probe, given.only))
    passed, failed, left = (sum(column) for column in zip(*results))
    print("%d cases passed, %d failed, %d not tried" % (passed, failed, left))
    sys.exit(1 if failed else 0)


if __name__ == "__main__":
    main()
