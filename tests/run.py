#!/usr/bin/env python3
"""Runs the cases of tests/cases on a built program.

  tests/run.py PROGRAM [--only TEXT] [--small] [--list] [--jobs N] [--limit SECONDS]

PROGRAM is a path, or a command line in one word. Each case runs in a folder of its own, which holds its files. The
last line is 'N passed, M failed', and the exit status is 1 where a case fails. --small leaves out the big cases, which
make files of 64 MiB and run one after the other; so does a machine with less than 4 GB of free memory.
"""
import argparse
import os
import shlex
import shutil
import subprocess
import sys
import tempfile
import time
from concurrent.futures import ThreadPoolExecutor

sys.path.insert(0, os.path.dirname(os.path.abspath(__file__)))
from cases import CASES  # noqa: E402
from cases.base import FOLDER, MEMORY, Made, Sparse  # noqa: E402

# A start in Python, which then becomes the program. It ignores SIGPIPE and SIGXFSZ, as Python does, and so does the
# program: writes fail, and end nothing.
START = "import os, sys; exec(sys.argv[1]); os.execv(sys.argv[2], sys.argv[2:])"
CLOSE_OUT, CLOSE_ERR = "os.close(1)", "os.close(2)"
FILE_SIZE = "import resource; resource.setrlimit(resource.RLIMIT_FSIZE, (%d, %d))"
MEMORY_SIZE = "import resource; resource.setrlimit(resource.RLIMIT_AS, (%d, %d))"
NEEDED_MEMORY = 4 << 30


def write_file(path, content):
    if content is FOLDER:
        os.mkdir(path)
        return
    with open(path, "wb") as f:
        if isinstance(content, Sparse):
            f.truncate(content.size)
        elif isinstance(content, Made):
            for part in content.parts():
                f.write(part)
        else:
            f.write(content)


def write_files(folder, files):
    for name, content in files.items():
        path = os.path.join(folder, name)
        os.makedirs(os.path.dirname(path), exist_ok=True)
        write_file(path, content)


class Streams:
    """Standard output and error of a case, and how it starts, by its `how`.

    That is nothing special, or `out full`, `err full` or `both full`: a full device; `out closed`, `err closed`; `out
    broken`: a pipe that nobody reads; `out to N`: a file that takes N bytes; `memory N`: N megabytes of memory.
    """

    def __init__(self, how, folder):
        self.start, self.out, self.err, self.file = None, subprocess.PIPE, subprocess.PIPE, None
        self.open = []
        how = how or ""
        if how in ("out full", "both full"):
            self.out = self.full()
        if how in ("err full", "both full"):
            self.err = self.full()
        if how == "out closed":
            self.start, self.out = CLOSE_OUT, subprocess.DEVNULL
        if how == "err closed":
            self.start, self.err = CLOSE_ERR, subprocess.DEVNULL
        if how == "out broken":
            reader, writer = os.pipe()
            os.close(reader)
            self.start, self.out = "pass", writer
            self.open.append(writer)
        if how.startswith("memory "):
            size = int(how[len("memory "):]) << 20
            self.start = MEMORY_SIZE % (size, size)
        if how.startswith("out to "):
            size = int(how[len("out to "):])
            self.file = os.path.join(folder, b"..", b"out")
            handle = open(self.file, "wb")
            self.start, self.out = FILE_SIZE % (size, size), handle
            self.open.append(handle)

    def full(self):
        handle = open("/dev/full", "wb")
        self.open.append(handle)
        return handle

    def close(self):
        for it in self.open:
            os.close(it) if isinstance(it, int) else it.close()


def run_in(folder, case, program, limit):
    """The exit status, standard output and standard error of a case."""
    words = [word.replace(b"{folder}", folder) for word in case.words]
    streams = Streams(case.how, folder)
    command = program + words
    if streams.start is not None:
        command = [sys.executable, "-c", START, streams.start] + command
    try:
        ran = subprocess.run(command, cwd=folder, stdin=subprocess.DEVNULL, stdout=streams.out, stderr=streams.err,
                             timeout=limit)
        status, out, err = ran.returncode, ran.stdout or b"", ran.stderr or b""
    except subprocess.TimeoutExpired:
        status, out, err = "none after %g seconds" % limit, b"", b""
    finally:
        streams.close()
    if streams.file:
        with open(streams.file, "rb") as f:
            out = f.read()
    return status, out, err


def shown(value):
    if isinstance(value, bytes) and len(value) > 600:
        return "%r .. %r (%d bytes)" % (value[:300], value[-200:], len(value))
    return repr(value)


def is_memory(case, have):
    """Whether a case that has little memory ended for want of it, with a part of its output at most."""
    status, out, err = have
    return ((case.how or "").startswith("memory ") and status == MEMORY and case.out.startswith(out)
            and b"upfsign: memory\n".startswith(err))


def run_case(case, program, limit):
    """What is wrong with a run of the case, which is nothing where it passes."""
    room = os.fsencode(tempfile.mkdtemp(prefix="upfsign-"))
    try:
        folder = os.path.join(room, b"job")
        os.mkdir(folder)
        write_files(folder, case.files)
        have = run_in(folder, case, program, limit)
    finally:
        shutil.rmtree(room, ignore_errors=True)
    want = case.status, case.out, case.err
    if is_memory(case, have):
        return []
    return ["  %s is    %s\n  %s wanted %s" % (what, shown(h), " " * len(what), shown(w))
            for what, h, w in zip(("status", "output", "error"), have, want) if h != w]


def free_memory():
    """Bytes of memory that can be had, where the system tells."""
    try:
        with open("/proc/meminfo") as f:
            found = dict(line.split(":") for line in f)
        return int(found["MemAvailable"].split()[0]) * 1024
    except (OSError, KeyError, ValueError):
        return NEEDED_MEMORY


def chosen(options):
    cases = [case for case in CASES if options.only in case.name]
    left = []
    if options.small or free_memory() < NEEDED_MEMORY:
        left = [case for case in cases if case.big]
        cases = [case for case in cases if not case.big]
    if not os.path.exists("/dev/full"):
        left += [case for case in cases if "full" in (case.how or "")]
        cases = [case for case in cases if "full" not in (case.how or "")]
    return cases, left


def main():
    parser = argparse.ArgumentParser()
    parser.add_argument("program")
    parser.add_argument("--only", default="", help="only the cases whose names have this text")
    parser.add_argument("--small", action="store_true", help="without the big cases")
    parser.add_argument("--list", action="store_true", help="print the names of the cases alone")
    parser.add_argument("--jobs", type=int, default=os.cpu_count() or 1)
    parser.add_argument("--limit", type=float, default=60, help="seconds for each case")
    options = parser.parse_args()
    cases, left = chosen(options)
    if options.list:
        for case in cases:
            print(case.name)
        return 0
    program = [os.fsencode(os.path.abspath(word) if os.path.exists(word) else shutil.which(word) or word)
               for word in shlex.split(options.program)]
    passed = failed = 0
    begun = time.monotonic()

    def tell(case, wrong):
        nonlocal passed, failed
        if not wrong:
            passed += 1
            return
        failed += 1
        print("FAILED: %s\n%s" % (case.name, "\n".join(wrong)), flush=True)

    small = [case for case in cases if not case.big]
    with ThreadPoolExecutor(max(1, options.jobs)) as pool:
        for case, wrong in zip(small, pool.map(lambda it: run_case(it, program, options.limit), small)):
            tell(case, wrong)
    for case in cases:
        if case.big:
            tell(case, run_case(case, program, options.limit))
    if left:
        print("left out: %d cases" % len(left))
    print("%.1f seconds" % (time.monotonic() - begun))
    print("%d passed, %d failed" % (passed, failed))
    return 1 if failed else 0


if __name__ == "__main__":
    sys.exit(main())
