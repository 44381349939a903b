"""Checks single calls: each line of tests/calls/*.txt that begins with `> ` goes to the program `probe`, and the line
behind it is the answer that was worked out by hand. Then, for many conditions, that the set that is built has exactly
the states that are listed.

    calls.py PROBE
"""
import itertools
import pathlib
import subprocess
import sys

HERE = pathlib.Path(__file__).parent
LISTS = [["off", "700000", "900000"], ["off", "800000", "900000"], ["off", "900000", "1000000"]]
CONDITIONS = """true
is:1:900000
is:1:off
is:0:800000
on:2
apart:0:1:100000
apart:0:1:99999
apart:1:0:0
apart:1:0:100000
apart:0:2:200000
apart:1:1:0
apart:2:1:0
on:1 not
all:0
any:0
on:0 is:1:800000 all:2
on:0 not on:2 any:2
true is:0:off is:2:1000000 any:2 apart:1:2:0 all:3
on:0 on:1 all:2 not on:2 any:2 not
apart:0:2:0 apart:2:0:0 any:2 not on:0 on:2 all:3""".split("\n")


def answers(probe, calls):
    """What the program answers to the calls, a line each."""
    done = subprocess.run([probe], input="\n".join(calls) + "\n", capture_output=True, text=True, timeout=100)
    if done.returncode != 0:
        sys.exit(f"{probe} ended with {done.returncode}: {done.stderr}")
    return done.stdout.split("\n")[:-1]


def table_of(path):
    """The calls of a file with their answers."""
    lines = [line for line in path.read_text().split("\n") if line and not line.startswith("#")]
    calls = [line[1:].strip() for line in lines if line.startswith(">")]
    wanted = [line for line in lines if not line.startswith(">")]
    if len(calls) != len(wanted):
        sys.exit(f"{path}: {len(calls)} calls have {len(wanted)} answers")
    return list(zip(calls, wanted))


def table_faults(probe, path):
    rows = table_of(path)
    got = answers(probe, [call for call, _ in rows])
    faults = [f"{path.name}: `{call}` answers `{is_}`, not `{want}`"
              for (call, want), is_ in itertools.zip_longest(rows, got, fillvalue=("", "")) if is_ != want]
    return len(rows), faults


def set_faults(probe):
    """Whether each set that is built holds exactly the states that are listed."""
    faults, count = [], 0
    indices = list(itertools.product(range(3), repeat=3))
    for condition in CONDITIONS:
        calls = ["supplies"] + ["supply " + " ".join(values) for values in LISTS] + ["table 1000 3 3"]
        number = answers(probe, calls + ["build " + condition])[-1]
        asked = [f"holds {number} {a} {b} {c}" for a, b, c in indices]
        got = answers(probe, calls + ["build " + condition, "legal " + condition] + asked)
        legal = {tuple(state.split()) for state in got[len(calls) + 1].split(";")[:-1]}
        for (a, b, c), held in zip(indices, got[len(calls) + 2:]):
            count += 1
            if held != ("true" if (LISTS[0][a], LISTS[1][b], LISTS[2][c]) in legal else "false"):
                faults.append(f"`{condition}` at {a} {b} {c}: {held}")
    return count, faults


def main():
    probe = sys.argv[1]
    count, faults = set_faults(probe)
    for path in sorted((HERE / "calls").glob("*.txt")):
        rows, wrong = table_faults(probe, path)
        count, faults = count + rows, faults + wrong
    for fault in faults:
        print(fault)
    print(f"{count - len(faults)} calls passed, {len(faults)} failed")
    sys.exit(1 if faults else 0)


main()
