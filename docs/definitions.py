"""Keeps the tables of docs/DEFINITIONS.md in step with the definitions: each file of specs/ with its first comment and
its words, crate by crate in the order of crates.txt.

    definitions.py            fails where the tables are not in step
    definitions.py --write    writes them
"""
import pathlib
import re
import sys

TOP = pathlib.Path(__file__).resolve().parent.parent
PAGE = TOP / "docs" / "DEFINITIONS.md"
MARK = "<!-- the tables below are written by docs/definitions.py -->\n"
WORD = re.compile(r"^(?:(?:abbrev |unfoldable )?pub (?:record |data |ruleset )?|  (?:(?:abbrev|unfoldable) pub |pub (?:record|data) ))([^\s:({]+)", re.M)


def crates():
    """The crates by heading, in their order."""
    heading = ""
    for line in (TOP / "crates.txt").read_text().split("\n"):
        if line.startswith("# "):
            heading = line[2:]
        elif ":" in line:
            yield heading, line.split(":")[0].split()[0]


def row(path):
    text = path.read_text()
    head = re.match(r"(?:--[^\n]*\n)+", text)
    about = " ".join(line[2:].strip() for line in head.group(0).strip().split("\n")) if head else ""
    words = [word for word in WORD.findall(text) if word not in ("mod", "use")]
    return f"| `{path.stem}` | {about} | {', '.join(f'`{word}`' for word in words)} |"


def tables():
    last = None
    for heading, crate in crates():
        files = sorted(path for path in (TOP / "crates" / crate / "specs").glob("*.antt") if path.stem != "Lib")
        if not files:
            continue
        if heading != last:
            yield f"\n## {heading[:1].upper()}{heading[1:]}\n"
            last = heading
        yield f"\n### {crate}\n\n| file | what it says | words |\n|---|---|---|\n"
        for path in files:
            yield row(path) + "\n"


def main():
    page = PAGE.read_text()
    if MARK not in page:
        sys.exit(f"{PAGE} has no line {MARK.strip()}")
    wanted = page[:page.index(MARK)] + MARK + "".join(tables())
    if sys.argv[1:] == ["--write"]:
        PAGE.write_text(wanted)
    elif page != wanted:
        sys.exit("docs/DEFINITIONS.md is not in step with the definitions: python3 docs/definitions.py --write")


main()
