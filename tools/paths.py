#!/usr/bin/env python3
"""Lists what is known at the holes of a function, each thing with its path, as `rt check --allow-holes` prints it.

    python3 tools/paths.py CRATE FUNCTION [GOAL..]

FUNCTION is the function's folder under crates/CRATE/proofs, such as field/equal_bytes. A hole is a `?` that stands for an
answer in its Answers.antt.
"""

import pathlib
import re
import subprocess
import sys

ROOT = pathlib.Path(__file__).resolve().parents[1]
SHOWN = 200
HOLE = re.compile(r"goal \? in `([^`]+)`")


def shorter(line):
    """A line without the names of the modules that everything comes from."""
    line = re.sub(r"\{A = [^}]*\} ?", "", line)
    return re.sub(r"\b[A-Za-z_]\w*'?\.(?=[A-Z]\w*\.|[^\s\w])", "", line)[:SHOWN]


def holes(said):
    """Each hole with the lines that rt prints of it: the goal, and what is known."""
    name, lines = None, []
    for line in said.split("\n"):
        found = HOLE.search(line)
        if (found or not line.startswith("  ")) and name:
            yield name, lines
            name = None
        if found:
            name, lines = found.group(1), []
        elif name:
            lines.append(line)


def main():
    if len(sys.argv) < 3:
        sys.exit(__doc__)
    crate, function = sys.argv[1], sys.argv[2].replace("/", "::").replace("+", "")
    command = ["rt", "check", "--only", f"{crate}::{function}", "--allow-holes"]
    run = subprocess.run(command, cwd=ROOT / "crates" / crate, capture_output=True, text=True)
    said = run.stdout + run.stderr
    if not re.search(r"^only=[1-9]", said, re.M):
        sys.exit(f"crates/{crate} has no function {sys.argv[2]}, or its check did not get that far.")
    found = list(holes(said))
    for goal in sys.argv[3:]:
        if goal not in (name for name, _ in found):
            sys.exit(f"There is no hole {goal}; there are {', '.join(name for name, _ in found) or 'none'}.")
    for name, lines in found:
        if name in (sys.argv[3:] or [name]):
            print(name, *map(shorter, lines), sep="\n")


if __name__ == "__main__":
    main()
