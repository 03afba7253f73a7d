#!/usr/bin/env python3
"""Runs `rt check` in a crate and shows what is left to do: the goals at holes as they are written, and the head of each error.

    python3 tools/show.py CRATE [--allow-holes ..]

The whole of what rt says is kept in target/show.out. SHOW=N in the environment shows N characters of an error.
"""

import os
import pathlib
import re
import subprocess
import sys
import time

ROOT = pathlib.Path(__file__).resolve().parents[1]
# Modules whose names only lengthen what is read.
LIBRARY = re.compile(r"\b(?:mathlib\.Core\.\w+|Prim(?:\.Native\.\w+)?|lib\.\w+|mir\.\w+|denote\.\w+|borrow\.\w+\.\w+)\.")
OWN = re.compile(r"Rattle\.\w+\.(?:specs|proofs)\.(?:[A-Z]\w*\.)?")
VERDICT = re.compile(r"^(?:proved=|only=|holes=|crate )")
GOAL_WIDTH, VERDICT_WIDTH = 700, 160


def shorter(line):
    return OWN.sub("", LIBRARY.sub("", line.replace(f"{ROOT}/crates/", "")))


def goal(lines, at):
    """A goal's head and the lines below it, up to what it was computed from."""
    shown = [lines[at]]
    for line in lines[at + 1 :]:
        if not line.startswith("  ") or not line.strip() or "computed from" in line:
            break
        shown.append(line[:GOAL_WIDTH])
    return shown


def is_failure(line):
    head = line[:200]
    return ("error" in head and "was not admitted" not in line) or "unsolved ?" in head or ("trial run" in head and "was admitted" in line)


def report(said, width):
    """The lines of rt's output that say what is left to do."""
    lines = said.split("\n")
    for at, line in enumerate(lines):
        if "goal ?" in line:
            yield from goal(lines, at)
        elif is_failure(line):
            yield line[:width]
        elif line.startswith("fn ") and not line.endswith((": proved", ": no holes")):
            yield line[:width]
        elif VERDICT.match(line):
            yield line[:VERDICT_WIDTH]


def main():
    if len(sys.argv) < 2:
        sys.exit(__doc__)
    began = time.monotonic()
    crate = ROOT / "crates" / sys.argv[1]
    if not crate.is_dir():
        sys.exit(f"{sys.argv[0]}: there is no crate {sys.argv[1]}.")
    run = subprocess.run(["rt", "check", *sys.argv[2:]], cwd=crate, capture_output=True, text=True)
    said = run.stdout + run.stderr
    (ROOT / "target").mkdir(exist_ok=True)
    (ROOT / "target" / "show.out").write_text(said, encoding="utf8")
    for line in report(said, int(os.environ.get("SHOW", "420"))):
        print(shorter(line))
    print(f"{time.monotonic() - began:.1f} s")
    sys.exit(run.returncode)


if __name__ == "__main__":
    main()
