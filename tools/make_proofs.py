#!/usr/bin/env python3
"""Writes the proof files that a crate lacks, as `rt check` proposes them where its tactics leave a goal open.

    python3 tools/make_proofs.py CRATE [--lines]

Each goal that is left is a `?`, as are invariants and measures; `rt check --allow-holes` shows what is to be proved there.
No file is written over. With --lines each goal keeps the line of the code that it comes from, which goes stale with the
next edit.
"""

import pathlib
import re
import subprocess
import sys

ROOT = pathlib.Path(__file__).resolve().parents[1]
PROPOSED = re.compile(r"^help: write (\S+) with these lines", re.M)


def proposals(said):
    """Path and text of each file that rt proposes: the indented lines behind its path."""
    for match in PROPOSED.finditer(said):
        lines = []
        for line in said[match.end() :].split("\n")[1:]:
            if line.strip() and not line.startswith("    "):
                break
            lines.append(line[4:])
        yield match.group(1), "\n".join(lines).rstrip("\n") + "\n"


def skeleton(text, keep_lines=False):
    """A proposed text, without the lines that name places in the code."""
    return text if keep_lines else re.sub(r"^[ \t]*-- src/\S+\n", "", text, flags=re.M)


def main():
    names = [word for word in sys.argv[1:] if word != "--lines"]
    if len(names) != 1:
        sys.exit(__doc__)
    crate = ROOT / "crates" / names[0]
    if not crate.is_dir():
        sys.exit(f"{sys.argv[0]}: there is no crate {names[0]}.")
    run = subprocess.run(["rt", "check", "--allow-holes"], cwd=crate, capture_output=True, text=True)
    for name, text in proposals(run.stdout + run.stderr):
        path = crate / name
        if not path.exists():
            path.parent.mkdir(parents=True, exist_ok=True)
            path.write_text(skeleton(text, "--lines" in sys.argv), encoding="utf8")
            print(f"wrote {path.relative_to(ROOT)}")


if __name__ == "__main__":
    main()
