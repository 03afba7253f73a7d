#!/usr/bin/env python3
"""Runs the commands that bindings/README.md shows, and compares what they print with what the page says.

    ARROW_TYPES_LIB=FOLDER python3 bindings/page.py

Each block of commands is run, in the folder that the words before it name, but for those that prove; where a block of text
follows behind the word 'prints', that is what they must print. HOME is a folder of their own. The library is that of
FOLDER, where the page has target/staticlib.
"""

import os
import pathlib
import re
import shutil
import subprocess
import sys
import tempfile

BINDINGS = pathlib.Path(__file__).resolve().parent
ROOT = BINDINGS.parent
BLOCK = re.compile(r"^```(\w+)\n(.*?)^```$", re.M | re.S)
# What builds and tests the library is not run from here.
NOT_HERE = ("rt ", "bash bindings/test")


def blocks(page):
    """Each block of commands, with the words before it and what it is to print, or None."""
    found = list(BLOCK.finditer(page))
    ends = [0, *(match.end() for match in found)]
    for match, before, behind in zip(found, ends, [*found[1:], None]):
        if match.group(1) == "sh":
            is_told = behind and behind.group(1) == "text" and page[match.end():behind.start()].strip() == "prints"
            yield match.group(2), page[before:match.start()], behind.group(2) if is_told else None


def run(commands, words, told, home):
    """Whether the commands do what the page says, and what they print. Where it says nothing, each must succeed."""
    library = os.environ["ARROW_TYPES_LIB"]
    folder = BINDINGS / "rust" if words.rstrip().endswith("in `rust/`,") or "In `rust/`," in words else ROOT
    environment = {name: value for name, value in os.environ.items() if name != "CARGO_TARGET_DIR"}
    # cargo and rustup keep what they know in HOME
    for name, place in [("CARGO_HOME", ".cargo"), ("RUSTUP_HOME", ".rustup")]:
        environment.setdefault(name, str(pathlib.Path.home() / place))
    environment |= {"HOME": home, "ARROW_TYPES_LIB": library}
    script = commands.replace("target/staticlib", library)
    shell = ["bash", "-euc" if told is None else "-uc", script]
    done = subprocess.run(shell, cwd=folder, env=environment, stdout=subprocess.PIPE, text=True, timeout=600)
    return done.returncode == 0 if told is None else done.stdout == told, done.stdout


def main():
    page = (BINDINGS / "README.md").read_text(encoding="utf8")
    (ROOT / "target").mkdir(exist_ok=True)
    ran = faults = 0
    with tempfile.TemporaryDirectory() as home:
        for commands, words, told in blocks(page):
            if commands.startswith(NOT_HERE):
                continue
            if "pkg-config" in commands and not shutil.which("pkg-config"):
                print("page: there is no pkg-config here; the commands that need it are left out")
                continue
            good, printed = run(commands, words, told, home)
            ran += 1
            if not good:
                faults += 1
                print(f"page: what bindings/README.md says of\n{commands}is not so; printed is\n{printed}")
    print(f"page: {ran} blocks of commands of bindings/README.md run, {faults} of them wrong")
    return faults > 0 or ran < 4


if __name__ == "__main__":
    sys.exit(main())
