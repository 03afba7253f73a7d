#!/usr/bin/env python3
"""Compares the answers of the line program with those of `compare lines`, which tells no refusal's number or place.

    python3 tests/lines/same.py PORT RUST [REFUSALS]

REFUSALS has for each line the answer that it is to be refused with, or nothing (mix.py); without it a refused line must at
least have a number of the reader and a place. The Rust prints microseconds as `µs` and the line program as `us`, so the
Rust's units, and nothing else, are respelled before the bytes are compared. Prints how many lines both accepted with the
same bytes, how many with `us` for `µs`, how many both refused, and how many differ, with the first that does. The exit
status is 1 if any does.
"""

import collections
import itertools
import pathlib
import re
import sys

sys.path.insert(0, str(pathlib.Path(__file__).resolve().parents[1]))
import needs  # noqa: E402


# A refusal of the reader, 1 to 16, and its place.
REFUSED = re.compile(rb"no (?:[1-9]|1[0-6]) (?:0|[1-9][0-9]{0,4})\n")


SAME = "accepted by both, same bytes"
RESPELLED = "accepted by both, us for µs"
REFUSED_BY_BOTH = "refused by both"
DIFFERENT = "different"

# A string in quote marks, in which no unit stands, or the start of a unit of microseconds.
STRING_OR_UNIT = re.compile(r"""("(?:[^"\\]|\\.)*"|'(?:[^'\\]|\\.)*')|\(µs(?=[,)])""".encode())


def respelled(rust):
    """The Rust's answer with its units as the line program spells them."""
    return STRING_OR_UNIT.sub(lambda found: found[1] or b"(us", rust)


def verdict(port, rust, refusal=None):
    """Of one line: the port's answer, the Rust's, and the refusal that is expected, if it is known."""
    if port is None or rust is None:
        return DIFFERENT
    if rust == b"no ?\n":
        refused = REFUSED.fullmatch(port) and refusal in (None, port)
        return REFUSED_BY_BOTH if refused else DIFFERENT
    if not port.startswith(b"ok ") or port != respelled(rust):
        return DIFFERENT
    return SAME if port == rust else RESPELLED


def compare(port_path, rust_path, refusals=None):
    """Prints the counts, and answers how many lines differ."""
    counts = collections.Counter({SAME: 0, RESPELLED: 0, REFUSED_BY_BOTH: 0, DIFFERENT: 0})
    known = [] if refusals is None else [refusals.encode().splitlines(keepends=True)]
    with open(port_path, "rb") as ports, open(rust_path, "rb") as rusts:
        for number, (port, rust, *refusal) in enumerate(itertools.zip_longest(ports, rusts, *known), 1):
            found = verdict(port, rust, *refusal)
            if found == DIFFERENT and not counts[found]:
                print(f"line {number}: {port!r} and {rust!r}")
            counts[found] += 1
    for found, count in counts.items():
        print(f"{count:>9} {found}")
    return counts[DIFFERENT]


if __name__ == "__main__":
    if len(sys.argv) not in (3, 4):
        needs.complain("it takes two files, the answers of the port and those of `compare lines`, and may take the refusals.")
        sys.exit(2)
    for name in sys.argv[1:]:
        needs.path(name, "tests/lines/time.py writes such files to target/lines.")
    refusals = pathlib.Path(sys.argv[3]).read_text(encoding="ascii") if len(sys.argv) == 4 else None
    sys.exit(1 if compare(sys.argv[1], sys.argv[2], refusals) else 0)
