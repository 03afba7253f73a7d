#!/usr/bin/env python3
"""Writes texts.report, the report of the stored texts, one to a line: refused lines are counted by the scope's second writing, and
lines, rows and levels of the others by the Rust. `type_counts` has no say.

    python3 tests/counts/store.py

`cargo build --release --offline` in tests/compare must have built the harness.
"""

import collections
import concurrent.futures
import re
import subprocess

from run import ROOT, TEXTS_REPORT, lines, needs, stored_lines

COMPARE = ROOT / "tests" / "compare" / "target" / "release" / "compare"


def compare(command, text):
    return subprocess.run([COMPARE, command], input=text, capture_output=True, check=True).stdout


def refusal(text):
    """The number by which the second writing refuses a text, or none."""
    said = re.search(rb"^model: (?:no (\d+) |\d+ rows)", compare("show", text), re.MULTILINE)
    return said[1] and int(said[1])


def main():
    needs.path(COMPARE, "`cargo build --release --offline` in tests/compare builds it.")
    texts = stored_lines()
    with concurrent.futures.ThreadPoolExecutor(2) as threads:
        numbers = list(threads.map(refusal, texts))
    accepted = [text for text, number in zip(texts, numbers) if number is None]
    counted, ok, *rest = compare("counts", b"".join(text + b"\n" for text in accepted)).decode().splitlines()
    if (counted, ok) != (f"lines {len(accepted)}", f"ok {len(accepted)}"):
        raise SystemExit(f"of {len(accepted)} lines that the second writing accepts the Rust has: {counted}, {ok}")
    refused = collections.Counter(number for number in numbers if number is not None)
    no = [f"no {number} {refused[number]}" for number in sorted(refused)]
    TEXTS_REPORT.write_bytes(lines(f"lines {len(texts)}", ok, *no, *rest))


if __name__ == "__main__":
    main()
