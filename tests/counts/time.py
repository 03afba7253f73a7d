#!/usr/bin/env python3
"""Times the monthly count beside the same program over the Rust and beside the line program, on a million lines and on each
sort of them alone, and compares what the two count.

    python3 tests/counts/time.py [LINES]

The programs must be built: `bash tests/build program`, and in tests/compare `cargo build --profile speed --offline`. Files go
to target/lines. Seconds, the fastest of five runs of each in turn.
"""

import pathlib
import re
import sys

ROOT = pathlib.Path(__file__).resolve().parents[2]
sys.path[:0] = [str(ROOT / "tests"), str(ROOT / "tests" / "lines")]
import mix  # noqa: E402
import needs  # noqa: E402
from time import perf_counter  # noqa: E402
import subprocess  # noqa: E402

FILES = ROOT / "target" / "lines"
PORT = [ROOT / "target" / "bin" / "type_counts"]
LINES = [ROOT / "target" / "bin" / "type_lines"]
RUST = [ROOT / "tests" / "compare" / "target" / "speed" / "compare", "counts"]
SORTS = [("the mix", None), ("its Structs alone", mix.columns_text), ("its timestamps alone", mix.zone_text)]
SORTS += [("its refused lines alone", mix.refused_text)]
ROUNDS = 5


def seconds(command, lines, printed):
    began = perf_counter()
    with open(lines, "rb") as source, open(printed, "wb") as sink:
        subprocess.run(command, stdin=source, stdout=sink, check=True)
    return perf_counter() - began


def by_numbers(report):
    """The port's report with the refused lines counted together, as the Rust's has them."""
    refused = [int(count) for count in re.findall(rb"^no \d+ (\d+)$", report, re.MULTILINE)]
    rest = re.sub(rb"^no .*\n", b"", report, flags=re.MULTILINE)
    together = b"no ? %d\n" % sum(refused) if refused else b""
    return re.sub(rb"^(ok \d+\n)", rb"\1" + together, rest, flags=re.MULTILINE)


def main():
    needs.path(PORT[0], "`bash tests/build program` builds it.")
    needs.path(LINES[0], "`bash tests/build program` builds it.")
    needs.path(RUST[0], "`cargo build --profile speed --offline` in tests/compare builds it.")
    FILES.mkdir(parents=True, exist_ok=True)
    mixed = list(mix.mixed(int(sys.argv[1]) if len(sys.argv) > 1 else 1_000_000))
    port, rust, answers = FILES / "port", FILES / "rust", FILES / "answers"
    different = 0
    for name, sort in SORTS:
        texts = [text for kind, text in mixed if sort in (None, kind)]
        lines = FILES / "lines"
        size = lines.write_text("".join(text + "\n" for text in texts), encoding="ascii")
        rounds = [(seconds(RUST, lines, rust), seconds(LINES, lines, answers), seconds(PORT, lines, port)) for _ in range(ROUNDS)]
        slow, line_time, fast = (min(times) for times in zip(*rounds))
        row = f"{slow:.2f} | {line_time:.2f} | {fast:.2f} | {slow / fast:.1f} | {fast / line_time:.2f}"
        print(f"| {name}, {len(texts):,} lines, {size:,} bytes | {row} |", flush=True)
        if by_numbers(port.read_bytes()) != rust.read_bytes():
            print(f"{name}: the two count differently")
            different += 1
    return 1 if different else 0


if __name__ == "__main__":
    sys.exit(main())
