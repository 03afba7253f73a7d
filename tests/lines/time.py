#!/usr/bin/env python3
"""Times the line program beside the same program over the Rust, on a million lines and on each sort of them alone, and
compares what the two print.

    python3 tests/lines/time.py [LINES]

Both programs must be built: `bash tests/build program`, and in tests/compare `cargo build --profile speed --offline`. Files go
to target/lines. Seconds, the fastest of five runs of each in turn.
"""

import pathlib
import subprocess
import sys
import time

import mix
import same

ROOT = pathlib.Path(__file__).resolve().parents[2]
sys.path.insert(0, str(ROOT / "tests"))
import needs  # noqa: E402

FILES = ROOT / "target" / "lines"
PORT = [ROOT / "target" / "bin" / "type_lines"]
RUST = [ROOT / "tests" / "compare" / "target" / "speed" / "compare", "lines"]
SORTS = [("the mix", None), ("its Structs alone", mix.columns_text), ("its timestamps alone", mix.zone_text)]
SORTS += [("its refused lines alone", mix.refused_text)]
ROUNDS = 5


def seconds(command, lines, answers):
    began = time.perf_counter()
    with open(lines, "rb") as source, open(answers, "wb") as sink:
        subprocess.run(command, stdin=source, stdout=sink, check=True)
    return time.perf_counter() - began


def main():
    needs.path(PORT[0], "`bash tests/build program` builds it.")
    needs.path(RUST[0], "`cargo build --profile speed --offline` in tests/compare builds it.")
    FILES.mkdir(parents=True, exist_ok=True)
    mixed = list(mix.mixed(int(sys.argv[1]) if len(sys.argv) > 1 else 1_000_000))
    port, rust = FILES / "port", FILES / "rust"
    different = 0
    for name, sort in SORTS:
        texts = [text for kind, text in mixed if sort in (None, kind)]
        lines = FILES / "lines"
        size = lines.write_text("".join(text + "\n" for text in texts), encoding="ascii")
        rounds = [(seconds(RUST, lines, rust), seconds(PORT, lines, port)) for _ in range(ROUNDS)]
        slow, fast = (min(times) for times in zip(*rounds))
        print(f"| {name}, {len(texts):,} lines, {size:,} bytes | {slow:.2f} | {fast:.2f} | {slow / fast:.1f} |", flush=True)
        if sort is None:
            refusals = mix.refusals(mixed)
            (FILES / "refusals").write_text(refusals, encoding="ascii")
            different += same.compare(port, rust, refusals)
    return 1 if different else 0


if __name__ == "__main__":
    sys.exit(main())
