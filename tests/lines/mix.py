#!/usr/bin/env python3
"""Writes lines for timing the line program to standard output.

    python3 tests/lines/mix.py [LINES [SEED]]

Of ten lines four are Structs of eleven columns, three are timestamps with a zone, and three are refused, each by
another fault, whose number and place are known. Names, zones and numbers are drawn anew for each line.
"""

import random
import sys

ZONES = ["CET", "UTC", "+02:00", "Europe/Oslo", "America/Argentina/Buenos_Aires"]
UNITS = ["s", "ms", "us", "ns", "Second", "Millisecond"]


def zone_text(draw):
    form = draw.choice(['Timestamp({}, "{}")', 'Timestamp({}, Some("{}"))'])
    return form.format(draw.choice(UNITS), draw.choice(ZONES))


def columns_text(draw):
    number = draw.randrange(1000)
    return (
        f'Struct("slot{number}": non-null {zone_text(draw)}, "tenant": non-null UInt64, "unit": non-null Utf8, '
        f'"meter{number}": Dictionary(Int32, Utf8), "energy": non-null Decimal128({draw.randrange(18, 39)}, 4), '
        f'"tariff": non-null Decimal64({draw.randrange(9, 19)}, {draw.randrange(-9, 9)}), "outdoor": Float32, '
        f'"flow": Float32, "modes": List(UInt8), '
        f'"alarms": Map("entries": non-null Struct("key": non-null Utf8, "value": Utf8), unsorted), '
        f'"state": RunEndEncoded("run_ends": non-null Int32, "values": UInt8))'
    )


def refused_text(draw):
    text = columns_text(draw)
    return draw.choice(
        [
            text.replace("unsorted", "unsortedly"),
            text.replace("Float32", "Float33"),
            text.replace(', "flow"', ' "flow"'),
            text[:-1],
            text + " Int8",
            text.replace('"run_ends": non-null', '"run_ends":'),
            "RunEndEncoded(Int32, Utf8)",
            'Timestamp(s, "")',
            "Time32(us)",
            "",
        ]
    )


def refusal(text):
    """The answer to a line that `refused_text` made: the number of its fault, and the place of the last token taken."""
    run_ends = '"run_ends": Int32'
    for fault, number, before in [("unsortedly", 8, 0), ("Float33", 8, 0), ('Float32 "flow"', 9, 8), (run_ends, 13, 12)]:
        if fault in text:
            return f"no {number} {text.index(fault) + before}"
    if text.endswith(") Int8"):
        return f"no 16 {len(text) - 4}"
    short = {"RunEndEncoded(Int32, Utf8)": "no 13 13", 'Timestamp(s, "")': "no 7 13", "Time32(us)": "no 11 7"}
    return short.get(text, f"no 5 {len(text)}")


def mixed(lines, seed=1):
    """Each line with the function that made it."""
    draw = random.Random(seed)
    kinds = [columns_text] * 4 + [zone_text] * 3 + [refused_text] * 3
    for _ in range(lines):
        kind = draw.choice(kinds)
        yield kind, kind(draw)


def refusals(mixed):
    """For each line its answer where it is refused, else an empty one."""
    return "".join((refusal(text) if kind is refused_text else "") + "\n" for kind, text in mixed)


if __name__ == "__main__":
    lines = int(sys.argv[1]) if len(sys.argv) > 1 else 1_000_000
    for _, text in mixed(lines, int(sys.argv[2]) if len(sys.argv) > 2 else 1):
        print(text)
