#!/usr/bin/env python3
"""Tests of the program `type_counts`, run as it is built, and of `arrow-types count`, which prints the same report.

    python3 tests/counts/run.py              # proves and builds it first (tests/build program)
    python3 tests/counts/run.py --built      # runs target/bin/type_counts as it stands
    python3 tests/counts/run.py --service    # runs `arrow-types count` as bindings/test has built it
"""

import collections
import itertools
import os
import pathlib
import re
import subprocess
import sys
import threading
import unittest

ROOT = pathlib.Path(__file__).resolve().parents[2]
sys.path[:0] = [str(ROOT / "tests"), str(ROOT / "tests" / "lines")]
import mix  # noqa: E402
import needs  # noqa: E402

PROGRAM = ROOT / "target" / "bin" / "type_counts"
LINES = ROOT / "target" / "bin" / "type_lines"
TEXTS_REPORT = ROOT / "tests" / "counts" / "texts.report"
SERVICE = ROOT / "bindings" / "rust" / "target" / "release" / "arrow-types"
IS_SERVICE = "--service" in sys.argv
COMMAND = [SERVICE, "count"] if IS_SERVICE else [PROGRAM]
SECONDS = 120
BUFFER = 65_536
MOST = 1_000_000

SAMPLE = b"""Struct("slot": non-null Timestamp(Second), "kwh": Decimal64(12, 3),)
FixedSizeList(4, Int32)
RunEndEncoded(Int32, Utf8)
"""


def run(text, **options):
    return subprocess.run(COMMAND, input=text, capture_output=True, timeout=SECONDS, **options)


def report(text):
    """The report of an input, with the status 0 and nothing on standard error."""
    done = run(text)
    if done.stderr or done.returncode:
        raise AssertionError(f"status {done.returncode}, {done.stderr!r}")
    return done.stdout


def lines(*parts):
    return "".join(f"{part}\n" for part in parts).encode()


def counted(lines, ok, refused=(), kinds=(), deep=0):
    """A report, by what is counted."""
    numbers = [f"no {n} {c}" for n, c in refused] + [f"kind {k} {c}" for k, c in kinds]
    return "".join(f"{line}\n" for line in [f"lines {lines}", f"ok {ok}", *numbers, f"deep {deep}"]).encode()


def stored_texts():
    """The texts of the sample for a replay: of each the words lent, its length and the text, then the answer and its rows."""
    sample = (ROOT / "crates" / "replay" / "data" / "texts").read_bytes()
    at = sample.index(b"\n") + 1
    while at < len(sample):
        head = re.compile(rb"\d+ (\d+) ").match(sample, at)
        end = head.end() + int(head[1])
        yield sample[head.end() : end]
        answer = re.compile(rb"\n\d+ (\d+) \d+\n").match(sample, end)
        at = re.compile(rb"(?:[^\n]*\n){%d}" % int(answer[1])).match(sample, answer.end()).end()


def stored_lines():
    """Those of these texts that can be a line."""
    return [text for text in stored_texts() if b"\n" not in text]


class Reports(unittest.TestCase):
    def test_sample(self):
        kinds = [(4, 1), (13, 1), (29, 1), (32, 1), (36, 1)]
        self.assertEqual(report(SAMPLE), counted(3, 2, [(13, 1)], kinds, 2))

    def test_no_line(self):
        self.assertEqual(report(b""), counted(0, 0))

    def test_empty_line(self):
        self.assertEqual(report(b"\n"), counted(1, 0, [(5, 1)]))
        self.assertEqual(report(b"\n\n"), counted(2, 0, [(5, 2)]))

    def test_last_line(self):
        self.assertEqual(report(b"Int8"), counted(1, 1, [], [(2, 1)], 1))
        self.assertEqual(report(b"Int8\nInt8\n"), counted(2, 2, [], [(2, 2)], 1))
        self.assertEqual(report(b"List(Int8)\nList(Utf8\n"), counted(2, 1, [(5, 1)], [(2, 1), (27, 1)], 2))

    def test_not_printed_is_accepted(self):
        self.assertEqual(report('Struct("д": Int8)'.encode()), counted(1, 1, [], [(2, 1), (32, 1)], 2))

    def test_rows_are_counted(self):
        self.assertEqual(report(b"Dictionary(Int8, Int8)\n"), counted(1, 1, [], [(2, 2), (34, 1)], 2))
        wide = b"Struct(" + b", ".join([b'"a": Int8'] * 1023) + b")\n"
        self.assertEqual(report(wide * 3), counted(3, 3, [], [(2, 3069), (32, 3)], 2))

    def test_deepest_of_the_accepted(self):
        deep = b"List(" * 63 + b"Int8" + b")" * 63
        self.assertEqual(report(b"Int8\n" + deep + b"\nInt8\n"), counted(3, 3, [], [(2, 3), (27, 63)], 64))
        self.assertEqual(report(b"List(" * 64 + b"Int8" + b")" * 64), counted(1, 0, [(3, 1)]))

    def test_a_refusal_of_each_number(self):
        texts = {
            1: b"a" * 16385, 2: b"\xff", 3: b"List(" * 64 + b"Int8", 4: b"Struct(" + b'"a": Int8, ' * 1024 + b")", 5: b"",
            6: b'Struct("', 7: b'Struct(""', 8: b"Int33", 9: b"Struct(,)", 10: b"FixedSizeBinary(-1)", 11: b"Time32(us)",
            12: b"Decimal32(0, 0)", 13: b"RunEndEncoded(Int32, Utf8)", 14: b'Map("e": non-null Int8, sorted)',
            15: b'Union(Dense, -1: ("a": Int8))', 16: b"Int8 Int8",
        }
        text = b"".join(line + b"\n" for line in texts.values())
        self.assertEqual(report(text), counted(16, 0, [(n, 1) for n in range(1, 17)]))

    def test_bytes_of_a_line(self):
        self.assertEqual(report(b"Int8\r\nInt8\0\n"), counted(2, 0, [(8, 2)]))

    def test_too_long_is_one_line(self):
        for size in [16_385, BUFFER - 1, BUFFER, BUFFER + 1, 1_000_000]:
            for text in [b"a" * size, b"a" * size + b"\n", b"a" * size + b"\nInt8\n", b"Int8\n" + b"a" * size]:
                with self.subTest(size=size, text=text[:6] + text[-6:]):
                    ok = int(b"Int8" in text)
                    self.assertEqual(report(text), counted(1 + ok, ok, [(1, 1)], [(2, 1)] * ok, ok))

    def test_over_the_end_of_the_buffer(self):
        for before in range(BUFFER - 12, BUFFER + 3):
            with self.subTest(before=before):
                text = b"Int8\n" * (before // 5) + b" " * (before % 5) + b"Int16\nUtf8\n"
                count = before // 5
                self.assertEqual(report(text), counted(count + 2, count + 2, [], [(2, count), (3, 1), (24, 1)], 1))


class Stored(unittest.TestCase):
    """The stored texts have the report that tests/counts/store.py wrote without the program."""

    def test_stored_texts(self):
        texts = stored_lines()
        self.assertGreater(len(texts), 3000)
        self.assertEqual(report(b"".join(text + b"\n" for text in texts)), TEXTS_REPORT.read_bytes())


class Limit(unittest.TestCase):
    def test_a_million(self):
        self.assertEqual(report(b"\n" * MOST), counted(MOST, 0, [(5, MOST)]))
        self.assertEqual(report(b"\n" * (MOST - 1) + b"Int8"), counted(MOST, 1, [(5, MOST - 1)], [(2, 1)], 1))
        for last in [b"a" * 70_000, b"a" * 70_000 + b"\n"]:
            self.assertEqual(report(b"\n" * (MOST - 1) + last), counted(MOST, 0, [(1, 1), (5, MOST - 1)]))

    def test_a_line_more(self):
        for more in [b"x", b"\n", b"Int8\n", b"a" * 20_000, b"\n" * 1000]:
            with self.subTest(more=more[:5]):
                done = run(b"\n" * MOST + more)
                self.assertEqual((done.returncode, done.stdout, done.stderr), (1, b"no 24\n", b""))

    def test_it_stops_there(self):
        """Of an input that stays open it answers as soon as line 1,000,001 has begun, and one that never ends."""
        child = subprocess.Popen(COMMAND, stdin=subprocess.PIPE, stdout=subprocess.PIPE)
        child.stdin.write(b"\n" * MOST + b"x")
        child.stdin.flush()
        self.assertEqual((child.stdout.read(), child.wait(SECONDS)), (b"no 24\n", 1))
        child.stdin.close()
        child.stdout.close()
        endless = subprocess.Popen(["yes", "Int8"], stdout=subprocess.PIPE)
        done = subprocess.run(COMMAND, stdin=endless.stdout, capture_output=True, timeout=SECONDS)
        endless.stdout.close()
        endless.wait(SECONDS)
        self.assertEqual((done.returncode, done.stdout), (1, b"no 24\n"))


class Pieces(unittest.TestCase):
    """Input that comes in pieces has the same report."""

    def test_pieces(self):
        text = "".join(line + "\n" for _, line in mix.mixed(2000)).encode() + b"a" * 70_000 + b"\nInt8"
        whole = report(text)
        for size in [1009, 4096, 16_384, 65_537]:
            with self.subTest(size=size):
                child = subprocess.Popen(COMMAND, stdin=subprocess.PIPE, stdout=subprocess.PIPE, bufsize=0)
                for at in range(0, len(text), size):
                    child.stdin.write(text[at : at + size])
                child.stdin.close()
                self.assertEqual((child.stdout.read(), child.wait(SECONDS)), (whole, 0))
                child.stdout.close()


class Failures(unittest.TestCase):
    """A read or a write that fails is told on standard error, the status is 2, and there is no report of a part."""

    def assert_failed(self, done, doing, why):
        start = f"{COMMAND[0].name}: {doing}: {why}".encode()
        self.assertRegex(done.stderr, re.escape(start) + rb"( \(os error \d+\))?\n\Z")
        self.assertEqual(done.returncode, 2)

    def test_folder(self):
        folder = os.open(ROOT, os.O_RDONLY)
        try:
            done = subprocess.run(COMMAND, stdin=folder, capture_output=True, timeout=SECONDS)
        finally:
            os.close(folder)
        self.assert_failed(done, "reading standard input", "Is a directory")
        self.assertEqual(done.stdout, b"")

    def test_terminal_that_breaks_off(self):
        try:
            near, far = os.openpty()
        except OSError as error:
            self.skipTest(f"no terminal to be had: {error}")
        child = subprocess.Popen(COMMAND, stdin=far, stdout=subprocess.PIPE, stderr=subprocess.PIPE)
        os.close(far)
        os.write(near, b"Int8\n")
        threading.Timer(0.5, os.close, [near]).start()
        out, told = child.communicate(timeout=SECONDS)
        self.assertEqual(out, b"")
        self.assert_failed(subprocess.CompletedProcess(COMMAND, child.returncode, out, told), "reading standard input", "Input/output error")

    @unittest.skipUnless(os.path.exists("/dev/full"), "no /dev/full")
    def test_full_disk(self):
        for text in [SAMPLE, b"\n" * MOST + b"x"]:
            with open("/dev/full", "wb") as full:
                done = subprocess.run(COMMAND, input=text, stdout=full, stderr=subprocess.PIPE, timeout=SECONDS)
            self.assert_failed(done, "writing standard output", "No space left on device")

    def test_closed_pipe(self):
        near, far = os.pipe()
        os.close(near)
        try:
            done = subprocess.run(COMMAND, input=SAMPLE, stdout=far, stderr=subprocess.PIPE, timeout=SECONDS)
        finally:
            os.close(far)
        self.assert_failed(done, "writing standard output", "Broken pipe")


@unittest.skipIf(IS_SERVICE, "arrow-types takes arguments")
class Arguments(unittest.TestCase):
    LINE = b"type_counts: takes no argument; the lines come from standard input, as in: type_counts < FILE\n"

    def test_arguments(self):
        for arguments in [["FILE"], [""], ["--help"], ["a", "b"], ["a" * 100_000]]:
            with self.subTest(arguments=arguments[0][:8]):
                near, far = os.pipe()
                os.write(far, SAMPLE)
                os.close(far)
                done = subprocess.run([PROGRAM, *arguments], stdin=near, capture_output=True, timeout=SECONDS)
                left = os.read(near, len(SAMPLE) + 1)
                os.close(near)
                self.assertEqual((done.returncode, done.stdout, done.stderr, left), (2, b"", self.LINE, SAMPLE))


@unittest.skipIf(IS_SERVICE, "the command's library asks for memory by itself")
class Memory(unittest.TestCase):
    def most_held(self, pieces):
        """The most memory held, in kB, while the pieces are read."""
        child = subprocess.Popen(COMMAND, stdin=subprocess.PIPE, stdout=subprocess.PIPE)
        for piece in pieces:
            child.stdin.write(piece)
        child.stdin.flush()
        status = pathlib.Path(f"/proc/{child.pid}/status").read_text(encoding="ascii")
        child.stdin.close()
        child.stdout.read()
        child.stdout.close()
        self.assertEqual(child.wait(SECONDS), 0)
        return int(re.search(r"VmHWM:\s+(\d+)", status)[1])

    def test_memory(self):
        line = b"FixedSizeList(4, Int32)" + b" " * 1000 + b"\n"
        for piece, count in [(line * 64, 1), (b"a" * 65_536, 1)]:
            small = self.most_held(itertools.repeat(piece, 16 * count))
            large = self.most_held(itertools.repeat(piece, 1600 * count))
            self.assertLess(large - small, 512)


@unittest.skipUnless(LINES.exists(), "type_lines is not built")
class BesideTheLineProgram(unittest.TestCase):
    """The counts are those of the line program's answers: `no 17` to `no 19` are accepted, and have no place."""

    def assert_same(self, text):
        answers = subprocess.run([LINES], input=text, capture_output=True, timeout=SECONDS, check=True).stdout.split(b"\n")[:-1]
        refused = collections.Counter(int(a.split()[1]) for a in answers if re.fullmatch(rb"no \d+ \d+", a))
        ok = len(answers) - sum(refused.values())
        found = report(text).decode().splitlines()
        head = [f"lines {len(answers)}", f"ok {ok}"] + [f"no {n} {refused[n]}" for n in sorted(refused)]
        self.assertEqual(found[: len(head)], head)
        if not any(re.fullmatch(rb"no \d+", a) for a in answers):
            deep = max((int(a.split()[2]) for a in answers if a.startswith(b"ok ")), default=0)
            rows = sum(int(a.split()[1]) for a in answers if a.startswith(b"ok "))
            self.assertEqual(found[-1], f"deep {deep}")
            self.assertEqual(sum(int(line.split()[2]) for line in found if line.startswith("kind ")), rows)

    def test_stored_texts(self):
        self.assert_same(b"".join(text + b"\n" for text in stored_lines()))

    def test_mixed(self):
        self.assert_same("".join(line + "\n" for _, line in mix.mixed(100_000)).encode())


def main():
    if IS_SERVICE:
        needs.path(SERVICE, "`bash bindings/test` builds it.")
    elif "--built" not in sys.argv:
        needs.tools("rt")
        subprocess.run(["bash", ROOT / "tests" / "build", "program"], check=True)
    else:
        needs.path(PROGRAM, "`bash tests/build program` builds it.")
    unittest.main(argv=[sys.argv[0]] + [a for a in sys.argv[1:] if a not in ("--built", "--service")])


if __name__ == "__main__":
    main()
