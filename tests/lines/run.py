#!/usr/bin/env python3
"""Tests of the line program `type_lines`, run as it is built, and of `arrow-types lines`, which answers the same bytes.

    python3 tests/lines/run.py              # proves and builds it first (tests/build program)
    python3 tests/lines/run.py --built      # runs target/bin/type_lines as it stands
    python3 tests/lines/run.py --service    # runs `arrow-types lines` as bindings/test has built it
"""

import os
import pathlib
import random
import re
import subprocess
import sys
import threading
import tty
import unittest

import mix
import same

ROOT = pathlib.Path(__file__).resolve().parents[2]
sys.path.insert(0, str(ROOT / "tests"))
import needs  # noqa: E402

PROGRAM = ROOT / "target" / "bin" / "type_lines"
SERVICE = ROOT / "bindings" / "rust" / "target" / "release" / "arrow-types"
IS_SERVICE = "--service" in sys.argv
COMMAND = [SERVICE, "lines"] if IS_SERVICE else [PROGRAM]
SECONDS = 60

SAMPLE = b"""Struct("slot": non-null Timestamp(Second), "kwh": Decimal64(12, 3),)
FixedSizeList(4, Int32)
RunEndEncoded(Int32, Utf8)
"""
SAMPLE_ANSWERS = b"""ok 3 2 Struct("slot": non-null Timestamp(s), "kwh": Decimal64(12, 3))
ok 2 2 FixedSizeList(4 x Int32)
no 13 13
"""

# The answer to a line over 16,384 bytes.
TOO_LONG = b"no 1 16384\n"


def run(text, **options):
    return subprocess.run(COMMAND, input=text, capture_output=True, timeout=SECONDS, **options)


def status_of(answers):
    """The exit status that goes with answers: that of `arrow-types` is 1 where a line was refused, else it is 0."""
    return int(IS_SERVICE and any(line.startswith(b"no ") for line in answers.split(b"\n")))


def answers(text):
    """What is printed for an input, be it refused, with the status 0 and nothing on standard error."""
    done = run(text)
    if done.stderr or done.returncode != status_of(done.stdout):
        raise AssertionError(f"status {done.returncode}, {done.stderr!r}")
    return done.stdout


def struct_line(letters, before, behind):
    """A line of one Struct, with spaces around it, and its answer."""
    text = b'Struct("%s": Int8)' % letters
    return b" " * before + text + b" " * behind, b"ok 2 2 " + text + b"\n"


def mixed_lines(count, seed):
    """Lines of every length up to that of a text and beyond, each with its answer."""
    draw = random.Random(seed)
    refused = [(b"", b"no 5 0\n"), (b"Int33", b"no 8 0\n"), (b"Struct(,)", b"no 9 7\n")]
    refused += [(b"\xff", b"no 2 0\n"), (b"\0", b"no 8 0\n")]
    for _ in range(count):
        kind = draw.randrange(100)
        if kind < 20:
            yield draw.choice(refused)
        elif kind < 22:
            yield b"a" * draw.choice([16385, 20000, 65535, 65536, 65537, 200000]), TOO_LONG
        elif kind < 24:
            size = draw.choice([16384, 16383, 16000])
            text, answer = struct_line(b"b", 0, 0)
            yield text + b" " * (size - len(text)), answer
        else:
            name = bytes(draw.choices(b"abcdefgh", k=draw.randrange(1, 900)))
            yield struct_line(name, draw.randrange(300), draw.randrange(300))


class Whole(unittest.TestCase):
    def test_sample(self):
        self.assertEqual(answers(SAMPLE), SAMPLE_ANSWERS)

    def test_no_input(self):
        self.assertEqual(answers(b""), b"")

    def test_newline_alone(self):
        self.assertEqual(answers(b"\n"), b"no 5 0\n")
        self.assertEqual(answers(b"\n\n"), b"no 5 0\nno 5 0\n")

    def test_last_line(self):
        self.assertEqual(answers(b"Int8\nInt16"), b"ok 1 1 Int8\nok 1 1 Int16\n")
        self.assertEqual(answers(b"Int8\nInt16\n"), b"ok 1 1 Int8\nok 1 1 Int16\n")
        self.assertEqual(answers(b"Int8\n\n"), b"ok 1 1 Int8\nno 5 0\n")

    def test_any_bytes(self):
        text = b"Int8\0\n\0\nInt8\xff\n\xc3\nInt8\r\nInt8\n"
        self.assertEqual(answers(text), b"no 8 0\nno 8 0\nno 2 0\nno 2 0\nno 8 0\nok 1 1 Int8\n")

    def test_printer_refuses(self):
        self.assertEqual(answers('Struct("ƀ": Int8)\nInt8\n'.encode()), b"no 18\nok 1 1 Int8\n")

    def test_depth_and_rows(self):
        deep = b"List(" * 63 + b"Int8" + b")" * 63
        self.assertEqual(answers(deep), b"ok 64 64 " + deep + b"\n")
        wide = b"Struct(" + b", ".join([b'"a": Int8'] * 1023) + b")"
        self.assertEqual(answers(wide), b"ok 1024 2 " + wide + b"\n")


@unittest.skipIf(IS_SERVICE, "arrow-types takes arguments")
class Arguments(unittest.TestCase):
    """With an argument the program says that it takes none, and ends with the status 2: it reads nothing and prints nothing."""

    LINE = b"type_lines: takes no argument; the lines come from standard input, as in: type_lines < FILE\n"

    def test_arguments(self):
        for arguments in [["FILE"], [""], ["-"], ["--help"], ["a", "b"], ["", "b"], [b"\xff"], ["a" * 100_000]]:
            with self.subTest(arguments=arguments[0][:8], count=len(arguments)):
                self.assertEqual(self.started(arguments), (2, b"", self.LINE, SAMPLE))

    @unittest.skipUnless(os.path.exists("/dev/full"), "no /dev/full")
    def test_not_told(self):
        with open("/dev/full", "wb") as full:
            done = subprocess.run([PROGRAM, "FILE"], input=SAMPLE, stdout=subprocess.PIPE, stderr=full, timeout=SECONDS)
        self.assertEqual((done.returncode, done.stdout), (2, b""))

    def started(self, arguments):
        """Its status, what it prints, what it says, and what it leaves in a pipe that stays open."""
        near, far = os.pipe()
        try:
            os.write(far, SAMPLE)
            done = subprocess.run([PROGRAM, *arguments], stdin=near, capture_output=True, timeout=SECONDS)
            os.write(far, b".")
            left = os.read(near, len(SAMPLE) + 2)
        finally:
            os.close(near)
            os.close(far)
        return done.returncode, done.stdout, done.stderr, left[:-1]


class Units(unittest.TestCase):
    """Microseconds are printed as `us`, however the line spells them; the Rust's answers are respelled to compare."""

    def test_units(self):
        for text, printed in [
            ("Timestamp(us)", "Timestamp(us)"),
            ("Duration(Microsecond)", "Duration(us)"),
            ("Time64(µs)", "Time64(us)"),
            ('Timestamp(µs, Some("CET"))', 'Timestamp(us, "CET")'),
        ]:
            with self.subTest(text=text):
                self.assertEqual(answers(f"{text}\n".encode()), f"ok 1 1 {printed}\n".encode())

    def test_names(self):
        # a name is no unit
        for text in ["List(Duration(us), field: 'µs')", 'Struct("(µs)": Timestamp(us))']:
            with self.subTest(text=text):
                self.assertEqual(answers(text.encode()), f"ok 2 2 {text}\n".encode())

    def test_longest(self):
        # as `µs` it would have a byte too many
        text = b'Struct("": Timestamp(us))'
        text = text.replace(b'""', b'"%s"' % (b"a" * (16384 - len(text))))
        self.assertEqual(answers(text), b"ok 2 2 " + text + b"\n")

    def test_respelled(self):
        rust = """ok 3 2 Struct("(µs)": Timestamp(µs, "(µs)"), "a\\"(µs)": List(Time64(µs), field: '(µs)'))\n"""
        port = rust.replace("Timestamp(µs", "Timestamp(us").replace("Time64(µs", "Time64(us")
        self.assertEqual(same.respelled(rust.encode()).decode(), port)
        for one, other, expected in [
            (port, rust, same.RESPELLED),
            (port, port, same.SAME),
            (rust, rust, same.DIFFERENT),
            (port.replace("(µs", "(us"), rust, same.DIFFERENT),
            (port.replace("Struct", "struct"), rust, same.DIFFERENT),
        ]:
            self.assertEqual(same.verdict(one.encode(), other.encode()), expected)


class Characters(unittest.TestCase):
    """Above 127 and in double quotes U+00A1 to U+017F but for U+00AD print as themselves, those below by their number."""

    def test_each(self):
        # each character in a name, a zone and a list's name
        for number in range(0x80, 0x184):
            character = chr(number)
            printed = "\\u{%x}" % number if number <= 0xA0 or number == 0xAD else character
            named, zoned = 'Struct("a%sz": Int8)', 'Timestamp(s, "%s")'
            listed = f"List(Int8, field: '{character}')"
            expected = ["no 18", "no 18"]
            if number <= 0x17F:
                expected = ["ok 2 2 " + named % printed, "ok 1 1 " + zoned % printed]
            text = "\n".join([named % character, zoned % character, listed])
            with self.subTest(character=f"U+{number:04X}"):
                self.assertEqual(answers(text.encode()).decode(), "\n".join([*expected, "ok 2 2 " + listed, ""]))

    def test_refused_first(self):
        # the text would also be too long
        text = 'Struct("%sƀ": Int8)' % ("\t" * 9000)
        self.assertEqual(answers(text.encode()), b"no 18\n")

    def test_longest(self):
        # a no-break space is two bytes, and six where it is printed
        text = 'Struct("%s": Int8)' % ("\xa0" * 2728)
        printed = text.replace("\xa0", "\\u{a0}").encode()
        self.assertEqual(len(printed), 16384)
        self.assertEqual(answers(text.encode()), b"ok 2 2 " + printed + b"\n")
        self.assertEqual(answers(text.replace("\xa0", "\xa0\xa0", 1).encode()), b"no 19\n")


class Places(unittest.TestCase):
    """Behind the number of a refused text stands its place; a refusal of the printer has none."""

    PLACES = [
        (b"RunEndEncoded(Int32, Utf8)", 13, 13),
        (b"RunEndEncoded( nullable Int8", 13, 15),
        (b"  ", 5, 2),
        (b'List("a")', 9, 5),
        (b"Decimal32(9, 10)", 12, 15),
        (b'Int32 "', 16, 6),
        (b'Map("e": non-null Int8, sorted)', 14, 18),
        (b"List(" * 64 + b"nullable @", 3, 329),
        (b" " * 16385, 1, 16384),
        (b"\xff", 2, 0),
        (b'Timestamp(s, "CET)', 6, 13),
        ('Struct("Küche" Int8)'.encode(), 9, 16),
        (b" " * 16380 + b"Time", 8, 16380),
    ]

    def test_places(self):
        for text, number, place in self.PLACES:
            with self.subTest(text=text[:40]):
                self.assertEqual(answers(text + b"\n"), b"no %d %d\n" % (number, place))

    def test_mix(self):
        # the lines that the program is timed with, of which each refused one has a place that is known
        mixed = list(mix.mixed(3000))
        found = answers("".join(text + "\n" for _, text in mixed).encode()).splitlines()
        expected = mix.refusals(mixed).encode().splitlines()
        refused = [(got, wanted) for got, wanted in zip(found, expected, strict=True) if wanted or got.startswith(b"no")]
        self.assertEqual([got for got, _ in refused], [wanted for _, wanted in refused])
        self.assertEqual({wanted.split()[1] for _, wanted in refused}, {b"5", b"7", b"8", b"9", b"11", b"13", b"16"})


class Page(unittest.TestCase):
    """README.md's table of refusals: each number with a sample and, of a text, its place."""

    MADE = {
        1: b" " * 16385,
        2: b"\xff",
        3: b"List(" * 64,
        4: b"Struct(" + b'"a": Int8,' * 1024 + b")",
        19: b'Struct("' + b"\t" * 9000 + b'": Int8)',
    }

    def test_refusals(self):
        page = (ROOT / "README.md").read_text(encoding="utf8")
        rows = re.findall(r"^\| (\d+) \| .* \| (.*) \| ([\d,]*) ?\|$", page, re.M)
        self.assertEqual([int(number) for number, _, _ in rows], list(range(1, 20)))
        for number, sample, place in rows:
            if number != "17":
                with self.subTest(number=number):
                    text = self.MADE.get(int(number), sample.strip("`").encode())
                    self.assertEqual(answers(text + b"\n").decode().split(), ["no", number, *place.replace(",", "").split()])


class Changes(unittest.TestCase):
    """README.md's texts that change each time that they are rewritten."""

    def test_changes(self):
        # each of the three texts that are said to become one another
        page = (ROOT / "README.md").read_text(encoding="utf8")
        texts = re.findall(r'^    (Struct\("a.*)$', page, re.M)
        self.assertEqual(len(texts), 3)
        for text, next_text in zip(texts, texts[1:]):
            self.assertEqual(answers(text.encode()), f"ok 2 2 {next_text}\n".encode())


class Long(unittest.TestCase):
    SIZES = [(16384, b"ok 1 1 Int32\n")]
    SIZES += [(size, TOO_LONG) for size in [16385, 32769, 49152, 65535, 65536, 65537, 131072, 1000000]]

    def test_one_line(self):
        for size, answer in self.SIZES:
            for end in [b"\n", b""]:
                with self.subTest(size=size, end=end):
                    self.assertEqual(answers(b"Int32".rjust(size) + end), answer)

    def test_between_lines(self):
        for size, answer in self.SIZES:
            with self.subTest(size=size):
                text = b"Int8\n" + b"Int32".rjust(size) + b"\nUtf8\n\nNull"
                self.assertEqual(answers(text), b"ok 1 1 Int8\n" + answer + b"ok 1 1 Utf8\nno 5 0\nok 1 1 Null\n")

    def test_longest_answer(self):
        # 16,384 bytes are printed, the head is the longest, and the output is written several times
        text = b"List(" * 62 + b"Struct(" + b", ".join([b'"a": Int8'] * 961) + b")" + b")" * 62
        name = b"a" * (16384 - len(text) + 1)
        line = text.replace(b'"a"', b'"%s"' % name, 1)
        self.assertEqual(len(line), 16384)
        self.assertEqual(answers((line + b"\n") * 50), (b"ok 1024 64 " + line + b"\n") * 50)


class Buffers(unittest.TestCase):
    def test_many_lines(self):
        for seed in range(5):
            with self.subTest(seed=seed):
                lines = list(mixed_lines(5000, seed))
                text = b"\n".join(line for line, _ in lines) + b"\n"
                self.assertEqual(answers(text), b"".join(answer for _, answer in lines))

    def test_every_shift(self):
        # a line of each answer over each place near the end of the input buffer
        tail = SAMPLE * 3
        for shift in range(len(SAMPLE) + 2):
            head = b" " * 15000 + b"\n"
            text = head * 4 + b"\n" * (65536 - 4 * len(head) - shift) + tail
            expected = b"no 5 15000\n" * 4 + b"no 5 0\n" * (65536 - 4 * len(head) - shift) + SAMPLE_ANSWERS * 3
            with self.subTest(shift=shift):
                self.assertEqual(answers(text), expected)

    def test_skip_over_write(self):
        # the output is full, and is written, while the rest of a long line is being skipped
        for before in [7019, 7020, 7021]:
            with self.subTest(before=before):
                text = b"\n" * before + b"a" * 100_000 + b"\nInt8"
                self.assertEqual(answers(text), b"no 5 0\n" * before + TOO_LONG + b"ok 1 1 Int8\n")

    def test_pieces(self):
        # what comes in pieces is answered as if it came at once
        lines = list(mixed_lines(300, 9))
        text = b"\n".join(line for line, _ in lines)
        expected = b"".join(answer for _, answer in lines)
        for size in [1009, 4096, 16384, 65537]:
            with self.subTest(size=size):
                self.assertEqual(self.given_in_pieces(text, size), expected)

    def given_in_pieces(self, text, size):
        child = subprocess.Popen(COMMAND, stdin=subprocess.PIPE, stdout=subprocess.PIPE)
        got = []
        reader = threading.Thread(target=lambda: got.append(child.stdout.read()))
        reader.start()
        for start in range(0, len(text), size):
            child.stdin.write(text[start : start + size])
            child.stdin.flush()
        child.stdin.close()
        reader.join(SECONDS)
        child.stdout.close()
        self.assertEqual(child.wait(SECONDS), status_of(got[0]))
        return got[0]


class Waiting(unittest.TestCase):
    """Whoever waits for an answer before it writes the next line gets it, while the input stays open."""

    def start(self, **options):
        """The program, ended if a test waits in vain."""
        child = subprocess.Popen(COMMAND, stdout=subprocess.PIPE, **options)
        timer = threading.Timer(SECONDS, child.kill)
        timer.start()
        for clean_up in [child.wait, child.stdout.close, child.kill, timer.cancel]:
            self.addCleanup(clean_up)
        return child

    def ask(self, child, text, answer):
        child.stdin.write(text)
        child.stdin.flush()
        self.assertEqual(child.stdout.readline(), answer)

    def test_pipe(self):
        child = self.start(stdin=subprocess.PIPE)
        for line, answer in mixed_lines(2000, 3):
            self.ask(child, line + b"\n", answer)
        # each line is a turn of its own; there are to be many
        for _ in range(25_000):
            self.ask(child, b"Int8\n", b"ok 1 1 Int8\n")
        child.stdin.close()
        self.assertEqual(child.stdout.read(), b"")

    def test_unfinished_line(self):
        child = self.start(stdin=subprocess.PIPE)
        self.ask(child, b"Int8\nInt", b"ok 1 1 Int8\n")
        self.ask(child, b"16\n" + b"a" * 20_000, b"ok 1 1 Int16\n")
        self.ask(child, b"a" * 100_000, TOO_LONG)
        self.ask(child, b"a\nInt32\nInt", b"ok 1 1 Int32\n")
        child.stdin.write(b"64")
        child.stdin.close()
        self.assertEqual(child.stdout.read(), b"ok 1 1 Int64\n")

    def test_terminal(self):
        try:
            near, far = os.openpty()
        except OSError as error:
            self.skipTest(f"no terminal to be had: {error}")
        child = self.start(stdin=far)
        os.close(far)
        self.addCleanup(os.close, near)
        for line, answer in [(b"Int8\n", b"ok 1 1 Int8\n"), (b"\n", b"no 5 0\n"), (b"Utf8\n", b"ok 1 1 Utf8\n")]:
            os.write(near, line)
            self.assertEqual(child.stdout.readline(), answer)
        os.write(near, b"\x04")
        self.assertEqual(child.stdout.read(), b"")


class Failures(unittest.TestCase):
    """A read or a write that fails is told on standard error, and the status is 2."""

    def assert_failed(self, done, doing, why):
        """Standard error has a line that says what failed and why, and the number of the error at most."""
        start = f"{COMMAND[0].name}: {doing}: {why}".encode()
        self.assertRegex(done.stderr, re.escape(start) + rb"( \(os error \d+\))?\n\Z")
        self.assertEqual(done.returncode, 2)

    @unittest.skipUnless(os.path.exists("/dev/full"), "no /dev/full")
    def test_output_full(self):
        for text in [SAMPLE, SAMPLE * 5000]:
            with open("/dev/full", "wb") as full:
                done = subprocess.run(COMMAND, input=text, stdout=full, stderr=subprocess.PIPE, timeout=SECONDS)
            self.assert_failed(done, "writing standard output", "No space left on device")

    @unittest.skipIf(IS_SERVICE, "the page runs type_lines")
    @unittest.skipUnless(os.path.exists("/dev/full"), "no /dev/full")
    def test_page(self):
        # README.md's command for a script: it does not say `success`, and does where the output can be written
        page = (ROOT / "README.md").read_text(encoding="utf8")
        (line,) = re.findall(r"^    (target/bin/type_lines < .* > /dev/full && echo success)$", page, re.M)
        for command, said in [(line, b""), (line.replace("/dev/full", "/dev/null"), b"success\n")]:
            done = subprocess.run(["bash", "-c", command], cwd=ROOT, capture_output=True, timeout=SECONDS)
            self.assertEqual(done.stdout, said)

    def test_output_closed(self):
        # a pipe that nobody reads: the write fails, whether the signal of it was ignored before or not
        for restored in [True, False]:
            near, far = os.pipe()
            os.close(near)
            with open(far, "wb") as pipe:
                done = subprocess.run(
                    COMMAND, input=SAMPLE, stdout=pipe, stderr=subprocess.PIPE, timeout=SECONDS, restore_signals=restored
                )
            self.assert_failed(done, "writing standard output", "Broken pipe")

    def test_folder(self):
        self.assert_read_fails(os.open(ROOT, os.O_RDONLY), b"", "Is a directory")

    def test_input_breaks_off(self):
        # a terminal whose other end is closed: the read behind its last byte fails, and the whole lines are answered
        try:
            near, far = os.openpty()
        except OSError as error:
            self.skipTest(f"no terminal to be had: {error}")
        tty.setraw(far)
        os.write(far, b"Int8\nInt33\nInt")
        os.close(far)
        self.assert_read_fails(near, b"ok 1 1 Int8\nno 8 0\n", "Input/output error")

    def assert_read_fails(self, source, answered, why):
        """The whole lines that could be read are answered, and the message says why no more could; closes the source."""
        try:
            done = subprocess.run(COMMAND, stdin=source, capture_output=True, timeout=SECONDS)
        finally:
            os.close(source)
        self.assertEqual(done.stdout, answered)
        self.assert_failed(done, "reading standard input", why)


class Same(unittest.TestCase):
    """`arrow-types lines` answers byte for byte what `type_lines` does; where both are built."""

    @unittest.skipUnless(PROGRAM.exists() and SERVICE.exists(), "only one of the two programs is built")
    def test_stored_texts(self):
        stored = (ROOT / "crates" / "replay" / "data" / "texts").read_bytes()
        text = stored + b"\n".join(line for line, _ in mixed_lines(5000, 11))
        proved, service = (self.answers(command, text) for command in ([PROGRAM], [SERVICE, "lines"]))
        self.assertEqual(proved.stdout, service.stdout)
        self.assertGreater(proved.stdout.count(b"\n"), 10_000)
        self.assertEqual((proved.returncode, service.returncode), (0, 1))

    @staticmethod
    def answers(command, text):
        return subprocess.run(command, input=text, capture_output=True, timeout=SECONDS)


if __name__ == "__main__":
    if IS_SERVICE:
        sys.argv.remove("--service")
        needs.path(SERVICE, "`cargo build --release --offline` in bindings/rust builds it.")
    elif "--built" in sys.argv:
        sys.argv.remove("--built")
        needs.path(PROGRAM, "`bash tests/build program` builds it.")
    else:
        needs.tools("rt")
        status = subprocess.run(["bash", "tests/build", "program"], cwd=ROOT).returncode
        if status:
            sys.exit(status)
    unittest.main()
