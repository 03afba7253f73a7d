#!/usr/bin/env python3
"""Tests of `arrow-types` at a terminal, as bindings/test has built it: there `explain` has colours, and what takes long says
how far it has got; nowhere else. And `count` ends where a terminal tells its end.

    python3 bindings/terminal.py
"""

import os
import pathlib
import re
import signal
import subprocess
import tempfile
import time
import unittest

PROGRAM = pathlib.Path(__file__).resolve().parent / "rust" / "target" / "release" / "arrow-types"
TREE = 'Struct("slot": non-null Timestamp(s, "CET"))'
REFUSED = "RunEndEncoded(Int32, Utf8)"
ESCAPE = re.compile(rb"\x1b\[[\d;]*m")


def in_a_pipe(text):
    return subprocess.run([PROGRAM, "explain", text], capture_output=True, timeout=60).stdout


class Terminal(unittest.TestCase):
    def terminal(self):
        """Both ends of one."""
        try:
            near, far = os.openpty()
        except OSError as error:
            self.skipTest(f"no terminal to be had: {error}")
        self.addCleanup(os.close, near)
        return near, far

    def written(self, near):
        """All that is written to a terminal, with the line ends that it was given."""
        written = b""
        while part := self.read(near):
            written += part
        return written.replace(b"\r\n", b"\n")

    @staticmethod
    def read(near):
        """A terminal whose other end is closed gives an error at its end."""
        try:
            return os.read(near, 65536)
        except OSError:
            return b""


class Colours(Terminal):
    def at_a_terminal(self, text, **variables):
        """What is written where standard output is a terminal."""
        near, far = self.terminal()
        environment = {name: value for name, value in os.environ.items() if name != "NO_COLOR"} | variables
        child = subprocess.Popen([PROGRAM, "explain", text], stdout=far, env=environment)
        os.close(far)
        written = self.written(near)
        child.wait(60)
        return written

    def test_terminal(self):
        for text, colours in [(TREE, 2), (REFUSED, 1)]:
            with self.subTest(text=text):
                written = self.at_a_terminal(text)
                self.assertEqual(len(ESCAPE.findall(written)), 2 * colours)
                self.assertEqual(ESCAPE.sub(b"", written), in_a_pipe(text))

    def test_no_color(self):
        for text in [TREE, REFUSED]:
            self.assertEqual(self.at_a_terminal(text, NO_COLOR="1"), in_a_pipe(text))
            self.assertNotEqual(self.at_a_terminal(text, NO_COLOR=""), in_a_pipe(text))

    def test_pipe(self):
        for text in [TREE, REFUSED]:
            self.assertNotIn(b"\x1b", in_a_pipe(text))


class HowFar(Terminal):
    """What takes half a second says how far it has got, on standard error, and takes that back at its end."""

    LINE = b"Timestamp(Second)\n"
    SHOWN = rb"(\rarrow-types: %s *)+\r +\r"

    def start(self, arguments, terminals, **options):
        """The program, with a terminal for each stream that is named, and that terminal."""
        near, far = self.terminal()
        child = subprocess.Popen([PROGRAM, *arguments], **options, **{name: far for name in terminals})
        os.close(far)
        return child, near

    def rewrite(self, lines, while_it_runs):
        """What is said of a rewrite, at the terminal, and in the end on standard output."""
        with tempfile.NamedTemporaryFile(dir=PROGRAM.parent) as file:
            file.write(self.LINE * lines)
            file.flush()
            child, near = self.start(["rewrite", file.name], ["stderr"], stdout=subprocess.PIPE)
            while_it_runs(child)
            said, report = self.written(near), child.communicate()[0]
        self.assertEqual(child.returncode, 0)
        self.assertTrue(report.endswith(b": %d of %d lines rewritten\n" % (lines, lines)), report)
        return said

    @staticmethod
    def stop_for_a_while(child):
        """Once it has read something."""
        io = pathlib.Path(f"/proc/{child.pid}/io")
        while child.poll() is None and int(io.read_text().split()[1]) < 1_000_000:
            time.sleep(0.001)
        child.send_signal(signal.SIGSTOP)
        time.sleep(0.6)
        child.send_signal(signal.SIGCONT)

    def test_rewrite(self):
        said = self.rewrite(2_000_000, self.stop_for_a_while)
        self.assertRegex(said, b"^" + self.SHOWN % rb"\d+ of 36 MB" + b"$")

    def test_short_rewrite(self):
        self.assertEqual(self.rewrite(10, lambda child: None), b"")

    def answer(self, terminals, **options):
        """What is said while lines are answered that come with a pause between them, at the terminal."""
        child, near = self.start(["lines"], terminals, stdin=subprocess.PIPE, **options)
        lines = self.LINE * (1_000_000 // len(self.LINE))
        child.stdin.write(lines)
        child.stdin.flush()
        time.sleep(0.6)
        child.stdin.write(lines)
        child.stdin.close()
        said = self.written(near)
        child.wait(60)
        return said

    def test_lines(self):
        said = self.answer(["stderr"], stdout=subprocess.DEVNULL)
        self.assertRegex(said, b"^" + self.SHOWN % rb"[12] MB" + b"$")

    def test_answers_at_the_terminal(self):
        """They show it by themselves."""
        child, near = self.start(["lines"], ["stdout", "stderr"], stdin=subprocess.PIPE)
        child.stdin.write(self.LINE)
        child.stdin.flush()
        time.sleep(0.6)
        child.stdin.write(self.LINE * 3_700)
        child.stdin.close()
        self.assertEqual(self.written(near), b"ok 1 1 Timestamp(s)\n" * 3_701)
        child.wait(60)

    def test_pipe(self):
        with tempfile.TemporaryFile() as answers:
            child = subprocess.Popen(
                [PROGRAM, "lines"], stdin=subprocess.PIPE, stdout=answers, stderr=subprocess.PIPE
            )
            child.stdin.write(self.LINE * 40_000)
            child.stdin.flush()
            time.sleep(0.6)
            child.stdin.write(self.LINE * 40_000)
            self.assertEqual(child.communicate()[1], b"")


class Ending(Terminal):
    """A terminal tells its end once: what is asked for more waits."""

    def test_count(self):
        near, far = self.terminal()
        child = subprocess.Popen([PROGRAM, "count"], stdin=far, stdout=subprocess.PIPE)
        os.close(far)
        self.addCleanup(child.kill)
        os.write(near, b"Int8\n\x04")
        self.assertEqual(child.communicate(timeout=60)[0], b"lines 1\nok 1\nkind 2 1\ndeep 1\n")


if __name__ == "__main__":
    unittest.main()
