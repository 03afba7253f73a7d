#!/usr/bin/env python3
"""Tests of the gate, tests/run, in a folder where everything that it calls is a stand-in: it passes only where each of
them does, and its last line is that of `rt ci`. And of what each script says where a tool is missing.

    python3 tests/gate/run.py
"""

import os
import pathlib
import shutil
import subprocess
import sys
import tempfile
import unittest

TESTS = pathlib.Path(__file__).resolve().parents[1]
OK = "rt: ok; handles allowed: none; must-fail edits: 3 refused; every proof and must-fail edit was done in this run"
PASSED = f"{OK}\n5 passed, 0 failed"
FAILED = "rt: b: NOT PROVED\nrt: FAILED: b\n1 passed, 1 failed"
TOOLS = ["rt", "python3", "gcc", "nm", "cargo"]
# What the script itself calls besides.
PLAIN = ["bash", "env", "dirname", "grep", "mktemp", "tee", "tail", "rm", "find", "sort", "xargs", "sha256sum", "cat"]


class Gate(unittest.TestCase):
    def setUp(self):
        folder = tempfile.TemporaryDirectory()
        self.addCleanup(folder.cleanup)
        self.root = pathlib.Path(folder.name)
        for name in ["run", "needs.sh"]:
            self.write(f"tests/{name}", (TESTS / name).read_text(encoding="utf8"))
        self.write("crates.txt", "a:\n")
        self.write("crates/a/src/lib.rt", "fn a() {}\n")
        for name in PLAIN:
            (self.root / "bin").mkdir(exist_ok=True)
            (self.root / "bin" / name).symlink_to(shutil.which(name))
        for name in TOOLS:
            self.stand_in(f"bin/{name}", "")
        # each is asked for by its name, and writes it down
        self.stand_in("bin/python3", 'echo "python3 $1" >>called; bash "$1"')
        self.stand_in("tests/source/check.py", "")
        self.stand_in("tests/source/planted.py", "")
        self.stand_in("tests/gate/run.py", "")
        self.stand_in("bindings/test", 'echo "bindings ${ARROW_TYPES_LIB:-own}" >>called')
        self.stand_in("tests/lines/run.py", "echo lines")
        self.stand_in("tests/counts/run.py", "echo counts")
        self.rt(PASSED)

    def write(self, name, text):
        path = self.root / name
        path.parent.mkdir(parents=True, exist_ok=True)
        path.write_text(text, encoding="utf8")
        return path

    def stand_in(self, name, commands):
        self.write(name, f"#!/usr/bin/env bash\n{commands}\n").chmod(0o755)

    def rt(self, says, status=0, also=""):
        self.write("says", says + "\n")
        self.stand_in("bin/rt", f'echo "rt $*" >>called; {also}\ncat says\nexit {status}')

    def run_gate(self, **more):
        environment = {"PATH": str(self.root / "bin"), **more}
        done = subprocess.run([shutil.which("bash"), "tests/run"], cwd=self.root, env=environment, capture_output=True, text=True)
        called = self.root / "called"
        return done, called.read_text(encoding="utf8").splitlines() if called.exists() else []

    def assert_fails(self, calls=None, says=""):
        done, called = self.run_gate()
        self.assertNotEqual(done.returncode, 0, done.stdout)
        self.assertIn(says, done.stderr)
        if calls is not None:
            self.assertEqual(called, calls)
        return done

    BEFORE = ["python3 tests/source/check.py", "python3 tests/source/planted.py", "python3 tests/gate/run.py"]

    def test_all_pass(self):
        done, called = self.run_gate(ARROW_TYPES_LIB="elsewhere")
        self.assertEqual(done.returncode, 0, done.stderr)
        self.assertEqual(done.stdout.splitlines()[-1], "5 passed, 0 failed")
        self.assertIn(OK, done.stdout)
        self.assertEqual(called, [*self.BEFORE, "rt ci", "bindings own", "python3 tests/lines/run.py", "python3 tests/counts/run.py"])

    def test_source_fails(self):
        self.stand_in("tests/source/check.py", "exit 1")
        self.assert_fails(self.BEFORE[:1])

    def test_crate_not_proved(self):
        self.rt(FAILED, 1)
        self.assert_fails([*self.BEFORE, "rt ci"])

    def test_status_forgotten(self):
        # an rt that says what failed and ends with 0 all the same
        self.rt(FAILED)
        self.assert_fails([*self.BEFORE, "rt ci"], "did not end with")

    def test_broken_off(self):
        self.rt("rt: a proved (3 s)")
        self.assert_fails([*self.BEFORE, "rt ci"], "did not end with")

    def test_bad_edits(self):
        # an edit that cannot be applied: rt says how many there are, and passes all the same
        for bad in ["1", "20"]:
            with self.subTest(bad=bad):
                self.setUp()
                self.rt(PASSED.replace("3 refused", f"3 refused, {bad} bad"))
                self.assert_fails([*self.BEFORE, "rt ci"], "cannot be applied")

    def test_no_bad_edits(self):
        for said in ["3 refused, 0 bad", "3 refused, 1 of them only by a limit"]:
            with self.subTest(said=said):
                self.setUp()
                self.rt(PASSED.replace("3 refused", said))
                self.assertEqual(self.run_gate()[0].returncode, 0)

    def test_not_said_ok(self):
        self.rt("5 passed, 0 failed")
        self.assert_fails([*self.BEFORE, "rt ci"], "no line 'rt: ok'")

    def test_nothing_proved(self):
        self.rt("0 passed, 0 failed")
        self.assert_fails([*self.BEFORE, "rt ci"], "did not end with")

    def test_status_alone(self):
        # all is said to have passed, and the status tells otherwise
        self.rt(PASSED, 3)
        self.assert_fails([*self.BEFORE, "rt ci"])

    def test_bindings_fail(self):
        self.stand_in("bindings/test", "exit 1")
        done = self.assert_fails()
        self.assertEqual(done.stdout.count("5 passed, 0 failed"), 1)

    def test_lines_fail(self):
        self.stand_in("tests/lines/run.py", "exit 1")
        done = self.assert_fails()
        self.assertEqual(done.stdout.count("5 passed, 0 failed"), 1)

    def test_counts_fail(self):
        self.stand_in("tests/counts/run.py", "exit 1")
        done = self.assert_fails()
        self.assertEqual(done.stdout.count("5 passed, 0 failed"), 1)

    def test_crates_change(self):
        for change in ["echo >>crates/a/src/lib.rt", "echo >crates/a/src/b.rt", "echo 'b: a' >>crates.txt"]:
            with self.subTest(change=change):
                self.setUp()
                self.stand_in("tests/lines/run.py", change)
                self.assert_fails(says="the crates changed")

    def test_out_changes(self):
        # what rt makes in the folders out/ is no source
        self.stand_in("tests/lines/run.py", "echo 1 >>crates/a/out/a")
        self.write("crates/a/out/a", "")
        self.assertEqual(self.run_gate()[0].returncode, 0)

    def test_link_left(self):
        # `rt ci` would not begin again in this folder
        self.stand_in("bindings/test", f"{shutil.which('ln')} -s test bindings/link")
        self.assert_fails(says="bindings/link")

    def test_missing_tools(self):
        for tool in TOOLS:
            with self.subTest(tool=tool):
                self.setUp()
                os.remove(self.root / "bin" / tool)
                done = self.assert_fails([], f"there is no {tool} here")
                self.assertEqual(len(done.stderr.splitlines()), 1)


class Missing(unittest.TestCase):
    """Where no tool is to be had, a script names each that it needs in a sentence, and ends with 2."""

    SCRIPTS = {
        "tests/run": ["rt", "gcc", "nm", "cargo"],
        "tests/quick": ["rt"],
        "tests/bench": ["rt", "cargo", "gcc", "valgrind"],
        "tests/build": ["rt"],
        "bindings/test": ["gcc", "nm", "cargo", "rt"],
        "tests/lines/run.py": ["rt"],
        "tests/counts/run.py": ["rt"],
        "tests/source/check.py": ["rt"],
    }

    def test_scripts(self):
        with tempfile.TemporaryDirectory() as name:
            folder = pathlib.Path(name)
            for tool in ["bash", "env", "dirname"]:
                (folder / tool).symlink_to(shutil.which(tool))
            (folder / "python3").symlink_to(sys.executable)
            for script, tools in self.SCRIPTS.items():
                with self.subTest(script=script):
                    self.assert_named(folder, script, tools)

    def assert_named(self, folder, script, tools):
        runner = "python3" if script.endswith(".py") else "bash"
        done = subprocess.run([folder / runner, script], cwd=TESTS.parent, env={"PATH": str(folder)}, capture_output=True, text=True)
        self.assertEqual(done.returncode, 2)
        said = done.stderr.splitlines()
        self.assertEqual(len(said), len(tools), done.stderr)
        for tool, line in zip(tools, said):
            self.assertIn(f"there is no {tool} here", line)


if __name__ == "__main__":
    unittest.main()
