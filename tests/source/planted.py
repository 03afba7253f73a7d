#!/usr/bin/env python3
"""Planted cases for the checks on sources. Imports: those that are used in some way must stay, others must go. Functions:
those that are too long, nest too deep or have two loops are found, others not. Arrays: those longer than 32 in functions
that write output are found, in whatever way they are written. Refusals: a sentence or a number that differs between the
crates, the header and the Rust crate is found. The table of words: a file that is missing or has another number is found,
and a walk through the numbers tells the words apart.

    python3 tests/source/planted.py
"""

import pathlib
import sys
import tempfile
import unittest

sys.path[:0] = [str(pathlib.Path(__file__).resolve().parents[2] / folder) for folder in ("tools", "tests/source")]
import arrays  # noqa: E402
import functions  # noqa: E402
import refusals  # noqa: E402
import unused_imports  # noqa: E402
import word_table  # noqa: E402


class Planted(unittest.TestCase):
    def setUp(self):
        folder = tempfile.TemporaryDirectory()
        self.addCleanup(folder.cleanup)
        self.root = pathlib.Path(folder.name)

    def cut(self, text, name="proofs/Laws.antt", edits=(), modules=False):
        """What is taken out of a file with this text, and the text without it."""
        for path, content in [(name, text), *edits]:
            file = self.root / "crates/a" / path
            file.parent.mkdir(parents=True, exist_ok=True)
            file.write_text(content, encoding="utf8")
        found = list(unused_imports.unused(self.root, modules=modules))
        return (found[0][2], found[0][1]) if found else ([], text)

    def assert_cut(self, text, items, left=None, **more):
        got, shorter = self.cut(text, **more)
        self.assertEqual(got, items)
        if left is not None:
            self.assertEqual(shorter, left)

    def test_list(self):
        self.assert_cut("use M.{a, b, c}\n\nx = b\n", ["M.a", "M.c"], "use M.{b}\n\nx = b\n")
        self.assert_cut("use M.{a}\nuse N.{b}\n\nx = b\n", ["M.a"], "use N.{b}\n\nx = b\n")

    def test_twice(self):
        self.assert_cut("use M.{a, b}\nuse M.{a, c}\n\nx = a b c\n", ["M.a"], "use M.{a, b}\nuse M.{c}\n\nx = a b c\n")
        self.assert_cut("use M.{a}\nuse N.{a as b}\n\nx = a b\n", [])

    def test_renamed(self):
        self.assert_cut("use M.{a as c}\n\nx = c\n", [])
        self.assert_cut("use M.{a as c}\n\nx = a\n", ["M.a as c"])

    def test_operators(self):
        self.assert_cut("use M.{◌≡◌, ◌+◌, ◌∷◌, []}\n\nx : a ≡ b\nx = (◌+ 1) ∷ []\n", [])
        self.assert_cut("use M.{◌≡◌, ◌+◌}\n\nx : a ≢ b\nx = n+n\n", ["M.◌≡◌", "M.◌+◌"])
        self.assert_cut("use M.{if◌then◌else◌}\n\nx = if a then b else c\n", [])
        self.assert_cut("use M.{if◌then◌else◌}\n\nx = if a then b\n", ["M.if◌then◌else◌"])

    def test_do(self):
        self.assert_cut("use M.{◌>>=◌, ◌>>◌, f}\n\nx = do\n  b ← e\n  c\n", ["M.f"])
        self.assert_cut("use M.{◌>>=◌}\n\nx = f\n", ["M.◌>>=◌"])

    def test_patterns(self):
        self.assert_cut("use M.{node, ∅}\n\nf (node a k) = a\nf ∅ = 0\n", [])
        self.assert_cut("use M.{f, g}\n\nx : f\nunfolding g\nx = 1\n", [])

    def test_words(self):
        # a longer name, a field, a comment, a text and another import are no uses
        self.assert_cut("use M.{and-l}\n\nx = and-l' y\n", ["M.and-l"])
        self.assert_cut("use M.{taken}\n\nx = c.if1.taken\n", ["M.taken"])
        self.assert_cut("use M.{a}\n\n-- a\n{- a -}\nx = y -- a\n", ["M.a"])
        self.assert_cut('use M.{a}\n\nx = "a -- " ∷ y\n', ["M.a"])
        self.assert_cut("use M.{a}\nuse N.{a as b}\n\nx = b\n", ["M.a"])
        # behind a text with dashes, and before a dot, it is used
        self.assert_cut('use M.{a, List}\n\nx = f " -- " a List.below\n', [])

    def test_passed_on(self):
        self.assert_cut("pub use M.{a}\n", [])

    def test_modules(self):
        text = "use M as m\nuse N as n\nuse P as p\nuse p.{q}\n\nx = m.a q\n"
        self.assert_cut(text, [])
        self.assert_cut(text, ["N as n"], "use M as m\nuse P as p\nuse p.{q}\n\nx = m.a q\n", modules=True)

    def test_ghost(self):
        text = "ghost use M.{◌<◌, f, g};\n\nfn a(b: u8) -> bool\n    ensures size { f { x } result }\n{\n    g < b\n}\n"
        self.assert_cut(text, ["M.◌<◌", "M.g"], text.replace("◌<◌, f, g", "f"), name="src/lib.rt")

    def test_quote_mark(self):
        # a double quote as a byte begins no text
        text = "ghost use M.{f};\n\nfn a(b: u8) -> bool\n{\n    b == b'\"'\n}\n\nfn c()\n    ensures { f }\n{\n    d(b\"\")\n}\n"
        self.assert_cut(text, [], name="src/lib.rt")

    def test_code(self):
        text = "use crate::a;\nuse crate::b;\nuse crate::c as d;\nuse crate::e;\n\nfn f() {\n    a(x.b, m::b, d); // e\n}\n"
        self.assert_cut(text, ["crate::b", "crate::e"], name="src/lib.rt")
        self.assert_cut("use crate::A;\n\nfn f(a: &[A; 3]) {}\n", [], name="src/lib.rt")
        self.assert_cut("use crate::A;\n\nfn f() {\n    B { c: 1, ..A }\n}\n", [], name="src/lib.rt")

    def test_code_list(self):
        text = "use crate::{a, b};\nuse crate::m::{c as d, e, f};\nuse g::{h};\n\nfn k() {\n    a(d, f, x.e);\n}\n"
        left = "use crate::a;\nuse crate::m::{c as d, f};\n\nfn k() {\n    a(d, f, x.e);\n}\n"
        self.assert_cut(text, ["crate::b", "crate::m::e", "g::h"], left, name="src/lib.rt")

    def test_methods(self):
        # a trait is brought in for its methods
        text = "use std::io::Read;\nuse std::io::{Cursor, Write};\n\nfn f(a: &mut Cursor) {\n    a.CALL(b);\n}\n"
        self.assert_cut(text.replace("CALL", "read"), ["std::io::Write"], name="src/lib.rt")
        self.assert_cut(text.replace("CALL", "write_all"), ["std::io::Read"], name="src/lib.rt")
        text = "use std::env::Env;\n\nfn f(a: &HostRuntime) {\n    a.CALL(1, &mut []);\n}\n"
        self.assert_cut(text.replace("CALL", "arg"), [], name="src/lib.rt")
        self.assert_cut(text.replace("CALL", "argue"), ["std::env::Env"], name="src/lib.rt")

    def test_edits(self):
        edit = ("must-fail/wrong.edit", "file: proofs/Laws.antt\nold: x = y\nnew: x = a\n")
        self.assert_cut("use M.{a, b}\n\nx = y\n", ["M.b"], edits=[edit])


class Functions(unittest.TestCase):
    def faults(self, body):
        text = "\n".join(["fn f(", "    a: u8,", ") -> u8", "    ensures { g {x = 1} }", "{", *body, "}", "", "fn g() {", "}"])
        first, second = functions.functions(text)
        self.assertEqual((first.name, second.name, second.faults()), ("f", "g", []))
        return first.faults()

    def test_lines(self):
        self.assertEqual(self.faults(["    a;"] * 39), [])
        self.assertEqual(self.faults(["    a;"] * 40), ["has 40 lines, more than 39"])

    def test_tables(self):
        values = ["        kind::A => Word {", "            b: 1,", "        },"] * 20
        self.assertEqual(self.faults(["    match kind {", *values, "    }"]), [])
        calls = [*values, "        _ => f(1),"]
        self.assertEqual(self.faults(["    match kind {", *calls, "    }"]), ["has 63 lines, more than 39"])

    def test_loops(self):
        loop = ["    while a < 1 {", "        a += 1;", "    }"]
        self.assertEqual(self.faults(loop), [])
        self.assertEqual(self.faults(loop + loop), ["has 2 loops, more than 1"])

    def nest(self, heads, inner):
        opened = [f"{'    ' * (depth + 1)}{head} {{" for depth, head in enumerate(heads)]
        return opened + inner + [f"{'    ' * (depth + 1)}}}" for depth in reversed(range(len(heads)))]

    def test_nested(self):
        three = self.nest(["if a", "match b", "C::D(e) =>"], ["                f"])
        self.assertEqual(self.faults(three), [])
        self.assertEqual(self.faults(three + three), [])
        four = self.nest(["if a", "match b", "C::D(e) => match f", "G::H =>"], ["                    i"])
        self.assertEqual(self.faults(four), ["has 4 nested blocks, more than 3"])

    def test_no_blocks(self):
        # a struct's value, braces in a byte, in a text and in a comment
        value = ["                return A {", "                    b: 1,", "                };"]
        other = ["                put(out, b'{', b\"\\\\u{\"); // {"]
        self.assertEqual(self.faults(self.nest(["if a", "match b", "C::D(e) =>"], value + other)), [])


class Arrays(unittest.TestCase):
    def faults(self, line, head="fn f(out: &mut [u8], at: usize) -> usize {", others=""):
        text = f"{others}{head}\n    {line}\n}}\n"
        numbers = arrays.numbers_of([text])
        return [array for _, array in arrays.faults(text, numbers, arrays.named([text], numbers))]

    def test_lengths(self):
        self.assertEqual(self.faults("let a = [0u8; 32];"), [])
        self.assertEqual(self.faults("let a = [0u8; 33];"), ["an array in its body"])
        self.assertEqual(self.faults("let a: [u8; 33] = given();"), ["an array in its body"])
        self.assertEqual(self.faults("let a = [0; 1_000];"), ["an array in its body"])
        self.assertEqual(self.faults("let a = [[0; 8]; 4];"), [])
        self.assertEqual(self.faults("let a = [[0; 8]; 5];"), ["an array in its body"])
        self.assertEqual(self.faults("let a: [[u8; 5]; 8] = given();"), ["an array in its body"])

    def test_byte_strings(self):
        self.assertEqual(self.faults(f'put(out, at, b"{"a" * 32}")'), [])
        self.assertEqual(self.faults(f'put(out, at, b"{"a" * 33}")'), ["an array in its body"])
        self.assertEqual(self.faults(f'put(out, at, b"{chr(92)}x41{"a" * 31}")'), [])
        self.assertEqual(self.faults(f'put(out, at, b"{chr(92)}n{"a" * 32}")'), ["an array in its body"])

    def test_elements(self):
        self.assertEqual(self.faults(f"let a = [{', '.join('1' * 32)}];"), [])
        self.assertEqual(self.faults(f"let a = [{', '.join('1' * 33)}];"), ["an array in its body"])

    def test_names(self):
        sizes = "const FEW: usize = 32;\n\nconst MANY: usize = 33;\n\n"
        self.assertEqual(self.faults("let a = [0; FEW];", others=sizes), [])
        self.assertEqual(self.faults("let a = [0; kinds::MANY];", others=sizes), ["an array in its body"])
        self.assertEqual(self.faults("let a = [0; ELSEWHERE];", others=sizes), ["an array in its body"])
        self.assertEqual(self.faults("put(out, at, &LONG)", others="const LONG: [u8; 33] = [0; 33];\n\n"), ["LONG"])
        self.assertEqual(self.faults("put(out, at, &SHORT)", others="const SHORT: [u8; 32] = [0; 32];\n\n"), [])
        self.assertEqual(self.faults("let a = made();", others="fn made() -> [u8; 33] {\n    [0; 33]\n}\n\n"), ["made"])
        self.assertEqual(self.faults("let a = EDGES;", others="type Table = [u16; 470];\n\nconst EDGES: Table = [1, 2];\n\n"), ["EDGES"])

    def test_other_functions(self):
        # no output is written: rows are, or nothing is
        self.assertEqual(self.faults("let a = [0u8; 33];", head="fn f(rows: &mut [u32]) {"), [])
        self.assertEqual(self.faults("let a = [0u8; 33];", head="fn f(out: &[u8]) {"), [])
        self.assertEqual(self.faults("let a = [0u8; 33];", head="fn f<'a>(out: &'a mut [u8]) {"), ["an array in its body"])

    def test_text(self):
        self.assertEqual(self.faults("// [0u8; 33] would be too long"), [])

    def test_structs(self):
        # output in a struct, as a method's own or handed over; a struct that holds none
        printer = "struct Printer<'a> {\n    at: usize,\n    out: &'a mut [u8],\n}\n\nstruct Place {\n    at: usize,\n}\n\n"
        method = "    fn f(&mut self) {\n        let a = [0u8; 33];\n    }\n"
        handed = "fn f(printer: &mut Printer<'_>) {\n    let a = [0u8; 33];\n}\n"

        def found(text):
            return [array for _, array in arrays.faults(text, {}, {}, arrays.holders([text]))]

        self.assertEqual(found(f"{printer}impl<'a> Printer<'a> {{\n{method}}}\n"), ["an array in its body"])
        self.assertEqual(found(printer + handed), ["an array in its body"])
        self.assertEqual(found(f"{printer}impl Place {{\n{method}}}\n"), [])
        self.assertEqual(found(f"{printer}impl<'a> Printer<'a> {{\n{method.replace('33', '32')}}}\n"), [])


class Refusals(unittest.TestCase):
    ENUM = (
        "#[derive(Clone, Copy, Error)]\npub enum Refusal {\n    // Of the reader.\n    #[error(\"too long\")]\n    TooLong = 1,\n"
        "    #[error(\"no tree\")]\n    NotSound = 17,\n}\n\nimpl Numbered for Refusal {\n    fn number(self) -> u32 {\n    }\n}\n"
    )
    OTHER = "pub enum NotTaken {\n    #[error(\"no tree\")]\n    NotSound = 17,\n}\n\nimpl Numbered for NotTaken {\n}\n"
    ANSWERS = ["too long", *["this is no refusal"] * 15, "no tree"]
    HEADER = (
        "enum arrow_types_refusal {\n    ARROW_TYPES_TOO_LONG = 1, /* too long */\n    ARROW_TYPES_NOT_SOUND = 17 /* no tree */\n};\n"
        "static inline const char *arrow_types_sentence(uint32_t number)\n{\n    static const char *const sentences[] = {\n"
        "        \"this is no refusal\",\n" + "".join(f'        "{answer}",\n' for answer in ANSWERS) + "    };\n}\n"
    )
    RUST = (
        "pub enum Error {\n    /// Too long.\n    TooLong = 1,\n    /// No tree.\n    NotSound = 17,\n}\n\nimpl Error {\n"
        "    fn sentence(self) -> &'static str {\n        match self {\n            Error::TooLong => \"too long\",\n"
        "            Error::NotSound => {\n                \"no tree\"\n            }\n        }\n    }\n}\n"
    )

    def found(self, *sources, header=HEADER, rust=RUST):
        return refusals.faults([("a.rt", source) for source in sources], header, rust)

    def test_alike(self):
        self.assertEqual(self.found(self.ENUM, self.OTHER), [])
        # an enum that is no error of numbers says nothing
        self.assertEqual(self.found(self.ENUM, "pub enum Kind {\n    A = 3,\n}\n"), [])

    def test_crates(self):
        self.assertEqual(len(self.found(self.ENUM, self.OTHER.replace("no tree", "no"))), 1)
        self.assertEqual(len(self.found(self.ENUM.replace("= 17", "= 18"))), 6)
        self.assertEqual(len(self.found(self.ENUM, self.OTHER.replace(" = 17", ""))), 1)
        self.assertEqual(len(self.found(self.ENUM, self.OTHER.replace("#[error(\"no tree\")]", "// no tree"))), 1)
        self.assertIn("crates/: no error has numbers", self.found())

    def test_header(self):
        for old, new in [("/* too long */", "/* long */"), ("\"no tree\",", "\"tree\","), ("= 17 /*", "= 18 /*")]:
            self.assertTrue(self.found(self.ENUM, header=self.HEADER.replace(old, new)), new)

    def test_rust(self):
        for old, new in [("\"too long\"", "\"long\""), ("= 17", "= 18"), ("Error::NotSound =>", "Error::Sound =>")]:
            self.assertTrue(self.found(self.ENUM, rust=self.RUST.replace(old, new)), new)


class WordTable(unittest.TestCase):
    WORDS = {b"List": 28, b"ListView": 29, b"s": 42, b"sorted": 52, b"x": 58, "µs".encode(): 44}
    TEXT = '"List" is DataType 27 "ListView" is DataType 28 "s" is TimeUnit 0 "sorted" is MapSorted 1 "x" is X "µs" is TimeUnit 2'

    def test_words(self):
        self.assertEqual(dict(word_table.listed_words(self.TEXT)), self.WORDS)

    def walked(self, table, word):
        state = 0
        for byte in word:
            edge = table[state + byte] if state + byte < len(table) else 32
            if byte == 32 or edge % 256 != byte:
                return 0
            state = edge // 256 + byte
        edge = table[state + 32] if state + 32 < len(table) else 32
        return edge // 256 if edge % 256 == 32 else 0

    def test_walk(self):
        table = word_table.table_of(self.WORDS.items())
        for word in self.WORDS:
            for beginning in (word[:length] for length in range(len(word) + 1)):
                for tail in [b"", *(bytes([byte]) for byte in range(256))]:
                    self.assertEqual(self.walked(table, beginning + tail), self.WORDS.get(beginning + tail, 0))

    def test_stale(self):
        with tempfile.TemporaryDirectory() as folder:
            crate = pathlib.Path(folder) / "crates/tokenizer"
            for name in ("src", "specs"):
                (crate / name).mkdir(parents=True)
            (crate / "specs/Words.antt").write_text(self.TEXT, encoding="utf8")
            code, spec = word_table.files(pathlib.Path(folder))
            self.assertEqual(word_table.stale(pathlib.Path(folder)), [code, spec])
            for path, text in word_table.files(pathlib.Path(folder)).items():
                path.write_text(text, encoding="utf8")
            self.assertEqual(word_table.stale(pathlib.Path(folder)), [])
            spec.write_text(spec.read_text(encoding="utf8").replace("32", "288", 1), encoding="utf8")
            self.assertEqual(word_table.stale(pathlib.Path(folder)), [spec])


if __name__ == "__main__":
    unittest.main()
