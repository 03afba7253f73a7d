//! Tests of the harness itself: parts of the model that nothing else shows, and that a port with a
//! fault is caught.

mod archive;
mod column_out;
mod half_rows;
mod needs;

use crate::check::{self, Check};
use crate::generate::trees::{self, Letters};
use crate::generate::{Random, damage, texts};
use crate::known;
use crate::model::{self, Limits, MOST_BYTES, MOST_ROWS, NAME_LIST, Refused, Spelling, WORDS};
use crate::needs::{Answer, Needed, Table};
use crate::subject::{self, Subject};

#[test]
fn names_that_fit_and_names_that_do_not() {
    let name = |home, start, length| model::name(b"abc", NAME_LIST, home, start, length);
    assert_eq!(name(1, 0, 3), b"abc");
    assert_eq!(name(1, 1, 1), b"b");
    assert_eq!(name(2, 4, 8), b"run_ends");
    assert_eq!(name(2, 0, 18), NAME_LIST);
    assert_eq!(name(2, 1, 3), b"tem");
    let unfit = [
        (0, 0, 3),
        (3, 0, 3),
        (u32::MAX, 0, 3),
        (1, 0, 4),
        (1, 3, 1),
        (1, 4, 0),
        (2, 18, 1),
        (1, u32::MAX, u32::MAX),
    ];
    for (home, start, length) in unfit {
        assert_eq!(name(home, start, length), b"");
    }
}

#[test]
fn rooms_smaller_than_1024_rows() {
    let read = |text: &str, rows| model::read(text.as_bytes(), Limits::lent(rows)).map(|r| r.len());
    for text in ["", " ", "@", "Int8"] {
        assert_eq!(read(text, 0), Err(4));
    }
    assert_eq!(model::read(b"\xff", Limits::lent(0)), Err(2));
    assert_eq!(read(&" ".repeat(16_385), 0), Err(1));
    assert_eq!(read(&"List(".repeat(64), 64), Err(3));
    assert_eq!(read(&"List(".repeat(64), 63), Err(4));
    assert_eq!(read("List(Int8)", 1), Err(4));
    assert_eq!(read("List(Int8)", 2), Ok(2));
    assert_eq!(read(&"\"".repeat(3), 2_000), Err(7));
}

/// Word 11 of a row, its parent.
const PARENT: usize = 11;

/// The words of a text's rows.
fn words(text: &str) -> Vec<u32> {
    model::to_words(&model::read(text.as_bytes(), Limits::lent(MOST_ROWS)).unwrap())
}

#[test]
fn words_lent() {
    for (text, lent, expected) in known::lent() {
        let read = model::read(text.as_bytes(), Limits::lent(lent / WORDS));
        assert_eq!(read.map(|rows| rows.len()), expected);
        if let Some(port) = subject::linked() {
            let read = port.read(text.as_bytes(), &mut vec![7; lent]);
            assert_eq!(read.map_err(|(number, _)| number), expected);
        }
    }
}

#[test]
fn places() {
    let port = subject::linked();
    let mut check = Check::new(port.as_deref(), 1);
    for (text, rows, refused) in known::places() {
        check.expect_place(&text, rows, refused);
        assert_eq!(check.differences(), 0);
    }
    // A place that is not the model's, and one of the port that is not the known one.
    let mut check = Check::new(None, 1);
    check.expect_place(b"Int33", 1, (8, 1));
    assert_eq!(check.differences(), 1);
    let mut check = Check::new(Some(&Port(Fault::PlaceZero)), 1);
    check.expect_place(b"Struct(,)", 1, (9, 7));
    assert_eq!(check.differences(), 1);
}

#[test]
fn parents() {
    let texts: [(&str, &[u32]); 3] = [
        ("Struct(\"a\": List(Int8), \"b\": Int8)", &[0, 0, 1, 0]),
        ("Dictionary(Dictionary(Int8, Utf8), Int8)", &[0, 0, 1, 1, 0]),
        ("Int8", &[0]),
    ];
    for (text, expected) in texts {
        let words = words(text);
        let parents = |words: &[u32]| {
            let rows = words.chunks_exact(WORDS);
            rows.map(|row| row[PARENT]).collect::<Vec<_>>()
        };
        assert_eq!(parents(&words), expected);
        assert!(model::sound(text.as_bytes(), NAME_LIST, &words));
        if let Some(port) = subject::linked() {
            let mut lent = vec![7; words.len()];
            assert_eq!(port.read(text.as_bytes(), &mut lent), Ok(expected.len()));
            assert_eq!(lent, words);
        }
    }
}

#[test]
fn parents_set() {
    // Words 1 of three rows, and the parents that they give.
    for (sizes, expected) in [
        ([3, 1, 1], [0, 0, 0]),
        ([3, 2, 1], [0, 0, 1]),
        ([1, 2, 1], [0, 0, 1]),
        ([1, 1, 1], [0, 0, 0]),
        ([0, 0, 0], [0, 0, 0]),
        ([2, 9, 0], [0, 0, 1]),
        ([u32::MAX, u32::MAX, 0], [0, 0, 1]),
    ] {
        let rows = sizes.map(|rows| model::Row {
            rows,
            parent: 9,
            ..Default::default()
        });
        let words = [model::to_words(&rows), vec![5; PARENT]].concat();
        let set = model::with_parents(&words);
        let parents = model::from_words(&set).into_iter().map(|row| row.parent);
        assert_eq!(parents.collect::<Vec<_>>(), expected);
        assert_eq!(set[3 * WORDS..], words[3 * WORDS..]);
        if let Some(port) = subject::linked() {
            let mut lent = words;
            port.set_parents(&mut lent);
            assert_eq!(lent, set);
        }
    }
}

#[test]
fn wrong_parents_are_not_sound() {
    let text = "Struct(\"a\": List(Int8), \"b\": Int8)";
    let right = words(text);
    for row in 0..4 {
        for parent in (0..5).chain([u32::MAX]) {
            let mut changed = right.clone();
            changed[row * WORDS + PARENT] = parent;
            let sound = changed == right;
            assert_eq!(model::sound(text.as_bytes(), NAME_LIST, &changed), sound);
            if let Some(port) = subject::linked() {
                let out = &mut vec![7; MOST_BYTES];
                let printed = port.print(Spelling::Us, text.as_bytes(), NAME_LIST, &changed, out);
                assert_eq!(printed, if sound { Ok(text.len()) } else { Err(17) });
            }
        }
    }
}

#[test]
fn equality_is_blind_to_parents() {
    let text = "Struct(\"a\": List(Int8), \"b\": Int8)".as_bytes();
    let rows = model::read(text, Limits::lent(MOST_ROWS)).unwrap();
    let mut changed = rows.clone();
    changed[0].parent = 1;
    changed[3].parent = u32::MAX;
    let tree = (text, NAME_LIST, rows.as_slice());
    assert!(model::equal(tree, (text, NAME_LIST, &changed)));
    changed[3].union_id = 1;
    assert!(!model::equal(tree, (text, NAME_LIST, &changed)));
}

#[test]
fn rows_of_eleven_words_are_not_sound() {
    let text = "List(Int8)";
    let eleven: Vec<u32> = words(text)
        .chunks(WORDS)
        .flat_map(|row| &row[..PARENT])
        .copied()
        .collect();
    assert_eq!(eleven.len(), 22);
    assert!(!model::sound(text.as_bytes(), NAME_LIST, &eleven));
    if let Some(port) = subject::linked() {
        let out = &mut vec![7; MOST_BYTES];
        let printed = port.print(Spelling::Us, text.as_bytes(), NAME_LIST, &eleven, out);
        assert_eq!(printed, Err(17));
    }
}

/// What the model prints of a text into so many bytes, and the port too if it is linked.
fn printed(spelling: Spelling, text: &str, room: usize) -> Result<String, u32> {
    let (bytes, words) = (text.as_bytes(), words(text));
    let printed = model::print(spelling, bytes, NAME_LIST, &words, room);
    if let Some(port) = subject::linked() {
        let mut out = vec![7; room];
        let answer = port.print(spelling, bytes, NAME_LIST, &words, &mut out);
        assert_eq!(answer.map(|length| out[..length].to_vec()), printed);
    }
    printed.map(|printed| String::from_utf8(printed).expect("UTF-8"))
}

#[test]
fn spellings() {
    for (text, plain, micro) in [
        ("Timestamp(us)", "Timestamp(us)", "Timestamp(µs)"),
        ("Duration(Microsecond)", "Duration(us)", "Duration(µs)"),
        ("Time64(µs)", "Time64(us)", "Time64(µs)"),
        ("Time64(ns)", "Time64(ns)", "Time64(ns)"),
    ] {
        assert_eq!(printed(Spelling::Us, text, MOST_BYTES), Ok(plain.into()));
        assert_eq!(printed(Spelling::Micro, text, MOST_BYTES), Ok(micro.into()));
    }
}

#[test]
fn a_length_is_that_of_the_spelling() {
    let text = "Timestamp(us)";
    assert_eq!(printed(Spelling::Us, text, 13), Ok(text.into()));
    assert_eq!(printed(Spelling::Us, text, 12), Err(19));
    assert_eq!(printed(Spelling::Micro, text, 13), Err(19));
    let micro = printed(Spelling::Micro, text, 14);
    assert_eq!(micro, Ok("Timestamp(µs)".into()));

    let around = "Struct(\"\": Time64(us))".len();
    let longest = format!(
        "Struct(\"{}\": Time64(us))",
        "a".repeat(MOST_BYTES - around)
    );
    assert_eq!(longest.len(), MOST_BYTES);
    let plain = printed(Spelling::Us, &longest, MOST_BYTES);
    assert_eq!(plain.as_ref(), Ok(&longest));
    assert_eq!(printed(Spelling::Micro, &longest, MOST_BYTES), Err(19));
}

#[test]
fn a_name_is_no_unit() {
    for spelling in Spelling::BOTH {
        for text in [
            "List(Int8, field: '(µs)')",
            "Struct(\"(us)\": Int8)",
            "Struct(\"(µs)\": Time64(ns))",
            "Timestamp(s, \"(µs, )\")",
        ] {
            assert_eq!(printed(spelling, text, MOST_BYTES), Ok(text.into()));
        }
    }
}

/// Characters above 127 in double quotes (document 02, [11]).
#[test]
fn characters_above_127() {
    let printed = |text: &str| printed(Spelling::Us, text, MOST_BYTES);
    for text in [
        "Struct(\"Küche\": Int8)",
        "Timestamp(s, \"Zürich\")",
        "Struct(\"\u{a1}\": Int8, \"\u{17f}\": Int8)",
        "Struct(\"a\u{ff}\": Int8)",
        "List(Int8, field: '\u{180}')",
    ] {
        assert_eq!(printed(text), Ok(text.into()));
    }
    for (text, expected) in [
        ("Struct(\"\u{80}\": Int8)", r#"Struct("\u{80}": Int8)"#),
        ("Struct(\"\u{a0}\": Int8)", r#"Struct("\u{a0}": Int8)"#),
        ("Timestamp(s, \"a\u{ad}z\")", r#"Timestamp(s, "a\u{ad}z")"#),
    ] {
        assert_eq!(printed(text), Ok(expected.into()));
    }
    assert_eq!(printed("Struct(\"\u{180}\": Int8)"), Err(18));
    let long = format!("Struct(\"{}\u{180}\": Int8)", "\t".repeat(9_000));
    assert_eq!(printed(&long), Err(18));

    let spaces = |count| format!("Struct(\"{}\": Int8)", "\u{a0}".repeat(count));
    let longest = printed(&spaces(2_728));
    assert_eq!(longest.map(|text| text.len()), Ok(MOST_BYTES));
    assert_eq!(printed(&spaces(2_729)), Err(19));
}

#[test]
fn units_alone_differ() {
    let respelled = |plain: &str, micro: &str| check::respelled(plain.as_bytes(), micro.as_bytes());
    assert_eq!(respelled("Int8", "Int8"), Some(0));
    assert_eq!(respelled("Time64(us)", "Time64(µs)"), Some(1));
    assert_eq!(respelled("a(us)b(us, c)", "a(µs)b(µs, c)"), Some(2));
    assert_eq!(respelled("a(us)b(us, c)", "a(µs)b(us, c)"), Some(1));
    for (plain, micro) in [
        ("Time64(us)", "Time64(µs"),
        ("Time64(us", "Time64(µs)"),
        ("Time64(ns)", "Time64(µs)"),
        ("Time64(µs)", "Time64(us)"),
        ("\"us\"", "\"µs\""),
        ("Int8", "Int16"),
    ] {
        assert_eq!(respelled(plain, micro), None);
    }
}

#[test]
fn verdicts() {
    let verdict = |text: &str| {
        let rows = model::read(text.as_bytes(), Limits::lent(MOST_ROWS)).unwrap();
        model::verdict(text.as_bytes(), NAME_LIST, &model::to_words(&rows)).unwrap()
    };
    assert_eq!(verdict("Dictionary(Utf8, Int32)"), Some(1));
    assert_eq!(verdict("Dictionary(Int8, Dictionary(Utf8, Int8))"), Some(3));
    assert_eq!(verdict("Dictionary(Int8, Utf8)"), None);
    assert_eq!(verdict("Dictionary(UInt8, Utf8)"), None);
    assert_eq!(verdict("Dictionary(UInt64, Utf8)"), None);
    assert_eq!(verdict("Dictionary(Float16, Utf8)"), Some(1));
    assert_eq!(verdict("Dictionary(Boolean, Utf8)"), Some(1));
    assert_eq!(
        verdict("Dictionary(UInt8, Dictionary(Utf8, Int8))"),
        Some(3)
    );
    assert_eq!(verdict("Dictionary(Dictionary(Utf8, Int8), Int8)"), Some(1));
    assert_eq!(verdict("RunEndEncoded(non-null Int8, Utf8)"), Some(1));
    assert_eq!(verdict("RunEndEncoded(non-null UInt16, Utf8)"), Some(1));
    assert_eq!(verdict("RunEndEncoded(non-null Int16, Utf8)"), None);
}

/// What a port does wrong.
#[derive(Clone, Copy, Debug, PartialEq)]
enum Fault {
    None,
    RowsUntouched,
    RefusedRowsKept,
    RestOfRowsZeroed,
    CountTooHigh,
    AnotherNumber,
    PlaceZero,
    PlaceBehindTheMark,
    PlaceOfALook,
    PlaceOfTheShortFormsNext,
    PlaceWithoutTrailingSpaces,
    PlaceOfTheTypesEnd,
    PlaceBeforeTheTypesSpaces,
    PartOfARowCounted,
    NameElsewhere,
    ParentsUnset,
    ParentsUnasked,
    ParentsPastTheRows,
    ParentsOfSoundTrees,
    SmallRoomForRows,
    OutputBehindTheText,
    OutputOfARefusal,
    DefaultOfTheRust,
    SpellingIgnored,
    UsMeasuredAsMicro,
    MicroMeasuredAsUs,
    SoundnessUnasked,
    OneByteOfRoomMissing,
    SoftHyphenAsItself,
    NoBreakSpaceAsItself,
    U0180LetThrough,
    U017fRefused,
    /// One in the check of needed columns.
    Needs(needs::Fault),
    /// One in taking a column out.
    ColumnOut(column_out::Fault),
    /// One in the archive.
    Archive(archive::Fault),
    /// One in rows in halves.
    HalfRows(half_rows::Fault),
}

/// The model as a port, with a fault.
struct Port(Fault);

impl Port {
    /// Where the port says that a text is refused.
    fn place(&self, text: &[u8], (number, place): Refused) -> usize {
        let (before, behind) = text.split_at(place.min(text.len()));
        let spaces = before.iter().rev().take_while(|byte| **byte == b' ');
        let without_spaces = place - spaces.count();
        // Of 13 the short RunEndEncoded form alone stands at such a token.
        let short_form = behind.starts_with(b"(") || behind.starts_with(b"nullable");
        let string = matches!(behind.first(), Some(b'"' | b'\''));
        match (self.0, number) {
            (Fault::PlaceZero, _) => 0,
            (Fault::PlaceBehindTheMark, 6 | 7 | 9) if string => place + 1,
            (Fault::PlaceOfALook, 13 | 14) if !short_form => place + to_next(behind),
            (Fault::PlaceOfTheShortFormsNext, 13) if short_form => place + to_next(behind),
            (Fault::PlaceWithoutTrailingSpaces, 5) => without_spaces,
            (Fault::PlaceOfTheTypesEnd, 16) => without_spaces,
            (Fault::PlaceBeforeTheTypesSpaces, 3 | 4) => without_spaces,
            _ => place,
        }
    }

    /// In which spelling the port prints, and whose length it asks for.
    fn spellings(&self, spelling: Spelling) -> (Spelling, Spelling) {
        let same = |spelling| (spelling, spelling);
        match (self.0, spelling) {
            (Fault::DefaultOfTheRust, _) => same(Spelling::Micro),
            (Fault::SpellingIgnored, _) => same(Spelling::Us),
            (Fault::UsMeasuredAsMicro, _) => (spelling, Spelling::Micro),
            (Fault::MicroMeasuredAsUs, _) => (spelling, Spelling::Us),
            _ => same(spelling),
        }
    }

    /// The fault in the archive, if it has one.
    fn archive_fault(&self) -> archive::Fault {
        match self.0 {
            Fault::Archive(fault) => fault,
            _ => archive::Fault::None,
        }
    }

    /// The fault in rows in halves, if it has one.
    fn half_fault(&self) -> half_rows::Fault {
        match self.0 {
            Fault::HalfRows(fault) => fault,
            _ => half_rows::Fault::None,
        }
    }

    /// A character of two bytes that the port prints as it prints the other.
    fn taken_for(&self) -> Option<(&'static str, &'static str)> {
        match self.0 {
            Fault::SoftHyphenAsItself => Some(("\u{ad}", "\u{ae}")),
            Fault::NoBreakSpaceAsItself => Some(("\u{a0}", "\u{a1}")),
            Fault::U0180LetThrough => Some(("\u{180}", "\u{17f}")),
            Fault::U017fRefused => Some(("\u{17f}", "\u{180}")),
            _ => None,
        }
    }
}

/// A text with one character in the place of another; none if it has that one already.
fn replaced(text: &[u8], from: &str, to: &str) -> Option<Vec<u8>> {
    let text = str::from_utf8(text).ok()?;
    (!text.contains(to)).then(|| text.replace(from, to).into_bytes())
}

/// How far behind a mark's or a word's first byte the next token stands, or the end.
fn to_next(text: &[u8]) -> usize {
    let is_mark = |byte: &u8| b"(),:".contains(byte);
    let word = text
        .iter()
        .take_while(|byte| !is_mark(byte) && **byte != b' ');
    let token = word.count().max(1);
    let spaces = text[token..].iter().take_while(|byte| **byte == b' ');
    token + spaces.count()
}

impl Subject for Port {
    fn read(&self, text: &[u8], rows: &mut [u32]) -> Result<usize, Refused> {
        let mut lent = rows.len() / WORDS;
        match self.0 {
            Fault::PartOfARowCounted => lent = rows.len().div_ceil(WORDS),
            Fault::SmallRoomForRows => lent = lent.saturating_sub(1),
            _ => {}
        }
        let read = model::read_placed(text, Limits::lent(lent));
        match &read {
            Ok(read) => {
                let words = model::to_words(read);
                let filled = words.len().min(rows.len());
                if self.0 != Fault::RowsUntouched {
                    rows[..filled].copy_from_slice(&words[..filled]);
                }
                if self.0 == Fault::RestOfRowsZeroed {
                    rows[filled..].fill(0);
                }
                if self.0 == Fault::NameElsewhere && filled > 2 * WORDS {
                    // The second row's name, one byte further on.
                    rows[WORDS + 7] += 1;
                }
                if self.0 == Fault::ParentsUnset {
                    let parents = rows[..filled].iter_mut().skip(PARENT).step_by(WORDS);
                    parents.for_each(|parent| *parent = 0);
                }
            }
            Err(_) if self.0 == Fault::RefusedRowsKept => {}
            Err(_) => rows.fill(0),
        }
        match read {
            Ok(read) => Ok(read.len() + usize::from(self.0 == Fault::CountTooHigh)),
            Err((9, place)) if self.0 == Fault::AnotherNumber => Err((8, place)),
            Err(refused) => Err((refused.0, self.place(text, refused))),
        }
    }

    fn print(
        &self,
        spelling: Spelling,
        text: &[u8],
        list: &[u8],
        rows: &[u32],
        out: &mut [u8],
    ) -> Result<usize, u32> {
        let taken = self.taken_for();
        if let Some((character, other)) = taken
            && let Some(text) = replaced(text, character, other)
        {
            let printed = model::print(spelling, &text, list, rows, out.len())?;
            let printed = replaced(&printed, other, character).unwrap_or(printed);
            out[..printed.len()].copy_from_slice(&printed);
            return Ok(printed.len());
        }
        let room = match self.0 {
            Fault::OneByteOfRoomMissing => out.len().saturating_sub(1),
            _ => out.len(),
        };
        let mut rows = rows.to_vec();
        if self.0 == Fault::ParentsUnasked && rows.len() % WORDS == 0 {
            rows = trees::tree(text, &model::from_words(&rows)).words;
        }
        let (spelling, measured) = self.spellings(spelling);
        let in_spelling = |_| model::print(spelling, text, list, &rows, MOST_BYTES);
        match model::print(measured, text, list, &rows, room).and_then(in_spelling) {
            Ok(mut printed) => {
                printed.truncate(out.len());
                out[..printed.len()].copy_from_slice(&printed);
                if self.0 == Fault::OutputBehindTheText {
                    out[printed.len()..].fill(0);
                }
                Ok(printed.len())
            }
            Err(17) if self.0 == Fault::SoundnessUnasked => Ok(0),
            Err(number) => {
                if self.0 == Fault::OutputOfARefusal {
                    out.fill(0);
                }
                Err(number)
            }
        }
    }

    fn set_parents(&self, rows: &mut [u32]) {
        let mut set = model::with_parents(rows);
        match self.0 {
            Fault::ParentsPastTheRows if rows.len() > MOST_ROWS * WORDS => {
                set[MOST_ROWS * WORDS + PARENT] = 0;
            }
            Fault::ParentsOfSoundTrees if rows.len() >= WORDS && rows[1] == 0 => return,
            _ => {}
        }
        rows.copy_from_slice(&set);
    }

    fn needs(&self, table: Table, needed: &Needed) -> Answer {
        let fault = match self.0 {
            Fault::Needs(fault) => fault,
            _ => needs::Fault::None,
        };
        needs::faulty(fault, table, needed)
    }

    fn take_column_out(
        &self,
        table: Table,
        field: usize,
        rows: &mut [u32],
        text: &mut [u8],
    ) -> crate::column_out::Answer {
        let fault = match self.0 {
            Fault::ColumnOut(fault) => fault,
            _ => column_out::Fault::None,
        };
        column_out::faulty(fault, table, field, rows, text)
    }

    fn write_archive(&self, table: Table, out: &mut [u8]) -> crate::archive::Written {
        archive::faulty_write(self.archive_fault(), table, out)
    }

    fn read_archive(
        &self,
        image: &[u8],
        rows: &mut [u32],
        text: &mut [u8],
    ) -> crate::archive::Answer {
        archive::faulty_read(self.archive_fault(), image, rows, text)
    }

    fn to_half_rows(&self, table: Table, halves: &mut [u16]) -> crate::half_rows::Answer {
        half_rows::faulty_keep(self.half_fault(), table, halves)
    }

    fn from_half_rows(
        &self,
        kept: crate::half_rows::Kept,
        rows: &mut [u32],
    ) -> crate::half_rows::Answer {
        half_rows::faulty_back(self.half_fault(), kept, rows)
    }
}

/// A short run with the port; the number of differences.
fn short_run(port: &Port) -> usize {
    let mut check = Check::new(Some(port), 1);
    let mut random = Random::new(1);
    for (text, expected) in known::known() {
        let read = check.text(text.as_bytes()).map(|rows| rows.len());
        check.expect(text.as_bytes(), &read, &expected);
    }
    check::each_character(&mut check);
    for _ in 0..300 {
        let rows = random.between(1, 10);
        let tokens = texts::random(&mut random, rows, 20);
        let _ = check.text(&texts::join(&mut random, &tokens));
        let _ = check.text(&damage::damaged(&mut random, &tokens));
        for letters in [Letters::Plain, Letters::Ascii, Letters::Latin, Letters::Any] {
            check::random_tree(&mut check, &mut random, letters);
        }
        let tree = trees::sound(&mut random, Letters::Ascii, 12);
        check.any_tree(&trees::changed(&mut random, &tree));
        if let Some((clause, tree)) = trees::broken(&mut random, &tree) {
            check.broken_tree(clause, &tree);
        }
    }
    check.differences()
}

#[test]
fn a_port_without_faults_passes() {
    assert_eq!(short_run(&Port(Fault::None)), 0);
}

#[test]
fn ports_with_faults_are_caught() {
    for fault in [
        Fault::RowsUntouched,
        Fault::RefusedRowsKept,
        Fault::RestOfRowsZeroed,
        Fault::CountTooHigh,
        Fault::AnotherNumber,
        Fault::PlaceZero,
        Fault::PlaceBehindTheMark,
        Fault::PlaceOfALook,
        Fault::PlaceOfTheShortFormsNext,
        Fault::PlaceWithoutTrailingSpaces,
        Fault::PlaceOfTheTypesEnd,
        Fault::PlaceBeforeTheTypesSpaces,
        Fault::PartOfARowCounted,
        Fault::NameElsewhere,
        Fault::ParentsUnset,
        Fault::ParentsUnasked,
        Fault::ParentsPastTheRows,
        Fault::ParentsOfSoundTrees,
        Fault::SmallRoomForRows,
        Fault::OutputBehindTheText,
        Fault::OutputOfARefusal,
        Fault::DefaultOfTheRust,
        Fault::SpellingIgnored,
        Fault::UsMeasuredAsMicro,
        Fault::MicroMeasuredAsUs,
        Fault::SoundnessUnasked,
        Fault::OneByteOfRoomMissing,
        Fault::SoftHyphenAsItself,
        Fault::NoBreakSpaceAsItself,
        Fault::U0180LetThrough,
        Fault::U017fRefused,
    ] {
        assert!(short_run(&Port(fault)) > 0, "{fault:?} is not caught");
    }
}
