//! The stored sample of the archive, for a replay without Rust, and the golden files: images with what they are read into, and
//! types with their images. README.md has the formats.

use crate::archive::{self, Cause, FIXED_BYTES, READ};
use crate::check::Check;
use crate::generate::Random;
use crate::generate::archive::{damaged, large, nested, rooms};
use crate::generate::trees::{self, Letters};
use crate::model::{self, Limits, MOST_BYTES, MOST_ROWS, NAME_LIST, WORDS};
use crate::oracle;
use crate::sample::{File, Stored, leaf};
use crate::subject;
use std::process::ExitCode;

/// All that may be used for reading.
const ALL: (usize, usize) = (MOST_ROWS * WORDS, MOST_BYTES);

/// The most words and bytes that the replay lends.
const MOST_LENT: (usize, usize) = (13_000, 20_000);

/// Images with longer records are left out, but for those that are the largest.
const LONG: usize = 900;

/// How many cases are kept for an outcome that is refused, and how many for one that is read.
const REFUSED: usize = 32;
const ACCEPTED: usize = 350;

/// The first of `READ` are accepted.
const READ_WELL: usize = 3;

struct Images<'s> {
    check: Check<'s>,
    random: Random,
    kept: File,
    /// How many cases are kept by outcome, and how many of them are accepted.
    outcomes: [usize; READ.len()],
    accepted: usize,
}

/// Writes images with what they are read into; none while model, Rust and port differ on any.
pub fn images(file: &str, seed: u64) -> Result<ExitCode, String> {
    let subject = subject::linked();
    let mut images = Images {
        check: Check::new(subject.as_deref(), seed),
        random: Random::new(seed),
        kept: File::default(),
        outcomes: [0; READ.len()],
        accepted: 0,
    };
    images.large();
    for _ in 0..40_000 {
        images.small();
    }
    images.write(file)
}

/// A case: what is lent, the image, and what is to be answered and left.
fn record(image: &[u8], lent: (usize, usize)) -> Vec<u8> {
    let (read, cause) = archive::read(image, lent);
    let mut record = Stored::default();
    record.number(lent.0).number(lent.1).line();
    record.bytes(image);
    match cause {
        Some(cause) => {
            record.number(cause.number() as usize).number(0).line();
            record.bytes(&[]);
        }
        None => {
            record.number(0).number(read.rows.len()).line();
            record.bytes(&read.text);
            record.words(&read.words());
        }
    }
    record.0
}

/// An image with the rows of another, of the same length.
fn wrong_image() -> Vec<u8> {
    let image = |text: &[u8]| {
        let tree = leaf(text);
        archive::image((&tree.text, &tree.list, &tree.words)).expect("a sound tree")
    };
    let mut record = record(&image(b"Int32"), ALL);
    let (right, wrong) = (image(b"Int32"), image(b"Int16"));
    let at = record
        .windows(FIXED_BYTES)
        .position(|part| part == right)
        .expect("the image");
    record[at..at + FIXED_BYTES].copy_from_slice(&wrong);
    record
}

impl Images<'_> {
    /// Keeps a case where one of its outcomes has too few.
    fn offer(&mut self, image: &[u8], lent: (usize, usize), changed: bool, long: usize) {
        let lent = (lent.0.min(MOST_LENT.0), lent.1.min(MOST_LENT.1));
        let outcomes = self.check.read_image_into(image, lent, changed);
        let most = |outcome: usize| {
            if outcome < READ_WELL {
                ACCEPTED
            } else {
                REFUSED
            }
        };
        if outcomes
            .iter()
            .all(|outcome| self.outcomes[*outcome] >= most(*outcome))
        {
            return;
        }
        let record = record(image, lent);
        if record.len() > long || !self.kept.offer(record) {
            return;
        }
        self.accepted += usize::from(outcomes[0] < 2);
        outcomes
            .iter()
            .for_each(|outcome| self.outcomes[*outcome] += 1);
    }

    /// A tree's image and a damaged one, with buffers of any size.
    fn small(&mut self) {
        let letters = [Letters::Plain, Letters::Ascii, Letters::Latin, Letters::Any];
        let letters = letters[self.random.below(4)];
        let rows = self.random.between(1, 8);
        let tree = trees::sound(&mut self.random, letters, rows);
        let image = archive::image((&tree.text, &tree.list, &tree.words)).expect("a sound tree");
        let damaged = damaged(&mut self.random, &tree);
        for (image, changed) in [(image, false), (damaged, true)] {
            let (whole, _) = archive::read(&image, ALL);
            let lent = rooms(&mut self.random, &whole);
            let deep = whole.deep || model::depth(&whole.rows) == 64;
            self.offer(&image, lent, changed, if deep { 5_000 } else { LONG });
        }
    }

    /// Images as large and as deep as may be.
    fn large(&mut self) {
        // A Struct of 1,024 rows; one row more; names and zones over 16,384 bytes.
        let mut missing = vec![
            None,
            Some(Cause::RowOver1024),
            Some(Cause::NameOver16384),
            Some(Cause::ZoneOver16384),
        ];
        while !missing.is_empty() {
            let image = large(&mut self.random);
            let (whole, cause) = archive::read(&image, MOST_LENT);
            let wanted = cause.is_some() || whole.rows.len() == MOST_ROWS;
            if let Some(at) = missing.iter().position(|sort| wanted && *sort == cause) {
                missing.remove(at);
                self.offer(&image, MOST_LENT, true, usize::MAX);
            }
        }
        for levels in [63, 64, 65, 66] {
            self.offer(&nested(levels, 2), ALL, true, usize::MAX);
        }
        for (levels, innermost) in [(1_024, 2), (1_024, 41), (1_025, 2)] {
            self.offer(&nested(levels, innermost), ALL, true, usize::MAX);
        }
    }

    /// Writes what is kept, unless there are differences or an outcome did not come.
    fn write(mut self, file: &str) -> Result<ExitCode, String> {
        if self.check.differences() > 0 {
            println!("nothing is written while there are differences");
            return Ok(ExitCode::FAILURE);
        }
        let mut outcomes = READ.iter().zip(self.outcomes);
        if let Some((outcome, count)) = outcomes.find(|(_, count)| *count == 0) {
            return Err(format!("{outcome}: kept {count} times"));
        }
        let bytes = self.kept.write(file, wrong_image())?;
        let all = self.kept.records.len();
        println!(
            "{all} images, {bytes} bytes in {file}, {} accepted",
            self.accepted
        );
        for (outcome, count) in READ.iter().zip(self.outcomes) {
            println!("{count:>6}  {outcome}");
        }
        Ok(ExitCode::SUCCESS)
    }
}

/// The columns of bindings/rust/examples/slot_file.txt.
const SLOT_FILE: &str = include_str!("../../../bindings/rust/examples/slot_file.txt");

/// The golden files: a name, what it is, and its type text.
fn golden_types() -> Vec<(String, String, String)> {
    let mut types = vec![(
        "int8".to_string(),
        "one row, 17 bytes".to_string(),
        "Int8".to_string(),
    )];
    for (number, column) in (1..).zip(SLOT_FILE.lines()) {
        let said = format!("line {number} of the sample slot file");
        types.push((format!("slot_{number:02}"), said, column.to_string()));
    }
    let deep = format!("{}Int8{}", "List(".repeat(63), ")".repeat(63));
    types.push(("levels_64".into(), "64 levels".into(), deep));
    let said = "every kind, as in crates/round_trip/specs/EveryKind.antt".to_string();
    types.push(("every_kind".into(), said, every_kind()));
    let fields = "Union(Dense, 5: (\"x\": non-null Decimal256(76, -3)), \
                  7: (\"list\": FixedSizeList(305419896 x non-null Timestamp(ns, \"CET\"))))";
    let said = "no two fields of a record alike, and a number of four bytes".to_string();
    types.push(("each_field".into(), said, fields.into()));
    types
}

/// The text of crates/round_trip/specs/EveryKind.antt.
fn every_kind() -> String {
    let ascii = (' '..='~').filter(|letter| !"\"'\\".contains(*letter));
    let latin = ('\u{a1}'..='\u{17f}').filter(|letter| *letter != '\u{ad}');
    let plain: String = ascii.chain(latin).collect();
    [
        "Struct(\"", &plain,
        "\": Null, \"b\": non-null Boolean, \"i\": Int8, \"i\": Int16, \"i\": Int32, \"i\": Int64, ",
        "\"u\": UInt8, \"u\": UInt16, \"u\": UInt32, \"u\": UInt64, ",
        "\"f\": Float16, \"f\": Float32, \"f\": Float64, \"t\": Timestamp(us, \"", &plain,
        "\"), \"d\": Date32, \"d\": Date64, \"t\": Time32(ms), \"t\": Time64(ns), \"d\": Duration(s), ",
        "\"i\": Interval(MonthDayNano), \"x\": Binary, \"x\": FixedSizeBinary(16), \"x\": LargeBinary, ",
        "\"x\": BinaryView, \"s\": Utf8, \"s\": LargeUtf8, \"s\": Utf8View, ",
        "\"l\": List(Int8), \"l\": ListView(non-null Int8, field: '", &plain,
        "'), \"l\": FixedSizeList(4 x Int8, field: 'item'), \"l\": LargeList(Int8), \"l\": LargeListView(Int8), ",
        "\"item\": Struct(), \"values\": Union(Dense, 5: (\"run_ends\": Int8), 100: (\"", &plain,
        "\": non-null Utf8)), \"d\": Dictionary(Int8, Utf8), ",
        "\"d\": Decimal32(9, -128), \"d\": Decimal64(12, 3), \"d\": Decimal128(38, 0), \"d\": Decimal256(76, 76), ",
        "\"m\": Map(\"", &plain, "\": non-null Struct(\"k\": non-null Utf8, \"v\": Int8), sorted), ",
        "\"r\": RunEndEncoded(non-null Int32, Utf8), \"r\": RunEndEncoded(\"", &plain,
        "\": non-null Int16, \"values\": Utf8))",
    ]
    .concat()
}

/// Writes the golden files into a folder, with their texts and a page that says what each is. The port has no say.
pub fn golden(folder: &str) -> Result<ExitCode, String> {
    let mut texts = String::new();
    let mut page = String::from(PAGE);
    for (name, said, text) in golden_types() {
        let rows = model::read(text.as_bytes(), Limits::lent(MOST_ROWS));
        let rows = rows.map_err(|number| format!("{name}: refused with {number}"))?;
        let words = model::to_words(&rows);
        let image = archive::image((text.as_bytes(), NAME_LIST, &words));
        let image = image.map_err(|number| format!("{name}: not written, {number}"))?;
        let (read, cause) = archive::read(&image, ALL);
        let back = oracle::data_type(&read.text, NAME_LIST, &read.words());
        if cause.is_some() || text.parse().ok() != Some(back) {
            return Err(format!("{name}: does not read back"));
        }
        write(folder, &name, &image)?;
        texts += &format!("{name} {text}\n");
        page += &format!("| {name} | {} | {} | {said} |\n", image.len(), rows.len());
    }
    write(folder, "texts", texts.as_bytes())?;
    write(folder, "README.md", page.as_bytes())?;
    Ok(ExitCode::SUCCESS)
}

const PAGE: &str = "\
# Images of the archive record

Golden files: the format must not drift. Each file is the image of one type, its archive record with its children's records in
it, as [docs/SCOPE.md](../../docs/SCOPE.md) has it under 'The archive record'. They were made by `compare golden`, a second
writing of the format ([tests/compare](../../tests/compare/README.md)), and not by the library, which must write the same bytes
and read them back: `bindings/c/check.c` and `bindings/rust/tests/archive.rs` compare. `texts` has a line for each: the file's
name, a space, and the type's text.

| file | bytes | rows | what it is |
|---|---:|---:|---|
";

fn write(folder: &str, name: &str, bytes: &[u8]) -> Result<(), String> {
    let path = format!("{folder}/{name}");
    std::fs::write(&path, bytes).map_err(|error| format!("{path}: {error}"))
}

/// The last case of the sample is not what is read of its image.
#[cfg(test)]
#[test]
fn wrong_on_purpose() {
    let wrong = wrong_image();
    assert_eq!(wrong.len(), record(&archive_of("Int16"), ALL).len());
    assert_ne!(wrong, record(&archive_of("Int32"), ALL));
    assert_ne!(wrong, record(&archive_of("Int16"), ALL));
}

#[cfg(test)]
fn archive_of(text: &str) -> Vec<u8> {
    let tree = leaf(text.as_bytes());
    archive::image((&tree.text, &tree.list, &tree.words)).expect("a sound tree")
}
