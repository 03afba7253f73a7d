//! The stored samples of crates/replay/data, given to this crate. Their answers came from arrow-schema 60.1.0 and from a
//! second writing of the scope; tests/compare/README.md says how they were made, and has the format.
//!
//! Each text is read into as many words as its case lends, and compared in full, with its place. Types are read with all
//! the rows that they need and printed with 16,384 bytes, and there is one name list, so there cases that lend less or
//! have another list are held to what they imply, or left out; the counts say of how many. The last case of each sample
//! is wrong on purpose.
#![cfg(repository)]

use std::panic::{AssertUnwindSafe, catch_unwind};

use arrow_types::{
    DataType, Error, Field, HALF_ROW_WORDS, HalfRows, MAX_ROWS, MAX_TEXT, ROW_WORDS, ReadError,
    RewriteError, Spelling, Verdict, read, rewrite_with, rows_to_lend,
};

const NAME_LIST: &[u8] = b"itemrun_endsvalues";

/// A check of a case that is wrong on purpose fails.
fn fails<T>(check: impl FnOnce() -> T) {
    assert!(catch_unwind(AssertUnwindSafe(check)).is_err());
}

/// What is left of a sample.
struct Sample(std::vec::IntoIter<u8>);

impl Sample {
    fn open(name: &str) -> Sample {
        let folder = concat!(env!("CARGO_MANIFEST_DIR"), "/../../crates/replay/data");
        let bytes = std::fs::read(format!("{folder}/{name}")).expect("a stored sample");
        Sample(bytes.into_iter())
    }

    /// A decimal number and the byte behind it.
    fn number(&mut self) -> usize {
        let digits: Vec<u8> = self.0.by_ref().take_while(u8::is_ascii_digit).collect();
        let digits = String::from_utf8(digits).expect("ASCII");
        digits.parse().expect("a number")
    }

    fn flag(&mut self) -> bool {
        self.number() == 1
    }

    /// A count, as many bytes, and a line's end.
    fn bytes(&mut self) -> Vec<u8> {
        let count = self.number();
        let bytes = self.0.by_ref().take(count).collect();
        assert_eq!(self.0.next(), Some(b'\n'));
        bytes
    }

    fn words(&mut self, count: usize) -> Vec<u32> {
        (0..count).map(|_| self.number() as u32).collect()
    }

    /// 0 and a value, or a refusal's number and 0.
    fn answer(&mut self) -> Result<usize, u32> {
        match (self.number(), self.number()) {
            (0, value) => Ok(value),
            (number, value) => {
                assert_eq!(value, 0);
                Err(number as u32)
            }
        }
    }

    fn table(&mut self) -> Table {
        let (text, list) = (self.bytes(), self.bytes());
        let count = self.number();
        let words = self.words(count);
        Table { text, list, words }
    }

    fn end(mut self) {
        assert_eq!(self.0.next(), None);
    }
}

#[derive(Clone)]
struct Table {
    text: Vec<u8>,
    list: Vec<u8>,
    words: Vec<u32>,
}

impl Table {
    /// None if the table has another name list; no such table is sound.
    fn data_type(&self) -> Option<Result<DataType, Error>> {
        let Table { text, list, words } = self;
        (list == NAME_LIST).then(|| DataType::from_parts(text.clone(), words.clone()))
    }
}

/// A text and what reading it is to answer: the row count, or the number and the place of a refusal.
struct Text {
    lent: usize,
    text: Vec<u8>,
    answer: Result<usize, (u32, usize)>,
    words: Vec<u32>,
}

fn number_and_place(error: ReadError) -> (u32, usize) {
    (error.number(), error.place())
}

impl Text {
    fn of(sample: &mut Sample) -> Text {
        let (lent, text) = (sample.number(), sample.bytes());
        let (answer, place) = (sample.answer(), sample.number());
        assert!(answer.is_err() || place == 0);
        let answer = answer.map_err(|number| (number, place));
        Text {
            lent,
            text,
            answer,
            words: sample.words(answer.map_or(0, |rows| rows * ROW_WORDS)),
        }
    }

    /// What is counted: 0 for a text read, the number of a refusal, 17 for a text that has no room in the rows that the
    /// case lends, of which a type is always lent more.
    fn check(&self) -> usize {
        self.fits(self.lent);
        if self.is_short_of_rows() {
            return 17;
        }
        match DataType::try_from(&*self.text) {
            Ok(read) => {
                assert_eq!(Ok(read.row_count()), self.answer);
                assert_eq!(read.rows(), self.words);
                assert_eq!(read.text().as_bytes(), self.text);
                reads_back(&read);
                let lent = rows_to_lend(self.text.len());
                assert_eq!(lent, ((self.text.len() + 1) / 5).min(MAX_ROWS));
                self.fits(lent * ROW_WORDS);
                0
            }
            Err(error) => {
                assert_eq!(Err(number_and_place(error)), self.answer);
                error.number() as usize
            }
        }
    }

    fn is_short_of_rows(&self) -> bool {
        matches!(self.answer, Err((4, _))) && self.lent < MAX_ROWS * ROW_WORDS
    }

    /// Reads the text into so many words: the answer is that of the case, and so are the rows, and the words behind them
    /// are as they were; those of a refused text are all 0.
    fn fits(&self, lent: usize) {
        let mut rows = vec![7; lent];
        assert_eq!(
            read(&self.text, &mut rows).map_err(number_and_place),
            self.answer
        );
        let (filled, rest) = rows.split_at(self.words.len());
        assert_eq!(filled, self.words);
        let left = if self.answer.is_ok() { 7 } else { 0 };
        assert!(rest.iter().all(|word| *word == left));
    }
}

#[test]
fn texts() {
    let mut sample = Sample::open("texts");
    let mut counts = [0; 18];
    let mut behind_start = 0;
    for _ in 1..sample.number() {
        let text = Text::of(&mut sample);
        counts[text.check()] += 1;
        behind_start += usize::from(text.answer.is_err_and(|(_, place)| place > 0));
    }
    let wrong = Text::of(&mut sample);
    fails(|| wrong.check());
    sample.end();
    assert_eq!((counts[0], counts[17]), (1_202, 194));
    assert_eq!(counts[1..=16].iter().sum::<usize>(), 2_539);
    assert!(counts[1..=16].iter().all(|count| *count > 0));
    // Of the 2,733 refused.
    assert_eq!(behind_start, 2_289);
}

/// A case with another place is told from the right one.
#[test]
fn another_place() {
    let mut text = Text {
        lent: ROW_WORDS,
        text: b"Int33".to_vec(),
        answer: Err((8, 0)),
        words: Vec::new(),
    };
    assert_eq!(text.check(), 8);
    text.answer = Err((8, 1));
    fails(|| text.check());
}

/// The rows as parts, and the printed text, where names and zones have neither quote marks, backslashes nor characters that
/// print as escapes or not at all, in both spellings.
fn reads_back(read: &DataType) {
    let again = DataType::from_parts(read.text(), read.rows());
    assert_eq!(again.as_ref(), Ok(read));
    let plain = |part: &str| {
        let odd = |character| "\"'\\\u{ad}".contains(character);
        let itself = |character| matches!(character, ' '..='~' | '\u{a1}'..='\u{17f}');
        part.chars()
            .all(|character| itself(character) && !odd(character))
    };
    let parts = |field: Field<'_>| field.name().is_none_or(plain) && field.zone().is_none_or(plain);
    if read.root().subtree().all(parts) {
        for spelling in [Spelling::Us, Spelling::Micro] {
            let printed = read.print_with(spelling).expect("plain");
            let again: DataType = printed.parse().expect("printed");
            assert_eq!(&again, read);
        }
    }
}

/// A rewrite by its single steps.
fn step_by_step(text: &[u8], spelling: Spelling) -> Result<String, RewriteError> {
    let before = DataType::try_from(text).map_err(RewriteError::Read)?;
    let printed = before.print_with(spelling).map_err(RewriteError::Print)?;
    let after: DataType = printed.parse().map_err(RewriteError::ReadBack)?;
    if after == before {
        Ok(printed)
    } else {
        Err(RewriteError::Different)
    }
}

/// Each stored text is rewritten as by single steps, in both spellings. The counts are those of the steps.
#[test]
fn rewrites() {
    let mut sample = Sample::open("texts");
    let mut counts = [0; 5];
    for _ in 0..sample.number() {
        let text = Text::of(&mut sample).text;
        for spelling in [Spelling::Us, Spelling::Micro] {
            let answer = rewrite_with(&text, spelling);
            assert_eq!(answer, step_by_step(&text, spelling));
            counts[match answer {
                Ok(_) => 0,
                Err(RewriteError::Read(_)) => 1,
                Err(RewriteError::Print(_)) => 2,
                Err(RewriteError::ReadBack(_)) => 3,
                Err(RewriteError::Different) => 4,
            }] += 1;
        }
    }
    assert_eq!(counts, [1_372, 5_288, 974, 148, 90]);
}

#[test]
fn tables() {
    let mut sample = Sample::open("tables");
    let mut counts = Counts::default();
    for _ in 1..sample.number() {
        group(&mut sample, &mut counts);
    }
    fails(|| group(&mut sample, &mut Counts::default()));
    sample.end();
    let expected = Counts {
        sound: 878,
        not_sound: 5_757,
        left_out: 8,
        equal: 62,
        not_equal: 816,
    };
    assert_eq!(counts, expected);
}

/// A table, another that it is compared with, and changes of the first with the answers of each.
fn group(sample: &mut Sample, counts: &mut Counts) {
    let (table, other) = (sample.table(), sample.table());
    for _ in 0..sample.number() {
        let (word, value) = (sample.number(), sample.number());
        let mut table = table.clone();
        if let Some(changed) = table.words.get_mut(word) {
            *changed = value as u32;
        }
        let answers = Answers::of(sample);
        answers.check(&table, &other, word / ROW_WORDS, counts);
    }
}

#[derive(Debug, Default, PartialEq)]
struct Counts {
    sound: usize,
    not_sound: usize,
    left_out: usize,
    equal: usize,
    not_equal: usize,
}

/// What is stored about a table.
struct Answers {
    sound: bool,
    depth: Result<usize, u32>,
    verdict: Result<usize, u32>,
    equal: bool,
    name: Vec<u8>,
    zone: Vec<u8>,
}

impl Answers {
    fn of(sample: &mut Sample) -> Answers {
        Answers {
            sound: sample.flag(),
            depth: sample.answer(),
            verdict: sample.answer(),
            equal: sample.flag(),
            name: sample.bytes(),
            zone: sample.bytes(),
        }
    }

    fn check(&self, table: &Table, other: &Table, row: usize, counts: &mut Counts) {
        match table.data_type() {
            None => {
                assert!(!self.sound);
                counts.left_out += 1;
            }
            Some(Err(error)) => {
                assert_eq!(error.number(), 17);
                assert!(!self.sound);
                assert_eq!((self.depth, self.verdict), (Err(17), Err(17)));
                counts.not_sound += 1;
            }
            Some(Ok(tree)) => {
                assert!(self.sound);
                self.check_tree(&tree, row);
                self.check_equal(&tree, other, counts);
                counts.sound += 1;
            }
        }
    }

    fn check_tree(&self, tree: &DataType, row: usize) {
        assert_eq!(Ok(tree.depth()), self.depth);
        let verdict = match tree.verdict() {
            Verdict::Yes => 0,
            Verdict::Row(row) => row + 1,
        };
        assert_eq!(Ok(verdict), self.verdict);
        let row = tree.row(row);
        let name = row.and_then(Field::name).unwrap_or("");
        let zone = row.and_then(Field::zone).unwrap_or("");
        assert_eq!(
            (name.as_bytes(), zone.as_bytes()),
            (&*self.name, &*self.zone)
        );
    }

    fn check_equal(&self, tree: &DataType, other: &Table, counts: &mut Counts) {
        if let Some(Ok(other)) = other.data_type() {
            assert_eq!(tree == &other, self.equal);
            assert_eq!(&other == tree, self.equal);
            let count = if self.equal {
                &mut counts.equal
            } else {
                &mut counts.not_equal
            };
            *count += 1;
        }
    }
}

/// A tree and what it is to print, in the spelling of its sample.
struct Print {
    lent: usize,
    table: Table,
    status: u32,
    printed: Vec<u8>,
}

impl Print {
    fn of(sample: &mut Sample) -> Print {
        let lent = sample.number();
        let (text, list) = (sample.bytes(), sample.bytes());
        let (status, printed) = (sample.number() as u32, sample.bytes());
        let count = sample.number();
        let words = sample.words(count);
        let table = Table { text, list, words };
        Print {
            lent,
            table,
            status,
            printed,
        }
    }

    /// What is counted: 0 for a text printed, the number of a refusal, 1 for a table with another name list, 2 for a
    /// text that has no room in what the case lends, and has it here.
    fn check(&self, spelling: Spelling) -> usize {
        let Some(tree) = self.table.data_type() else {
            assert_eq!(self.status, 17);
            return 1;
        };
        let answer = tree.and_then(|tree| tree.print_with(spelling));
        match answer.map_err(Error::number) {
            Ok(answer) if self.status == 19 => {
                assert!(self.lent < answer.len());
                2
            }
            Ok(answer) => {
                assert_eq!((self.status, answer.as_bytes()), (0, &*self.printed));
                0
            }
            Err(number) => {
                assert_eq!(number, self.status);
                number as usize
            }
        }
    }
}

/// What is counted in a sample of the printer.
fn counts_of_prints(name: &str, spelling: Spelling) -> [usize; 20] {
    let mut sample = Sample::open(name);
    let mut counts = [0; 20];
    for _ in 1..sample.number() {
        counts[Print::of(&mut sample).check(spelling)] += 1;
    }
    let wrong = Print::of(&mut sample);
    fails(|| wrong.check(spelling));
    sample.end();
    counts
}

#[test]
fn prints_as_us() {
    let counts = counts_of_prints("prints_us", Spelling::Us);
    assert_eq!(counts[..3], [302, 0, 70]);
    assert_eq!(counts[17..], [41, 80, 2]);
}

#[test]
fn prints() {
    let counts = counts_of_prints("prints", Spelling::Micro);
    assert_eq!(counts[..3], [1_963, 9, 377]);
    assert_eq!(counts[17..], [480, 179, 2]);
}

/// An image and what it is read into where so many words and bytes are lent: a text and rows, or the number of a refusal.
struct Image {
    words: usize,
    bytes: usize,
    image: Vec<u8>,
    status: u32,
    text: Vec<u8>,
    rows: Vec<u32>,
}

impl Image {
    fn of(sample: &mut Sample) -> Image {
        let (words, bytes) = (sample.number(), sample.number());
        let image = sample.bytes();
        let (status, count) = (sample.number() as u32, sample.number());
        let text = sample.bytes();
        Image {
            words,
            bytes,
            image,
            status,
            text,
            rows: sample.words(count * ROW_WORDS),
        }
    }

    /// What is counted: 0 for an image that is read, the number of a refusal, 1 for an image that has no room in what the case
    /// lends, where all is lent here.
    fn check(&self) -> usize {
        let read = DataType::from_archive(&self.image);
        let rows_lent = self.words / ROW_WORDS;
        match (read, self.status) {
            (Ok(read), 28) => {
                let short = rows_lent < read.row_count() || self.bytes < read.text().len();
                assert!(short, "{read:?}");
                assert_eq!(read.to_archive(), self.image);
                1
            }
            (Ok(read), status) => {
                assert_eq!(status, 0);
                assert_eq!(read.text().as_bytes(), self.text);
                assert_eq!(read.rows(), self.rows);
                assert_eq!(read.to_archive(), self.image);
                0
            }
            (Err(error), 28) if error != Error::NoRoom => {
                assert!(rows_lent < MAX_ROWS || self.bytes < MAX_TEXT);
                1
            }
            (Err(error), status) => {
                assert_eq!(error.number(), status);
                status as usize
            }
        }
    }
}

#[test]
fn images() {
    let mut sample = Sample::open("images");
    let mut counts = [0; 32];
    for _ in 1..sample.number() {
        counts[Image::of(&mut sample).check()] += 1;
    }
    let wrong = Image::of(&mut sample);
    fails(|| wrong.check());
    sample.end();
    assert_eq!(counts[..2], [971, 127]);
    let refused = [17, 28, 30, 31].map(|number| counts[number]);
    assert_eq!(refused, [337, 4, 380, 96]);
}

/// Half words and what they are brought back as where so many words are lent: rows, or the number of a refusal.
struct Halves {
    text: Vec<u8>,
    list: Vec<u8>,
    words: usize,
    status: u32,
    halves: Vec<u16>,
    rows: Vec<u32>,
}

impl Halves {
    fn of(sample: &mut Sample) -> Halves {
        let (text, list, words) = (sample.bytes(), sample.bytes(), sample.number());
        let (status, count) = (sample.number() as u32, sample.number());
        let halves = sample.number();
        Halves {
            text,
            list,
            words,
            status,
            halves: (0..halves).map(|_| sample.number() as u16).collect(),
            rows: sample.words(count * ROW_WORDS),
        }
    }

    /// What is counted: 0 for rows that come back, the number of a refusal, 1 for half words with another name list, 2 for rows
    /// that have no room in what the case lends, where they have it here.
    fn check(&self) -> usize {
        if self.list != NAME_LIST {
            assert_eq!(self.status, 17);
            return 1;
        }
        let back = HalfRows::from_parts(self.text.clone(), self.halves.clone());
        match back.map_err(Error::number) {
            Ok(back) => {
                let read = back.to_data_type();
                assert_eq!(read.to_half_rows().into_parts(), back.clone().into_parts());
                assert_eq!(back.halves(), self.halves);
                assert_eq!(back.row_count(), self.halves.len() / HALF_ROW_WORDS);
                if self.status == 28 {
                    assert!(self.words < read.rows().len());
                    return 2;
                }
                assert_eq!((self.status, read.rows()), (0, &*self.rows));
                assert_eq!(read.text().as_bytes(), self.text);
                0
            }
            Err(number) => {
                assert_eq!(number, self.status);
                number as usize
            }
        }
    }
}

#[test]
fn halves() {
    let mut sample = Sample::open("halves");
    let mut counts = [0; 18];
    for _ in 1..sample.number() {
        counts[Halves::of(&mut sample).check()] += 1;
    }
    let wrong = Halves::of(&mut sample);
    fails(|| wrong.check());
    sample.end();
    assert_eq!((&counts[..3], counts[17]), (&[624, 23, 420][..], 569));
}
