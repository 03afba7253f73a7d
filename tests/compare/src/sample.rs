//! The stored samples, for a replay without Rust: texts and damaged tables with the answers they are to give. README.md
//! has the format.

use crate::check::Check;
use crate::generate::trees::{self, Letters, Tree};
use crate::generate::{Random, Visit, bytes, damage, limits, places, sequences, texts};
use crate::known;
use crate::model::{
    self, KINDS, Limits, MOST_BYTES, MOST_ROWS, NAME_LIST, Refused, Row, Spelling, WORDS, refusal,
};
use crate::subject;
use std::collections::BTreeMap;
use std::process::ExitCode;

/// A file stays below this: the replay has room for a million bytes.
const MOST_FILE_BYTES: usize = 950_000;

/// Records longer than this are large; there are to be few of them.
const LARGE: usize = 3_000;
const MOST_LARGE_BYTES: usize = 200_000;

/// The most words that the replay lends.
const MOST_LENT: usize = 13_000;

/// Numbers with a space or a line's end behind each, and bytes with their count before them and a line's end behind.
#[derive(Default)]
pub struct Stored(pub Vec<u8>);

impl Stored {
    pub fn number(&mut self, number: usize) -> &mut Stored {
        self.0.extend(format!("{number} ").bytes());
        self
    }

    pub fn bytes(&mut self, bytes: &[u8]) -> &mut Stored {
        self.number(bytes.len()).0.extend(bytes);
        self.0.push(b'\n');
        self
    }

    /// The last number ends its line.
    pub fn line(&mut self) {
        let last = self.0.len() - 1;
        self.0[last] = b'\n';
    }

    /// Words, a row to a line.
    pub fn words(&mut self, words: &[u32]) {
        for row in words.chunks(WORDS) {
            row.iter().for_each(|word| {
                self.number(*word as usize);
            });
            self.line();
        }
    }
}

/// Records that fit into a file, few of them large.
#[derive(Default)]
pub struct File {
    pub records: Vec<Vec<u8>>,
    bytes: usize,
    large: usize,
}

impl File {
    pub fn offer(&mut self, record: Vec<u8>) -> bool {
        let large = if record.len() > LARGE {
            record.len()
        } else {
            0
        };
        let fits = large == 0 || self.large + large <= MOST_LARGE_BYTES;
        let fits = fits && self.bytes + record.len() <= MOST_FILE_BYTES;
        if fits {
            self.large += large;
            self.bytes += record.len();
            self.records.push(record);
        }
        fits
    }

    /// The last record is wrong on purpose: a replay that calls it alike can't fail.
    pub fn write(&mut self, file: &str, wrong: Vec<u8>) -> Result<usize, String> {
        self.records.push(wrong);
        let mut image = Stored::default();
        image.number(self.records.len()).line();
        self.records
            .iter()
            .for_each(|record| image.0.extend(record));
        std::fs::write(file, &image.0).map_err(|error| format!("{file}: {error}"))?;
        Ok(image.0.len())
    }
}

/// Writes texts with their answers; none while model, Rust and port differ on any.
pub fn texts(file: &str, seed: u64) -> Result<ExitCode, String> {
    let subject = subject::linked();
    let mut check = Check::new(subject.as_deref(), seed);
    let mut random = Random::new(seed);
    let mut kept = File::default();
    let mut accepted = 0;
    let mut keep = |text: &[u8], lent: usize| {
        let answer = model::read_placed(text, Limits::lent(lent / WORDS));
        if kept.offer(text_record(text, lent, &answer)) {
            accepted += usize::from(answer.is_ok());
        }
    };
    for (text, lent, _) in known::lent() {
        let _ = check.text(text.as_bytes());
        keep(text.as_bytes(), lent);
    }
    for text in chosen(seed) {
        let read = check.text(&text);
        keep(&text, lent(&mut random, &read));
    }
    if check.differences() > 0 {
        println!("nothing is written while there are differences");
        return Ok(ExitCode::FAILURE);
    }
    let bytes = kept.write(file, wrong_text())?;
    println!("{} texts, {bytes} bytes in {file}", kept.records.len());
    println!("{accepted:>6} accepted");
    Ok(ExitCode::SUCCESS)
}

/// How many words the replay lends: mostly those of 1,024 rows, else more, or about as many as the rows take.
fn lent(random: &mut Random, read: &Result<Vec<Row>, u32>) -> usize {
    let taken = read.as_ref().map_or(2 * WORDS, |rows| rows.len() * WORDS);
    match random.below(8) {
        0 => random
            .between(taken.saturating_sub(WORDS + 1), taken + WORDS + 1)
            .min(MOST_LENT),
        1 => random.between(MOST_ROWS * WORDS + 1, MOST_LENT),
        _ => MOST_ROWS * WORDS,
    }
}

fn text_record(text: &[u8], lent: usize, answer: &Result<Vec<Row>, Refused>) -> Vec<u8> {
    let mut record = Stored::default();
    record.number(lent).bytes(text);
    match answer {
        Ok(rows) => {
            record.number(0).number(rows.len()).number(0).line();
            record.words(&model::to_words(rows));
        }
        Err((number, place)) => record
            .number(*number as usize)
            .number(0)
            .number(*place)
            .line(),
    }
    record.0
}

/// A text with the rows of another.
fn wrong_text() -> Vec<u8> {
    let answer = model::read_placed(b"Int16", Limits::lent(MOST_ROWS));
    text_record(b"Int8", MOST_ROWS * WORDS, &answer)
}

/// Texts out of every generator: from each a few for every answer that it gives.
fn chosen(seed: u64) -> Vec<Vec<u8>> {
    let mut random = Random::new(seed);
    let known = known::known().into_iter().map(|(text, _)| text.into());
    let mut chosen: Vec<Vec<u8>> = known.collect();
    let mut some = |most: usize, generate: &dyn Fn(&mut Random, Visit)| {
        let mut kept: BTreeMap<u32, Kept> = BTreeMap::new();
        let mut inner = Random::new(random.word());
        generate(&mut inner, &mut |text| {
            let kept = kept.entry(answer(text)).or_default();
            kept.offer(&mut random, most, text);
        });
        chosen.extend(kept.into_values().flat_map(|kept| kept.texts));
    };
    some(1, &|_, visit| limits::lengths(visit));
    some(1, &|_, visit| limits::rows(visit));
    some(8, &|random, visit| limits::levels(random, 200, visit));
    some(40, &|_, visit| {
        sequences::sequences(150_000, visit);
    });
    some(40, &|_, visit| places::words(visit));
    some(40, &|_, visit| places::numbers(visit));
    some(40, &|_, visit| places::escapes(visit));
    some(30, &|random, visit| {
        bytes::all(visit);
        (0..5_000).for_each(|_| visit(&bytes::random(random)));
    });
    some(60, &|random, visit| {
        for _ in 0..20_000 {
            let rows = random.between(1, 15);
            let tokens = texts::random(random, rows, 20);
            visit(&texts::join(random, &tokens));
        }
    });
    some(400, &|random, visit| {
        for _ in 0..2_000 {
            let rows = random.between(1, 15);
            let tokens = texts::random(random, rows, 0);
            visit(&texts::join(random, &tokens));
        }
    });
    some(60, &|random, visit| {
        for _ in 0..20_000 {
            let rows = random.between(1, 10);
            let tokens = texts::random(random, rows, 0);
            visit(&damage::damaged(random, &tokens));
        }
    });
    chosen
}

/// The refusal's number, the reader's or the printer's; 0 for neither.
fn answer(text: &[u8]) -> u32 {
    let printed = model::read(text, Limits::lent(MOST_ROWS))
        .map(|rows| model::to_words(&rows))
        .and_then(|words| model::print(Spelling::Micro, text, NAME_LIST, &words, MOST_BYTES));
    printed.err().unwrap_or(0)
}

/// Some out of many, each with the same chance.
#[derive(Default)]
struct Kept {
    offered: usize,
    texts: Vec<Vec<u8>>,
}

impl Kept {
    fn offer(&mut self, random: &mut Random, most: usize, text: &[u8]) {
        self.offered += 1;
        if self.texts.len() < most {
            self.texts.push(text.to_vec());
        } else {
            let place = random.below(self.offered);
            if place < most {
                self.texts[place] = text.to_vec();
            }
        }
    }
}

/// Writes tables with the model's answers: a dictionary and run ends with a first child of every kind, sound trees with
/// each word set to values around its bounds, and trees with a clause of soundness broken.
pub fn tables(file: &str, seed: u64) -> Result<ExitCode, String> {
    let mut random = Random::new(seed);
    let mut kept = File::default();
    let (mut changed, mut broken) = (0, 0);
    let mut all = Tally::default();
    for text in [
        "Dictionary(Int8, Utf8)",
        "RunEndEncoded(non-null Int16, Utf8)",
    ] {
        let tree = read(text);
        let (record, tally) = table_record(&tree, &tree, &first_kinds());
        if kept.offer(record) {
            all.add(tally);
        }
    }
    for _ in 0..60 {
        let tree = trees::sound(&mut random, Letters::Any, 5);
        let Some(other) = trees::packed(&tree) else {
            continue;
        };
        let changes = around_bounds(&mut random, &tree);
        let (record, tally) = table_record(&tree, &other, &changes);
        if kept.offer(record) {
            changed += 1;
            all.add(tally);
        }
    }
    for _ in 0..400 {
        let tree = trees::sound(&mut random, Letters::Any, 8);
        let Some((_, damaged)) = trees::broken(&mut random, &tree) else {
            continue;
        };
        let (record, tally) = table_record(&damaged, &tree, &[UNCHANGED]);
        if damaged.words.len() <= MOST_LENT && kept.offer(record) {
            broken += 1;
            all.add(tally);
        }
    }
    let bytes = kept.write(file, wrong_table())?;
    println!("{} tables, {bytes} bytes in {file}", all.cases + 1);
    println!("{changed:>6} sound trees with words changed");
    println!("{broken:>6} trees with a clause broken");
    println!("{:>6} tables are sound", all.sound);
    println!("{:>6} equal the other", all.equal);
    Ok(ExitCode::SUCCESS)
}

/// How many tables there are, how many of them are sound, and how many equal the other.
#[derive(Default)]
struct Tally {
    cases: usize,
    sound: usize,
    equal: usize,
}

impl Tally {
    fn add(&mut self, other: Tally) {
        self.cases += other.cases;
        self.sound += other.sound;
        self.equal += other.equal;
    }
}

/// A word and the value it is set to. A word past the table's end changes nothing.
type Change = (usize, u32);

const UNCHANGED: Change = (u32::MAX as usize, 0);

/// The tree of a text.
fn read(text: &str) -> Tree {
    let rows = model::read(text.as_bytes(), Limits::lent(MOST_ROWS)).expect("the text is a type");
    Tree {
        text: text.as_bytes().to_vec(),
        list: NAME_LIST.to_vec(),
        words: model::to_words(&rows),
    }
}

/// Every kind, and the number behind them, for the root's first child: the layout verdict judges it.
fn first_kinds() -> Vec<Change> {
    (0..=KINDS.len() as u32).map(|kind| (WORDS, kind)).collect()
}

/// Nothing changed, and each word set to values around its bounds, or rather to half of them.
fn around_bounds(random: &mut Random, tree: &Tree) -> Vec<Change> {
    let rows = (tree.words.len() / WORDS) as u32;
    let bytes = tree.text.len() as u32;
    let mut all = vec![UNCHANGED];
    for (at, word) in tree.words.iter().enumerate() {
        let bounds: &[u32] = match at % WORDS {
            0 => &[0, 2, 3, 5, 13, 16, 17, 27, 32, 33, 34, 38, 39, 40, 41],
            1 => &[0, 1, rows, rows + 1, u32::MAX],
            2 => &[0, 1, 2, 3],
            3 => &[0, 1, 127, 128],
            4 => &[
                0,
                1,
                3,
                4,
                9,
                10,
                18,
                19,
                38,
                39,
                76,
                77,
                0x7fff_ffff,
                0x8000_0000,
            ],
            5 => &[0, 1, 128, 137, 138, 255, 256],
            6 => &[0, 1, 2, 3],
            7 => &[0, 4, 12, 18, bytes, bytes + 1, u32::MAX],
            8 => &[0, 1, 4, 6, 8, 18, bytes, bytes + 1, u32::MAX],
            9 | 10 => &[0, 1, bytes, bytes + 1, u32::MAX],
            _ => &[0, 1, (at / WORDS) as u32, rows - 1, rows, u32::MAX],
        };
        let mut values = bounds.to_vec();
        values.extend([word.wrapping_sub(1), word.wrapping_add(1)]);
        values.sort();
        values.dedup();
        values.retain(|value| value != word);
        for value in values {
            if random.one_in(2) {
                all.push((at, value));
            }
        }
    }
    all
}

/// Two tables, and changes of the first with the answers of each.
fn table_record(tree: &Tree, other: &Tree, changes: &[Change]) -> (Vec<u8>, Tally) {
    let mut record = two_tables(tree, other, changes.len());
    let mut tally = Tally::default();
    for (at, value) in changes {
        let mut changed = tree.clone();
        if let Some(word) = changed.words.get_mut(*at) {
            *word = *value;
        }
        record.number(*at).number(*value as usize);
        tally.add(answers(&mut record, &changed, other, at / WORDS));
    }
    (record.0, tally)
}

/// Two tables, and how many changes follow.
fn two_tables(tree: &Tree, other: &Tree, changes: usize) -> Stored {
    let mut record = Stored::default();
    for tree in [tree, other] {
        record.bytes(&tree.text).bytes(&tree.list);
        record.number(tree.words.len()).line();
        record.words(&tree.words);
    }
    record.number(changes).line();
    record
}

/// A table that is said to equal another.
fn wrong_table() -> Vec<u8> {
    let (tree, other) = (leaf(b"Int8"), leaf(b"Int16"));
    let mut record = two_tables(&tree, &other, 1);
    let (at, value) = UNCHANGED;
    record.number(at).number(value as usize);
    answers(&mut record, &tree, &tree, at / WORDS);
    record.0
}

/// The tree of a text that is a single type.
pub fn leaf(text: &[u8]) -> Tree {
    let rows = model::read(text, Limits::lent(1)).expect("a type of one row");
    Tree {
        text: text.to_vec(),
        list: NAME_LIST.to_vec(),
        words: model::to_words(&rows),
    }
}

/// Sound or not, depth, verdict, equality with the other, and a row's name and zone.
fn answers(record: &mut Stored, tree: &Tree, other: &Tree, row: usize) -> Tally {
    let Tree { text, list, words } = tree;
    let sound = model::sound(text, list, words);
    let rows = model::from_words(words);
    let others = model::from_words(&other.words);
    let equal = model::equal((text, list, &rows), (&other.text, &other.list, &others));
    record.number(usize::from(sound));
    let depth = if sound {
        Ok(model::depth(&rows))
    } else {
        Err(refusal::NOT_SOUND)
    };
    let verdict = model::verdict(text, list, words).map(|row| row.map_or(0, |row| row + 1));
    for answer in [depth, verdict] {
        record.number(answer.err().unwrap_or(0) as usize);
        record.number(answer.unwrap_or(0));
    }
    record.number(usize::from(equal));
    let row = rows.get(row).copied().unwrap_or_default();
    record.bytes(model::row_name(text, list, &row));
    record.bytes(model::row_zone(text, &row));
    Tally {
        cases: 1,
        sound: usize::from(sound),
        equal: usize::from(equal),
    }
}
