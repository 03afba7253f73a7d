//! The comparisons. Every text goes to the model, to the Rust where it has a say, and to the port
//! if it is there; every tree goes to their printers, to the check of needed columns, into the archive record and into halves,
//! and has columns taken out.

mod archive;
mod column_out;
mod half_rows;
mod needs;

use crate::generate::trees::{self, Letters, Tree};
use crate::generate::{Random, places};
use crate::model::{
    self, Limits, MOST_BYTES, MOST_LEVELS, MOST_ROWS, NAME_LIST, Refused, Row, Spelling, WORDS,
    refusal,
};
use crate::oracle::{self, Answer, ErrorKind};
use crate::subject::Subject;

/// How many differences are shown.
const SHOWN: usize = 20;

/// What lent buffers hold before a call.
const WORD_BEFORE: u32 = 0xa5a5_a5a5;
const BYTE_BEFORE: u8 = 0xa5;

/// Answers by sort: accepted or printed at 0, refused at the refusal's number.
pub type Counts = [usize; 20];

/// A printed text, or the number of a refusal.
type Printed = Result<Vec<u8>, u32>;

pub struct Check<'s> {
    subject: Option<&'s dyn Subject>,
    random: Random,
    differences: usize,
    /// Texts that went to the Rust.
    pub by_rust: usize,
    /// Trees that the port printed beside the Rust.
    pub printed: usize,
    /// Trees whose texts in the two spellings differ, in their units of microseconds alone.
    pub spelled: usize,
    /// Printed texts of trees with plain names and zones, which must read back equal.
    pub read_back: usize,
    /// Tables whose parents the port set.
    pub parented: usize,
    /// Refusals of the port whose number and place were compared with the model's.
    pub placed: usize,
    /// Checks of needed columns.
    pub needs: needs::Tally,
    /// Columns taken out.
    pub taken: column_out::Tally,
    /// Images of the archive record, written and read.
    pub archive: archive::Tally,
    /// Trees kept in halves, and brought back.
    pub half_rows: half_rows::Tally,
    pub counts: Counts,
}

impl<'s> Check<'s> {
    pub fn new(subject: Option<&'s dyn Subject>, seed: u64) -> Check<'s> {
        Check {
            subject,
            random: Random::new(seed),
            differences: 0,
            by_rust: 0,
            printed: 0,
            spelled: 0,
            read_back: 0,
            parented: 0,
            placed: 0,
            needs: needs::Tally::new(seed),
            taken: column_out::Tally::new(seed),
            archive: archive::Tally::new(seed),
            half_rows: half_rows::Tally::new(seed),
            counts: [0; 20],
        }
    }

    pub fn differences(&self) -> usize {
        self.differences
    }

    /// Notes a difference and shows it if it is among the first.
    fn differ(&mut self, input: &str, what: &str) {
        self.differences += 1;
        if self.differences <= SHOWN {
            println!("difference {}: {what}\n  input: {input}", self.differences);
        }
    }

    fn differ_text(&mut self, text: &[u8], what: &str) {
        self.differ(&shown(text), what);
    }

    fn differ_tree(&mut self, tree: &Tree, what: &str) {
        let input = format!("text {} words {:?}", shown(&tree.text), tree.words);
        self.differ(&input, what);
    }

    /// Reads a text everywhere and answers what the model says.
    pub fn text(&mut self, text: &[u8]) -> Result<Vec<Row>, u32> {
        let read = model::read(text, Limits::lent(MOST_ROWS));
        self.counts[read.as_ref().err().map_or(0, |number| *number as usize)] += 1;
        let rust = match std::str::from_utf8(text) {
            Ok(text) => {
                self.by_rust += 1;
                Some(oracle::read(text))
            }
            Err(_) => {
                let expected = if text.len() > MOST_BYTES {
                    refusal::TOO_LONG
                } else {
                    refusal::NOT_UTF8
                };
                if read != Err(expected) {
                    self.differ_text(text, &format!("not UTF-8, yet the model says {read:?}"));
                }
                None
            }
        };
        if let Some(rust) = &rust {
            self.model_and_rust(text, &read, rust);
        }
        if let Ok(rows) = &read {
            let tree = Tree {
                text: text.to_vec(),
                list: NAME_LIST.to_vec(),
                words: model::to_words(rows),
            };
            if !model::sound(&tree.text, &tree.list, &tree.words) {
                self.differ_tree(&tree, "the model reads a tree that it calls not sound");
            }
            if let Some(Answer::Accepted { data_type, .. }) = &rust {
                self.print_and_judge(&tree, data_type);
            }
        }
        self.subject_reads(text, &read, rust.as_ref());
        read
    }

    /// An answer that is known beforehand.
    pub fn expect(&mut self, text: &[u8], read: &Result<usize, u32>, known: &Result<usize, u32>) {
        if read != known {
            self.differ_text(text, &format!("model {read:?}, known {known:?}"));
        }
    }

    /// A refusal of which number and place are known beforehand, with so many rows lent.
    pub fn expect_place(&mut self, text: &[u8], rows: usize, known: Refused) {
        let model = model::read_placed(text, Limits::lent(rows)).err();
        if model != Some(known) {
            self.differ_text(text, &format!("model {model:?}, known {known:?}"));
        }
        let lent = &mut vec![WORD_BEFORE; rows * WORDS];
        let port = self.subject.map(|port| port.read(text, lent));
        if port.is_some_and(|port| port != Err(known)) {
            self.differ_text(text, &format!("port {port:?}, known {known:?}"));
        }
    }

    fn model_and_rust(&mut self, text: &[u8], read: &Result<Vec<Row>, u32>, rust: &Answer) {
        let added = [refusal::TOO_LONG, refusal::TOO_DEEP, refusal::NO_ROW];
        let difference = match read {
            Err(number) if added.contains(number) => {
                // The Rust knows no limits, so it is compared with the model without them.
                let free = model::read(text, Limits::NONE);
                compare(text, &free, rust).or_else(|| limits(text, *number, rust))
            }
            _ => compare(text, read, rust),
        };
        if let Some(difference) = difference {
            self.differ_text(text, &format!("model and Rust: {difference}"));
        }
    }

    /// Prints a sound tree everywhere and asks for its verdict. The Rust has a say in one spelling alone.
    fn print_and_judge(&mut self, tree: &Tree, data_type: &arrow_schema::DataType) {
        let rust = oracle::print(data_type, MOST_BYTES);
        let printed = in_both(tree);
        let [plain, model] = &printed;
        self.spelled += usize::from(plain != model);
        if let Some(difference) = spellings(tree, plain, model) {
            self.differ_tree(tree, &difference);
        }
        if *model != rust {
            let what = format!(
                "printed by the model {} by the Rust {}",
                said(model),
                said(&rust)
            );
            self.differ_tree(tree, &what);
        }
        let verdicts = (
            model::verdict(&tree.text, &tree.list, &tree.words),
            oracle::verdict(data_type),
        );
        if verdicts.0 != Ok(verdicts.1) {
            self.differ_tree(tree, &format!("verdicts {verdicts:?}"));
        }
        self.subject_prints(tree, &printed);
        self.port_and_rust(tree, &rust);
        self.needs(tree, Some(data_type));
        self.columns_out(tree, Some(data_type));
        self.archives(tree, Some(data_type));
        self.halves(tree, Some(data_type), "");
    }

    /// A tree that is sound by the way it was made.
    pub fn sound_tree(&mut self, tree: &Tree) {
        if !model::sound(&tree.text, &tree.list, &tree.words) {
            return self.differ_tree(tree, "sound, yet not by the model");
        }
        let data_type = oracle::data_type(&tree.text, &tree.list, &tree.words);
        let rows = model::from_words(&tree.words);
        // The Rust's own rows of it; homes are free in a sound tree.
        if let Some(difference) = compare_rows(&tree.text, &rows, &oracle::rows(&data_type), false)
        {
            self.differ_tree(tree, &format!("the Rust's rows: {difference}"));
        }
        let printed = oracle::print(&data_type, MOST_BYTES);
        self.counts[printed.as_ref().err().map_or(0, |number| *number as usize)] += 1;
        self.print_and_judge(tree, &data_type);
    }

    /// Prints a sound tree in a spelling and reads the printed text, which must give an equal tree if its
    /// names and zones are plain. Answers the printed text.
    pub fn round_trip(&mut self, spelling: Spelling, tree: &Tree) -> Option<Vec<u8>> {
        let Tree { text, list, words } = tree;
        let printed = model::print(spelling, text, list, words, MOST_BYTES).ok()?;
        let rows = model::from_words(words);
        if rows.iter().all(|row| is_plain(tree, row)) {
            self.read_back += 1;
            let back = model::read(&printed, Limits::lent(MOST_ROWS));
            let same = back.as_ref().is_ok_and(|back| {
                let printed = (printed.as_slice(), NAME_LIST, back.as_slice());
                model::equal((text, list, &rows), printed)
            });
            let data_type = oracle::data_type(text, list, words);
            if !same || data_type.to_string().parse().ok() != Some(data_type) {
                self.differ_tree(tree, &format!("does not read back: {}", shown(&printed)));
            }
        }
        Some(printed)
    }

    /// A tree at a limit, within it or beyond.
    pub fn at_limit(&mut self, tree: &Tree, within: bool) {
        if within {
            self.sound_tree(tree);
        } else {
            self.broken_tree("a limit", tree);
        }
    }

    /// A tree that may be sound or not.
    pub fn any_tree(&mut self, tree: &Tree) {
        if model::sound(&tree.text, &tree.list, &tree.words) {
            self.sound_tree(tree);
        } else {
            self.broken_tree("", tree);
        }
    }

    /// A tree that is not sound because of the clause.
    pub fn broken_tree(&mut self, clause: &str, tree: &Tree) {
        self.counts[refusal::NOT_SOUND as usize] += 1;
        if model::sound(&tree.text, &tree.list, &tree.words) {
            self.differ_tree(tree, &format!("sound by the model, but for: {clause}"));
        }
        let printed = in_both(tree);
        let verdict = model::verdict(&tree.text, &tree.list, &tree.words);
        let refused = [const { Err(refusal::NOT_SOUND) }; 2];
        if printed != refused || verdict != Err(refusal::NOT_SOUND) {
            self.differ_tree(tree, "not sound, yet printed or judged");
        }
        self.subject_prints(tree, &printed);
        self.needs(tree, None);
        self.columns_out(tree, None);
        self.archives(tree, None);
        self.halves(tree, None, clause);
    }

    /// Two sound trees: equal by the model exactly if the Rust's types are equal, and if their images are; kept in the same halves
    /// exactly if their words are the same. Answers whether they are equal.
    pub fn pair(&mut self, a: &Tree, b: &Tree) -> bool {
        let types = [a, b].map(|tree| oracle::data_type(&tree.text, &tree.list, &tree.words));
        let rows = [a, b].map(|tree| model::from_words(&tree.words));
        let equal = model::equal((&a.text, &a.list, &rows[0]), (&b.text, &b.list, &rows[1]));
        if equal != (types[0] == types[1]) {
            self.differ_tree(a, &format!("equal by the model: {equal}, to {:?}", b.words));
        }
        let images =
            [a, b].map(|tree| crate::archive::image((&tree.text, &tree.list, &tree.words)));
        if equal != (images[0] == images[1]) {
            self.differ_tree(
                a,
                &format!("equal: {equal}, in the archive not, to {:?}", b.words),
            );
        }
        let halves =
            [a, b].map(|tree| crate::half_rows::halved((&tree.text, &tree.list, &tree.words)));
        if (a.words == b.words) != (halves[0] == halves[1]) {
            self.differ_tree(a, &format!("kept alike with {:?}, or not", b.words));
        }
        equal
    }

    /// The port's reader: the model's answer, a refusal with its place, with 1,024 rows, with a random part of
    /// them and with a row for every five bytes, and the buffer as document 01 has it.
    fn subject_reads(&mut self, text: &[u8], read: &Result<Vec<Row>, u32>, rust: Option<&Answer>) {
        let Some(subject) = self.subject else {
            return;
        };
        let rows = read.as_ref().map_or(8, Vec::len);
        let few = self.random.below((rows + 2) * WORDS);
        let much = MOST_ROWS * WORDS + self.random.below(3 * WORDS);
        let enough = (text.len() + 1) / 5 * WORDS;
        for words in [MOST_ROWS * WORDS, few, much, enough] {
            let expected = model::read_placed(text, Limits::lent(words / WORDS));
            if words == enough && read.is_ok() && expected.as_ref().ok() != read.as_ref().ok() {
                self.differ_text(text, "not read alike with a row for every five bytes");
            }
            let mut buffer = vec![WORD_BEFORE; words];
            let answer = subject.read(text, &mut buffer);
            let (count, filled) = match &expected {
                Ok(rows) => (Ok(rows.len()), model::to_words(rows)),
                Err(refused) => (Err(*refused), vec![0; words]),
            };
            self.placed += usize::from(count.is_err());
            if answer != count {
                let what = format!("{words} words lent: port {answer:?}, model {count:?}");
                self.differ_text(text, &what);
            } else if buffer[..filled.len()] != filled {
                let what = format!("{words} words lent: the port's rows differ from the model's");
                self.differ_text(text, &what);
            } else if buffer[filled.len()..]
                .iter()
                .any(|word| *word != WORD_BEFORE)
            {
                self.differ_text(text, "the port changes words behind its rows");
            }
            // The port and the Rust directly, where the Rust has a say.
            let added = [refusal::TOO_LONG, refusal::TOO_DEEP, refusal::NO_ROW];
            let limited = answer.is_err_and(|(number, _)| added.contains(&number));
            if let (Some(rust), false) = (rust, limited) {
                let answer = answer.map_err(|(number, _)| number).map(|count| {
                    let filled = (count * WORDS).min(words);
                    model::from_words(&buffer[..filled])
                });
                if let Some(difference) = compare(text, &answer, rust) {
                    self.differ_text(text, &format!("port and Rust: {difference}"));
                }
            }
        }
    }

    /// The port's parents of a table's rows, sound or not, in the place of any others.
    fn subject_parents(&mut self, tree: &Tree) {
        let Some(subject) = self.subject else {
            return;
        };
        let mut words = tree.words.clone();
        let parents = words.iter_mut().skip(WORDS - 1).step_by(WORDS);
        parents.for_each(|parent| *parent = self.random.below(1 << 32) as u32);
        let expected = model::with_parents(&words);
        subject.set_parents(&mut words);
        self.parented += 1;
        if words != expected {
            self.differ_tree(tree, &format!("the port's parents: {words:?}"));
        }
    }

    /// The port's printer in both spellings, of which it is given what they print.
    fn subject_prints(&mut self, tree: &Tree, printed: &[Printed; 2]) {
        self.subject_parents(tree);
        let lengths = printed
            .each_ref()
            .map(|printed| printed.as_ref().map_or(30, Vec::len));
        for spelling in Spelling::BOTH {
            self.subject_prints_in(spelling, tree, lengths);
        }
    }

    /// The port's printer with as many bytes as each spelling takes, with a random part of them, with 16,384 and
    /// with more.
    fn subject_prints_in(&mut self, spelling: Spelling, tree: &Tree, lengths: [usize; 2]) {
        let Some(subject) = self.subject else {
            return;
        };
        let few = self.random.below(lengths[1] + 1);
        let more = MOST_BYTES + self.random.below(100);
        let mut rooms = vec![lengths[0], lengths[1], few, MOST_BYTES, more];
        rooms.dedup();
        let Tree { text, list, words } = tree;
        for room in rooms {
            let expected = model::print(spelling, text, list, words, room);
            let mut out = vec![BYTE_BEFORE; room];
            let answer = subject.print(spelling, text, list, words, &mut out);
            let lent = format!("{spelling:?}, {room} bytes lent");
            let mut wanted = expected.clone().unwrap_or_default();
            wanted.resize(room, BYTE_BEFORE);
            let count = expected.map(|printed| printed.len());
            if answer != count {
                let what = format!("{lent}: port prints {answer:?}, model {count:?}");
                self.differ_tree(tree, &what);
            } else if out != wanted {
                let what = format!("{lent}: the port's output is {}", shown(&out));
                self.differ_tree(tree, &what);
            }
        }
    }

    /// The port's printer, in the Rust's spelling, and the Rust's `Display` directly.
    fn port_and_rust(&mut self, tree: &Tree, rust: &Printed) {
        let Some(subject) = self.subject else {
            return;
        };
        let mut out = vec![BYTE_BEFORE; MOST_BYTES];
        let Tree { text, list, words } = tree;
        let answer = subject.print(Spelling::Micro, text, list, words, &mut out);
        let port = answer.map(|length| out[..length.min(MOST_BYTES)].to_vec());
        self.printed += usize::from(port.is_ok());
        if port != *rust {
            let what = format!(
                "printed by the port {} by the Rust {}",
                said(&port),
                said(rust)
            );
            self.differ_tree(tree, &what);
        }
    }
}

/// Whether a row's name and zone are plain.
fn is_plain(tree: &Tree, row: &Row) -> bool {
    let plain = |part| str::from_utf8(part).is_ok_and(|part| part.chars().all(trees::is_plain));
    plain(model::row_name(&tree.text, &tree.list, row)) && plain(model::row_zone(&tree.text, row))
}

/// What the model prints of a tree in each spelling.
fn in_both(tree: &Tree) -> [Printed; 2] {
    let Tree { text, list, words } = tree;
    Spelling::BOTH.map(|spelling| model::print(spelling, text, list, words, MOST_BYTES))
}

/// What is wrong with a sound tree's two texts, which must differ in the units of microseconds alone, and in all of
/// them. Either both are refused or none is, but where the longer one alone has no room.
fn spellings(tree: &Tree, plain: &Printed, micro: &Printed) -> Option<String> {
    let units = model::microseconds(&model::from_words(&tree.words));
    let right = match (plain, micro) {
        (Ok(plain), Ok(micro)) => respelled(plain, micro) == Some(units),
        (Ok(plain), Err(refusal::NO_ROOM)) => plain.len() + units > MOST_BYTES,
        (Err(number), Err(other)) => number == other,
        _ => false,
    };
    let said = || format!("{units} units, spelled {} and {}", said(plain), said(micro));
    (!right).then(said)
}

/// How many times the second text has `(µs` where the first has `(us`; none if they differ in anything else.
pub fn respelled(mut plain: &[u8], mut micro: &[u8]) -> Option<usize> {
    let mut units = 0;
    let mut before = 0;
    while let (Some(byte), Some(other)) = (plain.first(), micro.first()) {
        let (unit, other) = if byte == other {
            (&plain[..1], &micro[..1])
        } else if before == b'(' {
            units += 1;
            (b"us".as_slice(), "µs".as_bytes())
        } else {
            return None;
        };
        before = unit[0];
        plain = plain.strip_prefix(unit)?;
        micro = micro.strip_prefix(other)?;
    }
    (plain.is_empty() && micro.is_empty()).then_some(units)
}

/// What differs between an answer and the Rust's, if anything does.
fn compare(text: &[u8], read: &Result<Vec<Row>, u32>, rust: &Answer) -> Option<String> {
    match (read, rust) {
        (Ok(rows), Answer::Accepted { rows: others, .. }) => {
            if model::depth(rows) != oracle::depth(others) {
                return Some("another depth".to_string());
            }
            compare_rows(text, rows, others, true)
        }
        (
            Err(number),
            Answer::Refused {
                error,
                number: other,
                message,
            },
        ) => {
            let kind = if *number == refusal::UNION_ID {
                ErrorKind::InvalidArgument
            } else {
                ErrorKind::Parse
            };
            (Some(*number) != *other || kind != *error)
                .then(|| format!("refused with {number}; the Rust {error:?} {other:?} {message}"))
        }
        (Ok(rows), Answer::Refused { message, .. }) => {
            Some(format!("{} rows; the Rust refuses: {message}", rows.len()))
        }
        (Err(number), Answer::Accepted { data_type, .. }) => Some(format!(
            "refused with {number}; the Rust accepts {data_type}"
        )),
    }
}

/// Rows against the Rust's; homes only if asked for and known.
fn compare_rows(text: &[u8], rows: &[Row], others: &[oracle::Row], homes: bool) -> Option<String> {
    if rows.len() != others.len() {
        return Some(format!(
            "{} rows; the Rust has {}",
            rows.len(),
            others.len()
        ));
    }
    rows.iter()
        .zip(others)
        .enumerate()
        .find_map(|(at, (row, other))| {
            let ours = oracle::Row {
                kind: row.kind,
                rows: row.rows,
                role: row.role,
                union_id: row.union_id,
                number: row.number,
                scale: row.scale,
                name: model::row_name(text, NAME_LIST, row).to_vec(),
                home: other.home.filter(|_| homes).map(|_| row.home),
                zone: model::row_zone(text, row).to_vec(),
                parent: row.parent,
            };
            let mut other = other.clone();
            other.home = other.home.filter(|_| homes);
            (ours != other).then(|| format!("row {at}: {ours:?}; the Rust has {other:?}"))
        })
}

/// Whether 1, 3 and 4 are right, as far as a tree of the Rust shows it.
fn limits(text: &[u8], number: u32, rust: &Answer) -> Option<String> {
    if text.len() > MOST_BYTES {
        return (number != refusal::TOO_LONG).then(|| format!("{number} for a text too long"));
    }
    let Answer::Accepted { rows, .. } = rust else {
        return None;
    };
    let first = oracle::levels(rows)
        .enumerate()
        .find(|(row, level)| *level > MOST_LEVELS || *row >= MOST_ROWS);
    let expected = first.map(|(_, level)| {
        if level > MOST_LEVELS {
            refusal::TOO_DEEP
        } else {
            refusal::NO_ROW
        }
    });
    (expected != Some(number)).then(|| format!("refused with {number}, not {expected:?}"))
}

/// Bytes as they are shown, cut short: backslashes doubled, all but printable ASCII in hex.
pub fn shown(bytes: &[u8]) -> String {
    let start = &bytes[..bytes.len().min(400)];
    let byte = |byte: &u8| match byte {
        b'\\' => "\\\\".to_string(),
        b' '..=b'~' => char::from(*byte).to_string(),
        _ => format!("\\x{byte:02x}"),
    };
    let start: String = start.iter().map(byte).collect();
    let more = if bytes.len() > 400 { ".." } else { "" };
    format!("`{start}`{more} ({} bytes)", bytes.len())
}

fn said(printed: &Printed) -> String {
    match printed {
        Ok(bytes) => shown(bytes),
        Err(number) => format!("no {number}"),
    }
}

/// The tree of each text that places::characters makes, compared and read back.
pub fn each_character(check: &mut Check) {
    places::characters(&mut |text| {
        let rows = model::read(text, Limits::lent(MOST_ROWS)).expect("a type");
        let tree = trees::tree(text, &rows);
        check.sound_tree(&tree);
        for spelling in Spelling::BOTH {
            let _ = check.round_trip(spelling, &tree);
        }
    });
}

/// Trees of one sort, made and compared.
pub fn random_tree(check: &mut Check, random: &mut Random, letters: Letters) {
    let rows = match random.below(200) {
        0 => 900,
        1..=10 => 120,
        _ => random.between(1, 25),
    };
    let tree = trees::sound(random, letters, rows);
    check.sound_tree(&tree);
    for spelling in Spelling::BOTH {
        if let Some(printed) = check.round_trip(spelling, &tree)
            && random.one_in(4)
        {
            // The printed text is a text like any other.
            let counts = check.counts;
            let _ = check.text(&printed);
            check.counts = counts;
        }
    }
    if random.one_in(4) {
        if let Some(packed) = trees::packed(&tree)
            && !check.pair(&tree, &packed)
        {
            check.differ_tree(&tree, "not equal to itself with its names packed");
        }
        let changed = trees::changed(random, &tree);
        if model::sound(&changed.text, &changed.list, &changed.words) {
            check.pair(&tree, &changed);
        }
    }
}
