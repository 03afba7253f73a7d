//! The stored samples of the printer, for a replay without Rust: trees with what they print, one in the Rust's spelling
//! and one in the default. README.md has the format.

use crate::check::Check;
use crate::generate::trees::{self, Letters, Tree, tree};
use crate::generate::{Random, texts};
use crate::model::{
    self, KINDS, Limits, MOST_BYTES, MOST_LEVELS, MOST_ROWS, NAME_LIST, Row, Spelling, WORDS, kind,
    refusal,
};
use crate::oracle;
use crate::sample::{File, Stored, leaf};
use crate::subject;
use std::process::ExitCode;

/// The most bytes that the replay lends.
const MOST_LENT: usize = 20_000;

/// Trees with longer records are left out, but for those at a limit.
const LONG: usize = 600;

struct Prints<'s> {
    spelling: Spelling,
    check: Check<'s>,
    random: Random,
    kept: File,
    /// How many cases are printed, and how many refused, by number.
    answers: [usize; 20],
    /// How many printed cases have a row of the kind.
    kinds: [usize; KINDS.len()],
}

/// Writes trees with what they print in the Rust's spelling; none while model, Rust and port differ on any.
pub fn prints(file: &str, seed: u64) -> Result<ExitCode, String> {
    let subject = subject::linked();
    let mut prints = Prints::new(Spelling::Micro, Check::new(subject.as_deref(), seed), seed);
    prints.read(500)?;
    prints.sound(Letters::Plain, 200)?;
    prints.sound(Letters::Ascii, 600)?;
    prints.sound(Letters::Latin, 300)?;
    prints.sound(Letters::Any, 300)?;
    prints.characters()?;
    prints.defaults()?;
    prints.limits()?;
    prints.damaged(400)?;
    prints.write(file, &KINDS)
}

/// Writes trees that have microseconds with what the model prints in the default spelling, none while it differs from
/// the Rust's text in anything but the units, or from the port's.
pub fn prints_us(file: &str, seed: u64) -> Result<ExitCode, String> {
    let subject = subject::linked();
    let mut prints = Prints::new(Spelling::Us, Check::new(subject.as_deref(), seed), seed);
    prints.read(4_000)?;
    prints.sound(Letters::Plain, 2_000)?;
    prints.sound(Letters::Ascii, 4_000)?;
    prints.sound(Letters::Any, 1_000)?;
    prints.limits()?;
    prints.damaged(1_000)?;
    prints.write(file, &["Timestamp", "Time64", "Duration"])
}

fn print_record(tree: &Tree, room: usize, printed: &Result<Vec<u8>, u32>) -> Vec<u8> {
    let mut record = Stored::default();
    record.number(room).line();
    record.bytes(&tree.text).bytes(&tree.list);
    record.number(printed.as_ref().err().map_or(0, |number| *number as usize));
    record.bytes(printed.as_deref().unwrap_or_default());
    record.number(tree.words.len()).line();
    record.words(&tree.words);
    record.0
}

/// A tree with a text that is not its own: another's, of the same length, or its own in the other spelling.
fn wrong_print(spelling: Spelling) -> Vec<u8> {
    let (text, wrong) = match spelling {
        Spelling::Us => ("Duration(us)", "Duration(µs)"),
        Spelling::Micro => ("Int32", "Int16"),
    };
    print_record(&leaf(text.as_bytes()), MOST_BYTES, &Ok(wrong.into()))
}

impl<'s> Prints<'s> {
    fn new(spelling: Spelling, check: Check<'s>, seed: u64) -> Prints<'s> {
        Prints {
            spelling,
            check,
            random: Random::new(seed),
            kept: File::default(),
            answers: [0; 20],
            kinds: [0; KINDS.len()],
        }
    }

    /// Writes what is kept, unless there are differences. Each of these kinds must be printed ten times.
    fn write(mut self, file: &str, often: &[&str]) -> Result<ExitCode, String> {
        if self.check.differences() > 0 {
            println!("nothing is written while there are differences");
            return Ok(ExitCode::FAILURE);
        }
        let missing = KINDS
            .iter()
            .zip(self.kinds)
            .find(|(word, count)| often.contains(word) && *count < 10);
        if let Some((word, count)) = missing {
            return Err(format!("{word} is printed {count} times only"));
        }
        let bytes = self.kept.write(file, wrong_print(self.spelling))?;
        let all = self.kept.records.len();
        println!("{all} prints, {bytes} bytes in {file}");
        for number in [0, 17, 18, 19] {
            println!("{:>6} answered {number}", self.answers[number]);
        }
        Ok(ExitCode::SUCCESS)
    }

    /// Keeps a tree that prints into so many bytes; fails where model and Rust differ. In the default spelling a tree
    /// without microseconds is left out.
    fn keep(&mut self, tree: &Tree, room: usize, long: usize) -> Result<(), String> {
        let units = model::microseconds(&model::from_words(&tree.words));
        if self.spelling == Spelling::Us && units == 0 {
            return Ok(());
        }
        let printed = agreed(self.spelling, tree, room)?;
        let record = print_record(tree, room, &printed);
        if record.len() > long || !self.kept.offer(record) {
            return Ok(());
        }
        self.answers[printed.as_ref().err().map_or(0, |number| *number as usize)] += 1;
        if printed.is_ok() {
            let rows = model::from_words(&tree.words);
            rows.iter()
                .for_each(|row| self.kinds[row.kind as usize] += 1);
        }
        Ok(())
    }

    /// A tree that is sound or not, and a buffer: exact, a byte short, longer, or of any length.
    fn offer(&mut self, tree: &Tree) -> Result<(), String> {
        self.check.any_tree(tree);
        let Tree { text, list, words } = tree;
        let printed = model::print(self.spelling, text, list, words, MOST_BYTES);
        let length = printed.map_or(30, |printed| printed.len());
        let room = match self.random.below(12) {
            0 => length - 1,
            1 => self.random.below(length),
            2 => MOST_BYTES,
            3 => self.random.between(MOST_BYTES, MOST_LENT),
            4..=7 => length,
            _ => length + self.random.between(1, 40),
        };
        self.keep(tree, room, LONG)
    }

    /// Trees that were read.
    fn read(&mut self, count: usize) -> Result<(), String> {
        for _ in 0..count {
            let rows = self.random.between(1, 8);
            let tokens = texts::random(&mut self.random, rows, 0);
            let text = texts::join(&mut self.random, &tokens);
            let _ = self.check.text(&text);
            if let Ok(rows) = model::read(&text, Limits::lent(MOST_ROWS)) {
                self.offer(&tree(&text, &rows))?;
            }
        }
        Ok(())
    }

    /// Sound trees, most of which no text gives.
    fn sound(&mut self, letters: Letters, count: usize) -> Result<(), String> {
        for _ in 0..count {
            let rows = self.random.between(1, 6);
            let tree = trees::sound(&mut self.random, letters, rows);
            self.check.sound_tree(&tree);
            self.offer(&tree)?;
        }
        Ok(())
    }

    /// Each character of ASCII and some others as a Struct's name, a list's and a zone; some as other names.
    fn characters(&mut self) -> Result<(), String> {
        let others = [
            '\u{80}',
            '\u{9f}',
            '\u{a0}',
            '\u{a1}',
            '\u{ac}',
            '\u{ad}',
            '\u{ae}',
            '\u{bf}',
            'ü',
            '\u{ff}',
            '\u{17f}',
            '\u{180}',
            '\u{7ff}',
            '\u{800}',
            '\u{ffff}',
            '\u{10000}',
            '\u{10ffff}',
        ];
        let ascii = (0..128u8).map(char::from);
        for character in ascii.chain(others) {
            let text = format!("a{character}b");
            let size = character.len_utf8() as u32;
            for place in 0..3 {
                let mut rows = [of(kind::STRUCT, 2), name(of(kind::TIMESTAMP, 1), 0, 1)];
                match place {
                    0 => rows[1] = name(rows[1], 1, size),
                    1 => {
                        rows[0].kind = kind::LIST;
                        rows[1] = name(rows[1], 0, size + 2);
                    }
                    _ => (rows[1].zone_start, rows[1].zone_length) = (1, size),
                }
                self.offer(&tree(text.as_bytes(), &rows))?;
            }
            if !character.is_ascii() || "\"'\\\n".contains(character) {
                self.other_names(&text)?;
            }
        }
        Ok(())
    }

    /// The whole text as a name: of a Union's field, of a Map's entries, of run ends or of values.
    fn other_names(&mut self, text: &str) -> Result<(), String> {
        let whole = text.len() as u32;
        let union = [of(kind::UNION, 2), name(of(kind::INT8, 1), 0, whole)];
        self.offer(&tree(text.as_bytes(), &union))?;
        for odd in 0..3 {
            let size = |place| if place == odd { whole } else { 1 };
            let required = |row| Row { role: 2, ..row };
            let map = [
                of(kind::MAP, 4),
                required(name(of(kind::STRUCT, 3), 0, size(0))),
                required(name(of(kind::INT8, 1), 0, size(1))),
                name(of(kind::INT8, 1), 0, size(2)),
            ];
            self.offer(&tree(text.as_bytes(), &map))?;
            let run_ends = [
                of(kind::RUN_END_ENCODED, 3),
                required(name(of(kind::INT16, 1), 0, size(0))),
                name(of(kind::INT8, 1), 0, size(1)),
            ];
            self.offer(&tree(text.as_bytes(), &run_ends))?;
        }
        Ok(())
    }

    /// The default names, from the text and from the name list, in every place of lists and RunEndEncoded.
    fn defaults(&mut self) -> Result<(), String> {
        let text = [NAME_LIST, b"s"].concat();
        let named = |row: Row, home: u32, (start, size): (u32, u32)| Row {
            home,
            ..name(row, start, size)
        };
        let names = [(0, 4), (4, 8), (12, 6)];
        for home in [1, 2] {
            for list in kind::LIST..=kind::LARGE_LIST_VIEW {
                for part in names {
                    let item = named(of(kind::INT8, 1), home, part);
                    self.offer(&tree(&text, &[of(list, 2), item]))?;
                }
            }
        }
        let homed = [1, 2]
            .into_iter()
            .flat_map(|home| names.map(|part| (home, part)));
        let homed: Vec<_> = homed.chain([(1, (12, 7)), (1, (4, 7))]).collect();
        for (run_home, run_ends) in &homed {
            for (home, values) in &homed {
                let mut run_ends = named(of(kind::INT16, 1), *run_home, *run_ends);
                run_ends.role = 2;
                let mut values = named(of(kind::INT8, 1), *home, *values);
                values.role = self.random.between(1, 2) as u32;
                let rows = [of(kind::RUN_END_ENCODED, 3), run_ends, values];
                self.offer(&tree(&text, &rows))?;
            }
        }
        Ok(())
    }

    /// The longest text and one byte more; the deepest tree and one level more.
    fn limits(&mut self) -> Result<(), String> {
        for length in [MOST_BYTES, MOST_BYTES + 1] {
            let tree = long(self.spelling, length);
            self.check.sound_tree(&tree);
            for room in [MOST_BYTES - 1, MOST_BYTES + 1] {
                self.keep(&tree, room, MOST_LENT)?;
            }
        }
        for levels in [MOST_LEVELS, MOST_LEVELS + 1] {
            let tree = trees::of_levels(&mut self.random, levels);
            self.check.at_limit(&tree, levels == MOST_LEVELS);
            self.keep(&tree, MOST_BYTES, MOST_LENT)?;
        }
        Ok(())
    }

    /// Trees with words changed, sound or not, and trees with a clause of soundness broken.
    fn damaged(&mut self, count: usize) -> Result<(), String> {
        for _ in 0..count {
            let rows = self.random.between(1, 6);
            let tree = trees::sound(&mut self.random, Letters::Any, rows);
            let changed = trees::changed(&mut self.random, &tree);
            self.offer(&changed)?;
            if let Some((clause, broken)) = trees::broken(&mut self.random, &tree) {
                self.check.broken_tree(clause, &broken);
                self.offer(&broken)?;
            }
        }
        Ok(())
    }
}

/// What a tree prints into so many bytes: by the Rust, and by the model where it is not sound or in the default spelling.
fn agreed(spelling: Spelling, tree: &Tree, room: usize) -> Result<Result<Vec<u8>, u32>, String> {
    let Tree { text, list, words } = tree;
    let model = model::print(spelling, text, list, words, room);
    if spelling == Spelling::Us {
        return Ok(model);
    }
    let rust = if model::sound(text, list, words) {
        oracle::print(&oracle::data_type(text, list, words), room)
    } else {
        Err(refusal::NOT_SOUND)
    };
    if model != rust {
        return Err(format!("model and Rust print {words:?} differently"));
    }
    Ok(rust)
}

fn of(kind: u32, rows: u32) -> Row {
    Row {
        kind,
        rows,
        ..Row::default()
    }
}

/// A nullable field with a name out of the text.
fn name(row: Row, start: u32, size: u32) -> Row {
    Row {
        role: 1,
        home: 1,
        name_start: start,
        name_length: size,
        ..row
    }
}

/// A tree with a short text that prints to exactly this many bytes: names of control characters, which print as six
/// bytes each, and one of letters that fills up. In the default spelling the fields are durations in microseconds.
fn long(spelling: Spelling, length: usize) -> Tree {
    let text = [[0x1f; 500].as_slice(), &[b'a'; 2_000]].concat();
    let leaf = match spelling {
        Spelling::Us => Row {
            number: 2,
            ..of(kind::DURATION, 1)
        },
        Spelling::Micro => of(kind::INT8, 1),
    };
    let mut rows = vec![of(kind::STRUCT, 7)];
    rows.extend([name(leaf, 0, 500); 5]);
    rows.push(name(leaf, 500, 1));
    let Tree {
        text: of_short,
        list,
        words,
    } = tree(&text, &rows);
    let short = model::print(spelling, &of_short, &list, &words, MOST_BYTES).expect("printed");
    rows[6].name_length += (length - short.len()) as u32;
    let tree = tree(&text, &rows);
    assert_eq!(tree.words.len(), 7 * WORDS);
    tree
}
