//! Writing each tree that is compared into the archive record, and reading its image and damaged ones. What is
//! lent, what it holds and what is damaged is drawn from a generator of its own, so that all else is what it is without it.

use super::{Check, shown};
use crate::archive::{self, Cause, READ, Read, WRITTEN};
use crate::generate::Random;
use crate::generate::archive::{damaged, large, long_image, nested, room, rooms};
use crate::generate::trees::{self, Letters, Tree};
use crate::model::{MOST_BYTES, MOST_ROWS, NAME_LIST, WORDS};
use crate::oracle;
use arrow_schema::DataType;

/// All that may be used for reading.
const ALL: (usize, usize) = (MOST_ROWS * WORDS, MOST_BYTES);

/// What came of it.
pub struct Tally {
    random: Random,
    /// How many times each of `WRITTEN` and of `READ` came.
    pub written: [usize; WRITTEN.len()],
    pub read: [usize; READ.len()],
    /// Images that were read, and so many of them damaged.
    pub images: usize,
    pub damaged: usize,
    /// How many times the Rust had a say.
    pub by_rust: usize,
}

impl Tally {
    pub fn new(seed: u64) -> Tally {
        Tally {
            random: Random::new(seed ^ 0x0061_7263_6869_7665),
            written: [0; WRITTEN.len()],
            read: [0; READ.len()],
            images: 0,
            damaged: 0,
            by_rust: 0,
        }
    }

    /// Whether each outcome came.
    pub fn is_full(&self) -> bool {
        let mut counts = self.written.iter().chain(&self.read);
        counts.all(|count| *count > 0)
    }

    /// Prints the counts.
    pub fn print(&self) {
        println!(
            "\nimages written: {}; read: {}, of which changed or damaged {}; the Rust had a say on {}",
            self.written.iter().sum::<usize>(),
            self.images,
            self.damaged,
            self.by_rust
        );
        println!("written:");
        for (count, outcome) in self.written.iter().zip(WRITTEN) {
            println!("{count:>9}  {outcome}");
        }
        println!("read, where one image may be under several:");
        for (count, outcome) in self.read.iter().zip(READ) {
            println!("{count:>9}  {outcome}");
        }
        if !self.is_full() {
            println!("not all of these came: more trees are needed");
        }
    }
}

impl Check<'_> {
    /// Writes and reads so many trees that are made for it, and images as large and as deep as may be.
    pub fn archive(&mut self, count: usize) {
        for _ in 0..count {
            let random = &mut self.archive.random;
            let letters = [Letters::Plain, Letters::Ascii, Letters::Latin, Letters::Any];
            let letters = letters[random.below(4)];
            let rows = random.between(1, 20);
            let tree = trees::sound(random, letters, rows);
            let Tree { text, list, words } = &tree;
            let data_type = oracle::data_type(text, list, words);
            self.archives(&tree, Some(&data_type));
            for _ in 0..4 {
                let image = damaged(&mut self.archive.random, &tree);
                self.read_image(&image, None, true);
            }
        }
        for _ in 0..count / 50 {
            let image = large(&mut self.archive.random);
            self.read_image(&image, None, true);
        }
        for _ in 0..count / 500 {
            let tree = long_image(&mut self.archive.random);
            self.archives(&tree, None);
        }
        for levels in [1, 2, 63, 64, 65, 66, 1_022, 1_023, 1_024, 1_025, 1_026] {
            for innermost in [2, 32, 41] {
                self.read_image(&nested(levels, innermost), None, true);
            }
        }
    }

    /// Writes a tree's image, and reads it and a damaged one; of a sound tree the Rust's type may be given.
    pub(super) fn archives(&mut self, tree: &Tree, data_type: Option<&DataType>) {
        let image = archive::image((&tree.text, &tree.list, &tree.words));
        self.write_image(tree, &image);
        if let Ok(image) = image {
            self.read_image(&image, data_type, false);
            let image = damaged(&mut self.archive.random, tree);
            self.read_image(&image, None, true);
        }
    }

    /// The port's image of a tree, in a buffer that held random bytes.
    fn write_image(&mut self, tree: &Tree, image: &Result<Vec<u8>, u32>) {
        let random = &mut self.archive.random;
        let length = image.as_ref().map_or(20, Vec::len);
        let lent = match image {
            Err(_) if random.one_in(3) => 0,
            _ => room(random, length),
        };
        self.archive.written[archive::written(image, lent)] += 1;
        let Some(subject) = self.subject else {
            return;
        };
        let mut out: Vec<u8> = (0..lent).map(|_| random.word() as u8).collect();
        let mut then = out.clone();
        let expected = match image {
            Ok(image) if image.len() > lent => Err(crate::column_out::NO_ROOM),
            Ok(image) => {
                then[..image.len()].copy_from_slice(image);
                Ok(image.len())
            }
            Err(number) => Err(*number),
        };
        let answer = subject.write_archive((&tree.text, &tree.list, &tree.words), &mut out);
        if answer != expected {
            let what = format!("{lent} bytes lent: port writes {answer:?}, model {expected:?}");
            self.differ_tree(tree, &what);
        } else if out != then {
            let what = format!(
                "{lent} bytes lent: the port's image is {}, not {}",
                shown(&out),
                shown(&then)
            );
            self.differ_tree(tree, &what);
        }
    }

    /// What model, Rust and port make of an image; of one that was written the Rust's type may be given.
    fn read_image(&mut self, image: &[u8], data_type: Option<&DataType>, changed: bool) {
        let whole = archive::read(image, ALL);
        if let Some(difference) = self.judged_by_rust(image, &whole, data_type) {
            self.differ_image(image, &difference);
        }
        let lent = rooms(&mut self.archive.random, &whole.0);
        self.read_image_into(image, lent, changed);
    }

    /// What model and port make of an image where so many words and bytes are lent; which outcomes came.
    pub fn read_image_into(
        &mut self,
        image: &[u8],
        lent: (usize, usize),
        changed: bool,
    ) -> Vec<usize> {
        self.archive.images += 1;
        self.archive.damaged += usize::from(changed);
        let read = archive::read(image, lent);
        let outcomes = archive::outcomes(&read, lent, changed);
        for outcome in &outcomes {
            self.archive.read[*outcome] += 1;
        }
        if let Some(difference) = self.subject_reads_image(image, &read, lent) {
            let what = format!("words and bytes lent {lent:?}: {difference}");
            self.differ_image(image, &what);
        }
        outcomes
    }

    /// What is wrong with what the model read: an image that was written is the Rust's type, and whatever is read has this
    /// image and no other.
    fn judged_by_rust(
        &mut self,
        image: &[u8],
        (read, cause): &(Read, Option<Cause>),
        data_type: Option<&DataType>,
    ) -> Option<String> {
        if let Some(cause) = cause {
            let no_room = cause.number() == crate::column_out::NO_ROOM;
            let written = data_type.filter(|_| !no_room);
            return written.map(|_| format!("an image that was written is refused: {cause:?}"));
        }
        let words = read.words();
        let table = (&*read.text, NAME_LIST, &*words);
        let again = archive::image(table);
        if again.as_deref() != Ok(image) {
            return Some("read, but it is not the image of what was read".into());
        }
        self.archive.by_rust += 1;
        let rust = oracle::data_type(&read.text, NAME_LIST, &words);
        let rows = oracle::rows(&rust);
        let difference = super::compare_rows(&read.text, &read.rows, &rows, false);
        let other = data_type.filter(|data_type| **data_type != rust);
        difference.or_else(|| other.map(|other| format!("read as {rust}, not {other}")))
    }

    /// What is wrong with what the port answers or leaves in the buffers lent, which held random words and bytes.
    fn subject_reads_image(
        &mut self,
        image: &[u8],
        (read, cause): &(Read, Option<Cause>),
        (words, bytes): (usize, usize),
    ) -> Option<String> {
        let subject = self.subject?;
        let random = &mut self.archive.random;
        let mut rows: Vec<u32> = (0..words).map(|_| random.word() as u32).collect();
        let mut text: Vec<u8> = (0..bytes).map(|_| random.word() as u8).collect();
        let (mut rows_then, mut text_then) = (rows.clone(), text.clone());
        let expected = match cause {
            Some(cause) => {
                rows_then.fill(0);
                text_then.fill(0);
                Err(cause.number())
            }
            None => {
                let filled = read.words();
                rows_then[..filled.len()].copy_from_slice(&filled);
                text_then[..read.text.len()].copy_from_slice(&read.text);
                Ok((read.rows.len(), read.text.len()))
            }
        };
        let answer = subject.read_archive(image, &mut rows, &mut text);
        if answer != expected {
            return Some(format!("port {answer:?}, model {expected:?} {cause:?}"));
        }
        if let Some(at) = (0..words).find(|at| rows[*at] != rows_then[*at]) {
            return Some(format!("word {at}: {}, not {}", rows[at], rows_then[at]));
        }
        let at = (0..bytes).find(|at| text[*at] != text_then[*at])?;
        Some(format!("byte {at}: {}, not {}", text[at], text_then[at]))
    }

    fn differ_image(&mut self, image: &[u8], what: &str) {
        self.differ(&format!("image {}", shown(image)), what);
    }
}
