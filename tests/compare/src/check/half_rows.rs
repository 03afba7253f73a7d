//! Keeping each tree that is compared in halves, and bringing them and damaged ones back. What is lent, what it holds and
//! what is damaged is drawn from a generator of its own, so that all else is what it is without it.

use super::{Check, compare_rows, shown};
use crate::generate::Random;
use crate::generate::half_rows::{BOUNDS, Stored, damaged, room};
use crate::generate::trees::{self, Letters, Tree};
use crate::half_rows::{self, BACK, Cause, Damage, HALF_WORDS, KEPT};
use crate::model::{self, Limits, MOST_ROWS, NAME_LIST, WORDS};
use crate::oracle;
use arrow_schema::DataType;
use std::collections::BTreeMap;

/// The clauses of soundness that half words can break.
#[rustfmt::skip]
pub const CLAUSES: [&str; 43] = [
    "text UTF-8", "text at most 16,384 bytes", "the name list", "root over all", "subtrees nest", "kind", "role of a bare row",
    "home of a bare row", "unused name words", "role of a field", "home of a field", "name not empty", "name inside the text",
    "names of the name list", "name UTF-8", "union id off a Union", "union id's range", "union ids distinct",
    "zone's start without a zone", "zone off a Timestamp", "zone inside the text", "zone UTF-8", "word 4's range",
    "Time64's unit", "word 4 unused", "word 5 unused", "decimals", "Map's entries non-null", "Map's key non-null",
    "Map's entries a Struct", "run ends non-null", "leaves have no children", "child counts", "children missing",
    "depth at most 64", "Map's entries of two", "the root's parent 0", "the parent no sibling", "the parent not the row before",
    "the parent not the parent's parent", "the parent a row before", "words beyond the rows", "at most 1,024 rows",
];

/// Texts of which each half word is set to each of `BOUNDS`.
const SWEPT: [&str; 9] = [
    "Int8",
    "FixedSizeBinary(65535)",
    "FixedSizeBinary(65536)",
    "FixedSizeBinary(2147483647)",
    "Decimal256(76, -128)",
    "Struct(\"slot\": non-null Timestamp(s, \"CET\"), \"kwh\": Decimal64(12, 3))",
    "Union(Dense, 127: (\"x\": Int8), 0: (\"y\": Time64(ns)))",
    "Map(\"e\": non-null Struct(\"k\": non-null Utf8, \"v\": FixedSizeList(70000 x Int8)), sorted)",
    "Dictionary(Int8, RunEndEncoded(non-null Int32, Interval(YearMonth)))",
];

/// What came of it.
pub struct Tally {
    random: Random,
    /// How many times each of `KEPT` and of `BACK` came.
    pub kept: [usize; KEPT.len()],
    pub back: [usize; BACK.len()],
    /// How many times half words broke a clause of soundness, by its name.
    pub clauses: BTreeMap<String, usize>,
    /// Half words that were brought back or refused, and so many of them damaged.
    pub halves: usize,
    pub damaged: usize,
    /// How many times the Rust had a say.
    pub by_rust: usize,
}

impl Tally {
    pub fn new(seed: u64) -> Tally {
        Tally {
            random: Random::new(seed ^ 0x0068_616c_665f_726f),
            kept: [0; KEPT.len()],
            back: [0; BACK.len()],
            clauses: BTreeMap::new(),
            halves: 0,
            damaged: 0,
            by_rust: 0,
        }
    }

    /// The outcomes and clauses that did not come.
    pub fn missing(&self) -> Vec<&'static str> {
        let kept = KEPT.iter().zip(&self.kept);
        let back = BACK.iter().zip(&self.back);
        let none = kept.chain(back).filter(|(_, count)| **count == 0);
        let unbroken = CLAUSES
            .iter()
            .filter(|clause| !self.clauses.contains_key(**clause));
        none.map(|(outcome, _)| *outcome)
            .chain(unbroken.copied())
            .collect()
    }

    /// Whether each outcome came, and each clause was broken.
    pub fn is_full(&self) -> bool {
        self.missing().is_empty()
    }

    /// Prints the counts.
    pub fn print(&self) {
        println!(
            "\ntrees to keep in halves: {}; half words to bring back: {}, of which damaged {}; the Rust had a say on {}",
            self.kept.iter().sum::<usize>(),
            self.halves,
            self.damaged,
            self.by_rust
        );
        println!("kept:");
        for (count, outcome) in self.kept.iter().zip(KEPT) {
            println!("{count:>9}  {outcome}");
        }
        println!("brought back, where one may be under several:");
        for (count, outcome) in self.back.iter().zip(BACK) {
            println!("{count:>9}  {outcome}");
        }
        let broken: usize = self.clauses.values().sum();
        println!(
            "{broken:>9}  17, with one of {} clauses broken",
            self.clauses.len()
        );
        let missing = self.missing();
        if !missing.is_empty() {
            println!("not all of these came: more trees are needed: {missing:?}");
        }
    }
}

impl Check<'_> {
    /// Keeps so many trees that are made for it, and brings them back, damaged and not; and sets each half word of some types to
    /// each value around a bound.
    pub fn half_rows(&mut self, count: usize) {
        for _ in 0..count {
            let random = &mut self.half_rows.random;
            let letters = [Letters::Plain, Letters::Ascii, Letters::Latin, Letters::Any];
            let letters = letters[random.below(4)];
            let rows = random.between(1, 20);
            let tree = trees::sound(random, letters, rows);
            let Tree { text, list, words } = &tree;
            let data_type = oracle::data_type(text, list, words);
            self.halves(&tree, Some(&data_type), "");
            let broken = trees::broken(&mut self.half_rows.random, &tree);
            if let Some((clause, broken)) = broken {
                self.halves(&broken, None, clause);
            }
            let stored = Stored::of(&tree).expect("a sound tree fits into halves");
            for _ in 0..3 {
                let (stored, damage) = damaged(&mut self.half_rows.random, &stored);
                self.bring_back(&stored, None, damage);
            }
        }
        SWEPT.iter().for_each(|text| self.sweep(text));
    }

    /// Each half word of a type's tree set to each value around a bound.
    fn sweep(&mut self, text: &str) {
        let rows = model::read(text.as_bytes(), Limits::lent(MOST_ROWS)).expect("a type");
        let halves = half_rows::in_halves(&model::to_words(&rows)).expect("a sound tree");
        for at in 0..halves.len() {
            for value in BOUNDS {
                let mut stored = Stored {
                    text: text.into(),
                    list: NAME_LIST.to_vec(),
                    halves: halves.clone(),
                };
                stored.halves[at] = value;
                self.bring_back(&stored, None, Damage::Halves);
            }
        }
    }

    /// Keeps a tree, and brings its halves and damaged ones back; of a sound tree the Rust's type may be given, of another the clause
    /// that is broken.
    pub(super) fn halves(&mut self, tree: &Tree, data_type: Option<&DataType>, clause: &str) {
        let halved = half_rows::halved((&tree.text, &tree.list, &tree.words));
        self.keep(tree, &halved);
        if halved.is_ok() {
            let stored = Stored::of(tree).expect("a sound tree fits into halves");
            self.bring_back(&stored, data_type, Damage::None);
            let (stored, damage) = damaged(&mut self.half_rows.random, &stored);
            self.bring_back(&stored, None, damage);
        } else if tree.words.len().is_multiple_of(WORDS)
            && let Some(stored) = Stored::of(tree)
        {
            let back = half_rows::brought_back(stored.kept(), usize::MAX);
            if matches!(back, Err(Cause::NotSound | Cause::Over1024)) {
                *self.half_rows.clauses.entry(clause.into()).or_default() += 1;
            } else if back != Err(Cause::NoWords) {
                self.differ_tree(tree, "not sound, yet its halves are brought back");
            }
            self.bring_back(&stored, None, Damage::None);
        }
    }

    /// The port's halves of a tree, among half words that held random ones.
    fn keep(&mut self, tree: &Tree, halved: &Result<Vec<u16>, u32>) {
        let random = &mut self.half_rows.random;
        let lent = match halved {
            Err(_) if random.one_in(3) => 0,
            Err(_) => room(random, tree.words.len() / WORDS * HALF_WORDS),
            Ok(halves) => room(random, halves.len()),
        };
        self.half_rows.kept[half_rows::kept_outcome(halved, lent)] += 1;
        let Some(subject) = self.subject else {
            return;
        };
        let table = (&*tree.text, &*tree.list, &*tree.words);
        let mut halves: Vec<u16> = (0..lent).map(|_| random.word() as u16).collect();
        let mut then = halves.clone();
        let kept = half_rows::kept(table, lent);
        if let Ok(kept) = &kept {
            then[..kept.len()].copy_from_slice(kept);
        }
        let expected = kept.map(|kept| kept.len() / HALF_WORDS);
        let answer = subject.to_half_rows(table, &mut halves);
        let difference = if answer != expected {
            Some(format!("port keeps {answer:?}, model {expected:?}"))
        } else {
            let at = (0..lent).find(|at| halves[*at] != then[*at]);
            at.map(|at| format!("half word {at}: {}, not {}", halves[at], then[at]))
        };
        if let Some(difference) = difference {
            self.differ_tree(tree, &format!("{lent} half words lent: {difference}"));
        }
    }

    /// What model, Rust and port make of half words; of those that a tree was kept in the Rust's type may be given.
    fn bring_back(&mut self, stored: &Stored, data_type: Option<&DataType>, damage: Damage) {
        let whole = half_rows::brought_back(stored.kept(), usize::MAX);
        if let Some(difference) = self.halves_by_rust(stored, &whole, data_type) {
            self.differ_halves(stored, &difference);
        }
        let random = &mut self.half_rows.random;
        let lent = match whole {
            Err(_) if random.one_in(3) => 0,
            _ => room(random, stored.halves.len() / HALF_WORDS * WORDS),
        };
        self.bring_back_into(stored, lent, damage);
    }

    /// What model and port make of half words where so many words are lent; which outcomes came.
    pub fn bring_back_into(&mut self, stored: &Stored, lent: usize, damage: Damage) -> Vec<usize> {
        self.half_rows.halves += 1;
        self.half_rows.damaged += usize::from(damage != Damage::None);
        let back = half_rows::brought_back(stored.kept(), lent);
        let needed = stored.halves.len() / HALF_WORDS * WORDS;
        let outcomes = half_rows::back_outcomes(&back, (needed, lent), damage);
        for outcome in &outcomes {
            self.half_rows.back[*outcome] += 1;
        }
        if let Some(difference) = self.subject_brings_back(stored, &back, lent) {
            self.differ_halves(stored, &format!("{lent} words lent: {difference}"));
        }
        outcomes
    }

    /// What is wrong with what the model brought back: it is kept as the same halves, and the Rust has a type for it, which has the
    /// rows; of halves that a tree was kept in, its type.
    fn halves_by_rust(
        &mut self,
        stored: &Stored,
        whole: &Result<Vec<u32>, Cause>,
        data_type: Option<&DataType>,
    ) -> Option<String> {
        let Ok(words) = whole else {
            return data_type.map(|_| format!("kept, yet refused: {whole:?}"));
        };
        let Stored { text, list, halves } = stored;
        if half_rows::halved((text, list, words)).as_ref() != Ok(halves) {
            return Some("brought back, yet kept as other halves".into());
        }
        self.half_rows.by_rust += 1;
        let rust = oracle::data_type(text, list, words);
        let rows = model::from_words(words);
        let difference = compare_rows(text, &rows, &oracle::rows(&rust), false);
        let other = data_type.filter(|data_type| **data_type != rust);
        difference.or_else(|| other.map(|other| format!("brought back as {rust}, not {other}")))
    }

    /// What is wrong with what the port answers or leaves in the words lent, which held random ones.
    fn subject_brings_back(
        &mut self,
        stored: &Stored,
        back: &Result<Vec<u32>, Cause>,
        lent: usize,
    ) -> Option<String> {
        let subject = self.subject?;
        let random = &mut self.half_rows.random;
        let mut rows: Vec<u32> = (0..lent).map(|_| random.word() as u32).collect();
        let mut then = rows.clone();
        if let Ok(words) = back {
            then[..words.len()].copy_from_slice(words);
        }
        let expected = match back {
            Ok(words) => Ok(words.len() / WORDS),
            Err(cause) => Err(cause.number()),
        };
        let answer = subject.from_half_rows(stored.kept(), &mut rows);
        if answer != expected {
            return Some(format!(
                "port {answer:?}, model {expected:?} {:?}",
                back.as_ref().err()
            ));
        }
        let at = (0..lent).find(|at| rows[*at] != then[*at])?;
        Some(format!("word {at}: {}, not {}", rows[at], then[at]))
    }

    fn differ_halves(&mut self, stored: &Stored, what: &str) {
        let input = format!(
            "text {} half words {:?}",
            shown(&stored.text),
            stored.halves
        );
        self.differ(&input, what);
    }
}
