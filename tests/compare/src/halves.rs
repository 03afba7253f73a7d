//! The stored sample of rows in halves, for a replay without Rust: half words with what they are brought back as. README.md has
//! the format.

use crate::check::Check;
use crate::generate::Random;
use crate::generate::half_rows::{Stored as Halves, damaged, room};
use crate::generate::trees::{self, Letters};
use crate::half_rows::{self, BACK, Damage, HALF_WORDS};
use crate::model::{MOST_ROWS, WORDS};
use crate::sample::{File, Stored, leaf};
use crate::subject;
use std::process::ExitCode;

/// The most words that the replay lends, and the most half words that it brings back.
const MOST_LENT: usize = 13_000;
const MOST_HALVES: usize = 13_500;

/// Longer cases are left out, but for those that are the largest.
const LONG: usize = 1_100;

/// How many cases are kept for an outcome.
const OF_OUTCOME: usize = 140;

/// Of no half words at all there are only the text, the name list and the words lent to vary.
const OF_NO_WORDS: usize = 30;
const NO_WORDS: usize = 3;

struct Sample<'s> {
    check: Check<'s>,
    random: Random,
    kept: File,
    /// How many cases are kept by outcome, and how many of them are accepted.
    outcomes: [usize; BACK.len()],
    accepted: usize,
}

/// Writes rows in halves with what they are brought back as; none while model, Rust and port differ on any.
pub fn halves(file: &str, seed: u64) -> Result<ExitCode, String> {
    let subject = subject::linked();
    let mut sample = Sample {
        check: Check::new(subject.as_deref(), seed),
        random: Random::new(seed),
        kept: File::default(),
        outcomes: [0; BACK.len()],
        accepted: 0,
    };
    sample.large();
    for _ in 0..12_000 {
        sample.small();
    }
    sample.write(file)
}

/// A case: the text, the name list, the words lent, what is to be answered, the half words, and the rows to be left.
fn record(halves: &Halves, lent: usize) -> Vec<u8> {
    let back = half_rows::brought_back(halves.kept(), lent);
    let (status, words) = match back {
        Ok(words) => (0, words),
        Err(cause) => (cause.number(), Vec::new()),
    };
    let mut record = Stored::default();
    record.bytes(&halves.text).bytes(&halves.list);
    record.number(lent).number(status as usize);
    record
        .number(words.len() / WORDS)
        .number(halves.halves.len());
    record.line();
    for row in halves.halves.chunks(HALF_WORDS) {
        row.iter().for_each(|half| {
            record.number(usize::from(*half));
        });
        record.line();
    }
    record.words(&words);
    record.0
}

/// The halves of one type with the rows of another.
fn wrong_halves() -> Vec<u8> {
    let [right, other] = ["Int32", "Int16"].map(|text| {
        let halves = Halves::of(&leaf(text.as_bytes())).expect("a sound tree");
        Halves {
            text: Vec::new(),
            ..halves
        }
    });
    let right = record(&right, WORDS);
    let wrong = record(&other, WORDS);
    let row = right.len() - "4 1 0 0 0 0 0 0 0 0 0 0\n".len();
    [&right[..row], &wrong[row..]].concat()
}

impl Sample<'_> {
    /// Keeps a case where one of its outcomes has too few.
    fn offer(&mut self, halves: &Halves, lent: usize, damage: Damage, long: usize) {
        let lent = lent.min(MOST_LENT);
        let outcomes = self.check.bring_back_into(halves, lent, damage);
        let most = |outcome| {
            if outcome == NO_WORDS {
                OF_NO_WORDS
            } else {
                OF_OUTCOME
            }
        };
        let full = |outcome: &usize| self.outcomes[*outcome] >= most(*outcome);
        if halves.halves.len() > MOST_HALVES || outcomes.iter().all(full) {
            return;
        }
        let record = record(halves, lent);
        if record.len() > long || !self.kept.offer(record) {
            return;
        }
        self.accepted += usize::from(outcomes[0] < 3);
        outcomes
            .iter()
            .for_each(|outcome| self.outcomes[*outcome] += 1);
    }

    /// A tree's halves and damaged ones, with words of any number lent; and of a tree that is not sound.
    fn small(&mut self) {
        let letters = [Letters::Plain, Letters::Ascii, Letters::Latin, Letters::Any];
        let letters = letters[self.random.below(4)];
        let rows = self.random.between(1, 8);
        let tree = trees::sound(&mut self.random, letters, rows);
        let halves = Halves::of(&tree).expect("a sound tree fits into halves");
        let (changed, damage) = damaged(&mut self.random, &halves);
        let broken = trees::broken(&mut self.random, &tree);
        let broken = broken.and_then(|(_, tree)| Halves::of(&tree));
        for (halves, damage) in [
            (Some(halves), Damage::None),
            (Some(changed), damage),
            (broken, Damage::None),
        ] {
            let Some(halves) = halves else {
                continue;
            };
            let lent = room(&mut self.random, halves.halves.len() / HALF_WORDS * WORDS);
            self.offer(&halves, lent, damage, LONG);
        }
    }

    /// As many rows as may be, and more, with words lent and without.
    fn large(&mut self) {
        for (rows, lent) in [
            (MOST_ROWS, MOST_LENT),
            (MOST_ROWS, MOST_ROWS * WORDS - 1),
            (MOST_ROWS + 1, MOST_LENT),
            (MOST_ROWS + 1, 0),
        ] {
            let tree = trees::of_rows(&mut self.random, rows);
            let halves = Halves::of(&tree).expect("rows that fit into halves");
            self.offer(&halves, lent, Damage::None, usize::MAX);
        }
    }

    /// Writes what is kept, unless there are differences or an outcome did not come.
    fn write(mut self, file: &str) -> Result<ExitCode, String> {
        if self.check.differences() > 0 {
            println!("nothing is written while there are differences");
            return Ok(ExitCode::FAILURE);
        }
        let mut outcomes = BACK.iter().zip(self.outcomes);
        if let Some((outcome, count)) = outcomes.find(|(_, count)| *count == 0) {
            return Err(format!("{outcome}: kept {count} times"));
        }
        let bytes = self.kept.write(file, wrong_halves())?;
        let all = self.kept.records.len();
        println!(
            "{all} cases of halves, {bytes} bytes in {file}, {} accepted",
            self.accepted
        );
        for (outcome, count) in BACK.iter().zip(self.outcomes) {
            println!("{count:>6}  {outcome}");
        }
        Ok(ExitCode::SUCCESS)
    }
}

/// The last case of the sample is not what its halves are brought back as.
#[cfg(test)]
#[test]
fn wrong_on_purpose() {
    let wrong = String::from_utf8(wrong_halves()).unwrap();
    let expected = "0 \n18 itemrun_endsvalues\n12 0 1 13\n4 1 0 0 0 0 0 0 0 0 0 0 0\n3 1 0 0 0 0 0 0 0 0 0 0\n";
    assert_eq!(wrong, expected);
}
