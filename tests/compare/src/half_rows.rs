//! Rows in halves in plain Rust, from the request's sentence alone: thirteen 16-bit words to a row, its twelve words in order,
//! word 4 as its low half and then its high half. `model` has the rest, soundness of wide rows too.

use crate::column_out::NO_ROOM;
use crate::model::{self, MOST_ROWS, WORDS, refusal};
use crate::needs::Table;

/// How many half words a row takes.
pub const HALF_WORDS: usize = 13;

/// The word that is kept as two halves.
pub const TWO_HALVES: usize = 4;

/// Row count, or the number of the refusal.
pub type Answer = Result<usize, u32>;

/// A row's words, of which each but word 4 is below 65,536; none of another row.
fn halves_of(row: &[u32]) -> Option<Vec<u16>> {
    let mut halves = Vec::new();
    for (place, word) in row.iter().enumerate() {
        if place == TWO_HALVES {
            let [a, b, c, d] = word.to_le_bytes();
            halves.push(u16::from_le_bytes([a, b]));
            halves.push(u16::from_le_bytes([c, d]));
        } else {
            halves.push(u16::try_from(*word).ok()?);
        }
    }
    Some(halves)
}

/// Whole rows in halves, sound or not; none where a word is too large for it.
pub fn in_halves(words: &[u32]) -> Option<Vec<u16>> {
    let rows = words.chunks_exact(WORDS).map(halves_of);
    let rows: Option<Vec<Vec<u16>>> = rows.collect();
    Some(rows?.concat())
}

/// A row's thirteen half words as its words.
fn words_of(halves: &[u16]) -> Vec<u32> {
    let (before, rest) = halves.split_at(TWO_HALVES);
    let (two, behind) = rest.split_at(2);
    let mut words: Vec<u32> = before.iter().map(|half| u32::from(*half)).collect();
    words.push(u32::from(two[1]) << 16 | u32::from(two[0]));
    words.extend(behind.iter().map(|half| u32::from(*half)));
    words
}

/// Whole thirteens as wide rows, sound or not; what is left over is no row.
pub fn widened(halves: &[u16]) -> Vec<u32> {
    halves.chunks_exact(HALF_WORDS).flat_map(words_of).collect()
}

/// A tree in halves, whatever is lent, or 17. A word of a sound tree that no half word holds would be a fault of the scope.
pub fn halved((text, list, words): Table) -> Result<Vec<u16>, u32> {
    if !model::sound(text, list, words) {
        return Err(refusal::NOT_SOUND);
    }
    Ok(in_halves(words).expect("a sound tree's words but word 4 are below 65,536"))
}

/// A tree in halves where so many half words are lent.
pub fn kept(table: Table, lent: usize) -> Result<Vec<u16>, u32> {
    let halves = halved(table)?;
    if halves.len() > lent {
        return Err(NO_ROOM);
    }
    Ok(halves)
}

/// Half words with the text and the name list that they are judged over.
pub type Kept<'a> = (&'a [u8], &'a [u8], &'a [u16]);

/// Why half words are not brought back.
#[derive(Clone, Copy, Debug, PartialEq, Eq)]
pub enum Cause {
    NoWords,
    LeftOver,
    Over1024,
    NotSound,
    NoRoom,
}

impl Cause {
    pub fn number(self) -> u32 {
        match self {
            Cause::NoRoom => NO_ROOM,
            _ => refusal::NOT_SOUND,
        }
    }
}

/// The wide rows of half words, where so many words are lent.
pub fn brought_back((text, list, halves): Kept, lent: usize) -> Result<Vec<u32>, Cause> {
    if halves.is_empty() {
        return Err(Cause::NoWords);
    }
    if !halves.len().is_multiple_of(HALF_WORDS) {
        return Err(Cause::LeftOver);
    }
    let words = widened(halves);
    if !model::sound(text, list, &words) {
        let over = words.len() > MOST_ROWS * WORDS;
        return Err(if over {
            Cause::Over1024
        } else {
            Cause::NotSound
        });
    }
    if words.len() > lent {
        return Err(Cause::NoRoom);
    }
    Ok(words)
}

/// What may come of keeping a tree, as a run counts it.
#[rustfmt::skip]
pub const KEPT: [&str; 8] = [
    "kept, as many half words lent", "kept, more lent", "kept, far more lent",
    "17", "17, nothing lent",
    "28, one half word short", "28, nothing lent", "28, fewer lent",
];

/// Which of `KEPT` comes.
pub fn kept_outcome(halved: &Result<Vec<u16>, u32>, lent: usize) -> usize {
    let Ok(halves) = halved else {
        return 3 + usize::from(lent == 0);
    };
    room_outcome(halves.len(), lent, 0, 5)
}

/// What may come of bringing half words back, as a run counts it.
#[rustfmt::skip]
pub const BACK: [&str; 15] = [
    "back, as many words lent", "back, more lent", "back, far more lent",
    "17, no half words", "17, left over from thirteens", "17, left over, nothing lent",
    "17, over 1,024 rows", "17, over 1,024 rows, nothing lent",
    "17, not sound", "17, not sound, nothing lent",
    "28, one word short", "28, nothing lent", "28, fewer lent",
    "back, yet damaged", "back, yet over another text",
];

/// Which of `BACK` come.
pub fn back_outcomes(
    back: &Result<Vec<u32>, Cause>,
    (words, lent): (usize, usize),
    damaged: Damage,
) -> Vec<usize> {
    let nothing = usize::from(lent == 0);
    let mut outcomes = vec![match back {
        Err(Cause::NoWords) => 3,
        Err(Cause::LeftOver) => 4 + nothing,
        Err(Cause::Over1024) => 6 + nothing,
        Err(Cause::NotSound) => 8 + nothing,
        Ok(_) | Err(Cause::NoRoom) => room_outcome(words, lent, 0, 10),
    }];
    match damaged {
        Damage::Halves if back.is_ok() => outcomes.push(13),
        Damage::Text if back.is_ok() => outcomes.push(14),
        _ => {}
    }
    outcomes
}

/// What was damaged, if anything was.
#[derive(Clone, Copy, Debug, PartialEq, Eq)]
pub enum Damage {
    None,
    Halves,
    Text,
}

/// With room as many, more or far more, from `fits` on; without, one short, nothing or fewer, from `short` on.
fn room_outcome(needed: usize, lent: usize, fits: usize, short: usize) -> usize {
    match lent {
        _ if lent == needed => fits,
        _ if lent >= needed + FAR_MORE => fits + 2,
        _ if lent > needed => fits + 1,
        0 => short + 1,
        _ if lent + 1 == needed => short,
        _ => short + 2,
    }
}

/// So many more are far more.
pub const FAR_MORE: usize = 1_000;
