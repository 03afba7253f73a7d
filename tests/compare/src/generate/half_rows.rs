//! Half words that are damaged in each way that stored ones may be, and buffers to lend.

use super::Random;
use super::trees::{self, Letters, Tree};
use crate::half_rows::{self, Damage, FAR_MORE, HALF_WORDS, TWO_HALVES};
use crate::model::{MOST_BYTES, MOST_ROWS, NAME_LIST};

/// Half words with a text and a name list.
#[derive(Clone, Debug)]
pub struct Stored {
    pub text: Vec<u8>,
    pub list: Vec<u8>,
    pub halves: Vec<u16>,
}

impl Stored {
    pub fn kept(&self) -> half_rows::Kept<'_> {
        (&self.text, &self.list, &self.halves)
    }

    /// A tree in halves, sound or not; none where it does not fit into them.
    pub fn of(tree: &Tree) -> Option<Stored> {
        Some(Stored {
            text: tree.text.clone(),
            list: tree.list.clone(),
            halves: half_rows::in_halves(&tree.words)?,
        })
    }
}

/// Every value that is a bound of a word or of a half, or next to one.
#[rustfmt::skip]
pub const BOUNDS: [u16; 58] = [
    0, 1, 2, 3, 4, 5, 8, 9, 10, 12, 13, 14, 15, 16, 17, 18, 19, 20, 21, 22, 26, 27, 28, 31, 32, 33, 34, 35, 38, 39, 40, 41,
    63, 64, 65, 76, 77, 126, 127, 128, 129, 204, 205, 254, 255, 256, 1_023, 1_024, 1_025, 16_383, 16_384, 16_385,
    32_767, 32_768, 32_769, 65_533, 65_534, 65_535,
];

/// How many half words or words to lend where so many are needed: just as many, one short, a row short, any fewer, none, more or
/// far more.
pub fn room(random: &mut Random, needed: usize) -> usize {
    match random.below(16) {
        0 | 1 => needed.saturating_sub(1),
        2 => needed.saturating_sub(HALF_WORDS),
        3 => random.below(needed + 1),
        4 | 5 => 0,
        6..=8 => needed + random.between(1, 30),
        9 => needed + FAR_MORE + random.below(40),
        _ => needed,
    }
}

/// A half word set to a value around a bound, or to one of those next to it.
fn set(random: &mut Random, stored: &mut Stored) {
    if stored.halves.is_empty() {
        return;
    }
    let at = random.below(stored.halves.len());
    let (half, other) = (stored.halves[at], random.below(stored.halves.len()));
    let length = stored.text.len() as u16;
    stored.halves[at] = match random.below(8) {
        0 => half.wrapping_add(1),
        1 => half.wrapping_sub(1),
        2 => stored.halves[other],
        3 => length.wrapping_add(random.below(3) as u16).wrapping_sub(1),
        4 => random.word() as u16,
        _ => BOUNDS[random.below(BOUNDS.len())],
    };
}

/// The two halves of a row's word 4, one in the place of the other; of a row where they differ, if there is any.
fn swap(random: &mut Random, stored: &mut Stored) {
    let rows = stored.halves.len() / HALF_WORDS;
    let differ = |at: &usize| stored.halves[*at] != stored.halves[*at + 1];
    let at: Vec<usize> = (0..rows)
        .map(|row| row * HALF_WORDS + TWO_HALVES)
        .filter(differ)
        .collect();
    if !at.is_empty() {
        let at = at[random.below(at.len())];
        stored.halves.swap(at, at + 1);
    }
}

/// Another text, of the same length or of another; where it is of the same, often all but a byte or two are the same.
fn other_text(random: &mut Random, stored: &mut Stored) {
    let length = stored.text.len();
    let same = random.one_in(2);
    if same && length > 0 && random.one_in(2) {
        for _ in 0..random.between(1, 2) {
            let at = random.below(length);
            stored.text[at] = if random.one_in(4) {
                random.word() as u8
            } else {
                b'x'
            };
        }
        return;
    }
    let wanted = if same {
        length
    } else {
        [
            0,
            length / 2,
            length.saturating_sub(1),
            length + 1,
            length + 100,
            MOST_BYTES + 1,
        ][random.below(6)]
    };
    let mut text = trees::text(random, Letters::Plain, wanted);
    while text.len() > wanted {
        text.pop();
    }
    stored.text = text.into_bytes();
    stored.text.resize(wanted, b'x');
}

/// 1 to 12 half words cut off, or as many behind them; or a whole row taken out.
fn length(random: &mut Random, stored: &mut Stored, way: usize) {
    let halves = &mut stored.halves;
    match way {
        0 => {
            let cut = random.between(1, HALF_WORDS - 1).min(halves.len());
            halves.truncate(halves.len() - cut);
        }
        1 => {
            let more = random.between(1, HALF_WORDS - 1);
            let half = [0, random.word() as u16][random.below(2)];
            halves.resize(halves.len() + more, half);
        }
        _ => {
            let rows = halves.len() / HALF_WORDS;
            let row = random.below(rows.max(1)) * HALF_WORDS;
            let end = (row + HALF_WORDS).min(halves.len());
            halves.drain(row..end);
        }
    }
}

/// Another tree's half words behind them, over both texts.
fn joined(random: &mut Random, stored: &mut Stored) {
    let rows = random.between(1, 6);
    let other = trees::sound(random, Letters::Plain, rows);
    if let Some(other) = Stored::of(&other) {
        stored.halves.extend(other.halves);
        stored.text.extend(other.text);
    }
}

/// Another name list, but for now and then.
fn other_list(random: &mut Random, stored: &mut Stored) {
    let lists: [&[u8]; 4] = [b"item", b"", b"itemrun_endsvaluesx", b"itemrun_endsvalueS"];
    stored.list = lists[random.below(4)].to_vec();
    if random.one_in(8) {
        stored.list = NAME_LIST.to_vec();
    }
}

/// Half words damaged in one way, and what was damaged: they may be good still.
pub fn damaged(random: &mut Random, stored: &Stored) -> (Stored, Damage) {
    let mut stored = stored.clone();
    match random.below(24) {
        0..=8 => set(random, &mut stored),
        9 => {
            set(random, &mut stored);
            set(random, &mut stored);
        }
        10 | 11 => swap(random, &mut stored),
        way @ 12..=14 => length(random, &mut stored, way - 12),
        15 => stored.halves.clear(),
        16 | 17 => joined(random, &mut stored),
        18 => {
            let length = random.below(4 * HALF_WORDS);
            stored.halves = (0..length).map(|_| random.word() as u16).collect();
        }
        19 => {
            // More than 1,024 rows.
            let rows = MOST_ROWS + random.between(1, 2);
            stored.halves.resize(rows * HALF_WORDS, 0);
        }
        20 => other_list(random, &mut stored),
        _ => {
            other_text(random, &mut stored);
            return (stored, Damage::Text);
        }
    }
    (stored, Damage::Halves)
}
