//! Damaged copies: a good text with bytes or tokens deleted, put in, replaced, repeated, swapped or
//! cut off. Some are UTF-8 no more.

use super::Random;
use super::texts::{Tokens, any_token, join};

pub fn damaged(random: &mut Random, tokens: &Tokens) -> Vec<u8> {
    let mut tokens = tokens.clone();
    let by_token = random.below(3);
    for _ in 0..by_token {
        damage(random, &mut tokens, any_token);
    }
    let mut text = join(random, &tokens);
    if by_token == 0 || random.one_in(4) {
        for _ in 0..random.between(1, 3) {
            damage(random, &mut text, any_byte);
        }
    }
    text
}

fn any_byte(random: &mut Random) -> u8 {
    match random.below(4) {
        0 => random.below(256) as u8,
        1 => random.between(32, 126) as u8,
        _ => b"(),: \"'\\-0159xs\t\n"[random.below(17)],
    }
}

/// One change to a sequence.
fn damage<T: Clone>(random: &mut Random, parts: &mut Vec<T>, other: fn(&mut Random) -> T) {
    if parts.is_empty() {
        return parts.push(other(random));
    }
    let at = random.below(parts.len());
    match random.below(8) {
        0 | 1 => {
            parts.remove(at);
        }
        2 => parts.insert(at, other(random)),
        3 | 4 => parts[at] = other(random),
        5 => {
            let end = (at + random.between(1, 4)).min(parts.len());
            let again = parts[at..end].to_vec();
            parts.splice(at..at, again);
        }
        6 => parts.truncate(at),
        _ => {
            let with = random.below(parts.len());
            parts.swap(at, with);
        }
    }
}
