//! Short sequences of tokens, all of them.

use super::Visit;
use crate::model::{self, Limits, MOST_ROWS, refusal};

/// At least one token of every sort, broken ones too.
#[rustfmt::skip]
const TOKENS: [&str; 38] = [
    "Int8", "Timestamp", "Time32", "Time64", "Duration", "Interval", "FixedSizeBinary", "Decimal32",
    "List", "FixedSizeList", "Struct", "Union", "Dictionary", "Map", "RunEndEncoded",
    "(", ")", ",", ":", "\"a\"", "'a'", "5", "-1", "300", "s", "ns", "DayTime", "x", "non-null",
    "nullable", "field", "Sparse", "sorted", "None", "Some", "@", "\"\"", "\"",
];

/// The number of tokens up to which every sequence is tried.
const WHOLE: usize = 3;

/// Every sequence of up to three tokens; then, length by length until the count is reached, every
/// token behind each sequence that more tokens could still complete. Each is joined with spaces and
/// without. Answers the number of tokens up to which all were tried.
pub fn sequences(count: usize, visit: Visit) -> usize {
    let mut done = 0;
    let mut visit = |text: String| {
        visit(text.as_bytes());
        done += 1;
        done
    };
    visit(String::new());
    // The sequences that are made longer.
    let mut open = vec![vec![]];
    for length in 1.. {
        let mut longer = Vec::new();
        for sequence in &open {
            for token in TOKENS {
                let mut sequence: Vec<&str> = sequence.clone();
                sequence.push(token);
                if visit(sequence.join(" ")) >= count && length > WHOLE {
                    return length - 1;
                }
                visit(sequence.concat());
                if length < WHOLE || hopeful(&sequence) {
                    longer.push(sequence);
                }
            }
        }
        open = longer;
    }
    unreachable!("there is always a longer type")
}

/// Whether more tokens could still make a difference.
fn hopeful(sequence: &[&str]) -> bool {
    match model::read(sequence.join(" ").as_bytes(), Limits::lent(MOST_ROWS)) {
        Ok(_) => true,
        Err(number) => {
            // In the short form 13 is met where the nullability is missing.
            let short = sequence.ends_with(&["RunEndEncoded", "("]);
            number == refusal::END || number == refusal::NULLABLE && short
        }
    }
}
