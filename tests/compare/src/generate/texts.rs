//! Random texts by the grammar, with every kind, every optional part and every spelling; if asked,
//! with faults in them.

use super::Random;
use crate::model::{KINDS, OTHER_WORDS, greatest_precision, kind};

/// A text's tokens.
pub type Tokens = Vec<String>;

pub fn random(random: &mut Random, rows: usize, faults: usize) -> Tokens {
    let mut writer = Writer {
        random,
        tokens: Vec::new(),
        rows,
        faults,
    };
    writer.data_type(1);
    writer.tokens
}

/// Joins tokens in one of several spacings: as printed, as close as may be, or at random.
pub fn join(random: &mut Random, tokens: &[String]) -> Vec<u8> {
    let style = random.below(4);
    let mut text = String::new();
    let spaces = |random: &mut Random| " ".repeat([0, 0, 1, 1, 2, 5][random.below(6)]);
    if style > 1 {
        text += &spaces(random);
    }
    for (at, token) in tokens.iter().enumerate() {
        text += token;
        let next = tokens.get(at + 1).map_or("", String::as_str);
        // A word swallows whatever is no separator.
        let word = !token.starts_with(['(', ')', ',', ':', '"', '\'']);
        let needed = word && !next.is_empty() && !next.starts_with(['(', ')', ',', ':']);
        match style {
            0 if needed || token == "," && next != ")" || token == ":" => text += " ",
            0 => {}
            1 if needed => text += " ",
            1 => {}
            _ if needed => text += &format!(" {}", spaces(random)),
            _ => text += &spaces(random),
        }
    }
    text.into_bytes()
}

/// A token of any sort, sometimes broken.
pub fn any_token(random: &mut Random) -> String {
    match random.below(12) {
        0..=2 => random.pick(&["(", ")", ",", ":"]).to_string(),
        3 | 4 => random.pick(&KINDS).to_string(),
        5 | 6 => random.pick(&OTHER_WORDS).to_string(),
        7 => string(random, '"'),
        8 => string(random, '\''),
        9 => any_number(random),
        10 => random
            .pick(&[
                "@", "\"", "'", "\"\"", "''", "Int7", "int8", "X", "4x", "\t", "\"a\\\"",
            ])
            .to_string(),
        _ => random.character().to_string(),
    }
}

/// Numbers near the bounds, and others.
pub fn any_number(random: &mut Random) -> String {
    let near = [
        0,
        9,
        18,
        38,
        76,
        127,
        128,
        255,
        256,
        i64::from(i32::MAX),
        i64::MAX - 2,
    ];
    let number = near[random.below(near.len())] + random.below(3) as i64 - 1;
    match random.below(8) {
        0 => (-number).to_string(),
        1 => format!("{:020}", number),
        2 => format!("{}{number}", random.below(100)),
        _ => number.to_string(),
    }
}

/// A whole, non-empty quoted string.
pub fn string(random: &mut Random, mark: char) -> String {
    let other = if mark == '"' { '\'' } else { '"' };
    let style = random.below(6);
    let mut inside = String::new();
    // With escapes: parts that hold a backslash and end in the mark, then one without either.
    let parts = if style == 0 { random.below(3) } else { 0 };
    for part in 0..=parts {
        let length = random.below(5) + usize::from(parts == 0);
        let backslash = random.below(length + 1);
        for place in 0..=length {
            if part < parts && place == backslash {
                inside += ["\\", "\\", "\\\\", "\\n"][random.below(4)];
            } else if place < length {
                inside.push(match style {
                    0 => random
                        .pick(&["a", "b", " ", ",", "("])
                        .chars()
                        .next()
                        .unwrap(),
                    1 => random.character(),
                    2 => char::from(random.between(0, 127) as u8),
                    3 if random.one_in(3) => other,
                    4 if random.one_in(2) => ['ü', 'é', 'µ', '→', '日', '𝄞'][random.below(6)],
                    _ => char::from(b"abcdefgh_0123 .,:()-"[random.below(20)]),
                });
            }
        }
        if part < parts {
            inside.push(mark);
        }
    }
    if parts == 0 {
        inside.retain(|character| character != mark && character != '\\');
    }
    if inside.is_empty() {
        inside += random.pick(&["a", "item", "run_ends", "values", "Int8", "\u{1}"]);
    }
    format!("{mark}{inside}{mark}")
}

struct Writer<'r> {
    random: &'r mut Random,
    tokens: Tokens,
    /// How many more rows may well begin.
    rows: usize,
    /// One choice in this many goes wrong; 0 for none.
    faults: usize,
}

impl Writer<'_> {
    fn fault(&mut self) -> bool {
        self.faults > 0 && self.random.one_in(self.faults)
    }

    fn say(&mut self, token: &str) {
        if !self.fault() {
            self.tokens.push(token.to_string());
            return;
        }
        match self.random.below(6) {
            0 => {}
            1 => {
                self.tokens.push(token.to_string());
                self.tokens.push(token.to_string());
            }
            2 => {
                self.tokens.push(token.to_string());
                let other = any_token(self.random);
                self.tokens.push(other);
            }
            3 => {
                let other = any_token(self.random);
                self.tokens.push(other);
                self.tokens.push(token.to_string());
            }
            _ => {
                let other = any_token(self.random);
                self.tokens.push(other);
            }
        }
    }

    fn number(&mut self, number: i64) {
        if self.fault() {
            let other = any_number(self.random);
            return self.say(&other);
        }
        let spelled = match self.random.below(12) {
            0 if number >= 0 => format!("{number:07}"),
            1 if number == 0 => "-0".to_string(),
            2 if number < 0 => format!("{number:08}"),
            _ => number.to_string(),
        };
        self.say(&spelled);
    }

    fn length(&mut self) {
        let length = match self.random.below(4) {
            0 => self.random.below(i32::MAX as usize + 1),
            1 => i32::MAX as usize - self.random.below(2),
            _ => self.random.below(40),
        };
        self.number(length as i64);
    }

    fn string(&mut self, mark: char) {
        let mark = match mark {
            '"' if self.fault() => '\'',
            '\'' if self.fault() => '"',
            _ => mark,
        };
        if self.fault() {
            return self.say(&format!("{mark}{mark}"));
        }
        let string = string(self.random, mark);
        self.say(&string);
    }

    /// A unit from `least` to `most`.
    fn unit(&mut self, least: usize, most: usize) {
        let unit = if self.fault() {
            self.random.below(4)
        } else {
            self.random.between(least, most)
        };
        let spelled = match unit {
            0 => self.random.pick(&["s", "Second"]),
            1 => self.random.pick(&["ms", "Millisecond"]),
            2 => self.random.pick(&["µs", "us", "Microsecond"]),
            _ => self.random.pick(&["ns", "Nanosecond"]),
        };
        self.say(spelled);
    }

    fn nullability(&mut self) {
        match self.random.below(4) {
            0 => self.say("non-null"),
            1 => self.say("nullable"),
            _ => {}
        }
    }

    fn non_null(&mut self) {
        if self.fault() {
            self.nullability();
        } else {
            self.say("non-null");
        }
    }

    fn field(&mut self, level: usize, non_null: bool) {
        self.string('"');
        self.say(":");
        if non_null {
            self.non_null();
        } else {
            self.nullability();
        }
        self.data_type(level);
    }

    fn list_field(&mut self, level: usize) {
        self.nullability();
        self.data_type(level);
        if self.random.one_in(3) {
            self.say(",");
            self.say("field");
            self.say(":");
            if self.random.one_in(6) {
                self.say("'item'");
            } else {
                self.string('\'');
            }
        }
    }

    fn count(&mut self) -> usize {
        match self.random.below(10) {
            0 => 0,
            9 => self.random.below(20),
            _ => self.random.between(1, 4),
        }
    }

    fn data_type(&mut self, level: usize) {
        self.rows = self.rows.saturating_sub(1);
        let often = if level == 1 { 92 } else { 60 };
        let nests = self.rows > 0 && level < 100 && self.random.below(100) < often;
        let kind = loop {
            let kind = self.random.below(KINDS.len()) as u32;
            let nesting = (kind::LIST..=kind::DICTIONARY).contains(&kind) || kind >= kind::MAP;
            if nesting == nests {
                break kind;
            }
        };
        self.say(KINDS[kind as usize]);
        match kind {
            kind::TIMESTAMP => {
                self.say("(");
                self.unit(0, 3);
                match self.random.below(4) {
                    0 => {}
                    1 => {
                        self.say(",");
                        self.say("None");
                    }
                    2 => {
                        self.say(",");
                        self.string('"');
                    }
                    _ => {
                        self.say(",");
                        self.say("Some");
                        self.say("(");
                        self.string('"');
                        self.say(")");
                    }
                }
                self.say(")");
            }
            kind::TIME32 | kind::TIME64 | kind::DURATION => {
                self.say("(");
                match kind {
                    kind::TIME32 => self.unit(0, 1),
                    kind::TIME64 => self.unit(2, 3),
                    _ => self.unit(0, 3),
                }
                self.say(")");
            }
            kind::INTERVAL => {
                self.say("(");
                let unit = self.random.pick(&["YearMonth", "DayTime", "MonthDayNano"]);
                self.say(unit);
                self.say(")");
            }
            kind::FIXED_SIZE_BINARY => {
                self.say("(");
                self.length();
                self.say(")");
            }
            kind::DECIMAL32..=kind::DECIMAL256 => {
                let greatest = greatest_precision(kind) as usize;
                let precision = match self.random.below(4) {
                    0 => greatest,
                    1 => 1,
                    _ => self.random.between(1, greatest),
                } as i64;
                let scale = match self.random.below(4) {
                    0 => precision,
                    1 => -(self.random.between(1, 128) as i64),
                    _ => self.random.below(precision as usize + 1) as i64,
                };
                let wrong = self.fault();
                self.say("(");
                self.number(precision);
                self.say(",");
                self.number(if wrong { precision + 1 } else { scale });
                self.say(")");
            }
            kind::FIXED_SIZE_LIST => {
                self.say("(");
                self.length();
                if self.random.one_in(2) {
                    self.say("x");
                    self.list_field(level + 1);
                } else {
                    self.say(",");
                    self.data_type(level + 1);
                }
                self.say(")");
            }
            kind::LIST..=kind::LARGE_LIST_VIEW => {
                self.say("(");
                self.list_field(level + 1);
                self.say(")");
            }
            kind::STRUCT => {
                let count = self.count();
                self.fields(level, count, false);
            }
            kind::UNION => self.union(level),
            kind::DICTIONARY => {
                self.say("(");
                self.data_type(level + 1);
                self.say(",");
                self.data_type(level + 1);
                self.say(")");
            }
            kind::MAP => {
                self.say("(");
                self.string('"');
                self.say(":");
                self.non_null();
                if self.fault() {
                    self.data_type(level + 1);
                } else {
                    let count = if self.fault() { self.count() } else { 2 };
                    self.rows = self.rows.saturating_sub(1);
                    self.say("Struct");
                    self.fields(level + 1, count, true);
                }
                self.say(",");
                let sorted = self.random.pick(&["sorted", "unsorted"]);
                self.say(sorted);
                self.say(")");
            }
            kind::RUN_END_ENCODED => {
                self.say("(");
                if self.random.one_in(2) {
                    self.field(level + 1, true);
                    self.say(",");
                    self.field(level + 1, false);
                } else {
                    self.non_null();
                    self.data_type(level + 1);
                    self.say(",");
                    self.nullability();
                    self.data_type(level + 1);
                }
                self.say(")");
            }
            _ => {}
        }
    }

    /// A Struct's fields behind its word.
    fn fields(&mut self, level: usize, count: usize, first_non_null: bool) {
        self.say("(");
        for at in 0..count {
            self.field(level + 1, first_non_null && at == 0);
            if at + 1 < count || self.random.one_in(5) {
                self.say(",");
            }
        }
        self.say(")");
    }

    fn union(&mut self, level: usize) {
        self.say("(");
        let mode = self.random.pick(&["Sparse", "Dense"]);
        self.say(mode);
        let mut ids: Vec<i64> = (0..128).collect();
        for _ in 0..self.count() {
            let at = self.random.below(ids.len());
            let mut id = ids.swap_remove(at);
            if self.fault() {
                id = self.random.below(256) as i64 - 128;
            } else if self.fault() {
                ids.extend([id; 200]);
            }
            self.say(",");
            self.number(id);
            self.say(":");
            self.say("(");
            self.field(level + 1, false);
            self.say(")");
        }
        self.say(")");
    }
}
