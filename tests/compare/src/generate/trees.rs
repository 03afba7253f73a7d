//! Random sound trees, most of which no text gives: names anywhere in a text, overlapping, with
//! control characters, marks and backslashes, names out of the name list on any field. Then trees
//! that are sound no more.

use super::Random;
use crate::model::{
    KINDS, MOST_BYTES, MOST_LEVELS, MOST_ROWS, NAME_LIST, Row, WORDS, greatest_precision, kind,
    to_words,
};
use crate::oracle;

#[derive(Clone)]
pub struct Tree {
    pub text: Vec<u8>,
    pub list: Vec<u8>,
    pub words: Vec<u32>,
}

/// A tree of these rows, whose parents are set here.
pub fn tree(text: &[u8], rows: &[Row]) -> Tree {
    let parents = parents(rows);
    let parented = rows.iter().zip(parents).map(|(row, parent)| Row {
        parent: parent.unwrap_or(0) as u32,
        ..*row
    });
    Tree {
        text: text.to_vec(),
        list: NAME_LIST.to_vec(),
        words: to_words(&parented.collect::<Vec<_>>()),
    }
}

/// What the text, and so the names and zones, are made of.
#[derive(Clone, Copy, PartialEq, Eq)]
pub enum Letters {
    /// What reads back.
    Plain,
    /// All of ASCII.
    Ascii,
    /// Up to U+0183, most of it above 127: the last four are refused in double quotes.
    Latin,
    /// All of Unicode.
    Any,
}

/// Whether names and zones of such characters read back: printable ASCII and what is above 127 and prints as itself,
/// without quote marks and backslashes.
pub fn is_plain(character: char) -> bool {
    let itself = matches!(character, ' '..='~' | '\u{a1}'..='\u{17f}') && character != '\u{ad}';
    itself && !"\"'\\".contains(character)
}

/// A random character of a range.
fn between(random: &mut Random, least: char, most: char) -> char {
    let number = random.between(least as usize, most as usize);
    char::from_u32(number as u32).expect("a character")
}

pub fn text(random: &mut Random, letters: Letters, length: usize) -> String {
    let mut text = String::new();
    while text.len() < length {
        match random.below(30) {
            0 => text += "item",
            1 => text += "run_ends",
            2 => text += "values",
            3 => text += random.pick(&["Int8", "UTC", "+01:00", ", field: ", "non-null "]),
            _ => text.push(match letters {
                Letters::Plain => loop {
                    let (least, most) = [(' ', '~'), ('\u{a1}', '\u{17f}')][random.below(2)];
                    let character = between(random, least, most);
                    if is_plain(character) {
                        break character;
                    }
                },
                Letters::Ascii => match random.below(3) {
                    0 => char::from(b"\"'\\\0\t\r\n\x01\x1f\x7f"[random.below(10)]),
                    _ => char::from(random.below(128) as u8),
                },
                Letters::Latin => match random.below(200) {
                    0 => between(random, '\u{180}', '\u{183}'),
                    1..=40 => between(random, '\0', '\u{7f}'),
                    41..=100 => between(random, '\u{80}', '\u{bf}'),
                    _ => between(random, '\u{c0}', '\u{17f}'),
                },
                Letters::Any => random.character(),
            }),
        }
    }
    while text.len() > MOST_BYTES {
        text.pop();
    }
    text
}

/// A random sound tree of about this many rows at most; kinds that need two children may overrun it
/// by a row a level.
pub fn sound(random: &mut Random, letters: Letters, rows: usize) -> Tree {
    assert!(rows + MOST_LEVELS <= MOST_ROWS);
    let length = match random.below(12) {
        0 => 0,
        1 => random.between(1, 3),
        2 => random.between(200, 1_500),
        _ => random.between(4, 120),
    };
    let text = text(random, letters, length);
    let mut grower = Grower::new(random, &text, rows);
    grower.grow(1, Row::default());
    tree(text.as_bytes(), &grower.rows)
}

/// A sound tree whose root is a Struct of up to 40 fields: names often stand twice, and many fields are timestamps.
pub fn columns(random: &mut Random, letters: Letters) -> Tree {
    let length = [0, 4, 30, 300][random.below(4)];
    let text = text(random, letters, length);
    let mut grower = Grower::new(random, &text, 80);
    grower.rows.push(Row {
        kind: kind::STRUCT,
        ..Row::default()
    });
    let most = [3, 10, 40][grower.random.below(3)];
    for _ in 0..grower.random.below(most + 1) {
        let field = grower.field(false, None);
        if grower.random.one_in(3) {
            grower.timestamp(field);
        } else {
            let levels = grower.random.below(9);
            grower.grow(MOST_LEVELS - levels, field);
        }
    }
    grower.rows[0].rows = grower.rows.len() as u32;
    tree(text.as_bytes(), &grower.rows)
}

struct Grower<'a> {
    random: &'a mut Random,
    text: &'a str,
    /// Where characters begin, and the text's end.
    bounds: Vec<usize>,
    rows: Vec<Row>,
    /// Rows that may still begin.
    room: usize,
    levels: usize,
}

impl<'a> Grower<'a> {
    fn new(random: &'a mut Random, text: &'a str, room: usize) -> Grower<'a> {
        let bounds = text.char_indices().map(|(at, _)| at);
        Grower {
            random,
            bounds: bounds.chain([text.len()]).collect(),
            text,
            rows: Vec::new(),
            room,
            levels: MOST_LEVELS,
        }
    }

    /// A non-empty part of the text; none if that is empty.
    fn part(&mut self) -> Option<(u32, u32)> {
        let characters = self.bounds.len() - 1;
        if characters == 0 {
            return None;
        }
        if self.random.one_in(8) {
            let wanted = self.random.pick(&["item", "run_ends", "values"]);
            if let Some(at) = self.text.find(wanted) {
                return Some((at as u32, wanted.len() as u32));
            }
        }
        let first = self.random.below(characters);
        let most = match self.random.below(40) {
            0 => characters - first,
            1..=9 => 1,
            _ => (characters - first).min(10),
        };
        let end = first + self.random.between(1, most);
        Some((
            self.bounds[first] as u32,
            (self.bounds[end] - self.bounds[first]) as u32,
        ))
    }

    /// A field's row: role and name; `default` is a part of the name list to prefer.
    fn field(&mut self, non_null: bool, default: Option<(u32, u32)>) -> Row {
        let role = if non_null || self.random.one_in(2) {
            2
        } else {
            1
        };
        let listed = [(0, 4), (4, 8), (12, 6)];
        let prefer = default.filter(|_| self.random.one_in(2));
        let (home, (start, length)) = match (prefer, self.part()) {
            (Some((start, length)), part) => {
                // The same bytes out of the text, where it has them.
                let name = &NAME_LIST[start as usize..(start + length) as usize];
                let name = std::str::from_utf8(name).unwrap();
                match (part, self.text.find(name)) {
                    (Some(_), Some(at)) if self.random.one_in(2) => (1, (at as u32, length)),
                    _ => (2, (start, length)),
                }
            }
            (None, Some(part)) if !self.random.one_in(6) => (1, part),
            _ => (2, listed[self.random.below(3)]),
        };
        Row {
            role,
            home,
            name_start: start,
            name_length: length,
            ..Row::default()
        }
    }

    fn length(&mut self) -> u32 {
        match self.random.below(3) {
            0 => self.random.between(0, i32::MAX as usize) as u32,
            1 => i32::MAX as u32 - self.random.below(2) as u32,
            _ => self.random.below(100) as u32,
        }
    }

    fn timestamp(&mut self, row: Row) {
        let zone = self.part().filter(|_| self.random.one_in(2));
        let (zone_start, zone_length) = zone.unwrap_or((0, 0));
        self.rows.push(Row {
            kind: kind::TIMESTAMP,
            rows: 1,
            number: self.random.below(4) as u32,
            zone_start,
            zone_length,
            ..row
        });
    }

    fn grow(&mut self, level: usize, row: Row) {
        self.room = self.room.saturating_sub(1);
        // Rows that a nesting kind needs behind its own, and levels.
        let (needed, levels) = (4, 3);
        let often = if level == 1 { 92 } else { 60 };
        let fits = self.room >= needed && level + levels <= self.levels;
        let nests = fits && self.random.below(100) < often;
        let kind = loop {
            let kind = self.random.below(KINDS.len()) as u32;
            let nesting = (kind::LIST..=kind::DICTIONARY).contains(&kind) || kind >= kind::MAP;
            if nesting == nests {
                break kind;
            }
        };
        let at = self.rows.len();
        self.rows.push(Row { kind, ..row });
        match kind {
            kind::TIMESTAMP => {
                self.rows[at].number = self.random.below(4) as u32;
                if self.random.one_in(2) {
                    let (start, length) = self.part().unwrap_or((0, 0));
                    self.rows[at].zone_start = start;
                    self.rows[at].zone_length = length;
                }
            }
            kind::TIME32 => self.rows[at].number = self.random.below(2) as u32,
            kind::TIME64 => self.rows[at].number = self.random.between(2, 3) as u32,
            kind::DURATION => self.rows[at].number = self.random.below(4) as u32,
            kind::INTERVAL => self.rows[at].number = self.random.below(3) as u32,
            kind::FIXED_SIZE_BINARY => self.rows[at].number = self.length(),
            kind::DECIMAL32..=kind::DECIMAL256 => {
                let precision = self.random.between(1, greatest_precision(kind) as usize);
                self.rows[at].number = precision as u32;
                self.rows[at].scale = self.random.below(129 + precision) as u32;
            }
            kind::LIST..=kind::LARGE_LIST_VIEW => {
                if kind == kind::FIXED_SIZE_LIST {
                    self.rows[at].number = self.length();
                }
                let item = self.field(false, Some((0, 4)));
                self.grow(level + 1, item);
            }
            kind::STRUCT => {
                for _ in 0..self.count() {
                    if self.room > 0 {
                        let field = self.field(false, None);
                        self.grow(level + 1, field);
                    }
                }
            }
            kind::UNION => {
                self.rows[at].number = self.random.below(2) as u32;
                let mut ids: Vec<u32> = (0..128).collect();
                for _ in 0..self.count() {
                    if self.room > 0 {
                        let place = self.random.below(ids.len());
                        let mut field = self.field(false, None);
                        field.union_id = ids.swap_remove(place);
                        self.grow(level + 1, field);
                    }
                }
            }
            kind::DICTIONARY => {
                self.grow(level + 1, Row::default());
                self.grow(level + 1, Row::default());
            }
            kind::MAP => {
                self.rows[at].number = self.random.below(2) as u32;
                self.room -= 1;
                let entries = self.field(true, None);
                self.rows.push(Row {
                    kind: kind::STRUCT,
                    ..entries
                });
                for non_null in [true, false] {
                    let field = self.field(non_null, None);
                    self.grow(level + 2, field);
                }
                self.rows[at + 1].rows = (self.rows.len() - at - 1) as u32;
            }
            kind::RUN_END_ENCODED => {
                let run_ends = self.field(true, Some((4, 8)));
                self.grow(level + 1, run_ends);
                let values = self.field(false, Some((12, 6)));
                self.grow(level + 1, values);
            }
            _ => {}
        }
        self.rows[at].rows = (self.rows.len() - at) as u32;
    }

    /// Children of a Struct or Union.
    fn count(&mut self) -> usize {
        match self.random.below(12) {
            0 => 0,
            10 => self.random.below(20),
            11 if self.random.one_in(20) => self.random.between(100, 128),
            _ => self.random.between(1, 4),
        }
    }
}

/// The same tree with its names and zones end to end in a new text, each used once; none where they
/// do not fit. The result is equal to the tree.
pub fn packed(tree: &Tree) -> Option<Tree> {
    let mut rows = crate::model::from_words(&tree.words);
    let mut text = Vec::new();
    for row in &mut rows {
        if row.home != 0 {
            let name = crate::model::row_name(&tree.text, &tree.list, row);
            row.home = 1;
            row.name_start = text.len() as u32;
            text.extend_from_slice(name);
        }
        if row.zone_length > 0 {
            let zone = crate::model::row_zone(&tree.text, row);
            row.zone_start = text.len() as u32;
            text.extend_from_slice(zone);
        }
    }
    (text.len() <= MOST_BYTES).then(|| Tree {
        text,
        list: tree.list.clone(),
        words: to_words(&rows),
    })
}

/// A tree that prints to exactly this many bytes: two fields with long names, one of them perhaps
/// of characters that print as several bytes, and a random third.
pub fn of_length(random: &mut Random, length: usize) -> Tree {
    let letters = [Letters::Plain, Letters::Ascii][random.below(2)];
    let third = sound(random, letters, 30);
    let mut text = third.text;
    text.extend([0x1f; 2_000]);
    text.extend([b'a'; 12_000]);
    let long = text.len() as u32;
    let mut rows = crate::model::from_words(&third.words);
    let field = |start, name_length| Row {
        kind: kind::INT8,
        rows: 1,
        role: 1,
        home: 1,
        name_start: start,
        name_length,
        ..Row::default()
    };
    rows[0].role = 1;
    rows[0].home = 2;
    rows[0].name_length = 4;
    let control = field(long - 14_000, random.between(1, 1_500) as u32);
    let root = Row {
        kind: kind::STRUCT,
        rows: rows.len() as u32 + 4,
        ..Row::default()
    };
    let head = [
        root,
        control,
        field(long - 12_000, 1),
        field(long - 12_000, 1),
    ];
    let rows = [&head, rows.as_slice()].concat();
    let mut tree = tree(&text, &rows);
    // Each letter more in those two names is a byte more.
    let short = oracle::data_type(&tree.text, &tree.list, &tree.words);
    let missing = length.saturating_sub(short.to_string().len()) as u32;
    let first = missing.min(11_000);
    tree.words[2 * WORDS + 8] += first;
    tree.words[3 * WORDS + 8] += missing - first;
    tree
}

/// A chain of this many levels, each the only field of the one above or a list's item.
pub fn of_levels(random: &mut Random, levels: usize) -> Tree {
    let rows: Vec<Row> = (0..levels)
        .map(|at| {
            let leaf = at + 1 == levels;
            let field = at > 0;
            Row {
                kind: match random.below(3) {
                    _ if leaf => kind::INT8,
                    0 => kind::STRUCT,
                    1 => kind::LIST,
                    _ => kind::LARGE_LIST_VIEW,
                },
                rows: (levels - at) as u32,
                role: if field {
                    random.between(1, 2) as u32
                } else {
                    0
                },
                home: if field { 2 } else { 0 },
                name_length: if field { 4 } else { 0 },
                ..Row::default()
            }
        })
        .collect();
    tree(&[], &rows)
}

/// A Struct or a tree of Structs with this many rows.
pub fn of_rows(random: &mut Random, count: usize) -> Tree {
    let mut rows = vec![Row {
        kind: kind::STRUCT,
        rows: count as u32,
        ..Row::default()
    }];
    let mut inner = 0;
    while rows.len() < count {
        let left = count - rows.len();
        if inner == 0 {
            inner = random.between(1, left);
        }
        let first = random.one_in(50) && inner > 1;
        rows.push(Row {
            kind: if first { kind::STRUCT } else { kind::INT8 },
            rows: if first { inner as u32 } else { 1 },
            role: random.between(1, 2) as u32,
            home: 2,
            name_start: 12,
            name_length: 6,
            ..Row::default()
        });
        // Within a Struct of `inner` rows only leaves and smaller Structs that end with it.
        inner -= 1;
    }
    tree(&[], &rows)
}

/// Changes a few words to others, wild or near; often the tree is sound no more.
pub fn changed(random: &mut Random, tree: &Tree) -> Tree {
    let mut tree = tree.clone();
    if tree.words.is_empty() {
        return tree;
    }
    for _ in 0..random.between(1, 2) {
        let at = random.below(tree.words.len());
        let row = random.below(tree.words.len() / WORDS);
        let wild = [
            0,
            1,
            2,
            3,
            4,
            8,
            16,
            34,
            40,
            41,
            127,
            128,
            255,
            256,
            1_024,
            16_384,
            1 << 31,
            u32::MAX,
        ];
        let word = tree.words[at];
        tree.words[at] = match random.below(5) {
            0 => wild[random.below(wild.len())],
            1 => word.wrapping_add(1),
            2 => word.wrapping_sub(1),
            3 => tree.words[row * WORDS + at % WORDS],
            _ => random.below(128) as u32,
        };
    }
    match random.below(30) {
        0 => tree.words.truncate(random.below(tree.words.len())),
        1 => {
            let more = random.between(1, 2 * WORDS);
            let row = tree.words[..more.min(tree.words.len())].to_vec();
            tree.words.extend(row);
        }
        2 => {
            let rows = tree.words.len() / WORDS;
            let row = random.below(rows);
            tree.words.drain(row * WORDS..(row + 1) * WORDS);
        }
        3 if !tree.text.is_empty() => {
            let at = random.below(tree.text.len());
            tree.text[at] = random.below(256) as u8;
        }
        4 => {
            let at = random.below(tree.text.len() + 1);
            tree.text.truncate(at);
        }
        _ => {}
    }
    tree
}

/// Breaks one clause of soundness, named; none where the tree has no place for it.
pub fn broken(random: &mut Random, tree: &Tree) -> Option<(&'static str, Tree)> {
    let mut tree = tree.clone();
    let rows = crate::model::from_words(&tree.words);
    // A random row that fits.
    let parents = parents(&rows);
    let find = |random: &mut Random, fits: &dyn Fn(usize) -> bool| {
        let places: Vec<usize> = (0..rows.len()).filter(|at| fits(*at)).collect();
        (!places.is_empty()).then(|| places[random.below(places.len())])
    };
    let any = random.below(rows.len());
    let bare = |at: usize| parents[at].is_none_or(|up| rows[up].kind == kind::DICTIONARY);
    let named = |at: usize| !bare(at);
    let is = |wanted: u32| move |row: &Row| row.kind == wanted;
    let union_child = |at: usize| parents[at].is_some_and(|up| is(kind::UNION)(&rows[up]));
    let huge = [41, 255, 1 << 16, u32::MAX][random.below(4)];
    let big = [3, 4, 1 << 16, u32::MAX][random.below(4)];
    let set =
        |tree: &mut Tree, row: usize, word: usize, to: u32| tree.words[row * WORDS + word] = to;
    let clause = match random.below(47) {
        0 => {
            tree.words
                .truncate(tree.words.len() - random.between(1, WORDS - 1));
            "whole rows"
        }
        1 => {
            tree.words.extend(vec![0; random.between(1, WORDS)]);
            "words beyond the rows"
        }
        2 => {
            tree.words.clear();
            "at least one row"
        }
        3 => {
            tree.text.truncate(MOST_BYTES - 1);
            tree.text.push([0x80, 0xc0, 0xff, 0xf5][random.below(4)]);
            "text UTF-8"
        }
        4 => {
            tree.text.resize(MOST_BYTES + random.between(1, 3), b' ');
            "text at most 16,384 bytes"
        }
        5 => {
            match random.below(3) {
                0 => {
                    tree.list.pop();
                }
                1 => tree.list.push(b's'),
                _ => {
                    let at = random.below(18);
                    tree.list[at] ^= 1 << random.below(8);
                }
            }
            "the name list"
        }
        6 => {
            let size = rows[0].rows;
            set(
                &mut tree,
                0,
                1,
                [0, size - 1, size + 1, u32::MAX][random.below(4)],
            );
            "root over all"
        }
        7 => {
            let size = [0, rows.len() as u32 + 1, u32::MAX][random.below(3)];
            set(&mut tree, any, 1, size);
            "subtrees nest"
        }
        8 => {
            set(&mut tree, any, 0, huge);
            "kind"
        }
        9 => {
            let at = find(random, &bare)?;
            set(&mut tree, at, 2, random.between(1, 3) as u32);
            "role of a bare row"
        }
        10 => {
            let at = find(random, &bare)?;
            set(&mut tree, at, 6, random.between(1, 3) as u32);
            "home of a bare row"
        }
        11 => {
            let at = find(random, &bare)?;
            set(
                &mut tree,
                at,
                random.between(7, 8),
                random.between(1, 3) as u32,
            );
            "unused name words"
        }
        12 => {
            let at = find(random, &named)?;
            set(&mut tree, at, 2, [0, big][random.below(2)]);
            "role of a field"
        }
        13 => {
            let at = find(random, &named)?;
            set(&mut tree, at, 6, [0, big][random.below(2)]);
            "home of a field"
        }
        14 => {
            let at = find(random, &named)?;
            set(&mut tree, at, 8, 0);
            "name not empty"
        }
        15 => {
            let at = find(random, &|at| rows[at].home == 1)?;
            let left = tree.text.len() as u32 - rows[at].name_start;
            set(&mut tree, at, 8, [left + 1, u32::MAX][random.below(2)]);
            "name inside the text"
        }
        16 => {
            let at = find(random, &|at| rows[at].home == 1)?;
            let start = [tree.text.len() as u32, u32::MAX][random.below(2)];
            set(&mut tree, at, 7, start);
            "name inside the text"
        }
        17 => {
            let at = find(random, &|at| rows[at].home == 2)?;
            let part = [
                (0, 18),
                (1, 3),
                (0, 3),
                (4, 14),
                (12, 7),
                (18, 1),
                (4, 4),
                (0, 0),
            ];
            let (start, length) = part[random.below(part.len())];
            set(&mut tree, at, 7, start);
            set(&mut tree, at, 8, length);
            "names of the name list"
        }
        18 => {
            let at = find(random, &|at| rows[at].home == 1)?;
            tree.text = "ü".repeat(MOST_BYTES / 2).into_bytes();
            for (at, row) in rows.iter().enumerate() {
                if row.home == 1 {
                    set(&mut tree, at, 7, 0);
                    set(&mut tree, at, 8, 2);
                }
                if row.zone_length > 0 {
                    set(&mut tree, at, 9, 2);
                    set(&mut tree, at, 10, 2);
                }
            }
            let start = random.below(3) as u32;
            set(&mut tree, at, 7, start);
            set(&mut tree, at, 8, if start == 1 { 2 } else { 1 });
            "name UTF-8"
        }
        19 => {
            let at = find(random, &|at| !union_child(at))?;
            set(&mut tree, at, 3, random.between(1, 127) as u32);
            "union id off a Union"
        }
        20 => {
            let at = find(random, &union_child)?;
            set(&mut tree, at, 3, [128, 255, 256, u32::MAX][random.below(4)]);
            "union id's range"
        }
        21 => {
            let first = find(random, &union_child)?;
            let second = find(random, &|at| at != first && parents[at] == parents[first])?;
            set(&mut tree, second, 3, rows[first].union_id);
            "union ids distinct"
        }
        22 => {
            let at = find(random, &|at| rows[at].zone_length == 0)?;
            set(&mut tree, at, 9, random.between(1, 3) as u32);
            "zone's start without a zone"
        }
        23 => {
            tree.text.first().filter(|byte| byte.is_ascii())?;
            let at = find(random, &|at| rows[at].kind != kind::TIMESTAMP)?;
            set(&mut tree, at, 10, 1);
            "zone off a Timestamp"
        }
        24 => {
            let at = find(random, &|at| rows[at].zone_length > 0)?;
            let left = tree.text.len() as u32 - rows[at].zone_start;
            set(&mut tree, at, 10, [left + 1, u32::MAX][random.below(2)]);
            "zone inside the text"
        }
        25 => {
            let at = find(random, &|at| rows[at].zone_length > 0)?;
            tree.text.truncate(MOST_BYTES - 2);
            let start = tree.text.len() as u32;
            if rows.iter().any(|row| {
                row.home == 1 && row.name_start + row.name_length > start
                    || row.zone_start + row.zone_length > start
            }) {
                return None;
            }
            tree.text.extend("ü".as_bytes());
            set(&mut tree, at, 9, start + random.below(2) as u32);
            set(&mut tree, at, 10, 1);
            "zone UTF-8"
        }
        26 => {
            let most = |row: &Row| match row.kind {
                kind::TIMESTAMP | kind::DURATION => Some(3),
                kind::INTERVAL => Some(2),
                kind::UNION | kind::MAP | kind::TIME32 => Some(1),
                kind::FIXED_SIZE_BINARY | kind::FIXED_SIZE_LIST => Some(i32::MAX as u32),
                kind::TIME64 => Some(3),
                kind::DECIMAL32..=kind::DECIMAL256 => Some(greatest_precision(row.kind)),
                _ => None,
            };
            let at = find(random, &|at| most(&rows[at]).is_some())?;
            let over = most(&rows[at])? + 1;
            set(&mut tree, at, 4, [over, u32::MAX][random.below(2)]);
            "word 4's range"
        }
        27 => {
            let at = find(random, &|at| rows[at].kind == kind::TIME64)?;
            set(&mut tree, at, 4, random.below(2) as u32);
            "Time64's unit"
        }
        28 => {
            let plain =
                |row: &Row| matches!(row.kind, 0..=12 | 14 | 15 | 20 | 22..=28 | 30..=32 | 34 | 40);
            let at = find(random, &|at| plain(&rows[at]))?;
            set(&mut tree, at, 4, [1, 2, u32::MAX][random.below(3)]);
            "word 4 unused"
        }
        29 => {
            let decimal = |at: usize| (kind::DECIMAL32..=kind::DECIMAL256).contains(&rows[at].kind);
            let at = find(random, &|at| !decimal(at))?;
            set(&mut tree, at, 5, [1, 128, u32::MAX][random.below(3)]);
            "word 5 unused"
        }
        30 => {
            let decimal = |at: usize| (kind::DECIMAL32..=kind::DECIMAL256).contains(&rows[at].kind);
            let at = find(random, &decimal)?;
            match random.below(3) {
                0 => set(&mut tree, at, 4, 0),
                1 => set(&mut tree, at, 5, rows[at].number + 129),
                _ => set(&mut tree, at, 5, [256, u32::MAX][random.below(2)]),
            }
            "decimals"
        }
        31 => {
            let at = find(random, &|at| rows[at].kind == kind::MAP)?;
            set(&mut tree, at + 1, 2, 1);
            "Map's entries non-null"
        }
        32 => {
            let at = find(random, &|at| rows[at].kind == kind::MAP)?;
            set(&mut tree, at + 2, 2, 1);
            "Map's key non-null"
        }
        33 => {
            let at = find(random, &|at| rows[at].kind == kind::MAP)?;
            set(
                &mut tree,
                at + 1,
                0,
                [kind::UNION, kind::RUN_END_ENCODED, kind::LIST][random.below(3)],
            );
            if tree.words[(at + 1) * WORDS] == kind::UNION {
                let second = at + 2 + rows[at + 2].rows as usize;
                set(&mut tree, second, 3, 1);
            }
            "Map's entries a Struct"
        }
        34 => {
            let at = find(random, &|at| rows[at].kind == kind::RUN_END_ENCODED)?;
            set(&mut tree, at + 1, 2, 1);
            "run ends non-null"
        }
        35 => {
            // A leaf with a child: the row behind it, or a new one at the end.
            let at = rows.len() - 1;
            let leaf = rows[at].kind < kind::LIST || rows[at].kind == kind::DECIMAL32;
            if !leaf || rows.len() == MOST_ROWS {
                return None;
            }
            add_last(&mut tree, at);
            "leaves have no children"
        }
        36 => {
            // One child more for a list, Map, Dictionary or RunEndEncoded that ends the table.
            let last = rows.len() - 1;
            let at = find(random, &|at| {
                let fixed = (kind::LIST..=kind::LARGE_LIST_VIEW).contains(&rows[at].kind)
                    || [kind::DICTIONARY, kind::MAP, kind::RUN_END_ENCODED]
                        .contains(&rows[at].kind);
                fixed && at + rows[at].rows as usize - 1 == last
            })?;
            if rows.len() == MOST_ROWS {
                return None;
            }
            add_last(&mut tree, at);
            if rows[at].kind == kind::DICTIONARY {
                let end = tree.words.len() - WORDS;
                tree.words[end..].copy_from_slice(
                    &Row {
                        rows: 1,
                        parent: at as u32,
                        ..Row::default()
                    }
                    .to_words(),
                );
            }
            "child counts"
        }
        37 => {
            // A list, Map, Dictionary or RunEndEncoded without children.
            let at = find(random, &|at| {
                rows[at].rows == 1 && !(kind::STRUCT..=kind::UNION).contains(&rows[at].kind)
            })?;
            let childless = [27, 28, 29, 30, 31, 34, 39, 40];
            set(&mut tree, at, 0, childless[random.below(8)]);
            set(&mut tree, at, 4, 0);
            set(&mut tree, at, 5, 0);
            set(&mut tree, at, 9, 0);
            set(&mut tree, at, 10, 0);
            "children missing"
        }
        38 => {
            tree = of_levels(random, MOST_LEVELS + 1);
            "depth at most 64"
        }
        39 | 40 => {
            // Entries with one child or three, in a Map that ends the table.
            let end = |at: usize| at + rows[at].rows as usize;
            let at = find(random, &|at| {
                rows[at].kind == kind::MAP && end(at) == rows.len()
            })?;
            if random.one_in(2) && rows.len() < MOST_ROWS {
                add_last(&mut tree, at + 1);
            } else {
                cut_last(&mut tree, end(at + 2));
            }
            "Map's entries of two"
        }
        41 => {
            let up = [1, rows.len() as u32, u32::MAX][random.below(3)];
            set(&mut tree, 0, 11, up);
            "the root's parent 0"
        }
        42 => {
            let at = find(random, &|at| parents[at].is_some())?;
            let sibling = find(random, &|other| {
                other != at && parents[other] == parents[at]
            })?;
            set(&mut tree, at, 11, sibling as u32);
            "the parent no sibling"
        }
        43 => {
            let at = find(random, &|at| at > 0 && parents[at] != Some(at - 1))?;
            set(&mut tree, at, 11, at as u32 - 1);
            "the parent not the row before"
        }
        44 => {
            let above = |at: usize| parents[parents[at]?];
            let at = find(random, &|at| above(at).is_some())?;
            set(&mut tree, at, 11, above(at)? as u32);
            "the parent not the parent's parent"
        }
        45 => {
            let at = find(random, &|at| parents[at].is_some())?;
            let up = [at, rows.len(), u32::MAX as usize][random.below(3)];
            set(&mut tree, at, 11, up as u32);
            "the parent a row before"
        }
        _ => {
            tree = of_rows(random, MOST_ROWS + 1);
            "at most 1,024 rows"
        }
    };
    Some((clause, tree))
}

/// Each row's parent.
fn parents(rows: &[Row]) -> Vec<Option<usize>> {
    let mut open: Vec<(usize, usize)> = Vec::new();
    let mut parents = Vec::new();
    for (at, row) in rows.iter().enumerate() {
        while open.last().is_some_and(|(_, end)| *end <= at) {
            open.pop();
        }
        parents.push(open.last().map(|(up, _)| *up));
        open.push((at, at + row.rows as usize));
    }
    parents
}

/// Cuts off the table's rows from this one on, all of them one subtree.
fn cut_last(tree: &mut Tree, from: usize) {
    let count = tree.words.len() / WORDS;
    tree.words.truncate(from * WORDS);
    for at in 0..from {
        let row = &mut tree.words[at * WORDS..(at + 1) * WORDS];
        if at + row[1] as usize == count {
            row[1] -= (count - from) as u32;
        }
    }
}

/// One more row at the table's end, as the last child of the row `up` whose subtree ends there.
fn add_last(tree: &mut Tree, up: usize) {
    let count = tree.words.len() / WORDS;
    for at in 0..=up {
        let row = &mut tree.words[at * WORDS..(at + 1) * WORDS];
        if at + row[1] as usize == count {
            row[1] += 1;
        }
    }
    let child = Row {
        rows: 1,
        role: 1,
        home: 2,
        name_length: 4,
        parent: up as u32,
        ..Row::default()
    };
    tree.words.extend(child.to_words());
}
