//! Images of the archive that are damaged in each way that an archive may be, images as deep or as long as may be, and
//! buffers to lend for them.

use super::Random;
use super::trees::{self, Tree};
use crate::archive::{FIXED_BYTES, Read};
use crate::model::{self, MOST_BYTES, MOST_ROWS, Row, WORDS, kind};

/// A record taken apart, to be changed and put together again.
#[derive(Clone, Default)]
pub struct Record {
    pub kind: u16,
    pub role: u8,
    pub union_id: u8,
    pub number: u32,
    pub scale: u8,
    pub name: Vec<u8>,
    pub zone: Vec<u8>,
    pub children: Vec<Record>,
    /// Bytes behind the children, which are no record.
    pub left_over: Vec<u8>,
}

impl Record {
    /// The records of a tree whose subtrees nest.
    pub fn of(tree: &Tree) -> Record {
        let rows = model::from_words(&tree.words);
        Record::of_rows(tree, &rows)
    }

    fn of_rows(tree: &Tree, rows: &[Row]) -> Record {
        let row = rows[0];
        let mut children = Vec::new();
        let mut below = &rows[1..];
        while let Some(child) = below.first() {
            let (child, behind) = below.split_at(child.rows as usize);
            children.push(Record::of_rows(tree, child));
            below = behind;
        }
        Record {
            kind: row.kind as u16,
            role: row.role as u8,
            union_id: row.union_id as u8,
            number: row.number,
            scale: row.scale as u8,
            name: model::row_name(&tree.text, &tree.list, &row).to_vec(),
            zone: model::row_zone(&tree.text, &row).to_vec(),
            children,
            left_over: Vec::new(),
        }
    }

    /// A list's item of this type.
    fn item(mut self) -> Record {
        self.role = 1;
        self.name = b"item".to_vec();
        self
    }

    /// The record's bytes, and where each record in it starts and ends, parents first.
    pub fn bytes(&self) -> (Vec<u8>, Vec<(usize, usize)>) {
        let (mut bytes, mut spans) = (Vec::new(), Vec::new());
        self.write(&mut bytes, &mut spans);
        (bytes, spans)
    }

    fn write(&self, out: &mut Vec<u8>, spans: &mut Vec<(usize, usize)>) {
        let start = out.len();
        let span = spans.len();
        spans.push((start, start));
        out.extend([0; 4]);
        out.extend(self.kind.to_le_bytes());
        out.extend([self.role, self.union_id]);
        out.extend(self.number.to_le_bytes());
        out.push(self.scale);
        for part in [&self.name, &self.zone] {
            out.extend((part.len() as u16).to_le_bytes());
            out.extend(part);
        }
        for child in &self.children {
            child.write(out, spans);
        }
        out.extend(&self.left_over);
        let end = out.len();
        set_length(out, start, end - start);
        spans[span].1 = end;
    }

    fn count(&self) -> usize {
        1 + self.children.iter().map(Record::count).sum::<usize>()
    }

    /// The record of a number in the order of their bytes, from 0.
    fn at(&mut self, number: usize) -> &mut Record {
        if number == 0 {
            return self;
        }
        let mut before = 1;
        for child in &mut self.children {
            let count = child.count();
            if number < before + count {
                return child.at(number - before);
            }
            before += count;
        }
        unreachable!("a record of that number")
    }
}

fn set_length(bytes: &mut [u8], at: usize, length: usize) {
    bytes[at..at + 4].copy_from_slice(&(length as u32).to_le_bytes());
}

fn length_at(bytes: &[u8], at: usize) -> usize {
    u32::from_le_bytes(bytes[at..at + 4].try_into().expect("four bytes")) as usize
}

/// An image that a tree's image becomes when it is changed, and then perhaps damaged.
pub fn damaged(random: &mut Random, tree: &Tree) -> Vec<u8> {
    let mut root = Record::of(tree);
    let levels = random.one_in(40);
    if levels {
        root = deeper(random, root);
    } else if random.one_in(2) {
        changed(random, &mut root);
    }
    let (mut bytes, spans) = root.bytes();
    if !levels || random.one_in(2) {
        damage(random, &mut bytes, &spans);
    }
    bytes
}

/// A tree's records with lists around them, so that there are about 64 levels, or, now and then, about 1,024.
fn deeper(random: &mut Random, root: Record) -> Record {
    let most = match random.below(20) {
        0 => random.between(1_022, 1_026),
        _ => random.between(63, 66),
    };
    let mut root = root;
    let behind = random.one_in(3);
    for level in 1..most {
        let mut children = vec![root.item()];
        if behind && level + 2 > most {
            // A record behind the deep one, at level 2 or 3.
            children.push(
                Record {
                    kind: 2,
                    ..Record::default()
                }
                .item(),
            );
        }
        root = Record {
            kind: [kind::LIST, kind::LARGE_LIST][random.below(2)] as u16,
            children,
            ..Record::default()
        };
        if behind && level + 2 > most {
            root.kind = kind::STRUCT as u16;
        }
    }
    root
}

/// Changes what a record says; the lengths stay right.
fn changed(random: &mut Random, root: &mut Record) {
    let count = root.count();
    let other = random.below(count);
    let (name, zone) = (root.at(other).name.clone(), root.at(other).zone.clone());
    let number = random.below(count);
    let wild = [1, 3, 4, 127, 128, 255, 256, 1 << 16, u32::MAX];
    match random.below(22) {
        0 => root.at(number).role = [0, 1, 2, 3, 255][random.below(5)],
        1 => root.at(number).union_id = [0, 1, 127, 128, 255][random.below(5)],
        2 => root.at(number).number = wild[random.below(wild.len())],
        3 => root.at(number).scale = [0, 1, 127, 128, 129, 255][random.below(6)],
        4 => root.at(number).name = Vec::new(),
        5 => root.at(number).name = name,
        6 => root.at(number).zone = zone,
        7 => root.at(number).zone = b"UTC".to_vec(),
        8 => root.at(0).name = b"a".to_vec(),
        9 => root.at(number).kind = random.below(41) as u16,
        10 => {
            root.at(number).left_over = (0..random.between(1, 20))
                .map(|_| random.word() as u8)
                .collect()
        }
        11 => half_characters(random, root.at(number)),
        12 => {
            let child = root.at(other).clone();
            root.at(number).children.push(child);
        }
        13 => drop(root.at(number).children.pop()),
        14 => half_characters(random, root.at(0)),
        15 => {
            let parent = root.at(number);
            let key = parent.children.first_mut();
            key.into_iter().for_each(|key| key.name = name.clone());
        }
        16..=18 => {
            let parent = root.at(number);
            if parent.children.len() > 1 {
                let (one, two) = (
                    random.below(parent.children.len()),
                    random.below(parent.children.len()),
                );
                parent.children.swap(one, two);
            }
        }
        _ => {
            // Moves a child to another place.
            let moved = root.at(number).children.pop();
            let count = root.count();
            let parent = root.at(random.below(count));
            let at = random.below(parent.children.len() + 1);
            parent.children.splice(at..at, moved);
        }
    }
}

/// Two fields, or name and zone of one, that are the halves of a character; or one that is not UTF-8 at all.
fn half_characters(random: &mut Random, record: &mut Record) {
    let halves = [b"a\xc3".to_vec(), b"\xbcb".to_vec()];
    match record.children.as_mut_slice() {
        [one, two, ..] if one.children.is_empty() && one.zone.is_empty() && random.one_in(2) => {
            [one.name, two.name] = halves;
        }
        _ if record.kind == kind::TIMESTAMP as u16 && !record.name.is_empty() => {
            [record.name, record.zone] = halves;
        }
        _ => record.name = halves[random.below(2)].clone(),
    }
}

/// Damages the bytes of an image, in which records start and end at these places.
fn damage(random: &mut Random, bytes: &mut Vec<u8>, spans: &[(usize, usize)]) {
    let (start, end) = spans[random.below(spans.len())];
    let name = start + FIXED_BYTES - 4;
    match random.below(24) {
        0 => bytes.truncate(random.below(bytes.len())),
        1 => bytes.truncate(random.below(bytes.len().min(18))),
        2 => bytes.truncate(bytes.len() - random.between(1, bytes.len().min(4))),
        3 => bytes.extend(vec![random.below(256) as u8; random.between(1, 20)]),
        4 => bytes.extend(bytes.clone()),
        5 | 6 => {
            let at = random.below(bytes.len());
            bytes[at] = match random.below(3) {
                0 => bytes[at].wrapping_add(1),
                1 => bytes[at].wrapping_sub(1),
                _ => random.below(256) as u8,
            };
        }
        7 => set_length(bytes, start, end - start + 1),
        8 => set_length(bytes, start, end - start - 1),
        9 => set_length(bytes, start, random.below(18)),
        // Past its parent, up to some record's end or a few bytes from it.
        10..=12 => {
            let inside = spans.iter().filter(|(other, _)| *other > start);
            let ends: Vec<usize> = inside
                .map(|(_, end)| *end)
                .filter(|other| *other > end)
                .collect();
            if !ends.is_empty() {
                let end = ends[random.below(ends.len())] - random.below(2) * random.below(4);
                set_length(bytes, start, end - start);
            }
        }
        13 => {
            let length = bytes.len() - start + random.between(1, 300);
            set_length(bytes, start, length);
        }
        14 => set_length(bytes, start, random.word() as usize),
        15 | 16 => bytes[start + 4] = random.between(41, 255) as u8,
        17 => bytes[start + 5] = random.between(1, 255) as u8,
        18 => {
            let length = [
                end - name - 2,
                end - name - 3,
                end - name - 4,
                end - name,
                65_535,
            ][random.below(5)];
            bytes[name..name + 2].copy_from_slice(&(length as u16).to_le_bytes());
        }
        19 | 20 => {
            let length = usize::from(bytes[name]) | usize::from(bytes[name + 1]) << 8;
            let zone = name + 2 + length;
            let length = [end - zone - 1, end - zone, 65_535, random.below(40)][random.below(4)];
            bytes[zone..zone + 2].copy_from_slice(&(length as u16).to_le_bytes());
        }
        21 => {
            // One to three bytes behind all of a record's children, and the lengths around it right.
            let more = random.between(1, 3);
            let around = spans
                .iter()
                .filter(|(from, to)| *from <= start && end <= *to);
            around.for_each(|(from, _)| {
                let length = length_at(bytes, *from) + more;
                set_length(bytes, *from, length);
            });
            bytes.splice(end..end, vec![7; more]);
        }
        22 => {
            let (other, to) = spans[random.below(spans.len())];
            let moved = bytes[other..to].to_vec();
            bytes.splice(start..end, moved);
        }
        _ => bytes.swap(start + 6, start + 7),
    }
}

/// How many words and bytes to lend for an image that was read so far: just enough, a row, a word or a byte short, any fewer,
/// or more, up to more than may be used.
pub fn rooms(random: &mut Random, reached: &Read) -> (usize, usize) {
    let (words, bytes) = (reached.rows.len() * WORDS, reached.text.len());
    let words = match random.below(16) {
        0 => words.saturating_sub(1),
        1 => words.saturating_sub(WORDS),
        2 => random.below(words + 1),
        3..=8 => words + random.between(1, 30),
        9 if random.one_in(8) => MOST_ROWS * WORDS + random.below(30),
        _ => words,
    };
    let bytes = match random.below(16) {
        0 | 1 => bytes.saturating_sub(1),
        2 => random.below(bytes + 1),
        3..=8 => bytes + random.between(1, 40),
        9 if random.one_in(8) => MOST_BYTES + random.below(9_000),
        _ => bytes,
    };
    (words, bytes)
}

/// How many bytes to lend for an image of a length: just enough, some short, or more.
pub fn room(random: &mut Random, length: usize) -> usize {
    match random.below(8) {
        0 | 1 => length.saturating_sub(1),
        2 => random.below(length + 1),
        3 | 4 => length + random.between(1, 40),
        _ => length,
    }
}

/// A Struct of about as many fields as there may be rows, or whose names and zones are together about 16,384 bytes, as it is
/// or with another inside.
pub fn large(random: &mut Random) -> Vec<u8> {
    let leaf = |name: &[u8]| Record {
        kind: kind::INT8 as u16,
        role: 1,
        name: name.to_vec(),
        ..Record::default()
    };
    let mut root = Record {
        kind: kind::STRUCT as u16,
        ..Record::default()
    };
    if random.one_in(2) {
        let rows = random.between(MOST_ROWS - 2, MOST_ROWS + 2);
        root.children = vec![leaf(b"a"); rows - 1];
        let last = root.children.last_mut().expect("a field");
        match random.below(4) {
            0 => last.kind = 41,
            1 => last.left_over = vec![0; 2],
            _ => {}
        }
        return root.bytes().0;
    }
    let mut left = random.between(MOST_BYTES - 2, MOST_BYTES + 3);
    while left > 0 {
        let length = random.between(1, left);
        left -= length;
        let mut field = leaf(&vec![b'n'; length]);
        if left > 0 && random.one_in(2) {
            field.kind = kind::TIMESTAMP as u16;
            field.zone = vec![b'z'; random.between(1, left)];
            left -= field.zone.len();
        }
        root.children.push(field);
    }
    root.bytes().0
}

/// A record of this many levels in one another, its innermost of a kind.
pub fn nested(levels: usize, innermost: u16) -> Vec<u8> {
    let mut root = Record {
        kind: innermost,
        ..Record::default()
    };
    for _ in 1..levels {
        root = Record {
            kind: kind::LIST as u16,
            children: vec![root.item()],
            ..Record::default()
        };
    }
    root.bytes().0
}

/// A tree whose image is longer than 16,384 bytes: names that overlap in one text, or very many rows.
pub fn long_image(random: &mut Random) -> Tree {
    let text = vec![b'n'; random.between(1_000, MOST_BYTES)];
    let fields = random.between(10, 40);
    let field = Row {
        kind: kind::INT8,
        rows: 1,
        role: 1,
        home: 1,
        name_length: text.len() as u32,
        ..Row::default()
    };
    let root = Row {
        kind: kind::STRUCT,
        rows: fields as u32 + 1,
        ..Row::default()
    };
    let rows: Vec<Row> = [root].into_iter().chain(vec![field; fields]).collect();
    trees::tree(&text, &rows)
}
