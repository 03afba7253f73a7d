//! Needed columns for trees of any sort: met ones, made from the root's own fields; ones with a property changed; names that
//! no field has or several have; malformed ones; and more needs than are checked.

use super::Random;
use super::trees::Tree;
use crate::model::{self, Row};
use crate::needs::{self, Need, Needed};

/// What becomes of a list of needs.
#[derive(Clone, Copy, PartialEq)]
enum Sort {
    /// As many needs are met as the fields can meet.
    Met,
    /// One of them is changed.
    OneChanged,
    /// Several of them are changed.
    Changed,
    /// Some are changed, and one is malformed.
    Malformed,
}

/// Random needs for a tree, sound or not.
pub fn needed(random: &mut Random, tree: &Tree) -> Needed {
    let rows = model::from_words(&tree.words);
    let mut drawer = Drawer::new(random, tree, &rows);
    let count = drawer.count();
    let sort = match drawer.random.below(8) {
        0..=2 => Sort::Met,
        3..=5 => Sort::OneChanged,
        6 => Sort::Changed,
        _ => Sort::Malformed,
    };
    let marked = drawer.random.below(count.max(1));
    for at in 0..count {
        let mut need = drawer.met();
        let change = match sort {
            Sort::Met => false,
            Sort::OneChanged => at == marked,
            Sort::Changed | Sort::Malformed => drawer.random.one_in(3),
        };
        if change {
            need = drawer.changed(need);
        }
        drawer.needs.push(need);
    }
    if sort == Sort::Malformed && count > 0 {
        drawer.malform(marked);
    }
    Needed {
        text: drawer.text,
        needs: drawer.needs,
    }
}

struct Drawer<'a> {
    random: &'a mut Random,
    /// The root's fields.
    fields: Vec<needs::Named<'a>>,
    /// The fields whose names no other has, and the others, by number.
    alone: Vec<usize>,
    twice: Vec<usize>,
    /// All rows with their names.
    rows: Vec<needs::Named<'a>>,
    /// Whether bytes that are not UTF-8 stand between names.
    wild: bool,
    text: Vec<u8>,
    needs: Vec<Need>,
}

impl<'a> Drawer<'a> {
    fn new(random: &'a mut Random, tree: &'a Tree, rows: &[Row]) -> Drawer<'a> {
        let Tree { text, list, .. } = tree;
        let fields = needs::fields(text, list, rows);
        let mut order: Vec<usize> = (0..fields.len()).collect();
        order.sort_by_key(|at| fields[*at].0);
        let same = order.chunk_by(|a, b| fields[*a].0 == fields[*b].0);
        let (alone, twice): (Vec<_>, Vec<_>) = same.partition(|same| same.len() == 1);
        let wild = random.one_in(2);
        let before = match random.below(100) {
            0 => vec![b'a'; random.between(16_000, 70_000)],
            1..=20 => text.iter().take(200).copied().collect(),
            _ => Vec::new(),
        };
        let named = |row: &Row| (model::row_name(text, list, row), *row);
        Drawer {
            random,
            alone: alone.concat(),
            twice: twice.concat(),
            fields,
            rows: rows.iter().map(named).collect(),
            wild,
            text: before,
            needs: Vec::new(),
        }
    }

    fn count(&mut self) -> usize {
        match self.random.below(24) {
            0 | 1 => 0,
            2..=5 => 1,
            6..=12 => self.random.between(2, 5),
            13..=15 => self.random.between(6, 30),
            16 => 31,
            17..=21 => 32,
            22 => 33,
            _ => [40, 34, 64, 1_000][self.random.below(4)],
        }
    }

    fn byte(&mut self) -> u8 {
        if self.wild {
            self.random.below(256) as u8
        } else {
            self.random.between(b' '.into(), b'~'.into()) as u8
        }
    }

    fn bytes(&mut self, most: usize) -> Vec<u8> {
        let count = self.random.below(most + 1);
        (0..count).map(|_| self.byte()).collect()
    }

    /// Where a name stands in the text of needs: at a place that has it already, or behind the others.
    fn put(&mut self, name: &[u8]) -> (u32, u32) {
        let found = match self.random.below(4) {
            0 if !name.is_empty() && self.text.len() < 500 => {
                self.text.windows(name.len()).position(|part| part == name)
            }
            _ => None,
        };
        let start = found.unwrap_or_else(|| {
            let between = self.bytes(3);
            self.text.extend(between);
            self.text.extend(name);
            self.text.len() - name.len()
        });
        (start as u32, name.len() as u32)
    }

    /// A need of this name that this row meets.
    fn need_of(&mut self, name: &[u8], row: &Row) -> Need {
        let (start, size) = self.put(name);
        Need {
            start,
            size,
            kind: row.kind,
            number: row.number,
            scale: row.scale,
            nullable: row.role != 2 || self.random.one_in(2),
            zoned: row.zone_length > 0,
        }
    }

    /// A need that is met, where a field's name stands alone.
    fn met(&mut self) -> Need {
        if self.alone.is_empty() {
            return self.elsewhere();
        }
        let at = self.alone[self.random.below(self.alone.len())];
        let (name, row) = self.fields[at];
        self.need_of(name, &row)
    }

    /// Half the time, a need that a field with a zone meets, if there is one.
    fn of_a_zoned_field(&mut self) -> Option<Need> {
        let alone = self.alone.iter().map(|at| self.fields[*at]);
        let zoned: Vec<_> = alone.filter(|(_, row)| row.zone_length > 0).collect();
        if zoned.is_empty() || self.random.one_in(2) {
            return None;
        }
        let (name, row) = zoned[self.random.below(zoned.len())];
        Some(self.need_of(name, &row))
    }

    /// A need that is not met as a field's would be: of a name that several fields have, of any row, or of any name.
    fn elsewhere(&mut self) -> Need {
        let (name, row) = match self.random.below(3) {
            0 | 1 if !self.twice.is_empty() => {
                self.fields[self.twice[self.random.below(self.twice.len())]]
            }
            0 | 1 if !self.rows.is_empty() => self.rows[self.random.below(self.rows.len())],
            _ => (b"".as_slice(), Row::default()),
        };
        if !name.is_empty() {
            return self.need_of(name, &row);
        }
        let mut name = self.bytes(5);
        name.push(self.byte());
        self.need_of(&name, &row)
    }

    /// The need with one property changed, most of the time so that it is not met.
    fn changed(&mut self, need: Need) -> Need {
        let mut need = need;
        match self.random.below(10) {
            0 => need.kind = self.other(need.kind),
            1 => need.number = self.other(need.number),
            2 => need.scale = self.other(need.scale),
            3 | 4 => need.nullable = !need.nullable,
            5 => {
                need = self.of_a_zoned_field().unwrap_or(need);
                need.zoned = !need.zoned;
            }
            6..=8 => need = self.renamed(need),
            _ => return self.elsewhere(),
        }
        need
    }

    /// Another number: near by, with one bit changed, or any.
    fn other(&mut self, number: u32) -> u32 {
        match self.random.below(4) {
            0 => number.wrapping_add(1),
            1 => number.wrapping_sub(1),
            2 => number ^ 1 << self.random.below(32),
            _ => self.random.below(41) as u32,
        }
    }

    /// The need with its name cut, longer, moved or with a byte changed; never empty and never outside the text.
    fn renamed(&mut self, need: Need) -> Need {
        let mut need = need;
        let name = need.name(&self.text).unwrap_or(b"a").to_vec();
        match self.random.below(5) {
            0 if need.size > 1 => need.size -= 1,
            1 if need.size > 1 => {
                need.start += 1;
                need.size -= 1;
            }
            2 if need.start > 0 => {
                need.start -= 1;
                need.size += 1;
            }
            3 => {
                let mut name = name;
                let at = self.random.below(name.len());
                name[at] ^= 1 << self.random.below(8);
                (need.start, need.size) = self.put(&name);
            }
            _ => {
                let longer = [name, vec![self.byte()]].concat();
                (need.start, need.size) = self.put(&longer);
            }
        }
        need
    }

    /// Makes a need's name empty, or puts it outside the text.
    fn malform(&mut self, at: usize) {
        let end = self.text.len() as u32;
        let near = self.random.below(9) as u32;
        let inside = self.random.below(self.text.len() + 1) as u32;
        let top = u32::MAX;
        let part = match self.random.below(8) {
            0 => (self.needs[at].start, 0),
            1 => ([0, end, end + 1 + near, top][self.random.below(4)], 0),
            2 => (inside, end - inside + 1),
            3 => (end + near, 1 + near),
            4 => (top, 1 + near),
            // Start and length together are more than 32 bits hold, and what is left of them is inside.
            5 => (top - near, near + 1 + inside),
            6 => (inside, top - near),
            _ => (inside, (top - inside).wrapping_add(1 + near.min(inside))),
        };
        (self.needs[at].start, self.needs[at].size) = part;
    }
}
