//! Document 01 in plain Rust, sharing no code with the supplied sources: reading with all its
//! refusals and limits, soundness, printing, the layout verdict, equality and names. It gives the
//! expected answers where the Rust has no say; where it has one, the two are compared.

/// Words to a row.
pub const WORDS: usize = 12;
pub const NAME_LIST: &[u8] = b"itemrun_endsvalues";
pub const MOST_BYTES: usize = 16_384;
pub const MOST_ROWS: usize = 1_024;
pub const MOST_LEVELS: usize = 64;

/// The kinds' names in `DataType`'s order, which are also the words that begin a type.
#[rustfmt::skip]
pub const KINDS: [&str; 41] = [
    "Null", "Boolean", "Int8", "Int16", "Int32", "Int64", "UInt8", "UInt16", "UInt32", "UInt64",
    "Float16", "Float32", "Float64", "Timestamp", "Date32", "Date64", "Time32", "Time64",
    "Duration", "Interval", "Binary", "FixedSizeBinary", "LargeBinary", "BinaryView", "Utf8",
    "LargeUtf8", "Utf8View", "List", "ListView", "FixedSizeList", "LargeList", "LargeListView",
    "Struct", "Union", "Dictionary", "Decimal32", "Decimal64", "Decimal128", "Decimal256", "Map",
    "RunEndEncoded",
];

/// The kinds that the rules name.
pub mod kind {
    pub const INT8: u32 = 2;
    pub const INT16: u32 = 3;
    pub const INT64: u32 = 5;
    pub const UINT64: u32 = 9;
    pub const TIMESTAMP: u32 = 13;
    pub const TIME32: u32 = 16;
    pub const TIME64: u32 = 17;
    pub const DURATION: u32 = 18;
    pub const INTERVAL: u32 = 19;
    pub const FIXED_SIZE_BINARY: u32 = 21;
    pub const LIST: u32 = 27;
    pub const LIST_VIEW: u32 = 28;
    pub const FIXED_SIZE_LIST: u32 = 29;
    pub const LARGE_LIST: u32 = 30;
    pub const LARGE_LIST_VIEW: u32 = 31;
    pub const STRUCT: u32 = 32;
    pub const UNION: u32 = 33;
    pub const DICTIONARY: u32 = 34;
    pub const DECIMAL32: u32 = 35;
    pub const DECIMAL256: u32 = 38;
    pub const MAP: u32 = 39;
    pub const RUN_END_ENCODED: u32 = 40;
}

/// The numbers a caller may get.
pub mod refusal {
    pub const TOO_LONG: u32 = 1;
    pub const NOT_UTF8: u32 = 2;
    pub const TOO_DEEP: u32 = 3;
    pub const NO_ROW: u32 = 4;
    pub const END: u32 = 5;
    pub const NEVER_ENDS: u32 = 6;
    pub const EMPTY_STRING: u32 = 7;
    pub const UNKNOWN_WORD: u32 = 8;
    pub const WRONG_SORT: u32 = 9;
    pub const RANGE: u32 = 10;
    pub const TIME_UNIT: u32 = 11;
    pub const DECIMAL: u32 = 12;
    pub const NULLABLE: u32 = 13;
    pub const ENTRIES: u32 = 14;
    pub const UNION_ID: u32 = 15;
    pub const LEFT_OVER: u32 = 16;
    pub const NOT_SOUND: u32 = 17;
    pub const NOT_LATIN: u32 = 18;
    pub const NO_ROOM: u32 = 19;
}

use kind::*;
use refusal::*;

/// One row of the table.
#[derive(Clone, Copy, Debug, Default, PartialEq, Eq)]
pub struct Row {
    pub kind: u32,
    /// Rows in this subtree, itself included.
    pub rows: u32,
    pub role: u32,
    pub union_id: u32,
    /// Word 4: unit, length, precision, mode or sorted.
    pub number: u32,
    /// Scale plus 128.
    pub scale: u32,
    pub home: u32,
    pub name_start: u32,
    pub name_length: u32,
    pub zone_start: u32,
    pub zone_length: u32,
    /// The parent's row number from 0; 0 for the root too.
    pub parent: u32,
}

impl Row {
    #[rustfmt::skip]
    pub fn to_words(self) -> [u32; WORDS] {
        [
            self.kind, self.rows, self.role, self.union_id, self.number, self.scale,
            self.home, self.name_start, self.name_length, self.zone_start, self.zone_length,
            self.parent,
        ]
    }

    pub fn from_words(words: &[u32]) -> Row {
        Row {
            kind: words[0],
            rows: words[1],
            role: words[2],
            union_id: words[3],
            number: words[4],
            scale: words[5],
            home: words[6],
            name_start: words[7],
            name_length: words[8],
            zone_start: words[9],
            zone_length: words[10],
            parent: words[11],
        }
    }

    fn named(mut self, home: u32, start: usize, length: usize) -> Row {
        self.home = home;
        self.name_start = start as u32;
        self.name_length = length as u32;
        self
    }
}

pub fn to_words(rows: &[Row]) -> Vec<u32> {
    rows.iter().flat_map(|row| row.to_words()).collect()
}

pub fn from_words(words: &[u32]) -> Vec<Row> {
    words.chunks_exact(WORDS).map(Row::from_words).collect()
}

/// The greatest precision of a decimal kind.
pub fn greatest_precision(kind: u32) -> u32 {
    [9, 18, 38, 76][(kind - DECIMAL32) as usize]
}

// Tokens

#[derive(Clone, Copy, Debug, PartialEq, Eq)]
enum Token {
    Open,
    Close,
    Comma,
    Colon,
    /// A double-quoted string's start and length, the marks left out.
    Double(usize, usize),
    Single(usize, usize),
    Number(i64),
    Type(u32),
    Unit(u32),
    IntervalUnit(u32),
    Some,
    None,
    NonNull,
    Nullable,
    Field,
    X,
    Mode(u32),
    Sorted(u32),
}

/// The words that begin no type. With `KINDS` these are all that a text may hold.
pub const OTHER_WORDS: [&str; 22] = [
    "s",
    "Second",
    "ms",
    "Millisecond",
    "µs",
    "us",
    "Microsecond",
    "ns",
    "Nanosecond",
    "YearMonth",
    "DayTime",
    "MonthDayNano",
    "Some",
    "None",
    "non-null",
    "nullable",
    "field",
    "x",
    "Sparse",
    "Dense",
    "sorted",
    "unsorted",
];

fn word(word: &str) -> Result<Token, u32> {
    if let Some(kind) = KINDS.iter().position(|name| *name == word) {
        return Ok(Token::Type(kind as u32));
    }
    Ok(match word {
        "s" | "Second" => Token::Unit(0),
        "ms" | "Millisecond" => Token::Unit(1),
        "µs" | "us" | "Microsecond" => Token::Unit(2),
        "ns" | "Nanosecond" => Token::Unit(3),
        "YearMonth" => Token::IntervalUnit(0),
        "DayTime" => Token::IntervalUnit(1),
        "MonthDayNano" => Token::IntervalUnit(2),
        "Some" => Token::Some,
        "None" => Token::None,
        "non-null" => Token::NonNull,
        "nullable" => Token::Nullable,
        "field" => Token::Field,
        "x" => Token::X,
        "Sparse" => Token::Mode(0),
        "Dense" => Token::Mode(1),
        "sorted" => Token::Sorted(1),
        "unsorted" => Token::Sorted(0),
        _ => return number(word).map(Token::Number).ok_or(UNKNOWN_WORD),
    })
}

/// A word of ASCII digits, perhaps after one `-`, within signed 64 bits.
fn number(word: &str) -> Option<i64> {
    let digits = word.strip_prefix('-').unwrap_or(word);
    if digits.is_empty() || !digits.bytes().all(|byte| byte.is_ascii_digit()) {
        return None;
    }
    let digits = digits.trim_start_matches('0');
    if digits.len() > 19 {
        return None;
    }
    let size = digits
        .bytes()
        .fold(0i128, |size, byte| size * 10 + i128::from(byte - b'0'));
    i64::try_from(if word.starts_with('-') { -size } else { size }).ok()
}

/// The first place at or behind `place` that holds no space.
fn behind_spaces(text: &str, place: usize) -> usize {
    let spaces = text.as_bytes()[place..].iter();
    place + spaces.take_while(|byte| **byte == b' ').count()
}

/// The token at or behind `place` with the place behind it; none where only spaces are left.
fn token(text: &str, place: usize) -> Result<Option<(Token, usize)>, u32> {
    let bytes = text.as_bytes();
    let start = behind_spaces(text, place);
    let Some(&first) = bytes.get(start) else {
        return Ok(None);
    };
    let (token, end) = match first {
        b'(' => (Token::Open, start + 1),
        b')' => (Token::Close, start + 1),
        b',' => (Token::Comma, start + 1),
        b':' => (Token::Colon, start + 1),
        b'"' | b'\'' => {
            let mut escape = false;
            let mut end = start + 1;
            loop {
                match bytes.get(end) {
                    None => return Err(NEVER_ENDS),
                    Some(b'\\') => escape = true,
                    Some(&byte) if byte == first && escape => escape = false,
                    Some(&byte) if byte == first => break,
                    Some(_) => {}
                }
                end += 1;
            }
            let length = end - start - 1;
            if length == 0 {
                return Err(EMPTY_STRING);
            }
            let string = if first == b'"' {
                Token::Double(start + 1, length)
            } else {
                Token::Single(start + 1, length)
            };
            (string, end + 1)
        }
        _ => {
            let length = bytes[start..]
                .iter()
                .position(|byte| b"(),: ".contains(byte));
            let end = length.map_or(bytes.len(), |length| start + length);
            (word(&text[start..end])?, end)
        }
    };
    Ok(Some((token, end)))
}

// Reading

/// What a reader may use.
#[derive(Clone, Copy)]
pub struct Limits {
    pub bytes: usize,
    pub levels: usize,
    pub rows: usize,
}

impl Limits {
    /// Document 01's limits where that many rows are lent.
    pub fn lent(rows: usize) -> Limits {
        Limits {
            bytes: MOST_BYTES,
            levels: MOST_LEVELS,
            rows: rows.min(MOST_ROWS),
        }
    }

    /// As the Rust, which has none.
    pub const NONE: Limits = Limits {
        bytes: usize::MAX,
        levels: usize::MAX,
        rows: usize::MAX,
    };
}

/// A refusal of the reader: its number, and its place in the text.
pub type Refused = (u32, usize);

/// The rows, or the refusal's number alone.
pub fn read(text: &[u8], limits: Limits) -> Result<Vec<Row>, u32> {
    read_placed(text, limits).map_err(|(number, _)| number)
}

/// The rows, or the refusal: its place is the start of the last token taken (document 02, [2]).
pub fn read_placed(text: &[u8], limits: Limits) -> Result<Vec<Row>, Refused> {
    if text.len() > limits.bytes {
        return Err((TOO_LONG, MOST_BYTES));
    }
    let Ok(text) = std::str::from_utf8(text) else {
        return Err((NOT_UTF8, 0));
    };
    let mut reader = Reader {
        text,
        place: 0,
        last: 0,
        rows: Vec::new(),
        open: Vec::new(),
        limits,
    };
    if let Err(number) = reader.data_type(1, Row::default()) {
        return Err((number, reader.last));
    }
    let left = behind_spaces(text, reader.place);
    if left < text.len() {
        return Err((LEFT_OVER, left));
    }
    Ok(reader.rows)
}

struct Reader<'a> {
    text: &'a str,
    place: usize,
    /// The first byte of the last token taken, broken or not; the text's length where there was none to take.
    last: usize,
    rows: Vec<Row>,
    /// The rows whose types are begun and not ended, the root first.
    open: Vec<usize>,
    limits: Limits,
}

impl Reader<'_> {
    fn take(&mut self) -> Result<Token, u32> {
        self.last = behind_spaces(self.text, self.place);
        let (token, place) = token(self.text, self.place)?.ok_or(END)?;
        self.place = place;
        Ok(token)
    }

    fn expect(&mut self, wanted: Token) -> Result<(), u32> {
        if self.take()? == wanted {
            Ok(())
        } else {
            Err(WRONG_SORT)
        }
    }

    /// The next token, only looked at; none at the end or where it is broken.
    fn look(&self) -> Option<Token> {
        Some(token(self.text, self.place).ok()??.0)
    }

    /// Takes the next token if it is the wanted one.
    fn take_if(&mut self, wanted: Token) -> bool {
        let fits = self.look() == Some(wanted);
        if fits {
            let _ = self.take();
        }
        fits
    }

    fn number(&mut self, least: i64, most: i64) -> Result<i64, u32> {
        match self.take()? {
            Token::Number(number) if (least..=most).contains(&number) => Ok(number),
            Token::Number(_) => Err(RANGE),
            _ => Err(WRONG_SORT),
        }
    }

    fn length(&mut self) -> Result<u32, u32> {
        Ok(self.number(0, i32::MAX.into())? as u32)
    }

    fn unit(&mut self) -> Result<u32, u32> {
        let Token::Unit(unit) = self.take()? else {
            return Err(WRONG_SORT);
        };
        Ok(unit)
    }

    fn double(&mut self) -> Result<(usize, usize), u32> {
        let Token::Double(start, length) = self.take()? else {
            return Err(WRONG_SORT);
        };
        Ok((start, length))
    }

    /// A row for a field whose nullability may stand here.
    fn role(&mut self) -> Row {
        let non_null = self.take_if(Token::NonNull);
        if !non_null {
            self.take_if(Token::Nullable);
        }
        Row {
            role: if non_null { 2 } else { 1 },
            ..Row::default()
        }
    }

    /// `"name": [nullability] T`, answering its row's number.
    fn field(&mut self, level: usize, union_id: u32) -> Result<usize, u32> {
        let (start, length) = self.double()?;
        self.expect(Token::Colon)?;
        let mut row = self.role().named(1, start, length);
        row.union_id = union_id;
        self.data_type(level, row)
    }

    /// `[nullability] T [, field: 'name']`
    fn list_field(&mut self, level: usize) -> Result<(), u32> {
        let row = self.role().named(2, 0, 4);
        let at = self.data_type(level, row)?;
        if self.take_if(Token::Comma) {
            self.expect(Token::Field)?;
            self.expect(Token::Colon)?;
            let Token::Single(start, length) = self.take()? else {
                return Err(WRONG_SORT);
            };
            self.rows[at] = self.rows[at].named(1, start, length);
        }
        Ok(())
    }

    /// A type at this level, its row begun by the caller; answers its row's number.
    fn data_type(&mut self, level: usize, row: Row) -> Result<usize, u32> {
        // A type that may not begin is refused where it would have begun.
        if level > self.limits.levels {
            self.last = behind_spaces(self.text, self.place);
            return Err(TOO_DEEP);
        }
        if self.rows.len() >= self.limits.rows {
            self.last = behind_spaces(self.text, self.place);
            return Err(NO_ROW);
        }
        let at = self.rows.len();
        let parent = self.open.last().map_or(0, |up| *up as u32);
        self.rows.push(Row { parent, ..row });
        self.open.push(at);
        let Token::Type(kind) = self.take()? else {
            return Err(WRONG_SORT);
        };
        self.rows[at].kind = kind;
        match kind {
            TIMESTAMP => self.timestamp(at)?,
            TIME32 | TIME64 => {
                self.expect(Token::Open)?;
                let unit = self.unit()?;
                if (unit < 2) != (kind == TIME32) {
                    return Err(TIME_UNIT);
                }
                self.expect(Token::Close)?;
                self.rows[at].number = unit;
            }
            DURATION => {
                self.expect(Token::Open)?;
                self.rows[at].number = self.unit()?;
                self.expect(Token::Close)?;
            }
            INTERVAL => {
                self.expect(Token::Open)?;
                let Token::IntervalUnit(unit) = self.take()? else {
                    return Err(WRONG_SORT);
                };
                self.expect(Token::Close)?;
                self.rows[at].number = unit;
            }
            FIXED_SIZE_BINARY => {
                self.expect(Token::Open)?;
                self.rows[at].number = self.length()?;
                self.expect(Token::Close)?;
            }
            DECIMAL32..=DECIMAL256 => {
                self.expect(Token::Open)?;
                let precision = self.number(0, 255)?;
                self.expect(Token::Comma)?;
                let scale = self.number(-128, 127)?;
                self.expect(Token::Close)?;
                let greatest = i64::from(greatest_precision(kind));
                if !(1..=greatest).contains(&precision) || scale > precision {
                    return Err(DECIMAL);
                }
                self.rows[at].number = precision as u32;
                self.rows[at].scale = (scale + 128) as u32;
            }
            LIST | LIST_VIEW | LARGE_LIST | LARGE_LIST_VIEW => {
                self.expect(Token::Open)?;
                self.list_field(level + 1)?;
                self.expect(Token::Close)?;
            }
            FIXED_SIZE_LIST => {
                self.expect(Token::Open)?;
                self.rows[at].number = self.length()?;
                match self.take()? {
                    Token::X => self.list_field(level + 1)?,
                    Token::Comma => {
                        let item = Row {
                            role: 1,
                            ..Row::default()
                        };
                        self.data_type(level + 1, item.named(2, 0, 4))?;
                    }
                    _ => return Err(WRONG_SORT),
                }
                self.expect(Token::Close)?;
            }
            STRUCT => {
                self.expect(Token::Open)?;
                while !self.take_if(Token::Close) {
                    self.field(level + 1, 0)?;
                    match self.take()? {
                        Token::Comma => {}
                        Token::Close => break,
                        _ => return Err(WRONG_SORT),
                    }
                }
            }
            UNION => self.union(level, at)?,
            DICTIONARY => {
                self.expect(Token::Open)?;
                self.data_type(level + 1, Row::default())?;
                self.expect(Token::Comma)?;
                self.data_type(level + 1, Row::default())?;
                self.expect(Token::Close)?;
            }
            MAP => self.map(level, at)?,
            RUN_END_ENCODED => self.run_end_encoded(level)?,
            _ => {}
        }
        self.open.pop();
        self.rows[at].rows = (self.rows.len() - at) as u32;
        Ok(at)
    }

    fn timestamp(&mut self, at: usize) -> Result<(), u32> {
        self.expect(Token::Open)?;
        self.rows[at].number = self.unit()?;
        match self.take()? {
            Token::Close => return Ok(()),
            Token::Comma => {}
            _ => return Err(WRONG_SORT),
        }
        let zone = match self.take()? {
            Token::None => (0, 0),
            Token::Double(start, length) => (start, length),
            Token::Some => {
                self.expect(Token::Open)?;
                let zone = self.double()?;
                self.expect(Token::Close)?;
                zone
            }
            _ => return Err(WRONG_SORT),
        };
        self.rows[at].zone_start = zone.0 as u32;
        self.rows[at].zone_length = zone.1 as u32;
        self.expect(Token::Close)
    }

    fn union(&mut self, level: usize, at: usize) -> Result<(), u32> {
        self.expect(Token::Open)?;
        let Token::Mode(mode) = self.take()? else {
            return Err(WRONG_SORT);
        };
        self.rows[at].number = mode;
        let mut ids = Vec::new();
        while !self.take_if(Token::Close) {
            self.expect(Token::Comma)?;
            let id = self.number(-128, 127)?;
            ids.push(id);
            self.expect(Token::Colon)?;
            self.expect(Token::Open)?;
            // A negative id is refused behind the last `)`, so it never stays in a row.
            self.field(level + 1, id as u32)?;
            self.expect(Token::Close)?;
        }
        ids.sort_unstable();
        if ids.iter().any(|id| *id < 0) || ids.windows(2).any(|two| two[0] == two[1]) {
            return Err(UNION_ID);
        }
        Ok(())
    }

    fn map(&mut self, level: usize, at: usize) -> Result<(), u32> {
        self.expect(Token::Open)?;
        let entries = self.field(level + 1, 0)?;
        if self.rows[entries].role != 2 {
            return Err(NULLABLE);
        }
        if self.rows[entries].kind != STRUCT {
            return Err(ENTRIES);
        }
        let end = entries + self.rows[entries].rows as usize;
        let mut children = Vec::new();
        let mut next = entries + 1;
        while next < end {
            children.push(next);
            next += self.rows[next].rows as usize;
        }
        if children.len() != 2 {
            return Err(ENTRIES);
        }
        if self.rows[children[0]].role != 2 {
            return Err(NULLABLE);
        }
        self.expect(Token::Comma)?;
        let Token::Sorted(sorted) = self.take()? else {
            return Err(WRONG_SORT);
        };
        self.rows[at].number = sorted;
        self.expect(Token::Close)
    }

    fn run_end_encoded(&mut self, level: usize) -> Result<(), u32> {
        self.expect(Token::Open)?;
        if matches!(self.look(), Some(Token::Double(..))) {
            let run_ends = self.field(level + 1, 0)?;
            if self.rows[run_ends].role != 2 {
                return Err(NULLABLE);
            }
            self.expect(Token::Comma)?;
            self.field(level + 1, 0)?;
        } else {
            let run_ends = self.role().named(2, 4, 8);
            if run_ends.role != 2 {
                return Err(NULLABLE);
            }
            self.data_type(level + 1, run_ends)?;
            self.expect(Token::Comma)?;
            let values = self.role().named(2, 12, 6);
            self.data_type(level + 1, values)?;
        }
        self.expect(Token::Close)
    }
}

// Trees

/// The part of the text or of the name list that the three words of a name mean; empty where they
/// do not fit.
pub fn name<'a>(text: &'a [u8], list: &'a [u8], home: u32, start: u32, length: u32) -> &'a [u8] {
    let home = match home {
        1 => text,
        2 => list,
        _ => return &[],
    };
    let start = start as usize;
    home.get(start..start + length as usize).unwrap_or(&[])
}

pub fn row_name<'a>(text: &'a [u8], list: &'a [u8], row: &Row) -> &'a [u8] {
    name(text, list, row.home, row.name_start, row.name_length)
}

pub fn row_zone<'a>(text: &'a [u8], row: &Row) -> &'a [u8] {
    name(text, &[], 1, row.zone_start, row.zone_length)
}

/// Equal words 0 to 5, name bytes and zone bytes, row by row.
pub fn equal(a: (&[u8], &[u8], &[Row]), b: (&[u8], &[u8], &[Row])) -> bool {
    let meaning = |text, list, row: &Row| {
        let words = row.to_words();
        let name = row_name(text, list, row).to_vec();
        (
            [0, 1, 2, 3, 4, 5].map(|at| words[at]),
            name,
            row_zone(text, row).to_vec(),
        )
    };
    let a = a.2.iter().map(|row| meaning(a.0, a.1, row));
    let b = b.2.iter().map(|row| meaning(b.0, b.1, row));
    a.eq(b)
}

/// Any words with the parents of their rows set, whole rows and 1,024 at the most: each is the last row before it whose
/// subtree holds it, as the rows count themselves, and 0 where none does.
pub fn with_parents(words: &[u32]) -> Vec<u32> {
    let mut rows = from_words(words);
    rows.truncate(MOST_ROWS);
    let ends: Vec<usize> = (0..)
        .zip(&rows)
        .map(|(at, row)| at + row.rows as usize)
        .collect();
    for (at, row) in rows.iter_mut().enumerate() {
        let parent = ends[..at].iter().rposition(|end| *end > at);
        row.parent = parent.unwrap_or(0) as u32;
    }
    let rest = &words[rows.len() * WORDS..];
    [&to_words(&rows), rest].concat()
}

/// A row with its children.
struct Node {
    /// The row's number from 0.
    at: usize,
    row: Row,
    children: Vec<Node>,
}

/// Rows as a tree, `None` where subtrees do not nest exactly, the root does not stand over all or a
/// row stands deeper than `levels`.
fn nest(rows: &[Row], at: usize, levels: usize) -> Option<Node> {
    let row = *rows.first()?;
    if levels == 0 || row.rows as usize != rows.len() {
        return None;
    }
    let mut children = Vec::new();
    let mut next = 1;
    while next < rows.len() {
        let size = rows[next].rows as usize;
        if size == 0 || size > rows.len() - next {
            return None;
        }
        children.push(nest(&rows[next..next + size], at + next, levels - 1)?);
        next += size;
    }
    Some(Node { at, row, children })
}

impl Node {
    fn each(&self, visit: &mut dyn FnMut(&Node)) {
        visit(self);
        for child in &self.children {
            child.each(visit);
        }
    }

    fn depth(&self) -> usize {
        1 + self.children.iter().map(Node::depth).max().unwrap_or(0)
    }
}

/// Levels of a tree whose subtrees nest; the root is 1.
pub fn depth(rows: &[Row]) -> usize {
    nest(rows, 0, usize::MAX).map_or(0, |root| root.depth())
}

pub fn sound(text: &[u8], list: &[u8], words: &[u32]) -> bool {
    sound_tree(text, list, words).is_some()
}

fn sound_tree(text: &[u8], list: &[u8], words: &[u32]) -> Option<Node> {
    // Text at most 16,384 bytes and UTF-8; the list those 18 bytes.
    if text.len() > MOST_BYTES || std::str::from_utf8(text).is_err() || list != NAME_LIST {
        return None;
    }
    // 1 to 1,024 whole rows, words beyond them none.
    let rows = from_words(words);
    if !words.len().is_multiple_of(WORDS) || !(1..=MOST_ROWS).contains(&rows.len()) {
        return None;
    }
    // Subtrees nest exactly, root over all, depth at most 64.
    let root = nest(&rows, 0, MOST_LEVELS)?;
    // The root is bare and has no parent, which is 0.
    let mut good = bare(&root.row) && root.row.parent == 0;
    root.each(&mut |node| {
        good = good
            && child_count(node)
            && parent(node)
            && numbers(&node.row)
            && zone(text, &node.row)
            && node
                .children
                .iter()
                .all(|child| place(text, list, node, child))
            && ids_distinct(node)
            && map_rule(node)
            && run_ends_rule(node);
    });
    good.then_some(root)
}

/// Role 0, home 0, no name, no union id.
fn bare(row: &Row) -> bool {
    row.role == 0
        && row.home == 0
        && row.name_start == 0
        && row.name_length == 0
        && row.union_id == 0
}

fn child_count(node: &Node) -> bool {
    match node.row.kind {
        LIST..=LARGE_LIST_VIEW | MAP => node.children.len() == 1,
        DICTIONARY | RUN_END_ENCODED => node.children.len() == 2,
        STRUCT | UNION => true,
        _ => node.children.is_empty(),
    }
}

/// Every child names the row that it stands under.
fn parent(node: &Node) -> bool {
    node.children
        .iter()
        .all(|child| child.row.parent as usize == node.at)
}

/// Kind, word 4 and word 5.
pub fn numbers(row: &Row) -> bool {
    let number = row.number;
    let scale = i64::from(row.scale) - 128;
    match row.kind {
        TIMESTAMP | DURATION => number <= 3 && row.scale == 0,
        TIME32 => number <= 1 && row.scale == 0,
        TIME64 => (2..=3).contains(&number) && row.scale == 0,
        INTERVAL => number <= 2 && row.scale == 0,
        FIXED_SIZE_BINARY | FIXED_SIZE_LIST => number <= 2_147_483_647 && row.scale == 0,
        UNION | MAP => number <= 1 && row.scale == 0,
        DECIMAL32..=DECIMAL256 => {
            let precision = (1..=greatest_precision(row.kind)).contains(&number);
            precision && row.scale <= 255 && (scale <= 0 || scale <= i64::from(number))
        }
        kind => kind <= RUN_END_ENCODED && number == 0 && row.scale == 0,
    }
}

/// A timestamp's zone: none, or non-empty UTF-8 inside the text; nothing for other kinds.
fn zone(text: &[u8], row: &Row) -> bool {
    if row.zone_length == 0 {
        return row.zone_start == 0;
    }
    let zone = row_zone(text, row);
    row.kind == TIMESTAMP && !zone.is_empty() && std::str::from_utf8(zone).is_ok()
}

/// What a row must be because of where it stands: role, home, name and union id.
fn place(text: &[u8], list: &[u8], parent: &Node, child: &Node) -> bool {
    let row = &child.row;
    if parent.row.kind == DICTIONARY {
        return bare(row);
    }
    let name = row_name(text, list, row);
    let part = (row.name_start, row.name_length);
    let id = if parent.row.kind == UNION { 127 } else { 0 };
    (row.role == 1 || row.role == 2)
        && (row.home == 1 || row.home == 2 && [(0, 4), (4, 8), (12, 6)].contains(&part))
        && !name.is_empty()
        && std::str::from_utf8(name).is_ok()
        && row.union_id <= id
}

fn ids_distinct(node: &Node) -> bool {
    node.row.kind != UNION
        || (1..node.children.len()).all(|at| {
            let id = node.children[at].row.union_id;
            node.children[..at]
                .iter()
                .all(|before| before.row.union_id != id)
        })
}

/// Map's child is a non-null Struct of two whose first is non-null.
fn map_rule(node: &Node) -> bool {
    node.row.kind != MAP
        || node.children.iter().all(|entries| {
            entries.row.role == 2
                && entries.row.kind == STRUCT
                && entries.children.len() == 2
                && entries.children[0].row.role == 2
        })
}

fn run_ends_rule(node: &Node) -> bool {
    node.row.kind != RUN_END_ENCODED
        || node
            .children
            .iter()
            .take(1)
            .all(|first| first.row.role == 2)
}

// Printing

/// How microseconds are printed (document 02, [3]).
#[derive(Clone, Copy, Debug, PartialEq, Eq)]
pub enum Spelling {
    /// `us`, where no spelling is named.
    Us,
    /// `µs`, as in the Rust.
    Micro,
}

impl Spelling {
    pub const BOTH: [Spelling; 2] = [Spelling::Us, Spelling::Micro];
}

/// The text printed in a spelling where that many output bytes are lent.
pub fn print(
    spelling: Spelling,
    text: &[u8],
    list: &[u8],
    words: &[u32],
    room: usize,
) -> Result<Vec<u8>, u32> {
    let root = sound_tree(text, list, words).ok_or(NOT_SOUND)?;
    let mut printer = Printer {
        spelling,
        text,
        list,
        out: Vec::new(),
        above_latin: false,
    };
    printer.data_type(&root);
    if printer.above_latin {
        return Err(NOT_LATIN);
    }
    if printer.out.len() > room.min(MOST_BYTES) {
        return Err(NO_ROOM);
    }
    Ok(printer.out)
}

struct Printer<'a> {
    spelling: Spelling,
    text: &'a [u8],
    list: &'a [u8],
    out: Vec<u8>,
    /// Whether a name or zone in double quotes has a character above U+017F.
    above_latin: bool,
}

impl Printer<'_> {
    fn say(&mut self, words: &str) {
        self.out.extend_from_slice(words.as_bytes());
    }

    /// A name or zone of a sound tree in double quotes (document 02, [11]).
    fn quoted(&mut self, bytes: &[u8]) {
        self.say("\"");
        for character in str::from_utf8(bytes).expect("UTF-8").chars() {
            match character {
                '"' => self.say("\\\""),
                '\\' => self.say("\\\\"),
                '\0' => self.say("\\0"),
                '\t' => self.say("\\t"),
                '\r' => self.say("\\r"),
                '\n' => self.say("\\n"),
                '\u{1}'..='\u{1f}' | '\u{7f}'..='\u{a0}' | '\u{ad}' => {
                    self.say(&format!("\\u{{{:x}}}", u32::from(character)));
                }
                _ => {
                    self.above_latin |= character > '\u{17f}';
                    self.say(character.encode_utf8(&mut [0; 4]));
                }
            }
        }
        self.say("\"");
    }

    fn name(&self, node: &Node) -> Vec<u8> {
        row_name(self.text, self.list, &node.row).to_vec()
    }

    /// Nullability and type.
    fn content(&mut self, node: &Node) {
        if node.row.role == 2 {
            self.say("non-null ");
        }
        self.data_type(node);
    }

    fn field(&mut self, node: &Node) {
        let name = self.name(node);
        self.quoted(&name);
        self.say(": ");
        self.content(node);
    }

    fn list_field(&mut self, node: &Node) {
        self.content(node);
        let name = self.name(node);
        if name != b"item" {
            self.say(", field: '");
            self.out.extend_from_slice(&name);
            self.say("'");
        }
    }

    fn data_type(&mut self, node: &Node) {
        let row = &node.row;
        let children = &node.children;
        self.say(KINDS[row.kind as usize]);
        let microseconds = match self.spelling {
            Spelling::Us => "us",
            Spelling::Micro => "µs",
        };
        let unit = ["s", "ms", microseconds, "ns"];
        match row.kind {
            TIMESTAMP => {
                self.say(&format!("({}", unit[row.number as usize]));
                if row.zone_length > 0 {
                    self.say(", ");
                    self.quoted(row_zone(self.text, row));
                }
                self.say(")");
            }
            TIME32 | TIME64 | DURATION => self.say(&format!("({})", unit[row.number as usize])),
            INTERVAL => {
                let unit = ["YearMonth", "DayTime", "MonthDayNano"];
                self.say(&format!("({})", unit[row.number as usize]));
            }
            FIXED_SIZE_BINARY => self.say(&format!("({})", row.number)),
            DECIMAL32..=DECIMAL256 => {
                let scale = i64::from(row.scale) - 128;
                self.say(&format!("({}, {scale})", row.number));
            }
            LIST | LIST_VIEW | LARGE_LIST | LARGE_LIST_VIEW => {
                self.say("(");
                self.list_field(&children[0]);
                self.say(")");
            }
            FIXED_SIZE_LIST => {
                self.say(&format!("({} x ", row.number));
                self.list_field(&children[0]);
                self.say(")");
            }
            STRUCT => {
                self.say("(");
                for (at, child) in children.iter().enumerate() {
                    if at > 0 {
                        self.say(", ");
                    }
                    self.field(child);
                }
                self.say(")");
            }
            UNION => {
                self.say(["(Sparse", "(Dense"][row.number as usize]);
                for child in children {
                    self.say(&format!(", {}: (", child.row.union_id));
                    self.field(child);
                    self.say(")");
                }
                self.say(")");
            }
            DICTIONARY => {
                self.say("(");
                self.data_type(&children[0]);
                self.say(", ");
                self.data_type(&children[1]);
                self.say(")");
            }
            MAP => {
                self.say("(");
                self.field(&children[0]);
                self.say([", unsorted)", ", sorted)"][row.number as usize]);
            }
            RUN_END_ENCODED => {
                let default = [b"run_ends".as_slice(), b"values"];
                self.say("(");
                if self.name(&children[0]) == default[0] && self.name(&children[1]) == default[1] {
                    self.content(&children[0]);
                    self.say(", ");
                    self.content(&children[1]);
                } else {
                    self.field(&children[0]);
                    self.say(", ");
                    self.field(&children[1]);
                }
                self.say(")");
            }
            _ => {}
        }
    }
}

/// How many rows have microseconds for their unit.
pub fn microseconds(rows: &[Row]) -> usize {
    let has_unit = |row: &&Row| matches!(row.kind, TIMESTAMP | TIME32 | TIME64 | DURATION);
    let units = rows.iter().filter(has_unit);
    units.filter(|row| row.number == 2).count()
}

/// The layout verdict: yes (`None`) or the first row that breaks a rule.
pub fn verdict(text: &[u8], list: &[u8], words: &[u32]) -> Result<Option<usize>, u32> {
    let root = sound_tree(text, list, words).ok_or(NOT_SOUND)?;
    let mut broken: Option<usize> = None;
    root.each(&mut |node| {
        let allowed = match node.row.kind {
            DICTIONARY => INT8..=UINT64,
            RUN_END_ENCODED => INT16..=INT64,
            _ => return,
        };
        let first = &node.children[0];
        if !allowed.contains(&first.row.kind) {
            broken = Some(broken.map_or(first.at, |row| row.min(first.at)));
        }
    });
    Ok(broken)
}
