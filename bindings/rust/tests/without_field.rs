//! A column taken out: what stays is compared with a plain second writing over the views of a type's fields.

use arrow_types::{DataType, Error, Field, Kind, MAX_ROWS, ROW_WORDS};

fn read(text: &str) -> DataType {
    text.parse().unwrap()
}

/// The fields of a type but for one.
fn others(row: &DataType, taken: usize) -> impl Iterator<Item = Field<'_>> {
    let is_other = move |&(field, _): &(usize, Field<'_>)| field != taken;
    let kept = row.fields().enumerate().filter(is_other);
    kept.map(|(_, field)| field)
}

/// A row as it is packed: where its name and zone stand, behind a text that they are set behind, and which row contains it.
fn packed_row(field: Field<'_>, taken: usize, removed: usize, text: &mut String) -> Vec<u32> {
    let mut words = words_of(field);
    for (at, part) in [(7, field.name()), (9, field.zone())] {
        let part = part.unwrap_or_default();
        words[at] = if part.is_empty() {
            0
        } else {
            text.len() as u32
        };
        words[at + 1] = part.len() as u32;
        text.push_str(part);
    }
    words[6] = u32::from(field.name().is_some());
    let parent = field.parent().map_or(0, Field::row);
    words[11] = (if parent > taken {
        parent - removed
    } else {
        parent
    }) as u32;
    words
}

/// Words 0 to 5 of a row, said by its views, and six zeros.
fn words_of(field: Field<'_>) -> Vec<u32> {
    let number = [
        field.time_unit().map(|unit| unit as u32),
        field.interval_unit().map(|unit| unit as u32),
        field.length(),
        field.precision().map(u32::from),
        field.union_mode().map(|mode| mode as u32),
        field.keys_sorted().map(u32::from),
    ];
    let role = |nullable| 2 - u32::from(nullable);
    let scale = |scale| (i32::from(scale) + 128) as u32;
    let mut words = vec![0; ROW_WORDS];
    words[0] = field.kind().number();
    words[1] = field.row_count() as u32;
    words[2] = field.nullable().map_or(0, role);
    words[3] = field.union_id().map_or(0, |id| id as u32);
    words[4] = number.into_iter().flatten().next().unwrap_or(0);
    words[5] = field.scale().map_or(0, scale);
    words
}

/// Text and rows of what stays, written once more.
fn left(row: &DataType, taken: usize) -> (String, Vec<u32>) {
    let field = row.fields().nth(taken).unwrap();
    let (at, removed) = (field.row(), field.row_count());
    let mut text = String::new();
    let mut rows = packed_row(row.root(), at, removed, &mut text);
    rows[1] -= removed as u32;
    for field in others(row, taken).flat_map(Field::subtree) {
        rows.extend(packed_row(field, at, removed, &mut text));
    }
    (text, rows)
}

/// Whether what stays prints as the fields that stay, printed one by one, if these are printed.
fn prints_as_its_fields(row: &DataType, taken: usize, left: &DataType) -> bool {
    let fields: Result<Vec<String>, Error> = others(row, taken).map(Field::print).collect();
    let Ok(fields) = fields else {
        return false;
    };
    assert_eq!(
        left.print().unwrap(),
        format!("Struct({})", fields.join(", "))
    );
    true
}

/// Takes out each field in turn, and holds what stays to the second writing: how many of these were printed.
fn take_out_each(row: &DataType) -> usize {
    let before = row.clone().into_parts();
    let mut printed = 0;
    for taken in 0..row.fields().count() {
        let left = row.without_field(taken).unwrap();
        assert_eq!(
            left.clone().into_parts(),
            self::left(row, taken),
            "{row:?} {taken}"
        );
        assert!(left.fields().eq(others(row, taken)), "{row:?} {taken}");
        printed += usize::from(prints_as_its_fields(row, taken, &left));
    }
    assert_eq!(row.clone().into_parts(), before);
    printed
}

/// Numbers below a bound, the same in each run.
struct Numbers(u64);

impl Numbers {
    fn below(&mut self, bound: usize) -> usize {
        self.0 = self
            .0
            .wrapping_mul(6_364_136_223_846_793_005)
            .wrapping_add(1_442_695_040_888_963_407);
        (self.0 >> 33) as usize % bound
    }

    fn one_of<T: Copy>(&mut self, all: &[T]) -> T {
        all[self.below(all.len())]
    }
}

/// Texts of types that contain none, of every such kind.
const LEAVES: [&str; 24] = [
    "Null",
    "Boolean",
    "Int8",
    "UInt64",
    "Float16",
    "Timestamp(ns)",
    "Date32",
    "Time32(ms)",
    "Time64(us)",
    "Duration(s)",
    "Interval(MonthDayNano)",
    "Binary",
    "FixedSizeBinary(2147483647)",
    "BinaryView",
    "Utf8",
    "LargeUtf8",
    "Utf8View",
    "Decimal32(9, -128)",
    "Decimal64(12, 3)",
    "Decimal128(38, 38)",
    "Decimal256(76, 0)",
    "Struct()",
    "Union(Sparse)",
    "LargeBinary",
];

/// Generates type texts. Each name and each zone is another one, none a part of another. Of every third seed some have
/// characters that are not printed in double quotes.
struct Texts {
    numbers: Numbers,
    letters: &'static [&'static str],
    count: usize,
}

impl Texts {
    fn new(seed: u64) -> Texts {
        Texts {
            numbers: Numbers(seed),
            letters: match seed % 3 {
                0 => &["n", "дом "],
                _ => &["", "n", "ü"],
            },
            count: 0,
        }
    }

    fn name(&mut self) -> String {
        self.count += 1;
        format!("<{}{}>", self.numbers.one_of(self.letters), self.count)
    }

    fn field(&mut self, depth: usize) -> String {
        let role = self.numbers.one_of(&["", "non-null "]);
        format!("\"{}\": {role}{}", self.name(), self.of(depth))
    }

    fn fields(&mut self, depth: usize, most: usize) -> String {
        let count = self.numbers.below(most + 1);
        let fields: Vec<String> = (0..count).map(|_| self.field(depth)).collect();
        format!("Struct({})", fields.join(", "))
    }

    /// A type with so many levels below it, at the most.
    fn of(&mut self, depth: usize) -> String {
        if depth == 0 || self.numbers.below(4) == 0 {
            return match self.numbers.below(3) {
                0 => format!("Timestamp(s, \"{}\")", self.name()),
                _ => self.numbers.one_of(&LEAVES).to_owned(),
            };
        }
        let below = depth - 1;
        match self.numbers.below(8) {
            0 => self.list(below),
            1 => self.fields(below, 3),
            2 => self.union(below),
            3 => format!("Dictionary({}, {})", self.of(below), self.of(below)),
            4 => self.map(below),
            5 => format!("RunEndEncoded(non-null Int32, {})", self.of(below)),
            6 => format!("FixedSizeList(3 x {})", self.of(below)),
            _ => format!("LargeList({})", self.of(below)),
        }
    }

    fn list(&mut self, depth: usize) -> String {
        let list = self
            .numbers
            .one_of(&["List", "ListView", "LargeListView", "LargeList"]);
        match self.numbers.below(2) {
            0 => format!("{list}(non-null {})", self.of(depth)),
            _ => format!("{list}({}, field: '{}')", self.of(depth), self.name()),
        }
    }

    fn union(&mut self, depth: usize) -> String {
        let (one, two) = (self.field(depth), self.field(depth));
        format!("Union(Dense, 7: ({one}), 0: ({two}))")
    }

    fn map(&mut self, depth: usize) -> String {
        let names = [self.name(), self.name(), self.name()];
        let (entries, key, value) = (&names[0], &names[1], &names[2]);
        let of = self.of(depth);
        format!(
            "Map(\"{entries}\": non-null Struct(\"{key}\": non-null Utf8, \"{value}\": {of}), sorted)"
        )
    }
}

#[test]
fn generated_types() {
    let (mut takes, mut printed, mut seen) = (0, 0, [0; Kind::ALL.len()]);
    for seed in 0..400 {
        let row = read(&Texts::new(seed).fields(4, 9));
        takes += row.fields().count();
        printed += take_out_each(&row);
        // So no type that was read is refused with 28.
        let length: usize = parts(row.root()).map(str::len).sum();
        assert!(length < row.text().len(), "{row:?}");
        for field in row.root().subtree() {
            seen[field.kind() as usize] += 1;
        }
    }
    assert!(printed > 1_000 && takes > printed, "{printed} of {takes}");
    assert!(
        seen.iter().filter(|&&count| count > 0).count() > 30,
        "{seen:?}"
    );
}

/// A Struct with a field of each kind, and each of them taken out.
#[test]
fn every_kind() {
    let mut kinds = vec![];
    let mut fields = String::new();
    for text in LEAVES
        .into_iter()
        .chain(["Int16", "Int32", "Int64", "UInt8", "UInt16"])
    {
        fields += &format!("\"{text}\": {text}, ");
    }
    fields += "\"a\": UInt32, \"b\": Float32, \"c\": non-null Float64, \"d\": Date64, \"e\": List(Int8), \
               \"f\": ListView(Int8), \"g\": FixedSizeList(2 x Int8), \"h\": LargeList(Int8), \"i\": LargeListView(Int8), \
               \"j\": Union(Dense, 1: (\"k\": Int8)), \"l\": Dictionary(Int8, Utf8), \"t\": Timestamp(s, \"CET\"), \
               \"m\": Map(\"e\": non-null Struct(\"k\": non-null Utf8, \"v\": Int8), unsorted), \
               \"r\": RunEndEncoded(non-null Int32, Utf8)";
    let row = read(&format!("Struct({fields})"));
    for field in row.root().subtree() {
        kinds.push(field.kind() as usize);
    }
    assert!(
        Kind::ALL
            .iter()
            .all(|&kind| kinds.contains(&(kind as usize)))
    );
    assert_eq!(take_out_each(&row), row.fields().count());
}

/// The names and zones of a field and of all that it contains.
fn parts<'a>(field: Field<'a>) -> impl Iterator<Item = &'a str> {
    field
        .subtree()
        .flat_map(|row| [row.name(), row.zone()])
        .flatten()
}

/// What was taken out is seen no more, neither in the text nor in what is shown of the type.
#[test]
fn nothing_taken_is_left() {
    let (mut gone, mut kept) = (0, 0);
    for seed in 1_000..1_200 {
        let row = read(&Texts::new(seed).fields(4, 9));
        for (taken, field) in row.fields().enumerate() {
            let left = row.without_field(taken).unwrap();
            let shown = format!("{left:?} {}", left.lossy());
            // Names of the name list may stand in other columns too.
            for part in parts(field).filter(|part| part.starts_with('<')) {
                assert!(
                    !left.text().contains(part) && !shown.contains(part),
                    "{part} in {left:?}"
                );
                gone += 1;
            }
            for part in others(&row, taken).flat_map(parts) {
                assert!(left.text().contains(part), "{part} in {left:?}");
                kept += 1;
            }
            let length: usize = others(&row, taken).flat_map(parts).map(str::len).sum();
            assert_eq!(left.text().len(), length);
        }
    }
    assert!(gone > 1_000 && kept > gone, "{gone} {kept}");
}

/// Fields are taken out one after the other, in any order, until none is left.
#[test]
fn one_after_the_other() {
    let empty = read("Struct()").into_parts().1;
    for seed in 2_000..2_200 {
        let mut texts = Texts::new(seed);
        let mut row = read(&texts.fields(3, 9));
        while row.fields().count() > 0 {
            let taken = texts.numbers.below(row.fields().count());
            let next = row.without_field(taken).unwrap();
            assert_eq!(next.clone().into_parts(), left(&row, taken));
            row = next;
        }
        if row.text().is_empty() {
            assert_eq!(row.rows(), empty);
        }
        assert_eq!(row.without_field(0), Err(Error::NoSuchField));
    }
}

#[test]
fn the_only_field() {
    for of in LEAVES
        .into_iter()
        .chain(["List(Int8)", "Struct(\"a\": Timestamp(s, \"CET\"))"])
    {
        let left = read(&format!("Struct(\"tenant\": {of})"))
            .without_field(0)
            .unwrap();
        assert_eq!(left.print().unwrap(), "Struct()");
        assert_eq!((left.text(), left.row_count(), left.depth()), ("", 1, 1));
    }
}

/// Rows that were stored: a Struct of Int8 fields, whose names are parts of the text or of the name list.
fn stored(text: &str, names: &[(u32, usize, usize)]) -> DataType {
    let mut rows = vec![0; ROW_WORDS];
    (rows[0], rows[1]) = (32, names.len() as u32 + 1);
    for &(home, start, length) in names {
        rows.extend([2, 1, 1, 0, 0, 0, home, start as u32, length as u32, 0, 0, 0]);
    }
    DataType::from_parts(text, rows).unwrap()
}

#[test]
fn names_wherever_they_stand() {
    let row = stored(
        "tenants",
        &[(1, 0, 7), (2, 0, 4), (1, 0, 3), (2, 4, 8), (1, 1, 2)],
    );
    assert_eq!(take_out_each(&row), 5);
    assert_eq!(row.without_field(0).unwrap().text(), "itemtenrun_endsen");
    assert_eq!(row.without_field(3).unwrap().text(), "tenantsitemtenen");
}

/// 28 is met by what is longer packed: 16,384 bytes have room, 16,385 have none.
#[test]
fn most_bytes() {
    let text = "n".repeat(16_384);
    let row = stored(&text, &[(1, 0, 16_384), (1, 0, 1), (1, 0, 1)]);
    assert_eq!(row.without_field(1), Err(Error::NoRoom));
    assert_eq!(row.without_field(0).unwrap().text(), "nn");
    assert_eq!(row.without_field(3), Err(Error::NoSuchField));
    let row = stored(&text, &[(1, 0, 16_380), (2, 0, 4), (1, 0, 1)]);
    assert_eq!(row.without_field(2).unwrap().text().len(), 16_384);
    assert_eq!(row.without_field(1).unwrap().text().len(), 16_381);
    let row = stored(&text, &[(1, 0, 16_381), (2, 0, 4), (1, 0, 1)]);
    assert_eq!(row.without_field(2), Err(Error::NoRoom));
}

#[test]
fn most_rows() {
    let fields: Vec<String> = (0..MAX_ROWS - 1)
        .map(|field| format!("\"{field}\":Int8"))
        .collect();
    let row = read(&format!("Struct({})", fields.join(",")));
    for taken in [0, 1, 511, MAX_ROWS - 2] {
        let left = row.without_field(taken).unwrap();
        assert_eq!(left.row_count(), MAX_ROWS - 1);
        assert_eq!(left.into_parts(), self::left(&row, taken));
    }
    assert_eq!(row.without_field(MAX_ROWS - 1), Err(Error::NoSuchField));
}

/// A type that was put together.
#[test]
fn built_types() {
    let row = DataType::struct_of([
        read("List(Timestamp(s, \"CET\"))").named("slots"),
        read("Utf8").named("tenant"),
    ])
    .unwrap();
    assert_eq!(take_out_each(&row), 2);
    assert_eq!(row.without_field(1).unwrap().text(), "slotsitemCET");
}

/// 25 comes before 29.
#[test]
fn refusals() {
    for of in LEAVES.into_iter().filter(|of| *of != "Struct()") {
        assert_eq!(read(of).without_field(0), Err(Error::NotStruct));
        assert_eq!(read(of).without_field(usize::MAX), Err(Error::NotStruct));
    }
    let list = read("List(Struct(\"a\": Int8, \"b\": Int8))");
    assert_eq!(list.without_field(0), Err(Error::NotStruct));
    let row = read("Struct(\"a\": Struct(\"b\": Int8, \"c\": Int8))");
    for field in [1, 2, 3, usize::MAX] {
        assert_eq!(row.without_field(field), Err(Error::NoSuchField));
    }
    assert_eq!(read("Struct()").without_field(0), Err(Error::NoSuchField));
    assert_eq!(
        (Error::NoRoom.number(), Error::NoSuchField.number()),
        (28, 29)
    );
}
