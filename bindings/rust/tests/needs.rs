//! Needed columns: every answer is compared with a plain writing of the rules over the views of a type's fields.

use arrow_types::{
    DataType, Error, Field, IntervalUnit, Kind, MAX_NEEDS, Need, ROW_WORDS, TimeUnit, UnionMode,
};

const UNITS: [TimeUnit; 4] = [
    TimeUnit::Second,
    TimeUnit::Millisecond,
    TimeUnit::Microsecond,
    TimeUnit::Nanosecond,
];
const INTERVALS: [IntervalUnit; 3] = [
    IntervalUnit::YearMonth,
    IntervalUnit::DayTime,
    IntervalUnit::MonthDayNano,
];
const TIMED: [Kind; 4] = [Kind::Timestamp, Kind::Time32, Kind::Time64, Kind::Duration];
const SIZED: [Kind; 2] = [Kind::FixedSizeBinary, Kind::FixedSizeList];
const DECIMALS: [Kind; 4] = [
    Kind::Decimal32,
    Kind::Decimal64,
    Kind::Decimal128,
    Kind::Decimal256,
];

/// A kind with the numbers that belong to it.
#[derive(Clone, Copy, Debug, PartialEq)]
enum Head {
    Plain(Kind),
    Timed(Kind, TimeUnit),
    Interval(IntervalUnit),
    Sized(Kind, u32),
    Decimal(Kind, u8, i8),
    Union(UnionMode),
    Map(bool),
}

/// Every kind, with every unit, mode and order of keys, and some lengths, precisions and scales.
fn heads() -> Vec<Head> {
    let numbers = [Kind::Interval, Kind::Union, Kind::Map];
    let has_numbers = |kind: &Kind| {
        TIMED.contains(kind)
            || SIZED.contains(kind)
            || DECIMALS.contains(kind)
            || numbers.contains(kind)
    };
    let plain = Kind::ALL.into_iter().filter(|kind| !has_numbers(kind));
    let mut heads: Vec<Head> = plain.map(Head::Plain).collect();
    heads.extend(
        TIMED
            .iter()
            .flat_map(|&kind| UNITS.map(|unit| Head::Timed(kind, unit))),
    );
    heads.extend(INTERVALS.map(Head::Interval));
    let lengths = [0, 1, 4, 2_147_483_647];
    heads.extend(
        SIZED
            .iter()
            .flat_map(|&kind| lengths.map(|length| Head::Sized(kind, length))),
    );
    let decimals = [(9, 2), (9, -128), (12, 3), (38, 38), (76, 76)];
    let of_kind = |&kind| decimals.map(|(precision, scale)| Head::Decimal(kind, precision, scale));
    heads.extend(DECIMALS.iter().flat_map(of_kind));
    heads.extend([UnionMode::Sparse, UnionMode::Dense].map(Head::Union));
    heads.extend([true, false].map(Head::Map));
    heads
}

/// A need, said once more in plain words.
#[derive(Clone, Copy, Debug)]
struct Wanted<'a> {
    name: &'a str,
    head: Head,
    null_allowed: bool,
    zoned: bool,
}

impl<'a> Wanted<'a> {
    /// The need that is wanted.
    fn need(self) -> Need<'a> {
        let name = self.name;
        let mut need = match self.head {
            Head::Plain(kind) => Need::of(name, kind),
            Head::Timed(Kind::Timestamp, unit) => Need::timestamp(name, unit),
            Head::Timed(Kind::Time32, unit) => Need::time32(name, unit),
            Head::Timed(Kind::Time64, unit) => Need::time64(name, unit),
            Head::Timed(_, unit) => Need::duration(name, unit),
            Head::Interval(unit) => Need::interval(name, unit),
            Head::Sized(Kind::FixedSizeBinary, length) => Need::fixed_size_binary(name, length),
            Head::Sized(_, length) => Need::fixed_size_list(name, length),
            Head::Decimal(Kind::Decimal32, precision, scale) => {
                Need::decimal32(name, precision, scale)
            }
            Head::Decimal(Kind::Decimal64, precision, scale) => {
                Need::decimal64(name, precision, scale)
            }
            Head::Decimal(Kind::Decimal128, precision, scale) => {
                Need::decimal128(name, precision, scale)
            }
            Head::Decimal(_, precision, scale) => Need::decimal256(name, precision, scale),
            Head::Union(mode) => Need::union_of(name, mode),
            Head::Map(sorted) => Need::map(name, sorted),
        };
        if self.null_allowed {
            need = need.null_allowed();
        }
        if self.zoned { need.with_zone() } else { need }
    }

    fn is_met_by(self, row: &DataType) -> bool {
        let named: Vec<Field<'_>> = row
            .fields()
            .filter(|field| field.name() == Some(self.name))
            .collect();
        let [field] = named[..] else {
            return false;
        };
        let role = self.null_allowed || field.nullable() == Some(false);
        is(self.head, field) && role && field.zone().is_some() == self.zoned
    }
}

/// Whether a field has a kind with its numbers.
fn is(head: Head, field: Field<'_>) -> bool {
    match head {
        Head::Plain(kind) => field.kind() == kind,
        Head::Timed(kind, unit) => field.kind() == kind && field.time_unit() == Some(unit),
        Head::Interval(unit) => field.interval_unit() == Some(unit),
        Head::Sized(kind, length) => field.kind() == kind && field.length() == Some(length),
        Head::Decimal(kind, precision, scale) => {
            (field.kind(), field.precision(), field.scale()) == (kind, Some(precision), Some(scale))
        }
        Head::Union(mode) => field.union_mode() == Some(mode),
        Head::Map(sorted) => field.keys_sorted() == Some(sorted),
    }
}

/// What is answered: the first need that is not met, or a number.
fn answer(row: &DataType, wanted: &[Wanted<'_>]) -> Result<Option<usize>, u32> {
    if row.root().kind() != Kind::Struct {
        return Err(25);
    }
    if wanted.len() > 32 {
        return Err(26);
    }
    if wanted.iter().any(|wanted| wanted.name.is_empty()) {
        return Err(27);
    }
    Ok(wanted.iter().position(|wanted| !wanted.is_met_by(row)))
}

/// The same answer of the library.
fn asked(row: &DataType, wanted: &[Wanted<'_>]) -> Result<Option<usize>, u32> {
    let needs: Vec<Need<'_>> = wanted.iter().map(|wanted| wanted.need()).collect();
    row.first_unmet(&needs).map_err(Error::number)
}

/// Type texts of every kind, with the numbers of `heads` where they may be, and several contents and zones.
fn texts() -> Vec<String> {
    let words = Kind::ALL.map(Kind::name);
    let mut texts: Vec<String> = words.iter().map(|word| word.to_string()).collect();
    for unit in ["s", "ms", "us", "ns"] {
        texts.extend(TIMED.map(|kind| format!("{kind}({unit})")));
        texts.extend(["CET", "Z"].map(|zone| format!("Timestamp({unit}, {zone:?})")));
    }
    texts.extend(INTERVALS.map(|unit| format!("Interval({unit})")));
    for length in [0, 1, 4, 2_147_483_647] {
        texts.push(format!("FixedSizeBinary({length})"));
        texts.push(format!("FixedSizeList({length} x Timestamp(s, \"CET\"))"));
    }
    for numbers in ["9, 2", "9, -128", "12, 3", "38, 38", "76, 76"] {
        texts.extend(DECIMALS.map(|kind| format!("{kind}({numbers})")));
    }
    for list in ["List", "ListView", "LargeList", "LargeListView"] {
        texts.push(format!("{list}(Int8)"));
        texts.push(format!(
            "{list}(non-null Struct(\"slot\": Int8), field: 'slot')"
        ));
    }
    let others = [
        "Struct()",
        "Struct(\"slot\": non-null Timestamp(s, \"CET\"), \"kwh\": Int8)",
        "Union(Sparse)",
        "Union(Dense)",
        "Union(Dense, 3: (\"slot\": Int8), 0: (\"slot\": Utf8))",
        "Dictionary(UInt8, Utf8)",
        "Dictionary(Int8, List(Timestamp(s, \"CET\")))",
        "RunEndEncoded(non-null Int32, Utf8)",
        "Map(\"e\": non-null Struct(\"k\": non-null Utf8, \"v\": Int8), sorted)",
        "Map(\"e\": non-null Struct(\"k\": non-null Utf8, \"v\": Int8), unsorted)",
    ];
    texts.extend(others.map(str::to_owned));
    texts.retain(|text| text.parse::<DataType>().is_ok());
    texts
}

/// A Struct of one field, nullable or not.
fn of_one(name: &str, text: &str, nullable: bool) -> DataType {
    let role = if nullable { "" } else { "non-null " };
    format!("Struct({name:?}: {role}{text})").parse().unwrap()
}

/// Each need over a name, by each kind with its numbers, each nullability and each answer to zones.
fn all_wanted(name: &str) -> Vec<Wanted<'_>> {
    let flags = [(false, false), (false, true), (true, false), (true, true)];
    let wanted = |head| {
        flags.map(|(null_allowed, zoned)| Wanted {
            name,
            head,
            null_allowed,
            zoned,
        })
    };
    heads().into_iter().flat_map(wanted).collect()
}

#[test]
fn each_field_with_each_need() {
    let all = all_wanted("slot");
    let mut met = vec![0; Kind::ALL.len()];
    for text in texts() {
        for nullable in [false, true] {
            let row = of_one("slot", &text, nullable);
            let field = row.field("slot").unwrap();
            assert_eq!(
                heads().into_iter().filter(|&head| is(head, field)).count(),
                1,
                "{text}"
            );
            for wanted in &all {
                let answer = asked(&row, &[*wanted]);
                assert_eq!(answer, self::answer(&row, &[*wanted]), "{row} {wanted:?}");
                met[field.kind() as usize] += usize::from(answer == Ok(None));
            }
        }
    }
    // Of the four needs with the field's kind and numbers two are met by a non-null field, and one by a nullable one.
    assert!(met.iter().all(|&count| count >= 3), "{met:?}");
}

/// Numbers below a bound, the same in each run.
struct Numbers(u64);

impl Numbers {
    fn below(&mut self, bound: usize) -> usize {
        self.0 = self
            .0
            .wrapping_mul(6_364_136_223_846_793_005)
            .wrapping_add(1_442_695_040_888_963_407);
        (self.0 >> 33) as usize % bound
    }

    fn one_of<T: Clone>(&mut self, all: &[T]) -> T {
        all[self.below(all.len())].clone()
    }

    fn chance(&mut self, of: usize) -> bool {
        self.below(of) == 0
    }
}

const NAMES: [&str; 8] = [
    "slot", "kwh", "slotkwh", "s", "item", "Küche", "дом", "values",
];

/// A Struct of up to nine fields, of which two may have one name.
fn generated_row(numbers: &mut Numbers, texts: &[String]) -> DataType {
    let mut fields = String::new();
    for _ in 0..numbers.below(10) {
        let role = if numbers.chance(2) { "non-null " } else { "" };
        fields += &format!(
            "{:?}: {role}{}, ",
            numbers.one_of(&NAMES),
            numbers.one_of(texts)
        );
    }
    let row = format!("Struct({fields})");
    let whole = if numbers.chance(40) {
        format!("List({row})")
    } else {
        row
    };
    whole.parse().unwrap()
}

/// A need, mostly one of a field that is there.
fn generated_need(
    numbers: &mut Numbers,
    row: &DataType,
    all: &[Wanted<'static>],
) -> Wanted<'static> {
    let mut wanted = numbers.one_of(all);
    wanted.name = if numbers.chance(100) {
        ""
    } else {
        numbers.one_of(&NAMES)
    };
    let Some(field) = row.field(wanted.name) else {
        return wanted;
    };
    if !numbers.chance(20) {
        wanted.head = heads().into_iter().find(|&head| is(head, field)).unwrap();
        wanted.zoned = field.zone().is_some();
        wanted.null_allowed |= field.nullable() == Some(true);
    }
    wanted
}

#[test]
fn generated_rows_and_needs() {
    let (texts, all) = (texts(), all_wanted("slot"));
    let mut numbers = Numbers(7);
    let (mut fit, mut unmet, mut refused) = (0, vec![0; MAX_NEEDS], vec![0; 28]);
    for _ in 0..4_000 {
        let row = generated_row(&mut numbers, &texts);
        let count = if numbers.chance(8) {
            30 + numbers.below(5)
        } else {
            numbers.below(6)
        };
        let wanted: Vec<_> = (0..count)
            .map(|_| generated_need(&mut numbers, &row, &all))
            .collect();
        let answer = asked(&row, &wanted);
        assert_eq!(answer, self::answer(&row, &wanted), "{row:?} {wanted:?}");
        match answer {
            Ok(None) => fit += 1,
            Ok(Some(need)) => unmet[need] += 1,
            Err(number) => refused[number as usize] += 1,
        }
    }
    assert!(
        fit > 100 && unmet[..4].iter().all(|&count| count > 10),
        "{fit} {unmet:?}"
    );
    assert!(refused[25..].iter().all(|&count| count > 10), "{refused:?}");
}

/// A kind with numbers, given alone, is met by no field.
#[test]
fn a_kind_alone() {
    for text in texts() {
        let row = of_one("slot", &text, false);
        let field = row.field("slot").unwrap();
        let plain = heads().contains(&Head::Plain(field.kind()));
        for need in [
            Need::of("slot", field.kind()),
            Need::of("slot", field.kind()).with_zone(),
        ] {
            let met = plain && need == Need::of("slot", field.kind());
            assert_eq!(row.first_unmet(&[need]), Ok((!met).then_some(0)), "{text}");
        }
    }
}

/// The need of a field is the one that says the same by hand.
#[test]
fn needs_of_fields() {
    for text in texts() {
        for nullable in [false, true] {
            let row = of_one("slot", &text, nullable);
            let field = row.field("slot").unwrap();
            let wanted = Wanted {
                name: "slot",
                head: heads().into_iter().find(|&head| is(head, field)).unwrap(),
                null_allowed: nullable,
                zoned: field.zone().is_some(),
            };
            assert_eq!(field.need(), Some(wanted.need()));
            assert_eq!(row.first_unmet(&[field.need().unwrap()]), Ok(None));
        }
    }
    let bare: DataType = "Dictionary(Int8, Utf8)".parse().unwrap();
    assert!(bare.root().subtree().all(|row| row.need().is_none()));
}

/// A Struct meets the needs of its own fields up to the first whose name another field has.
#[test]
fn needs_of_all_fields() {
    let texts = texts();
    let mut numbers = Numbers(11);
    for _ in 0..500 {
        let row = generated_row(&mut numbers, &texts);
        let needs: Vec<Need<'_>> = row.fields().filter_map(Field::need).collect();
        let has_twin = |need: &Need<'_>| {
            needs
                .iter()
                .filter(|other| other.name() == need.name())
                .count()
                > 1
        };
        let expected = match row.root().kind() {
            Kind::Struct => Ok(needs.iter().position(has_twin)),
            _ => Err(Error::NotStruct),
        };
        assert_eq!(row.first_unmet(&needs), expected, "{row:?}");
    }
}

/// Rows that were stored: a Struct of one Int8 field, whose name is a part of the text or of the name list.
fn stored(text: &str, home: u32, start: u32, length: u32) -> DataType {
    let mut rows = vec![0; 2 * ROW_WORDS];
    (rows[0], rows[1]) = (32, 2);
    rows[ROW_WORDS..].copy_from_slice(&[2, 1, 2, 0, 0, 0, home, start, length, 0, 0, 0]);
    DataType::from_parts(text, rows).unwrap()
}

#[test]
fn names_wherever_they_stand() {
    let item = Need::of("item", Kind::Int8);
    assert_eq!(stored("", 2, 0, 4).first_unmet(&[item]), Ok(None));
    assert_eq!(stored("an item", 1, 3, 4).first_unmet(&[item]), Ok(None));
    assert_eq!(stored("items", 1, 0, 5).first_unmet(&[item]), Ok(Some(0)));
    assert_eq!(stored("", 2, 4, 8).first_unmet(&[item]), Ok(Some(0)));
    let run_ends = Need::of("run_ends", Kind::Int8);
    assert_eq!(
        stored("", 2, 4, 8).first_unmet(&[run_ends, run_ends]),
        Ok(None)
    );
}

#[test]
fn long_names_and_many_needs() {
    let longest = "n".repeat(16_384);
    let row = stored(&longest, 1, 0, 16_384);
    let longer = ["n".repeat(16_385), "n".repeat(40_000), "n".repeat(16_383)];
    assert_eq!(
        row.first_unmet(&[Need::of(&longest, Kind::Int8); MAX_NEEDS]),
        Ok(None)
    );
    for name in &longer {
        let needs = [Need::of(&longest, Kind::Int8), Need::of(name, Kind::Int8)];
        assert_eq!(row.first_unmet(&needs), Ok(Some(1)));
    }
    for count in [33, 34, 1_000] {
        let mut needs = vec![Need::of(&longest, Kind::Int8); count];
        assert_eq!(row.first_unmet(&needs), Err(Error::TooManyNeeds));
        needs[0] = Need::of("", Kind::Int8);
        assert_eq!(row.first_unmet(&needs), Err(Error::TooManyNeeds));
        assert_eq!(row.first_unmet(&needs[..32]), Err(Error::WrongNeedName));
    }
}

/// The refusals come in the order of their numbers, and none of them where nothing is needed of a Struct.
#[test]
fn refusals_in_order() {
    let (bare, row): (DataType, DataType) = ("Int8".parse().unwrap(), "Struct()".parse().unwrap());
    let nameless = [Need::of("", Kind::Int8); MAX_NEEDS + 1];
    for needs in [&nameless[..0], &nameless[..1], &nameless] {
        assert_eq!(bare.first_unmet(needs), Err(Error::NotStruct));
    }
    assert_eq!(row.first_unmet(&nameless), Err(Error::TooManyNeeds));
    assert_eq!(row.first_unmet(&nameless[..32]), Err(Error::WrongNeedName));
    let behind = [Need::of("id", Kind::Int8), Need::of("", Kind::Int8)];
    assert_eq!(row.first_unmet(&behind), Err(Error::WrongNeedName));
    assert_eq!(row.first_unmet(&behind[..1]), Ok(Some(0)));
    assert_eq!(row.first_unmet(&[]), Ok(None));
}
