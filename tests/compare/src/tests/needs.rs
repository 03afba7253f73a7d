//! The check of needed columns (document 02, [7]): small inputs with their answers, and that a port with a fault is caught.

use super::{Port, words};
use crate::check::Check;
use crate::model::{self, NAME_LIST, Row, kind};
use crate::needs::{self, Answer, Named, Need, Needed, OUTCOMES, Table, Unmet};
use crate::subject;

const COLUMNS: &str = "Struct(\"a\": Int8, \"b\": non-null Timestamp(s, \"CET\"), \"c\": non-null Decimal64(12, 3), \
                       \"Küche\": List(Int8), \"d\": Int8, \"d\": Date32)";

/// The names of `COLUMNS`, and a byte that is not UTF-8.
const NAMES: &[u8] = b"abcK\xc3\xbcched\xff";

/// A need of these numbers: where the name stands, kind and words 4 and 5.
fn need(
    (start, size): (u32, u32),
    [kind, number, scale]: [u32; 3],
    nullable: bool,
    zoned: bool,
) -> Need {
    Need {
        start,
        size,
        kind,
        number,
        scale,
        nullable,
        zoned,
    }
}

const DATE32: u32 = 14;

/// Needs that `COLUMNS` meet.
fn a() -> Need {
    need((0, 1), [kind::INT8, 0, 0], true, false)
}
fn b() -> Need {
    need((1, 1), [kind::TIMESTAMP, 0, 0], false, true)
}
fn c() -> Need {
    need((2, 1), [kind::DECIMAL32 + 1, 12, 131], false, false)
}
fn kitchen() -> Need {
    need((3, 6), [kind::LIST, 0, 0], true, false)
}

/// What the model says of these rows and needs, and the port, where it is linked.
fn answer_of(text: &str, words: &[u32], needs: &[Need]) -> Answer {
    let table = (text.as_bytes(), NAME_LIST, words);
    let needed = Needed {
        text: NAMES.to_vec(),
        needs: needs.to_vec(),
    };
    let answer = needs::needs(table, &needed);
    if let Some(port) = subject::linked() {
        assert_eq!(port.needs(table, &needed), answer);
    }
    answer
}

fn answer(text: &str, needs: &[Need]) -> Answer {
    answer_of(text, &words(text), needs)
}

#[test]
fn met() {
    let all = [a(), b(), c(), kitchen()];
    assert_eq!(answer(COLUMNS, &[]), Ok(None));
    assert_eq!(answer("Struct()", &[]), Ok(None));
    assert_eq!(answer(COLUMNS, &all), Ok(None));
    assert_eq!(answer(COLUMNS, &all.repeat(8)), Ok(None));
    let nullable = true;
    assert_eq!(answer(COLUMNS, &[Need { nullable, ..b() }]), Ok(None));
}

#[test]
fn unmet() {
    let d = (9, 1);
    #[rustfmt::skip]
    let unmet = [
        Need { size: 2, ..a() },
        Need { size: 5, ..kitchen() },
        Need { start: 10, ..a() },
        need(d, [kind::INT8, 0, 0], true, false),
        need(d, [DATE32, 0, 0], true, false),
        Need { kind: 3, ..a() },
        Need { kind: u32::MAX, ..a() },
        Need { number: 1, ..b() },
        Need { number: 1 << 31, ..a() },
        Need { scale: 3, ..c() },
        Need { scale: 1, ..a() },
        Need { nullable: false, ..a() },
        Need { zoned: true, ..a() },
        Need { zoned: false, ..b() },
    ];
    for unmet in unmet {
        assert_eq!(answer(COLUMNS, &[unmet]), Ok(Some(0)), "{unmet:?}");
        assert_eq!(answer(COLUMNS, &[b(), unmet, c(), unmet]), Ok(Some(1)));
        let last = [vec![a(); 31], vec![unmet]].concat();
        assert_eq!(answer(COLUMNS, &last), Ok(Some(31)));
    }
}

#[test]
fn refusals_of_needs() {
    let end = NAMES.len() as u32;
    let unmet = Need { zoned: true, ..a() };
    for (start, size) in [
        (0, 0),
        (end, 0),
        (end, 1),
        (0, end + 1),
        (end - 1, 2),
        (u32::MAX, 0),
        (u32::MAX, 1),
        (u32::MAX, 2),
        (1, u32::MAX),
        (u32::MAX, u32::MAX),
    ] {
        let malformed = Need { start, size, ..a() };
        assert_eq!(answer(COLUMNS, &[malformed]), Err(27));
        assert_eq!(answer(COLUMNS, &[unmet, malformed]), Err(27));
        assert_eq!(answer(COLUMNS, &[malformed; 33]), Err(26));
        for other in [
            "Int8",
            "Union(Dense, 0: (\"a\": Int8))",
            "List(Struct(\"a\": Int8))",
        ] {
            assert_eq!(answer(other, &[malformed; 33]), Err(25));
        }
        for count in [0, 1, 33] {
            let wrong = [words(COLUMNS), vec![0]].concat();
            let needs = vec![malformed; count];
            assert_eq!(answer_of(COLUMNS, &wrong, &needs), Err(17));
            assert_eq!(answer_of(COLUMNS, &[], &needs), Err(17));
        }
    }
    assert_eq!(answer(COLUMNS, &[a(); 32]), Ok(None));
    assert_eq!(answer(COLUMNS, &[a(); 33]), Err(26));
    assert_eq!(answer("Int8", &[]), Err(25));
}

/// What a port does wrong.
#[derive(Clone, Copy, Debug, PartialEq)]
pub enum Fault {
    None,
    SoundnessUnasked,
    StructUnasked,
    StructBeforeSoundness,
    CountBeforeStruct,
    NamesBeforeCount,
    ThirtyThreeNeeds,
    ThirtyOneNeeds,
    MalformedBehindAnUnmet,
    EmptyNameUnmet,
    EndOf32Bits,
    TextOfNeedsUtf8,
    NamesInTheTreesText,
    NoNeedsUnmet,
    LastUnmet,
    CountedFromOne,
    FirstOfAName,
    LastOfAName,
    RowsOfAllLevels,
    StartOfAFieldsName,
    StartOfANeedsName,
    KindUnasked,
    NumberUnasked,
    NumberOf16Bits,
    ScaleUnasked,
    NullLetThrough,
    NonNullRefused,
    MissingZoneLetThrough,
    UnaskedZoneLetThrough,
}

/// All faults but `None`.
const FAULTS: [Fault; 28] = [
    Fault::SoundnessUnasked,
    Fault::StructUnasked,
    Fault::StructBeforeSoundness,
    Fault::CountBeforeStruct,
    Fault::NamesBeforeCount,
    Fault::ThirtyThreeNeeds,
    Fault::ThirtyOneNeeds,
    Fault::MalformedBehindAnUnmet,
    Fault::EmptyNameUnmet,
    Fault::EndOf32Bits,
    Fault::TextOfNeedsUtf8,
    Fault::NamesInTheTreesText,
    Fault::NoNeedsUnmet,
    Fault::LastUnmet,
    Fault::CountedFromOne,
    Fault::FirstOfAName,
    Fault::LastOfAName,
    Fault::RowsOfAllLevels,
    Fault::StartOfAFieldsName,
    Fault::StartOfANeedsName,
    Fault::KindUnasked,
    Fault::NumberUnasked,
    Fault::NumberOf16Bits,
    Fault::ScaleUnasked,
    Fault::NullLetThrough,
    Fault::NonNullRefused,
    Fault::MissingZoneLetThrough,
    Fault::UnaskedZoneLetThrough,
];

/// The check with a fault.
pub fn faulty(fault: Fault, table: Table, needed: &Needed) -> Answer {
    let (text, list, words) = table;
    let rows = model::from_words(words);
    if let Some(number) = refused(fault, table, &rows, needed) {
        return Err(number);
    }
    if fault == Fault::NoNeedsUnmet && needed.needs.is_empty() {
        return Ok(Some(0));
    }
    let fields = match fault {
        Fault::RowsOfAllLevels => {
            let named = |row: &Row| (model::row_name(text, list, row), *row);
            rows[1..].iter().map(named).collect()
        }
        _ => needs::fields(text, list, &rows),
    };
    let names = match fault {
        Fault::NamesInTheTreesText => text,
        _ => &needed.text,
    };
    let mut unmet = Vec::new();
    for (at, need) in needed.needs.iter().enumerate() {
        let name = need.name(names);
        if name.is_none() && fault == Fault::MalformedBehindAnUnmet {
            return Err(needs::WRONG_NAME);
        }
        if !name.is_some_and(|name| is_met(fault, &fields, name, need)) {
            if fault == Fault::MalformedBehindAnUnmet {
                return Ok(Some(at));
            }
            unmet.push(at + usize::from(fault == Fault::CountedFromOne));
        }
    }
    let last = fault == Fault::LastUnmet;
    Ok(if last { unmet.last() } else { unmet.first() }.copied())
}

/// The refusals, in an order and with bounds of the fault.
fn refused(fault: Fault, table: Table, rows: &[Row], needed: &Needed) -> Option<u32> {
    let (text, list, words) = table;
    let unasked = fault == Fault::SoundnessUnasked && !rows.is_empty();
    let sound = unasked || model::sound(text, list, words);
    let root = rows.first().map_or(0, |root| root.kind);
    let is_struct = root == kind::STRUCT || fault == Fault::StructUnasked;
    let most = match fault {
        Fault::ThirtyThreeNeeds => 33,
        Fault::ThirtyOneNeeds => 31,
        _ => 32,
    };
    let count = needed.needs.len() <= most;
    let named = needed
        .needs
        .iter()
        .all(|need| is_named(fault, need, &needed.text));
    let mut order = [(sound, 17), (is_struct, 25), (count, 26), (named, 27)];
    match fault {
        Fault::StructBeforeSoundness => order.swap(0, 1),
        Fault::CountBeforeStruct => order.swap(1, 2),
        Fault::NamesBeforeCount => order.swap(2, 3),
        _ => {}
    }
    let first = order.iter().find(|(good, _)| !good);
    first.map(|(_, number)| *number)
}

/// Whether a need's name is let through.
fn is_named(fault: Fault, need: &Need, text: &[u8]) -> bool {
    let name = need.name(text);
    match fault {
        Fault::MalformedBehindAnUnmet => true,
        Fault::EmptyNameUnmet => name.is_some() || need.size == 0,
        Fault::EndOf32Bits => {
            let end = need.start.wrapping_add(need.size) as usize;
            need.size > 0 && end <= text.len()
        }
        Fault::TextOfNeedsUtf8 => name.is_some() && str::from_utf8(text).is_ok(),
        _ => name.is_some(),
    }
}

fn is_met(fault: Fault, fields: &[Named], name: &[u8], need: &Need) -> bool {
    let mut same = fields.iter().filter(|(field, _)| match fault {
        Fault::StartOfAFieldsName => field.starts_with(name),
        Fault::StartOfANeedsName => name.starts_with(field),
        _ => *field == name,
    });
    let found = match (fault, same.clone().count()) {
        (Fault::FirstOfAName, _) | (_, 1) => same.next(),
        (Fault::LastOfAName, _) => same.next_back(),
        _ => None,
    };
    found.is_some_and(|(_, row)| {
        let refused = fault == Fault::NonNullRefused && row.role == 2 && need.nullable;
        let need = &lenient(fault, row, need);
        !refused && needs::differs(row, need).is_none()
    })
}

/// The need without what the port does not ask of the row.
fn lenient(fault: Fault, row: &Row, need: &Need) -> Need {
    let mut need = *need;
    let unmet = needs::differs(row, &need);
    match fault {
        Fault::KindUnasked => need.kind = row.kind,
        Fault::NumberUnasked => need.number = row.number,
        Fault::NumberOf16Bits if need.number as u16 == row.number as u16 => {
            need.number = row.number;
        }
        Fault::ScaleUnasked => need.scale = row.scale,
        Fault::NullLetThrough => need.nullable = true,
        Fault::MissingZoneLetThrough if unmet == Some(Unmet::ZoneMissing) => need.zoned = false,
        Fault::UnaskedZoneLetThrough if unmet == Some(Unmet::ZoneUnasked) => need.zoned = true,
        _ => {}
    }
    need
}

/// A short run of the checks with the port.
fn short_run(fault: Fault) -> usize {
    let port = Port(super::Fault::Needs(fault));
    let mut check = Check::new(Some(&port), 1);
    check.columns(3_000);
    for (outcome, count) in OUTCOMES.iter().zip(check.needs.outcomes) {
        assert!(count > 0, "never: {outcome}");
    }
    assert!(check.needs.is_full());
    check.differences()
}

#[test]
fn faults_in_needs_are_caught() {
    assert_eq!(short_run(Fault::None), 0);
    for fault in FAULTS {
        assert!(short_run(fault) > 0, "{fault:?} is not caught");
    }
}
