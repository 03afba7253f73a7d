//! Rows in halves: small inputs with their answers, and that a port with a fault is caught.

use super::{Port, words};
use crate::check::Check;
use crate::column_out::NO_ROOM;
use crate::generate::trees;
use crate::half_rows::{self, Answer, HALF_WORDS, Kept, TWO_HALVES};
use crate::model::{self, MOST_ROWS, NAME_LIST, WORDS, refusal};
use crate::needs::Table;
use crate::subject;

/// Word 2 of a row, its role.
const ROLE: usize = 2;

/// A table in halves where so many half words are lent, by the model and by the port, where it is linked.
fn kept(table: Table, lent: usize) -> Result<Vec<u16>, u32> {
    let kept = half_rows::kept(table, lent);
    if let Some(port) = subject::linked() {
        let mut halves = vec![9; lent];
        let answer = port.to_half_rows(table, &mut halves);
        let expected = kept.as_ref().map(|kept| kept.len() / HALF_WORDS);
        assert_eq!(answer, expected.map_err(|number| *number));
        let mut then = kept.clone().unwrap_or_default();
        then.resize(lent, 9);
        assert_eq!(halves, then);
    }
    kept
}

/// The same of a text's tree.
fn halves(text: &str, lent: usize) -> Result<Vec<u16>, u32> {
    kept((text.as_bytes(), NAME_LIST, &words(text)), lent)
}

/// What half words are brought back as where so many words are lent, by the model and by the port, where it is linked.
fn back(kept: Kept, lent: usize) -> Result<Vec<u32>, u32> {
    let back = half_rows::brought_back(kept, lent).map_err(half_rows::Cause::number);
    if let Some(port) = subject::linked() {
        let mut rows = vec![7; lent];
        let answer = port.from_half_rows(kept, &mut rows);
        let expected = back.as_ref().map(|words| words.len() / WORDS);
        assert_eq!(answer, expected.map_err(|number| *number));
        let mut then = back.clone().unwrap_or_default();
        then.resize(lent, 7);
        assert_eq!(rows, then);
    }
    back
}

/// The same over a text and the name list.
fn over(text: &str, halves: &[u16], lent: usize) -> Result<Vec<u32>, u32> {
    back((text.as_bytes(), NAME_LIST, halves), lent)
}

/// So many half words, of which the first are these and the others 0.
fn row(first: &[u16]) -> [u16; HALF_WORDS] {
    let mut row = [0; HALF_WORDS];
    row[..first.len()].copy_from_slice(first);
    row
}

#[test]
fn trees_kept() {
    let one = |first: &[u16]| Ok(row(first).to_vec());
    assert_eq!(halves("Int8", 13), one(&[2, 1]));
    assert_eq!(halves("Int8", 12), Err(28));
    assert_eq!(
        halves("FixedSizeBinary(2147483647)", 13),
        one(&[21, 1, 0, 0, 65535, 32767])
    );
    assert_eq!(
        halves("FixedSizeBinary(65536)", 13),
        one(&[21, 1, 0, 0, 0, 1])
    );
    assert_eq!(
        halves("FixedSizeBinary(65535)", 13),
        one(&[21, 1, 0, 0, 65535])
    );
    let columns = "Struct(\"slot\": non-null Timestamp(s, \"CET\"), \"kwh\": Decimal64(12, 3))";
    let expected = [
        row(&[32, 3]),
        row(&[13, 1, 2, 0, 0, 0, 0, 1, 8, 4, 38, 3, 0]),
        row(&[36, 1, 1, 0, 12, 0, 131, 1, 46, 3, 0, 0, 0]),
    ];
    assert_eq!(halves(columns, 39), Ok(expected.concat()));
    assert_eq!(halves(columns, 38), Err(28));
    let expected = [row(&[27, 2]), row(&[2, 1, 1, 0, 0, 0, 0, 2, 0, 4])];
    assert_eq!(halves("List(Int8)", 26), Ok(expected.concat()));
    assert_eq!(halves("List(Int8)", 30), Ok(expected.concat()));
    let union = halves("Union(Dense, 127: (\"x\": Int8))", 26).unwrap();
    assert_eq!(union[13..], row(&[2, 1, 1, 127, 0, 0, 0, 1, 20, 1]));
}

#[test]
fn unsound_trees_are_not_kept() {
    let mut int8 = words("Int8");
    int8[ROLE] = 1;
    for lent in [0, 13] {
        assert_eq!(kept((b"Int8", NAME_LIST, &int8), lent), Err(17));
    }
    let rows = 1_025;
    let tree = trees::of_rows(&mut crate::generate::Random::new(1), rows);
    assert_eq!(kept((&tree.text, &tree.list, &tree.words), 0), Err(17));
}

#[test]
fn halves_brought_back() {
    let int8 = row(&[2, 1]);
    let wide = vec![2, 1, 0, 0, 0, 0, 0, 0, 0, 0, 0, 0];
    for text in ["Int8", "", "Utf8", "Struct(\"a\": Int8)"] {
        assert_eq!(over(text, &int8, 12), Ok(wide.clone()));
        assert_eq!(over(text, &int8, 40), Ok(wide.clone()));
    }
    assert_eq!(over("Int8", &int8, 11), Err(28));
    assert_eq!(over("Int8", &int8, 0), Err(28));
    let greatest = over("", &row(&[21, 1, 0, 0, 65535, 32767]), 12).unwrap();
    assert_eq!(greatest[..5], [21, 1, 0, 0, 2_147_483_647]);
    assert_eq!(over("", &row(&[21, 1, 0, 0, 65535, 32768]), 12), Err(17));
}

#[test]
fn halves_that_are_no_tree() {
    let int8 = row(&[2, 1]);
    for lent in [0, 12, 100] {
        assert_eq!(over("Int8", &[], lent), Err(17));
        assert_eq!(over("Int8", &int8[..12], lent), Err(17));
        assert_eq!(over("Int8", &[&int8[..], &[0]].concat(), lent), Err(17));
        assert_eq!(over("Int8", &[int8, int8].concat(), lent), Err(17));
        for (at, half) in [
            (0, 41),
            (1, 65_535),
            (5, 1),
            (4, 1),
            (12, 1),
            (2, 1),
            (6, 1),
        ] {
            let mut changed = int8;
            changed[at] = half;
            assert_eq!(over("Int8", &changed, lent), Err(17), "{half} at {at}");
        }
        assert_eq!(back((b"Int8", b"item", &int8), lent), Err(17));
        assert_eq!(back((b"\xff", NAME_LIST, &int8), lent), Err(17));
        let tree = trees::of_rows(&mut crate::generate::Random::new(1), MOST_ROWS + 1);
        let over = half_rows::in_halves(&tree.words).unwrap();
        assert_eq!(over.len(), 13_325);
        assert_eq!(back((&tree.text, NAME_LIST, &over), lent), Err(17));
    }
}

#[test]
fn over_another_text() {
    let halves = halves("Struct(\"a\": Int8)", 26).unwrap();
    let name = |text: &str| -> Result<String, u32> {
        let words = over(text, &halves, 24)?;
        let rows = model::from_words(&words);
        Ok(
            String::from_utf8(model::row_name(text.as_bytes(), NAME_LIST, &rows[1]).to_vec())
                .unwrap(),
        )
    };
    assert_eq!(name("Struct(\"b\": Int8)"), Ok("b".into()));
    assert_eq!(name("xxxxxxxxb"), Ok("b".into()));
    assert_eq!(name("xxxxxxxx"), Err(17));
    assert_eq!(name("Struct"), Err(17));
}

#[test]
fn words_that_no_half_holds() {
    let mut words = words("Int8");
    words[5] = 65_535;
    assert!(half_rows::in_halves(&words).is_some());
    words[5] = 65_536;
    assert_eq!(half_rows::in_halves(&words), None);
}

/// What a port does wrong.
#[derive(Clone, Copy, Debug, PartialEq)]
pub enum Fault {
    None,
    HighBeforeLow,
    HighLeftOut,
    LowOf15Bits,
    HighBehindTheTwelve,
    WordFiveTwice,
    ScaleSigned,
    KeptRoomFirst,
    KeptUnsound,
    KeptBeforeRoom,
    RoomByTwelve,
    OneHalfOfRoomMissing,
    FirstRowAlone,
    HalvesBehindZeroed,
    HalvesOfARefusal,
    CountOfHalves,
    BackHighBeforeLow,
    BackHighLeftOut,
    BackHighOf15Bits,
    LeftOverLetThrough,
    LeftOverBehindRoom,
    NoWordsLetThrough,
    NoWordsBehindRoom,
    RoomByThirteen,
    RoomFirst,
    SoundnessUnasked,
    SoundnessOfTheFirstRow,
    WrittenThenJudged,
    WrittenBeforeRoom,
    NamesUnasked,
    TextUnasked,
    ParentsSetAgain,
    MoreThan1024,
    WordsBehindZeroed,
    WordsOfARefusal,
    CountOfWords,
}

/// All faults but `None`.
const FAULTS: [Fault; 35] = [
    Fault::HighBeforeLow,
    Fault::HighLeftOut,
    Fault::LowOf15Bits,
    Fault::HighBehindTheTwelve,
    Fault::WordFiveTwice,
    Fault::ScaleSigned,
    Fault::KeptRoomFirst,
    Fault::KeptUnsound,
    Fault::KeptBeforeRoom,
    Fault::RoomByTwelve,
    Fault::OneHalfOfRoomMissing,
    Fault::FirstRowAlone,
    Fault::HalvesBehindZeroed,
    Fault::HalvesOfARefusal,
    Fault::CountOfHalves,
    Fault::BackHighBeforeLow,
    Fault::BackHighLeftOut,
    Fault::BackHighOf15Bits,
    Fault::LeftOverLetThrough,
    Fault::LeftOverBehindRoom,
    Fault::NoWordsLetThrough,
    Fault::NoWordsBehindRoom,
    Fault::RoomByThirteen,
    Fault::RoomFirst,
    Fault::SoundnessUnasked,
    Fault::SoundnessOfTheFirstRow,
    Fault::WrittenThenJudged,
    Fault::WrittenBeforeRoom,
    Fault::NamesUnasked,
    Fault::TextUnasked,
    Fault::ParentsSetAgain,
    Fault::MoreThan1024,
    Fault::WordsBehindZeroed,
    Fault::WordsOfARefusal,
    Fault::CountOfWords,
];

/// A row in halves, with a fault.
fn faulty_halves(fault: Fault, row: &[u32]) -> Vec<u16> {
    let number = row[TWO_HALVES];
    let (low, high) = (number as u16, (number >> 16) as u16);
    let two = match fault {
        Fault::HighBeforeLow => [high, low],
        Fault::HighLeftOut => [low, 0],
        Fault::LowOf15Bits => [low & 0x7fff, high],
        _ => [low, high],
    };
    let mut halves: Vec<u16> = row.iter().map(|word| *word as u16).collect();
    halves.splice(TWO_HALVES..TWO_HALVES + 1, two);
    match fault {
        Fault::HighBehindTheTwelve => halves[TWO_HALVES + 1..].rotate_left(1),
        Fault::WordFiveTwice => halves[TWO_HALVES + 3] = halves[TWO_HALVES + 2],
        Fault::ScaleSigned => {
            let scale = halves[TWO_HALVES + 2];
            halves[TWO_HALVES + 2] = if scale == 0 {
                0
            } else {
                scale.wrapping_sub(128)
            };
        }
        _ => {}
    }
    halves
}

/// Keeping a tree with a fault.
pub fn faulty_keep(fault: Fault, (text, list, words): Table, halves: &mut [u16]) -> Answer {
    let sound = model::sound(text, list, words) || fault == Fault::KeptUnsound;
    let count = words.len() / WORDS;
    let kept: Vec<u16> = words
        .chunks_exact(WORDS)
        .flat_map(|row| faulty_halves(fault, row))
        .collect();
    let needed = match fault {
        Fault::RoomByTwelve => count * WORDS,
        Fault::OneHalfOfRoomMissing => kept.len() + 1,
        _ => kept.len(),
    };
    let fits = needed <= halves.len();
    let filled = match fault {
        Fault::FirstRowAlone => kept.len().min(HALF_WORDS),
        _ => kept.len().min(halves.len()),
    };
    if fault == Fault::KeptBeforeRoom && sound {
        halves[..filled].copy_from_slice(&kept[..filled]);
    }
    let mut order = [(sound, refusal::NOT_SOUND), (fits, NO_ROOM)];
    if fault == Fault::KeptRoomFirst {
        order.swap(0, 1);
    }
    if let Some((_, number)) = order.iter().find(|(good, _)| !good) {
        if fault == Fault::HalvesOfARefusal {
            halves.fill(0);
        }
        return Err(*number);
    }
    let filled = filled.min(halves.len());
    halves[..filled].copy_from_slice(&kept[..filled]);
    if fault == Fault::HalvesBehindZeroed {
        halves[filled..].fill(0);
    }
    Ok(match fault {
        Fault::CountOfHalves => kept.len(),
        _ => count,
    })
}

/// A row's words, with a fault.
fn faulty_words(fault: Fault, halves: &[u16]) -> Vec<u32> {
    let [low, high] = [halves[TWO_HALVES], halves[TWO_HALVES + 1]].map(u32::from);
    let number = match fault {
        Fault::BackHighBeforeLow => low << 16 | high,
        Fault::BackHighLeftOut => low,
        Fault::BackHighOf15Bits => (high & 0x7fff) << 16 | low,
        _ => high << 16 | low,
    };
    let mut words: Vec<u32> = halves.iter().map(|half| u32::from(*half)).collect();
    words.splice(TWO_HALVES..TWO_HALVES + 2, [number]);
    words
}

/// Whether rows are sound, with a fault.
fn faulty_sound(fault: Fault, (text, list, words): Table) -> bool {
    match fault {
        Fault::SoundnessUnasked => true,
        Fault::SoundnessOfTheFirstRow if words.len() >= WORDS => {
            model::numbers(&model::from_words(words)[0])
        }
        Fault::NamesUnasked => model::sound(text, NAME_LIST, words),
        // Of the text that the rows need.
        Fault::TextUnasked => model::sound(
            &[
                text,
                &vec![b'x'; model::MOST_BYTES - text.len().min(model::MOST_BYTES)],
            ]
            .concat(),
            list,
            words,
        ),
        Fault::ParentsSetAgain => model::sound(text, list, &model::with_parents(words)),
        Fault::NoWordsLetThrough if words.is_empty() => true,
        _ => model::sound(text, list, words),
    }
}

/// Bringing rows in halves back with a fault.
pub fn faulty_back(fault: Fault, (text, list, halves): Kept, rows: &mut [u32]) -> Answer {
    let count = halves.len() / HALF_WORDS;
    let whole = halves.len().is_multiple_of(HALF_WORDS) || fault == Fault::LeftOverLetThrough;
    let words: Vec<u32> = halves
        .chunks_exact(HALF_WORDS)
        .flat_map(|row| faulty_words(fault, row))
        .collect();
    let sound = faulty_sound(fault, (text, list, &words));
    let needed = match fault {
        Fault::RoomByThirteen => halves.len(),
        _ => words.len(),
    };
    let fits = needed <= rows.len();
    let filled = words.len().min(rows.len());
    if fault == Fault::WrittenThenJudged && whole && fits
        || fault == Fault::WrittenBeforeRoom && whole && sound
    {
        rows[..filled].copy_from_slice(&words[..filled]);
    }
    let soundness = match fault {
        Fault::MoreThan1024 if count > MOST_ROWS => NO_ROOM,
        Fault::NoWordsBehindRoom if count == 0 && rows.is_empty() => NO_ROOM,
        _ => refusal::NOT_SOUND,
    };
    let mut order = [
        (whole, refusal::NOT_SOUND),
        (sound, soundness),
        (fits, NO_ROOM),
    ];
    match fault {
        Fault::LeftOverBehindRoom => order.rotate_left(1),
        Fault::RoomFirst => order.swap(1, 2),
        _ => {}
    }
    if let Some((_, number)) = order.iter().find(|(good, _)| !good) {
        if fault == Fault::WordsOfARefusal {
            rows.fill(0);
        }
        return Err(*number);
    }
    rows[..filled].copy_from_slice(&words[..filled]);
    if fault == Fault::ParentsSetAgain {
        let set = model::with_parents(rows);
        rows[..filled].copy_from_slice(&set[..filled]);
    }
    if fault == Fault::WordsBehindZeroed {
        rows[filled..].fill(0);
    }
    Ok(match fault {
        Fault::CountOfWords => words.len(),
        _ => count,
    })
}

/// A short run with the port, which broke so many clauses and in which so much did not come.
fn short_run(fault: Fault, trees: usize) -> (usize, Vec<&'static str>) {
    let port = Port(super::Fault::HalfRows(fault));
    let mut check = Check::new(Some(&port), 1);
    check.half_rows(trees);
    let random = &mut crate::generate::Random::new(1);
    for _ in 0..300 {
        let tree = trees::sound(random, trees::Letters::Ascii, 12);
        check.any_tree(&trees::changed(random, &tree));
    }
    (check.differences(), check.half_rows.missing())
}

#[test]
fn faults_in_half_rows_are_caught() {
    let (differences, missing) = short_run(Fault::None, 6_000);
    assert_eq!(differences, 0);
    assert!(missing.is_empty(), "never: {missing:?}");
    for fault in FAULTS {
        assert!(short_run(fault, 1_500).0 > 0, "{fault:?} is not caught");
    }
}
