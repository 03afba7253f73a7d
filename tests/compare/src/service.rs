//! The crate that services use, in bindings/rust, beside the Rust: reading, every field's view, the classes of types,
//! printing as `µs`, rewriting and equality; beside the model number and place of a refused text, printing in the default spelling,
//! the image of the archive record, written and read back, and the rows in halves, kept and brought back.

use crate::archive;
use crate::generate::{Random, Visit, damage, limits, places, texts};
use crate::half_rows;
use crate::model::{self, Limits, MOST_BYTES, MOST_ROWS, NAME_LIST};
use crate::oracle::{self, Answer, ErrorKind, Row};
use arrow_types::{DataType, Error, Field, MAX_TEXT, ReadError, Spelling, rewrite_with};
use std::collections::BTreeMap;
use std::process::ExitCode;

pub fn run(settings: &BTreeMap<String, u64>) -> ExitCode {
    let setting = |name, usual| settings.get(name).copied().unwrap_or(usual);
    let (mut all, mut accepted, mut differences) = (0, 0, 0);
    generate(setting("seed", 1), setting("texts", 200_000), &mut |text| {
        all += 1;
        match compared(text) {
            Ok(read) => accepted += usize::from(read),
            Err(what) => {
                differences += 1;
                println!("{what}\n  {}", text.escape_ascii());
            }
        }
    });
    println!("{all} texts, {accepted} accepted by both, {differences} differences");
    ExitCode::from(u8::from(differences > 0))
}

fn generate(seed: u64, count: u64, visit: Visit) {
    let mut random = Random::new(seed);
    places::words(visit);
    places::numbers(visit);
    places::escapes(visit);
    places::characters(visit);
    limits::rows(visit);
    for _ in 0..count {
        let rows = random.between(1, 20);
        let faults = [0, 0, 20][random.below(3)];
        let tokens = texts::random(&mut random, rows, faults);
        visit(&texts::join(&mut random, &tokens));
        visit(&damage::damaged(&mut random, &tokens));
    }
}

/// Whether both accept a text, or how they differ. The Rust knows no limits and no bytes that are not UTF-8.
fn compared(text: &[u8]) -> Result<bool, String> {
    let read = DataType::try_from(text);
    let placed = |error: &ReadError| (error.number(), error.place());
    let refused = read.as_ref().err().map(placed);
    let model = model::read_placed(text, Limits::lent(MOST_ROWS)).err();
    if refused != model {
        return Err(format!("{refused:?}, and the model {model:?}"));
    }
    let read = read.map_err(Error::from);
    let rust = match std::str::from_utf8(text) {
        Ok(text) => oracle::read(text),
        Err(_) if matches!(read, Err(Error::NotUtf8 | Error::TextTooLong)) => return Ok(false),
        Err(_) => return Err(format!("not UTF-8, and {read:?}")),
    };
    match (read, rust) {
        (Err(Error::TextTooLong | Error::TooDeep | Error::TooManyRows), _) => Ok(false),
        (Ok(read), Answer::Accepted { data_type, rows }) => trees(&read, &data_type, &rows),
        (Err(refused), Answer::Refused { error, number, .. }) => {
            let argument = refused == Error::WrongUnionId;
            let same = number.is_none_or(|number| number == refused.number());
            let same = same && argument == (error == ErrorKind::InvalidArgument);
            same.then_some(false)
                .ok_or(format!("{refused:?}, and the Rust {number:?} {error:?}"))
        }
        (read, _) => Err(format!("{read:?}, and the Rust the contrary")),
    }
}

fn trees(read: &DataType, rust: &arrow_schema::DataType, rows: &[Row]) -> Result<bool, String> {
    let mut fields = read.root().subtree().zip(rows);
    if read.row_count() != rows.len() || fields.any(|(field, row)| row != &seen(field, row)) {
        return Err(format!("{read:?} with other rows than the Rust's"));
    }
    let classes = [read.is_nested(), read.is_numeric(), read.is_temporal()];
    if classes != [rust.is_nested(), rust.is_numeric(), rust.is_temporal()] {
        return Err(format!("{read:?} nested, numeric, temporal: {classes:?}"));
    }
    archived(read)?;
    halved(read)?;
    let plain = printed_by_default(read)?;
    let printed = match (read.print_with(Spelling::Micro), rust.to_string()) {
        (Ok(printed), other) if printed == other => printed,
        (Err(Error::NotLatin), _) if !rows.iter().all(is_latin) => return Ok(true),
        (Err(Error::PrintTooLong), other) if other.len() > MAX_TEXT => return Ok(true),
        (printed, other) => return Err(format!("prints {printed:?}, and the Rust {other}")),
    };
    let again = printed.parse().as_ref() == Ok(read);
    rewritten(read, &printed, again)?;
    if again != plain.is_ok_and(|plain| plain.parse().as_ref() == Ok(read)) {
        return Err(format!(
            "{printed} reads back equal: {again}, and not as `us`"
        ));
    }
    let same = again
        == printed
            .parse()
            .is_ok_and(|again: arrow_schema::DataType| &again == rust);
    same.then_some(true)
        .ok_or(format!("{printed} reads back equal: {again}"))
}

/// Whether the text is rewritten as what is printed, just where that reads back equal.
fn rewritten(read: &DataType, printed: &str, again: bool) -> Result<(), String> {
    let rewritten = rewrite_with(read.text(), Spelling::Micro).ok();
    let same = rewritten.as_deref() == again.then_some(printed);
    same.then_some(())
        .ok_or_else(|| format!("{printed} is rewritten as {rewritten:?}"))
}

/// What the crate prints where no spelling is named, which the model prints too.
fn printed_by_default(read: &DataType) -> Result<Result<String, Error>, String> {
    let printed = read.print();
    let (spelling, text) = (model::Spelling::Us, read.text().as_bytes());
    let model = model::print(spelling, text, NAME_LIST, read.rows(), MOST_BYTES);
    let same = match (&printed, &model) {
        (Ok(printed), Ok(model)) => printed.as_bytes() == model,
        (Err(error), Err(number)) => error.number() == *number,
        _ => false,
    };
    same.then(|| printed.clone())
        .ok_or_else(|| format!("prints {printed:?} by default, and the model {model:?}"))
}

/// Whether the image is the model's, and reads back as the type.
fn archived(read: &DataType) -> Result<(), String> {
    let model = archive::image((read.text().as_bytes(), NAME_LIST, read.rows()));
    let image = read.to_archive();
    let back = DataType::from_archive(&image);
    if Ok(&image) == model.as_ref() && back.as_ref() == Ok(read) {
        return Ok(());
    }
    Err(format!(
        "{read:?} archived as {image:?} and read back as {back:?}"
    ))
}

/// Whether it is kept in the model's halves, and comes back with the same text and rows.
fn halved(read: &DataType) -> Result<(), String> {
    let model = half_rows::halved((read.text().as_bytes(), NAME_LIST, read.rows()));
    let kept = read.to_half_rows();
    let back = kept.to_data_type();
    let same = (back.text(), back.rows()) == (read.text(), read.rows());
    if model.as_deref() == Ok(kept.halves()) && same {
        return Ok(());
    }
    Err(format!("{read:?} kept as {kept:?} and back as {back:?}"))
}

/// Whether all characters of a row's name and zone are up to U+017F.
fn is_latin(row: &Row) -> bool {
    let latin = |part: &[u8]| str::from_utf8(part).is_ok_and(oracle::is_latin);
    latin(&row.name) && latin(&row.zone)
}

/// A field as a row of the Rust's tree, through every function of its view; the home is not shown.
fn seen(field: Field, row: &Row) -> Row {
    let number = field.time_unit().map(|unit| unit as u32);
    let number = number.or(field.interval_unit().map(|unit| unit as u32));
    let number = number
        .or(field.length())
        .or(field.precision().map(u32::from));
    let number = number.or(field.union_mode().map(|mode| mode as u32));
    Row {
        kind: field.kind().number(),
        rows: field.row_count() as u32,
        role: field
            .nullable()
            .map_or(0, |nullable| 2 - u32::from(nullable)),
        union_id: field.union_id().map_or(0, |id| id as u32),
        number: number.or(field.keys_sorted().map(u32::from)).unwrap_or(0),
        scale: field
            .scale()
            .map_or(0, |scale| (i32::from(scale) + 128) as u32),
        name: field.name().unwrap_or("").into(),
        home: row.home,
        zone: field.zone().unwrap_or("").into(),
        parent: field.parent().map_or(0, |parent| parent.row() as u32),
    }
}
