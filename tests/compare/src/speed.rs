//! How fast the port reads beside the Rust's `from_str` and prints beside its `to_string`: the same
//! texts, in one process, in turn; writes and reads the image of each beside the plain Rust of `archive`; and keeps each in halves
//! and brings it back beside asking whether it is sound.

use crate::archive;
use crate::half_rows::HALF_WORDS;
use crate::model::{MOST_BYTES, MOST_ROWS, NAME_LIST, Spelling, WORDS};
use crate::subject::{Linked, Subject};
use arrow_schema::DataType;
use std::hint::black_box;
use std::process::ExitCode;
use std::time::Instant;

/// Rounds of each; the fastest counts.
const ROUNDS: usize = 9;

/// About as many bytes are read or printed in each round.
const BYTES: usize = 4_000_000;

pub fn run() -> ExitCode {
    read();
    print();
    archives();
    halves();
    refuse();
    ExitCode::SUCCESS
}

fn read() {
    println!(
        "nanoseconds for one text: the fastest of {ROUNDS} rounds. The port is lent 1,024 rows,"
    );
    println!("or those that rows_to_lend says; its buffer is not cleared between texts. A refused");
    println!("text clears all that was lent.");
    println!("text                     bytes   rows     Rust     port  times    lent  port  times");
    for (name, text) in texts() {
        let mut all = vec![0; MOST_ROWS * WORDS];
        let answer = Linked.read(text.as_bytes(), &mut all);
        let lent = Linked.rows_to_lend(text.len());
        let mut few = vec![0; lent * WORDS];
        assert_eq!(Linked.read(text.as_bytes(), &mut few), answer);
        let rust = fastest(&text, |text| {
            black_box(text.parse::<DataType>().is_ok());
        });
        let port = fastest(&text, |text| {
            black_box(Linked.read(text.as_bytes(), black_box(&mut all)).is_ok());
        });
        let by_length = fastest(&text, |text| {
            black_box(Linked.read(text.as_bytes(), black_box(&mut few)).is_ok());
        });
        println!(
            "{name:<22} {:>7} {:>6} {rust:>8.0} {port:>8.0} {:>6.1} {lent:>7} {by_length:>5.0} {:>6.1}",
            text.len(),
            answer.unwrap_or(0),
            rust / port,
            rust / by_length,
        );
    }
}

fn print() {
    println!("\nthe same, printing what was read; the port is lent 16,384 bytes.");
    println!("text                     bytes   rows     Rust     port  times");
    for (name, text) in texts() {
        let Ok(data_type) = text.parse::<DataType>() else {
            continue;
        };
        let mut rows = vec![0; MOST_ROWS * WORDS];
        let count = Linked.read(text.as_bytes(), &mut rows).expect("read");
        let rows = &rows[..count * WORDS];
        let mut out = vec![0; MOST_BYTES];
        let rust = fastest(&text, |_| {
            black_box(black_box(&data_type).to_string());
        });
        let port = fastest(&text, |text| {
            print_once(text, rows, &mut out);
        });
        println!(
            "{name:<22} {:>7} {count:>6} {rust:>8.0} {port:>8.0} {:>6.1}",
            data_type.to_string().len(),
            rust / port,
        );
    }
}

/// Writing and reading images; the tables of count.rs say what part of printing and reading a text they take.
fn archives() {
    println!(
        "\nthe same, writing the image of what was read, and reading it; 1,024 rows and 16,384 bytes are lent."
    );
    println!(
        "text                     bytes   writing: Rust     port  times   reading: Rust     port  times"
    );
    for (name, text) in texts() {
        let mut rows = vec![0; MOST_ROWS * WORDS];
        let Ok(count) = Linked.read(text.as_bytes(), &mut rows) else {
            continue;
        };
        let rows = &rows[..count * WORDS];
        let table = (text.as_bytes(), NAME_LIST, rows);
        let image = archive::image(table).expect("an image");
        let mut out = vec![0; image.len()];
        assert_eq!(Linked.write_archive(table, &mut out), Ok(image.len()));
        assert_eq!(out, image);
        let (mut read, mut packed) = (vec![0; MOST_ROWS * WORDS], vec![0; MOST_BYTES]);
        let lent = (read.len(), packed.len());
        let write_rust = fastest(&text, |_| {
            black_box(archive::image(black_box(table)).is_ok());
        });
        let write_port = fastest(&text, |_| {
            black_box(
                Linked
                    .write_archive(black_box(table), black_box(&mut out))
                    .is_ok(),
            );
        });
        let read_rust = fastest(&text, |_| {
            black_box(archive::read(black_box(&image), lent).1.is_none());
        });
        let read_port = fastest(&text, |_| {
            let (read, packed) = (black_box(&mut read), black_box(&mut packed));
            black_box(Linked.read_archive(black_box(&image), read, packed).is_ok());
        });
        println!(
            "{name:<22} {:>7} {write_rust:>15.0} {write_port:>8.0} {:>6.1} {read_rust:>15.0} {read_port:>8.0} {:>6.1}",
            image.len(),
            write_rust / write_port,
            read_rust / read_port,
        );
    }
}

/// Keeping a tree in halves and bringing it back, beside asking whether it is sound; of the port alone.
fn halves() {
    println!(
        "\nthe same, asking whether what was read is sound, keeping it in halves and bringing it back, with just the room for it."
    );
    println!("text                      rows    sound     kept  times     back  times");
    for (name, text) in texts().into_iter().chain(tables()) {
        let mut rows = vec![0; MOST_ROWS * WORDS];
        let Ok(count) = Linked.read(text.as_bytes(), &mut rows) else {
            continue;
        };
        let rows = &rows[..count * WORDS];
        let table = (text.as_bytes(), NAME_LIST, rows);
        let (mut halves, mut back) = (vec![0; count * HALF_WORDS], vec![0; count * WORDS]);
        assert_eq!(Linked.to_half_rows(table, &mut halves), Ok(count));
        let sound = fastest(&text, |_| {
            black_box(Linked.is_sound(black_box(table)));
        });
        let kept = fastest(&text, |_| {
            black_box(
                Linked
                    .to_half_rows(black_box(table), black_box(&mut halves))
                    .is_ok(),
            );
        });
        let stored = (text.as_bytes(), NAME_LIST, &*halves);
        let brought = fastest(&text, |_| {
            black_box(
                Linked
                    .from_half_rows(black_box(stored), black_box(&mut back))
                    .is_ok(),
            );
        });
        assert_eq!(back, rows);
        println!(
            "{name:<22} {count:>7} {sound:>8.0} {kept:>8.0} {:>6.2} {brought:>8.0} {:>6.2}",
            kept / sound,
            brought / sound,
        );
    }
}

/// Prints a tree with the port, in the Rust's spelling.
fn print_once(text: &str, rows: &[u32], out: &mut [u8]) {
    let (rows, out) = (black_box(rows), black_box(out));
    let printed = Linked.print(Spelling::Micro, text.as_bytes(), NAME_LIST, rows, out);
    black_box(printed.is_ok());
}

/// Time grows with rows and bytes: 1,023 fields whose name is the whole text, so that it is looked at once for each and
/// refused with 19.
fn refuse() {
    println!(
        "\nprinting 1,023 fields with one name of n bytes each, refused with 19: nanoseconds, and for a byte."
    );
    println!("n                                      port  a byte");
    for (byte, shown) in [('a', "letters"), ('\u{1f}', "escapes")] {
        for bytes in [64, 1_024, 16_384] {
            let text: String = std::iter::repeat_n(byte, bytes).collect();
            let mut rows = vec![0; MOST_ROWS * WORDS];
            rows[..2].copy_from_slice(&[32, MOST_ROWS as u32]);
            for row in rows.chunks_exact_mut(WORDS).skip(1) {
                row.copy_from_slice(&[2, 1, 1, 0, 0, 0, 1, 0, bytes as u32, 0, 0, 0]);
            }
            let mut out = vec![0; MOST_BYTES];
            assert_eq!(
                Linked.print(Spelling::Micro, text.as_bytes(), NAME_LIST, &rows, &mut out),
                Err(19)
            );
            let start = Instant::now();
            for _ in 0..ROUNDS {
                print_once(&text, &rows, &mut out);
            }
            let port = start.elapsed().as_nanos() as f64 / ROUNDS as f64;
            println!(
                "{bytes:>6} {shown:<28} {port:>9.0} {:>7.2}",
                port / (1_023 * bytes) as f64
            );
        }
    }
}

/// Nanoseconds for one reading or printing.
fn fastest(text: &str, mut work: impl FnMut(&str)) -> f64 {
    let times = (BYTES / text.len()).max(1);
    let round = |_| {
        let start = Instant::now();
        for _ in 0..times {
            work(black_box(text));
        }
        start.elapsed().as_nanos() as f64 / times as f64
    };
    (0..ROUNDS).map(round).fold(f64::INFINITY, f64::min)
}

pub fn texts() -> Vec<(&'static str, String)> {
    let zone = "Timestamp(s, \"CET\")";
    let columns = "Struct(\"slot\": non-null Timestamp(s, \"CET\"), \"tenant\": non-null UInt64, \
        \"unit\": non-null Utf8, \"meter\": Dictionary(Int32, Utf8), \
        \"energy\": non-null Decimal128(18, 4), \"tariff\": non-null Decimal64(9, 6), \
        \"outdoor\": Float32, \"flow\": Float32, \"modes\": List(UInt8), \
        \"alarms\": Map(\"entries\": non-null Struct(\"key\": non-null Utf8, \"value\": Utf8), unsorted), \
        \"state\": RunEndEncoded(\"run_ends\": non-null Int32, \"values\": UInt8))";
    let fields: Vec<String> = (0..700)
        .map(|field| format!("\"c{field}\": Float64"))
        .collect();
    // ten letters each, no two alike
    let letter = |number: usize| char::from(b'a' + (number % 26) as u8);
    let names: Vec<String> = (0..700)
        .map(|field| [field / 676, field / 26, field].map(letter))
        .map(|[a, b, c]| format!("\"letters{a}{b}{c}\": Int8"))
        .collect();
    // the same with an umlaut for a letter
    let umlauts: Vec<String> = names
        .iter()
        .map(|name| name.replace("letters", "lettürs"))
        .collect();
    let long: Vec<String> = (0..350)
        .map(|field| [field / 676, field / 26, field].map(letter))
        .map(|[a, b, c]| format!("\"flow_temperature_setpoint_{a}{b}{c}\": Int8"))
        .collect();
    let refused = columns.replace("unsorted", "unsortedly");
    vec![
        ("zone", zone.into()),
        ("11 columns", columns.into()),
        ("700 fields", format!("Struct({})", fields.join(", "))),
        (
            "700 ten-letter names",
            format!("Struct({})", names.join(", ")),
        ),
        (
            "700 names with umlauts",
            format!("Struct({})", umlauts.join(", ")),
        ),
        ("350 long names", format!("Struct({})", long.join(", "))),
        (
            "one longest name",
            format!("Struct(\"{}\": Int8)", "n".repeat(16_000)),
        ),
        (
            "one name of tabs",
            format!("Struct(\"{}\": Int8)", "\t".repeat(8_000)),
        ),
        ("refused", refused),
    ]
}

/// Types by which is seen what a name's bytes and what depth costs: one field with a name of a letter and of 16,000, and lists
/// in one another beside a Struct of as many rows and as many bytes.
pub fn shapes() -> Vec<(&'static str, String)> {
    vec![
        ("a name of one letter", "Struct(\"n\": Int8)".into()),
        (
            "a name of 16,000 letters",
            format!("Struct(\"{}\": Int8)", "n".repeat(16_000)),
        ),
        (
            "64 levels of lists",
            format!("{}Int8{}", "List(".repeat(63), ")".repeat(63)),
        ),
        (
            "63 fields beside",
            format!("Struct({})", "\"item\": Int8, ".repeat(63)),
        ),
    ]
}

/// Types of few rows and of as many as may be, over texts of one length.
pub fn tables() -> Vec<(&'static str, String)> {
    let fields = |rows: usize| format!("Struct({})", "\"a\": Int8, ".repeat(rows - 1));
    let most = fields(MOST_ROWS);
    let few = format!("{:<1$}", fields(64), most.len());
    vec![("64 rows", few), ("1,024 rows", most)]
}
