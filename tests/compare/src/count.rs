//! How many instructions port and Rust take to read and print the texts of speed.rs, and to write and read their images; and the
//! port to tell whether they are sound, to keep them in halves and to bring them back. Valgrind's
//! callgrind counts those of this program, which repeats one of them N times and 2 N times; the
//! difference is what N repetitions take. Unlike times they are the same in every run, but for one or two.

use crate::archive;
use crate::half_rows::HALF_WORDS;
use crate::model::{MOST_BYTES, MOST_ROWS, NAME_LIST, Spelling, WORDS};
use crate::speed::{shapes, tables, texts};
use crate::subject::{Linked, Subject};
use arrow_schema::DataType;
use std::hint::black_box;
use std::process::{Command, ExitCode};

/// About as many bytes are read or printed in N repetitions.
const BYTES: usize = 40_000;

/// Who works, and with how many rows lent.
const SIDES: [&str; 3] = ["rust", "port", "fewer"];

pub fn run() -> Result<ExitCode, String> {
    reading()?;
    let printed = printing()?;
    archiving(&printed)?;
    unarchiving()?;
    growing()?;
    halving()?;
    Ok(ExitCode::SUCCESS)
}

fn reading() -> Result<(), String> {
    println!(
        "instructions for one text, by valgrind's callgrind. The port is lent 1,024 rows, or those"
    );
    println!("that rows_to_lend says.");
    println!("text                      bytes       Rust       port  times fewer lent  times");
    for (number, (name, text)) in texts().iter().enumerate() {
        let [rust, port, fewer] = SIDES.map(|side| counted("read", number, side, text.len()));
        let (rust, port, fewer) = (rust?, port?, fewer?);
        println!(
            "{name:<24} {:>6} {rust:>10.0} {port:>10.0} {:>6.1} {fewer:>10.0} {:>6.1}",
            text.len(),
            rust / port,
            rust / fewer,
        );
    }
    Ok(())
}

/// What the port takes to print each text that is accepted, by its number.
fn printing() -> Result<Vec<(usize, f64)>, String> {
    let mut printed = Vec::new();
    println!("\nthe same, printing what was read; the port is lent 16,384 bytes.");
    println!("text                      bytes       Rust       port  times");
    for (number, (name, text)) in texts().iter().enumerate() {
        let Ok(data_type) = text.parse::<DataType>() else {
            continue;
        };
        let bytes = data_type.to_string().len();
        let rust = counted("print", number, "rust", bytes)?;
        let port = counted("print", number, "port", bytes)?;
        println!(
            "{name:<24} {bytes:>6} {rust:>10.0} {port:>10.0} {:>6.1}",
            rust / port
        );
        printed.push((number, port));
    }
    Ok(printed)
}

/// Writing the image of each text that is accepted, beside printing the same tree.
fn archiving(printed: &[(usize, f64)]) -> Result<(), String> {
    println!(
        "\nthe same, writing the image of what was read; the part is that of what printing takes."
    );
    println!("text                      bytes plain Rust       port  times   printing   part");
    let texts = texts();
    for (number, print) in printed {
        let (name, text) = &texts[*number];
        let bytes = image(text).len();
        let rust = counted("archive", *number, "rust", bytes)?;
        let port = counted("archive", *number, "port", bytes)?;
        println!(
            "{name:<24} {bytes:>6} {rust:>10.0} {port:>10.0} {:>6.1} {print:>10.0} {:>6.2}",
            rust / port,
            port / print,
        );
    }
    Ok(())
}

/// Reading each image, beside reading the printed text.
fn unarchiving() -> Result<(), String> {
    println!(
        "\nthe same, reading the image; the part is that of what reading the printed text takes, or the text, where"
    );
    println!("the printed one is refused, with the rows that rows_to_lend says.");
    println!("text                      bytes plain Rust       port  times    reading   part");
    for (number, (name, text)) in texts().iter().enumerate() {
        if text.parse::<DataType>().is_err() {
            continue;
        }
        let bytes = image(text).len();
        let rust = counted("unarchive", number, "rust", bytes)?;
        let port = counted("unarchive", number, "port", bytes)?;
        let read = counted("again", number, "fewer", text.len())?;
        println!(
            "{name:<24} {bytes:>6} {rust:>10.0} {port:>10.0} {:>6.1} {read:>10.0} {:>6.2}",
            rust / port,
            port / read,
        );
    }
    Ok(())
}

/// What writing and reading take by the bytes of a name, and by depth.
fn growing() -> Result<(), String> {
    println!("\nthe same, writing and reading images of one shape and another.");
    println!("shape                     bytes    writing    reading");
    let first = texts().len();
    let mut taken = Vec::new();
    for (number, (name, text)) in shapes().iter().enumerate() {
        let bytes = image(text).len();
        let write = counted("archive", first + number, "port", bytes)?;
        let read = counted("unarchive", first + number, "port", bytes)?;
        println!("{name:<24} {bytes:>6} {write:>10.0} {read:>10.0}");
        taken.push((bytes as f64, write, read));
    }
    let [one, long, deep, flat] = taken[..] else {
        return Err("four shapes".into());
    };
    let bytes = long.0 - one.0;
    let (write, read) = ((long.1 - one.1) / bytes, (long.2 - one.2) / bytes);
    println!("a byte of a name more: {write:.2} and {read:.2}");
    let (write, read) = (deep.1 / flat.1, deep.2 / flat.2);
    println!("64 levels, of what as many rows beside one another take: {write:.2} and {read:.2}");
    Ok(())
}

/// Keeping each tree in halves and bringing it back, beside asking whether it is sound.
fn halving() -> Result<(), String> {
    println!(
        "\nthe same, asking whether what was read is sound, keeping it in halves and bringing it back; the part is that of the first."
    );
    println!("text                       rows      sound       kept   part       back   part");
    let first = texts().len() + shapes().len();
    let mut taken = Vec::new();
    let all = texts().into_iter().enumerate();
    for (number, (name, text)) in all.chain((first..).zip(tables())) {
        let mut rows = vec![0; MOST_ROWS * WORDS];
        let Ok(count) = Linked.read(text.as_bytes(), &mut rows) else {
            continue;
        };
        let [sound, kept, back] =
            ["sound", "keep", "back"].map(|act| counted(act, number, "port", text.len()));
        let (sound, kept, back) = (sound?, kept?, back?);
        println!(
            "{name:<24} {count:>6} {sound:>10.0} {kept:>10.0} {:>6.2} {back:>10.0} {:>6.2}",
            kept / sound,
            back / sound,
        );
        taken.push((kept, back));
    }
    let [.., few, most] = taken[..] else {
        return Err("two tables".into());
    };
    let (kept, back) = (most.0 / few.0 / 16.0, most.1 / few.1 / 16.0);
    println!("1,024 rows, of 16 times what 64 rows take: {kept:.2} and {back:.2}");
    Ok(())
}

/// The image of a text's tree, by the port.
fn image(text: &str) -> Vec<u8> {
    let mut rows = vec![0; MOST_ROWS * WORDS];
    let count = Linked.read(text.as_bytes(), &mut rows).expect("read");
    let mut out = vec![0; MOST_ROWS * archive::FIXED_BYTES + MOST_BYTES];
    let table = (text.as_bytes(), NAME_LIST, &rows[..count * WORDS]);
    let length = Linked.write_archive(table, &mut out).expect("written");
    out.truncate(length);
    out
}

/// The instructions of one reading or printing.
fn counted(act: &str, text: usize, side: &str, bytes: usize) -> Result<f64, String> {
    let times = (BYTES / bytes).max(2);
    let once = collected(act, text, side, times)?;
    let twice = collected(act, text, side, 2 * times)?;
    Ok((twice as f64 - once as f64) / times as f64)
}

/// The instructions of this program when it repeats one reading or printing, as callgrind says.
fn collected(act: &str, text: usize, side: &str, times: usize) -> Result<u64, String> {
    let program = std::env::current_exe().map_err(|error| error.to_string())?;
    let run = Command::new("valgrind")
        .args(["--tool=callgrind", "--callgrind-out-file=/dev/null"])
        .arg(program)
        .args(["repeat", act, &text.to_string(), side, &times.to_string()])
        .output()
        .map_err(|error| format!("valgrind: {error}"))?;
    let said = String::from_utf8_lossy(&run.stderr);
    let count = said
        .lines()
        .find_map(|line| line.split_once("Collected : "));
    match count.and_then(|(_, count)| count.trim().parse().ok()) {
        Some(count) if run.status.success() => Ok(count),
        _ => Err(format!("valgrind counted nothing: {said}")),
    }
}

/// Does one of these with a text again and again:
/// `repeat read|print|again|archive|unarchive|sound|keep|back TEXT rust|port|fewer TIMES`.
pub fn repeat(arguments: &[String]) -> Result<ExitCode, String> {
    let [act, text, side, times] = arguments else {
        return Err("repeat takes four words".into());
    };
    let number = |word: &String| word.parse::<usize>().map_err(|error| error.to_string());
    let (text, times) = (number(text)?, number(times)?);
    let (_, text) = texts()
        .into_iter()
        .chain(shapes())
        .chain(tables())
        .nth(text)
        .ok_or("no such text")?;
    let side = SIDES
        .iter()
        .position(|name| name == side)
        .ok_or("no such side")?;
    match act.as_str() {
        "read" => read(&text, side, times),
        "print" => print(&text, side, times),
        "again" => read(&printed(&text), side, times),
        "archive" => write_archive(&text, side, times),
        "unarchive" => read_archive(&text, side, times),
        "sound" | "keep" | "back" => halve(act, &text, times),
        _ => return Err(format!("{act} is nothing that is counted")),
    }
    Ok(ExitCode::SUCCESS)
}

fn read(text: &str, side: usize, times: usize) {
    let lent = match side {
        2 => Linked.rows_to_lend(text.len()),
        _ => MOST_ROWS,
    };
    let mut rows = vec![0; lent * WORDS];
    for _ in 0..times {
        match side {
            0 => black_box(black_box(text).parse::<DataType>().is_ok()),
            _ => black_box(
                Linked
                    .read(black_box(text).as_bytes(), black_box(&mut rows))
                    .is_ok(),
            ),
        };
    }
}

fn print(text: &str, side: usize, times: usize) {
    let data_type = text.parse::<DataType>().expect("accepted");
    let mut rows = vec![0; MOST_ROWS * WORDS];
    let count = Linked.read(text.as_bytes(), &mut rows).expect("read");
    let rows = &rows[..count * WORDS];
    let mut out = vec![0; MOST_BYTES];
    for _ in 0..times {
        match side {
            0 => black_box(black_box(&data_type).to_string().len()),
            _ => {
                let (text, rows) = (black_box(text).as_bytes(), black_box(rows));
                let out = black_box(&mut out);
                let printed = Linked.print(Spelling::Micro, text, NAME_LIST, rows, out);
                black_box(printed.expect("printed"))
            }
        };
    }
}

/// What the port prints of a text, where that is read; else the text.
fn printed(text: &str) -> String {
    let mut rows = vec![0; MOST_ROWS * WORDS];
    let count = Linked.read(text.as_bytes(), &mut rows).expect("read");
    let mut out = vec![0; MOST_BYTES];
    let words = &rows[..count * WORDS];
    let length = Linked.print(Spelling::Us, text.as_bytes(), NAME_LIST, words, &mut out);
    out.truncate(length.expect("printed"));
    match Linked.read(&out, &mut rows) {
        Ok(_) => String::from_utf8(out).expect("UTF-8"),
        Err(_) => text.into(),
    }
}

fn write_archive(text: &str, side: usize, times: usize) {
    let mut rows = vec![0; MOST_ROWS * WORDS];
    let count = Linked.read(text.as_bytes(), &mut rows).expect("read");
    let rows = &rows[..count * WORDS];
    let mut out = vec![0; MOST_ROWS * archive::FIXED_BYTES + MOST_BYTES];
    for _ in 0..times {
        let table = (black_box(text).as_bytes(), NAME_LIST, black_box(rows));
        match side {
            0 => black_box(archive::image(table).expect("an image").len()),
            _ => black_box(
                Linked
                    .write_archive(table, black_box(&mut out))
                    .expect("an image"),
            ),
        };
    }
}

fn read_archive(text: &str, side: usize, times: usize) {
    let image = image(text);
    let (mut rows, mut out) = (vec![0; MOST_ROWS * WORDS], vec![0; MOST_BYTES]);
    let lent = (rows.len(), out.len());
    for _ in 0..times {
        let image = black_box(&*image);
        match side {
            0 => black_box(archive::read(image, lent).1.is_none()),
            _ => {
                let (rows, out) = (black_box(&mut rows), black_box(&mut out));
                black_box(Linked.read_archive(image, rows, out).is_ok())
            }
        };
    }
}

/// Asks whether a text's tree is sound, keeps it in halves or brings it back; by the port.
fn halve(act: &str, text: &str, times: usize) {
    let mut rows = vec![0; MOST_ROWS * WORDS];
    let count = Linked.read(text.as_bytes(), &mut rows).expect("read");
    let table = (text.as_bytes(), NAME_LIST, &rows[..count * WORDS]);
    let (mut halves, mut back) = (vec![0; count * HALF_WORDS], vec![0; count * WORDS]);
    assert_eq!(Linked.to_half_rows(table, &mut halves), Ok(count));
    for _ in 0..times {
        match act {
            "sound" => black_box(usize::from(Linked.is_sound(black_box(table)))),
            "keep" => {
                let kept = Linked.to_half_rows(black_box(table), black_box(&mut halves));
                black_box(kept.expect("kept"))
            }
            _ => {
                let stored = (text.as_bytes(), NAME_LIST, black_box(&*halves));
                let brought = Linked.from_half_rows(stored, black_box(&mut back));
                black_box(brought.expect("brought back"))
            }
        };
    }
}
