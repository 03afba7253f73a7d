//! Compares the model, the supplied Rust and, once it is linked, the port, on generated texts and
//! trees. README.md says more.

mod archive;
mod check;
mod column_out;
#[cfg(feature = "subject")]
mod count;
mod counts;
mod generate;
mod half_rows;
mod halves;
mod images;
mod known;
mod lines;
mod model;
mod needs;
mod oracle;
mod prints;
mod sample;
#[cfg(feature = "subject")]
mod service;
#[cfg(feature = "subject")]
mod speed;
mod subject;
#[cfg(test)]
mod tests;

use check::{Check, Counts, shown};
use generate::trees::{self, Letters};
use generate::{Random, bytes, damage, limits, places, sequences, texts};
use model::{MOST_BYTES, MOST_LEVELS, MOST_ROWS};
use std::collections::BTreeMap;
use std::io::Read;
use std::process::ExitCode;

const USAGE: &str = "\
compare run [seed=N] [sequences=N] [texts=N] [trees=N] [columns=N] [images=N] [halves=N]
    compares generated texts and trees; exit status 1 if any difference is found
compare texts FILE [seed=N]
    writes texts with their answers, for a replay without Rust
compare tables FILE [seed=N]
    writes damaged tables with their answers, for the same
compare prints FILE [seed=N]
    writes trees with what they print in the Rust's spelling, for the same
compare prints_us FILE [seed=N]
    writes trees that have microseconds with what they print in the default spelling, for the same
compare images FILE [seed=N]
    writes images of the archive, damaged ones too, with what they are read into, for the same
compare halves FILE [seed=N]
    writes rows in halves, damaged ones too, with what they are brought back as, for the same
compare golden FOLDER
    writes the images of some types, which are to stay as they are
compare service [seed=N] [texts=N]
    compares the crate that services use with the Rust (with the feature subject)
compare show
    reads one text from standard input and shows what model and Rust say
compare lines
    answers the lines of standard input with the Rust, as the port's line program does
compare counts
    counts them, as the port's monthly count does, but the refused ones all together
compare speed
    reads texts and prints them with port and Rust, and says how long each takes (with the feature
    subject)
compare count
    counts the instructions of the same by valgrind, which runs `compare repeat` (with the feature
    subject)
";

fn main() -> ExitCode {
    // The Rust, and the model where its limits are lifted, recurse as deep as the text nests.
    let thread = std::thread::Builder::new().stack_size(1 << 30);
    let run = thread.spawn(|| {
        let arguments: Vec<String> = std::env::args().skip(1).collect();
        command(&arguments).unwrap_or_else(|error| {
            eprintln!("{error}\n\n{USAGE}");
            ExitCode::from(2)
        })
    });
    run.expect("a thread").join().expect("no panic")
}

fn command(arguments: &[String]) -> Result<ExitCode, String> {
    let (name, rest) = arguments.split_first().ok_or("no command")?;
    match name.as_str() {
        "run" => run(&settings(
            rest,
            &[
                "seed",
                "sequences",
                "texts",
                "trees",
                "columns",
                "images",
                "halves",
            ],
        )?),
        "golden" => match rest {
            [folder] => images::golden(folder),
            _ => Err("not one folder".into()),
        },
        "texts" | "tables" | "prints" | "prints_us" | "images" | "halves" => {
            let (file, rest) = rest.split_first().ok_or("no file")?;
            let seed = settings(rest, &["seed"])?.get("seed").copied().unwrap_or(1);
            match name.as_str() {
                "texts" => sample::texts(file, seed),
                "prints" => prints::prints(file, seed),
                "prints_us" => prints::prints_us(file, seed),
                "images" => images::images(file, seed),
                "halves" => halves::halves(file, seed),
                _ => sample::tables(file, seed),
            }
        }
        "show" => show(),
        "lines" => lines::run(),
        "counts" => counts::run(),
        #[cfg(feature = "subject")]
        "service" => Ok(service::run(&settings(rest, &["seed", "texts"])?)),
        #[cfg(feature = "subject")]
        "speed" => Ok(speed::run()),
        #[cfg(feature = "subject")]
        "count" => count::run(),
        #[cfg(feature = "subject")]
        "repeat" => count::repeat(rest),
        other => Err(format!("unknown command {other}")),
    }
}

/// Arguments of the form `name=number`.
fn settings(arguments: &[String], names: &[&str]) -> Result<BTreeMap<String, u64>, String> {
    let setting = |argument: &String| {
        let (name, value) = argument.split_once('=').ok_or("not name=number")?;
        if !names.contains(&name) {
            return Err(format!("unknown setting {name}"));
        }
        let value = value.parse().map_err(|error| format!("{name}: {error}"))?;
        Ok((name.to_string(), value))
    };
    arguments.iter().map(setting).collect()
}

fn show() -> Result<ExitCode, String> {
    let mut text = Vec::new();
    let input = std::io::stdin().read_to_end(&mut text);
    input.map_err(|error| error.to_string())?;
    println!("text: {}", shown(&text));
    match model::read_placed(&text, model::Limits::lent(MOST_ROWS)) {
        Ok(rows) => {
            println!("model: {} rows, depth {}", rows.len(), model::depth(&rows));
            rows.iter()
                .for_each(|row| println!("  {:?}", row.to_words()));
            let words = model::to_words(&rows);
            for spelling in model::Spelling::BOTH {
                match model::print(spelling, &text, model::NAME_LIST, &words, MOST_BYTES) {
                    Ok(printed) => println!("  prints {}", shown(&printed)),
                    Err(number) => println!("  prints no {number}"),
                }
            }
        }
        Err((number, place)) => println!("model: no {number} {place}"),
    }
    match std::str::from_utf8(&text).map(oracle::read) {
        Ok(oracle::Answer::Accepted { data_type, rows }) => {
            println!("Rust: {} rows, {data_type}", rows.len());
        }
        Ok(oracle::Answer::Refused {
            error,
            number,
            message,
        }) => {
            println!("Rust: {error:?} {number:?} {message}");
        }
        Err(_) => println!("Rust: has no say"),
    }
    Ok(ExitCode::SUCCESS)
}

/// One line of the report for each generator.
struct Report<'s> {
    check: Check<'s>,
    totals: (usize, usize, Counts),
}

impl Report<'_> {
    fn heading(&mut self, title: &str, least: usize, most: usize) {
        print!("{title:<12}{:>9}{:>9}{:>9}", "all", "by Rust", "ok");
        (least..=most).for_each(|number| print!("{number:>8}"));
        println!();
        self.totals = (0, 0, [0; 20]);
    }

    /// Runs a generator and prints its counts.
    fn line(&mut self, name: &str, least: usize, generator: impl FnOnce(&mut Check)) {
        let by_rust = self.check.by_rust;
        self.check.counts = [0; 20];
        generator(&mut self.check);
        let counts = self.check.counts;
        let all: usize = counts.iter().sum();
        let by_rust = match least {
            1 => self.check.by_rust - by_rust,
            _ => all - counts[17],
        };
        self.totals.0 += all;
        self.totals.1 += by_rust;
        (0..20).for_each(|at| self.totals.2[at] += counts[at]);
        row(name, all, by_rust, &counts, least);
    }

    fn total(&self, least: usize) {
        row("total", self.totals.0, self.totals.1, &self.totals.2, least);
    }
}

fn row(name: &str, all: usize, by_rust: usize, counts: &Counts, least: usize) {
    print!("{name:<12}{all:>9}{by_rust:>9}{:>9}", counts[0]);
    let most = if least == 1 { 16 } else { 19 };
    (least..=most).for_each(|number| print!("{:>8}", counts[number]));
    println!();
}

fn run(settings: &BTreeMap<String, u64>) -> Result<ExitCode, String> {
    let setting = |name, usual| settings.get(name).copied().unwrap_or(usual);
    let seed = setting("seed", 1);
    let sequence_count = setting("sequences", 400_000) as usize;
    let text_count = setting("texts", 600_000) as usize;
    let tree_count = setting("trees", 400_000) as usize;
    let column_count = setting("columns", 200_000) as usize;
    let image_count = setting("images", 100_000) as usize;
    let half_count = setting("halves", 100_000) as usize;
    let subject = subject::linked();
    let mut report = Report {
        check: Check::new(subject.as_deref(), seed),
        totals: (0, 0, [0; 20]),
    };
    let mut random = Random::new(seed);
    let sides = if subject.is_some() {
        "port, model and Rust"
    } else {
        "model and Rust"
    };
    println!("{sides}, seed {seed}\n");

    report.heading("texts", 1, 16);
    report.line("known", 1, |check| {
        for (text, expected) in known::known() {
            let read = check.text(text.as_bytes()).map(|rows| rows.len());
            check.expect(text.as_bytes(), &read, &expected);
        }
        for (text, rows, refused) in known::places() {
            check.expect_place(&text, rows, refused);
        }
    });
    let mut reached = 0;
    report.line("sequences", 1, |check| {
        reached = sequences::sequences(sequence_count, &mut |text| drop(check.text(text)));
    });
    report.line("words", 1, |check| {
        places::words(&mut |text| drop(check.text(text)))
    });
    report.line("numbers", 1, |check| {
        places::numbers(&mut |text| drop(check.text(text)))
    });
    report.line("escapes", 1, |check| {
        places::escapes(&mut |text| drop(check.text(text)))
    });
    report.line("characters", 1, |check| {
        places::characters(&mut |text| drop(check.text(text)))
    });
    report.line("levels", 1, |check| {
        limits::levels(&mut random, text_count / 100, &mut |text| {
            drop(check.text(text))
        });
    });
    report.line("rows", 1, |check| {
        limits::rows(&mut |text| drop(check.text(text)))
    });
    report.line("lengths", 1, |check| {
        limits::lengths(&mut |text| drop(check.text(text)))
    });
    report.line("grammar", 1, |check| {
        for _ in 0..text_count / 3 {
            let rows = random.between(1, 30);
            let tokens = texts::random(&mut random, rows, 0);
            let _ = check.text(&texts::join(&mut random, &tokens));
        }
    });
    report.line("faults", 1, |check| {
        for _ in 0..text_count / 3 {
            let rows = random.between(1, 15);
            let faults = [8, 20, 60][random.below(3)];
            let tokens = texts::random(&mut random, rows, faults);
            let _ = check.text(&texts::join(&mut random, &tokens));
        }
    });
    report.line("damage", 1, |check| {
        for _ in 0..text_count / 3 {
            let rows = random.between(1, 10);
            let tokens = texts::random(&mut random, rows, 0);
            let _ = check.text(&damage::damaged(&mut random, &tokens));
        }
    });
    report.line("bytes", 1, |check| {
        bytes::all(&mut |text| drop(check.text(text)));
        for _ in 0..text_count / 10 {
            let _ = check.text(&bytes::random(&mut random));
        }
    });
    report.total(1);
    println!("sequences: all of up to {reached} tokens that could still be completed");
    println!(
        "refusals of the port compared by number and place: {}\n",
        report.check.placed
    );

    report.heading("trees", 17, 19);
    for (name, letters, quarters) in [
        ("plain", Letters::Plain, 1),
        ("ASCII", Letters::Ascii, 2),
        ("Latin", Letters::Latin, 3),
        ("Unicode", Letters::Any, 1),
    ] {
        report.line(name, 17, |check| {
            for _ in 0..tree_count / 4 * quarters {
                check::random_tree(check, &mut random, letters);
            }
        });
    }
    report.line("characters", 17, |check| check::each_character(check));
    report.line("lengths", 17, |check| {
        for _ in 0..tree_count / 500 {
            let length = random.between(MOST_BYTES - 2, MOST_BYTES + 2);
            check.sound_tree(&trees::of_length(&mut random, length));
        }
    });
    report.line("limits", 17, |check| {
        for _ in 0..tree_count / 5_000 {
            for levels in MOST_LEVELS - 1..=MOST_LEVELS + 1 {
                let tree = trees::of_levels(&mut random, levels);
                check.at_limit(&tree, levels <= MOST_LEVELS);
            }
            for rows in MOST_ROWS - 1..=MOST_ROWS + 1 {
                let tree = trees::of_rows(&mut random, rows);
                check.at_limit(&tree, rows <= MOST_ROWS);
            }
        }
    });
    report.line("changed", 17, |check| {
        for _ in 0..tree_count / 2 {
            let tree = trees::sound(&mut random, Letters::Ascii, 12);
            check.any_tree(&trees::changed(&mut random, &tree));
        }
    });
    let mut clauses: BTreeMap<&str, usize> = BTreeMap::new();
    report.line("broken", 17, |check| {
        for _ in 0..tree_count / 4 {
            let letters = [Letters::Ascii, Letters::Any][random.below(2)];
            let tree = trees::sound(&mut random, letters, 20);
            if let Some((clause, tree)) = trees::broken(&mut random, &tree) {
                *clauses.entry(clause).or_default() += 1;
                check.broken_tree(clause, &tree);
            }
        }
    });
    report.total(17);
    println!("\nbroken clauses of soundness:");
    clauses
        .iter()
        .for_each(|(clause, count)| println!("{count:>9}  {clause}"));

    println!("\ntrees printed by port and Rust: {}", report.check.printed);
    println!("trees whose two spellings differ: {}", report.check.spelled);
    println!(
        "printed texts that must read back: {}",
        report.check.read_back
    );
    println!(
        "tables whose parents the port set: {}",
        report.check.parented
    );
    report.check.columns(column_count);
    report.check.long_names(column_count / 50);
    report.check.archive(image_count);
    report.check.half_rows(half_count);
    let (needs, taken) = (&report.check.needs, &report.check.taken);
    let (archive, half_rows) = (&report.check.archive, &report.check.half_rows);
    needs.print();
    taken.print();
    archive.print();
    half_rows.print();
    let differences = report.check.differences();
    println!("\ndifferences: {differences}");
    let full = needs.is_full() && taken.is_full() && archive.is_full() && half_rows.is_full();
    Ok(if differences == 0 && full {
        ExitCode::SUCCESS
    } else {
        ExitCode::FAILURE
    })
}
