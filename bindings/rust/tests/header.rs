//! The C header says the same as this crate: refusals with their sentences, kinds, the version and the limits.
#![cfg(repository)]

use arrow_types::{
    DataType, Error, Kind, MAX_NEEDS, MAX_ROWS, MAX_STACK, MAX_TEXT, RECORD_BYTES, ROW_WORDS,
    RewriteError,
};

const HEADER: &str = include_str!("../../c/arrow_types.h");

/// One constant of an enum, with the comment behind it.
#[derive(Debug, PartialEq)]
struct Constant {
    name: String,
    number: u32,
    comment: String,
}

/// The constants of an enum of the header, one to a line.
fn constants(name: &str) -> Vec<Constant> {
    let start = format!("enum {name} {{\n");
    let (_, body) = HEADER.split_once(&start).expect("the enum");
    let (body, _) = body.split_once("};").expect("its end");
    body.lines().map(constant).collect()
}

fn constant(line: &str) -> Constant {
    let (name, rest) = line.split_once(" = ").expect("a constant");
    let (code, comment) = rest.split_once("/*").unwrap_or((rest, ""));
    let number = code.trim().trim_end_matches(',');
    Constant {
        name: name.trim().to_owned(),
        number: number.parse().expect("a number"),
        comment: comment.trim_end_matches("*/").trim().to_owned(),
    }
}

/// `StringNeverEnds` as `STRING_NEVER_ENDS`. A capital begins a word, but for a second one in a row (`UInt8`).
fn upper(name: &str) -> String {
    let mut upper = String::new();
    let mut within = false;
    for letter in name.chars() {
        if letter.is_ascii_uppercase() && within {
            upper.push('_');
        }
        within = !letter.is_ascii_uppercase();
        upper.push(letter.to_ascii_uppercase());
    }
    upper
}

#[test]
fn refusals() {
    let expected = Error::ALL.map(|error| Constant {
        name: format!("ARROW_TYPES_{}", upper(&format!("{error:?}"))),
        number: error.number(),
        comment: error.to_string(),
    });
    assert_eq!(constants("arrow_types_refusal"), expected);
}

/// The strings of a function of the header, one to a line.
fn strings(function: &str) -> Vec<String> {
    let start = format!("const char *{function}(");
    let (_, body) = HEADER.split_once(&start).expect("the function");
    let (_, body) = body.split_once("[] = {\n").expect("its strings");
    let (body, _) = body.split_once("    };\n").expect("their end");
    let string = |line: &str| line.trim().trim_matches([',', '"']).to_owned();
    body.lines().map(string).collect()
}

/// The header's function says what the enum says, and of every other number up to the last that it is no refusal.
#[test]
fn sentences() {
    let sentence = |number| match Error::from_number(number) {
        Some(error) => error.to_string(),
        None => "this is no refusal".to_owned(),
    };
    let last = Error::ALL.map(Error::number).into_iter().max().unwrap();
    let expected: Vec<String> = (0..=last).map(sentence).collect();
    assert_eq!(strings("arrow_types_sentence"), expected);
}

/// The steps of a rewrite: 0, and those that are an error here.
#[test]
fn steps() {
    let read = "Int9".parse::<DataType>().unwrap_err();
    let errors = [
        RewriteError::Read(read),
        RewriteError::Print(Error::NotLatin),
        RewriteError::ReadBack(read),
        RewriteError::Different,
    ];
    let steps = constants("arrow_types_step");
    let numbers: Vec<u32> = steps.iter().map(|step| step.number).collect();
    assert_eq!(numbers, [0, 1, 2, 3, 4]);
    let sentences: Vec<&str> = steps.iter().map(|step| step.comment.as_str()).collect();
    assert_eq!(strings("arrow_types_step_sentence"), sentences);
    for (error, step) in errors.iter().zip(&steps[1..]) {
        assert!(error.to_string().starts_with(&step.comment), "{error}");
    }
}

/// Header, pkg-config file and crate have one version.
#[test]
fn version() {
    let version = env!("CARGO_PKG_VERSION");
    let line = format!("#define ARROW_TYPES_VERSION \"{version}\"\n");
    assert!(HEADER.contains(&line), "{line}");
    let package = include_str!("../../c/arrow_types.pc.in");
    assert!(package.contains(&format!("\nVersion: {version}\n")));
}

#[test]
fn kinds() {
    let expected = Kind::ALL.map(|kind| Constant {
        name: format!("ARROW_TYPES_KIND_{}", upper(kind.name())),
        number: kind.number(),
        comment: String::new(),
    });
    assert_eq!(constants("arrow_types_kind"), expected);
}

#[test]
fn limits() {
    for (name, value) in [
        ("ROW_WORDS", ROW_WORDS),
        ("MAX_ROWS", MAX_ROWS),
        ("MAX_TEXT", MAX_TEXT),
        ("NAMES_LENGTH", 18),
        ("MAX_NEEDS", MAX_NEEDS),
        ("MAX_STACK", MAX_STACK),
        ("RECORD_BYTES", RECORD_BYTES),
    ] {
        let line = format!("#define ARROW_TYPES_{name} {value}\n");
        assert!(HEADER.contains(&line), "{line}");
    }
    assert!(HEADER.contains("#define ARROW_TYPES_NAMES \"itemrun_endsvalues\"\n"));
    let last = format!("ARROW_TYPES_WORD_PARENT = {} ", ROW_WORDS - 1);
    assert!(HEADER.contains(&last), "{last}");
}
