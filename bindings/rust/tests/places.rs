//! Where a text is refused: document 02's texts with their places, and the picture of a place.

use arrow_types::{DataType, Error, MAX_ROWS, MAX_TEXT, ROW_WORDS, ReadError, read};

/// The columns of a screen.
const SCREEN: usize = 80;

fn refused(text: impl AsRef<[u8]>) -> ReadError {
    DataType::try_from(text.as_ref()).unwrap_err()
}

fn number_and_place(error: ReadError) -> (u32, usize) {
    (error.number(), error.place())
}

/// The two lines of a text's picture.
fn picture(text: impl AsRef<[u8]>) -> [String; 2] {
    lines(&refused(text.as_ref()).picture(text))
}

fn lines(picture: &str) -> [String; 2] {
    let (text, caret) = picture.split_once('\n').expect("two lines");
    [text.to_owned(), caret.to_owned()]
}

/// A picture as it is to be: the line of the text, and how many columns stand before the caret.
fn drawn(text: &str, columns: usize) -> [String; 2] {
    [format!(" | {text}"), format!(" | {}^", " ".repeat(columns))]
}

#[test]
fn of_each_number() {
    let spaces = " ".repeat(16_385);
    let levels = "List(".repeat(64) + "nullable @";
    let rows = format!("Struct({})", "\"a\": Int8,".repeat(1_024));
    let texts: [(&[u8], u32, usize); 31] = [
        (spaces.as_bytes(), 1, 16_384),
        (b"\xff", 2, 0),
        (b"Struct(\"\xff\": Int8)", 2, 0),
        (levels.as_bytes(), 3, 329),
        (rows.as_bytes(), 4, 7 + 1_023 * 10 + 5),
        (b"", 5, 0),
        (b"  ", 5, 2),
        (b"List", 5, 4),
        (b"List(Int8 ", 5, 10),
        (b"Timestamp(s, \"CET)", 6, 13),
        (b"List(Int8, field: 'a)", 6, 18),
        (b"Timestamp(s,  \"\")", 7, 14),
        (b"List( @)", 8, 6),
        (b"FixedSizeList(4x Int32)", 8, 14),
        (b"List(\"a\")", 9, 5),
        (b"Struct(,)", 9, 7),
        (b"FixedSizeBinary( -1)", 10, 17),
        (b"Time32(us)", 11, 7),
        (b"Decimal32(9, 10)", 12, 15),
        (b"RunEndEncoded(Int32, Utf8)", 13, 13),
        (b"RunEndEncoded( nullable Int8", 13, 15),
        (b"RunEndEncoded(nullable", 13, 14),
        (b"RunEndEncoded(", 13, 13),
        (b"RunEndEncoded(\"a", 13, 13),
        (b"RunEndEncoded(\"a\": List(Int8), ", 13, 28),
        (b"Map(\"e\": Int8", 13, 9),
        (b"Map(\"e\": non-null Int8, sorted)", 14, 18),
        (b"Union(Dense, 0: (\"a\": Int8), 0: (\"b\": Int8) )", 15, 44),
        (b"Int32 \"", 16, 6),
        (b"Int32)", 16, 5),
        (b"Int32  ,", 16, 7),
    ];
    for (text, number, place) in texts {
        let shown = text.escape_ascii();
        assert_eq!(number_and_place(refused(text)), (number, place), "{shown}");
    }
    let mut numbers: Vec<u32> = texts.iter().map(|(_, number, _)| *number).collect();
    numbers.dedup();
    assert_eq!(numbers, Vec::from_iter(1..=16));
}

/// Where rows run out the place is that of the type that has none, in the rows that were lent.
#[test]
fn of_rows_that_run_out() {
    for (text, rows, place) in [
        (" @", 0, 1),
        ("", 0, 0),
        ("  ", 0, 2),
        ("List( nullable Int8)", 1, 15),
        ("List( nullable ", 1, 15),
        ("Struct(\"a\": Int8, \"b\": Int8)", 2, 23),
    ] {
        let error = read(text.as_bytes(), &mut vec![7; rows * ROW_WORDS]).unwrap_err();
        assert_eq!(number_and_place(error), (4, place), "{text}");
        // The crate's own reading lends all rows, and gives another answer with its own place.
        let own = read(text.as_bytes(), &mut vec![7; MAX_ROWS * ROW_WORDS]);
        assert_eq!(text.parse::<DataType>().err(), own.err(), "{text}");
    }
}

#[test]
fn one_refusal_in_three_ways() {
    let text = "RunEndEncoded(Int32, Utf8)";
    let error = text.parse::<DataType>().unwrap_err();
    assert_eq!(DataType::try_from(text.as_bytes()), Err(error));
    assert_eq!(read(text.as_bytes(), &mut [0; ROW_WORDS * 5]), Err(error));
    assert_eq!(error.error(), Error::MustBeNonNull);
    assert_eq!(number_and_place(error), (13, 13));
    assert_eq!(Error::from(error), Error::MustBeNonNull);
    let sentence = "Map entries, Map keys and run ends must be non-null, at byte 13";
    assert_eq!(error.to_string(), sentence);
    let boxed: Box<dyn std::error::Error + Send + Sync> = Box::new(error);
    assert_eq!(boxed.to_string(), sentence);
}

/// `?` makes an `Error` of it where a function also prints.
#[test]
fn beside_the_printer() {
    fn rewritten(text: &str) -> Result<String, Error> {
        text.parse::<DataType>()?.print()
    }
    assert_eq!(rewritten("List( Int8 )"), Ok("List(Int8)".to_owned()));
    assert_eq!(rewritten("List(@)"), Err(Error::UnknownWord));
    assert_eq!(rewritten("Timestamp(s, \"дом\")"), Err(Error::NotLatin));
}

#[test]
fn picture_of_a_short_text() {
    assert_eq!(picture("List(\"a\")"), drawn("List(\"a\")", 5));
    assert_eq!(picture("@Int8"), drawn("@Int8", 0));
    assert_eq!(picture("Int32 \""), drawn("Int32 \"", 6));
    // Backslashes and quote marks are shown as they are.
    assert_eq!(picture(r#"List("\"')"#), drawn(r#"List("\"')"#, 5));
}

#[test]
fn picture_by_character() {
    // `Int8` is at byte 16 and at character 15.
    let text = "Struct(\"Küche\" Int8)";
    assert_eq!(refused(text).place(), 16);
    assert_eq!(picture(text), drawn(text, 15));
    // Three characters of three bytes, two columns each.
    let text = "Struct(\"東京都\" Int8)";
    assert_eq!(refused(text).place(), 19);
    assert_eq!(picture(text), drawn(text, 16));
}

#[test]
fn picture_of_the_end() {
    assert_eq!(picture(""), drawn("", 0));
    assert_eq!(picture("  "), drawn("  ", 2));
    assert_eq!(picture("List(Int8"), drawn("List(Int8", 9));
    assert_eq!(
        picture("List(Int8, field: 'ä' "),
        drawn("List(Int8, field: 'ä' ", 22)
    );
}

#[test]
fn picture_of_what_does_not_show() {
    let cases = [
        ("Int8\t", "Int8<U+0009>", 0),
        ("Int8 \t", "Int8 <U+0009>", 5),
        ("Struct(\"a\tb\" @)", "Struct(\"a<U+0009>b\" @)", 20),
        ("Int8 \r\n", "Int8 <U+000D><U+000A>", 5),
        ("List(Int8\0)", "List(Int8<U+0000>)", 5),
        // A space that is not the plain one, one without a width, a byte-order mark.
        ("Int8\u{a0}", "Int8<U+00A0>", 0),
        ("List(\"\u{200b}\")", "List(\"<U+200B>\")", 5),
        ("\u{feff}Int8 @", "<U+FEFF>Int8 @", 0),
        // `ü` in two characters, of which the second has no width; a pictograph; text from right to left.
        (
            "Struct(\"Ku\u{308}che\" @)",
            "Struct(\"Ku<U+0308>che\" @)",
            23,
        ),
        ("Struct(\"\u{1f600}\" @)", "Struct(\"<U+1F600>\" @)", 19),
        ("Struct(\"\u{202e}\" @)", "Struct(\"<U+202E>\" @)", 18),
        ("Struct(\"\u{10ffff}\" @)", "Struct(\"<U+10FFFF>\" @)", 20),
    ];
    for (text, shown, columns) in cases {
        assert_eq!(picture(text), drawn(shown, columns), "{shown}");
    }
}

#[test]
fn picture_of_bytes_that_are_not_utf8() {
    assert_eq!(picture(b"\xff"), drawn("<FF>", 0));
    let text = b"Struct(\"K\xfcche\": Int8)";
    assert_eq!(picture(text), drawn("Struct(\"K<FC>che\": Int8)", 0));
    // A character that is cut short, and one of too many bytes.
    assert_eq!(picture(b"\xc3\xe2\x82"), drawn("<C3><E2><82>", 0));
    assert_eq!(picture(b"\xc0\xafa"), drawn("<C0><AF>a", 0));
}

/// A line of dots and the part of a text that is left of it.
#[test]
fn picture_that_is_cut() {
    let fields = |count: usize| "\"a\": Int8, ".repeat(count);
    // 77 columns are left beside the margin, and are filled.
    let whole = format!("Struct({}@)", "\"abc\": Int8, ".repeat(5)) + "   ";
    assert_eq!(whole.len(), 77);
    assert_eq!(picture(&whole), drawn(&whole, 72));

    // Behind the place.
    let text = format!("Struct(\"a\" Int8, {}", fields(20));
    let shown = format!("{}...", &text[..74]);
    assert_eq!(picture(&text), drawn(&shown, 11));

    // Before it.
    let text = format!("Struct({}\"b\" Int8)", fields(20));
    let start = text.len() - 74;
    let shown = format!("...{}", &text[start..]);
    assert_eq!(refused(&text).place(), text.len() - 5);
    assert_eq!(picture(&text), drawn(&shown, 77 - 5));

    // On both sides: 38 columns before the place, of which three are dots.
    let text = format!("Struct({}\"b\" Int8, {}", fields(20), fields(20));
    let place = refused(&text).place();
    assert_eq!(place, 7 + 20 * 11 + 4);
    let shown = format!("...{}...", &text[place - 35..place + 36]);
    assert_eq!(picture(&text), drawn(&shown, 38));

    // The end of a long text.
    let text = format!("Struct({}", fields(20));
    let shown = format!("...{}", &text[text.len() - 73..]);
    assert_eq!(refused(&text).place(), text.len());
    assert_eq!(picture(&text), drawn(&shown, 76));
}

/// Nothing is cut within a character, or within what stands for one.
#[test]
fn picture_cut_between_characters() {
    let text = format!("Struct(\"{}\" @)", "東".repeat(100));
    let shown = format!("...{}\" @)", "東".repeat(35));
    assert_eq!(picture(&text), drawn(&shown, 75));
    let text = format!("Struct(\"{}\" @)", "\t".repeat(100));
    let shown = format!("...{}\" @)", "<U+0009>".repeat(8));
    assert_eq!(picture(&text), drawn(&shown, 69));
}

#[test]
fn picture_of_a_text_that_is_too_long() {
    let text = format!("{}@Int8{}", " ".repeat(MAX_TEXT), " ".repeat(1 << 20));
    let shown = format!("...{}@Int8{}...", " ".repeat(35), " ".repeat(31));
    assert_eq!(picture(&text), drawn(&shown, 38));
    // Byte 16,384 is the last one.
    let text = " ".repeat(MAX_TEXT) + "@";
    assert_eq!(
        picture(&text),
        drawn(&format!("...{}@", " ".repeat(73)), 76)
    );
    // It is the second one of a character, at which the caret stands.
    let text = "a".to_owned() + &"ä".repeat(10_000);
    let shown = format!("...{}...", "ä".repeat(71));
    assert_eq!(refused(&text).place(), MAX_TEXT);
    assert_eq!(picture(&text), drawn(&shown, 38));
    // A text that is too long is not asked to be UTF-8.
    let text = [0xff; MAX_TEXT + 1];
    assert_eq!(
        picture(text),
        drawn(&format!("...{}", "<FF>".repeat(18)), 71)
    );
}

/// No text is refused so that the picture does not fit a screen or the caret stands elsewhere.
#[test]
fn pictures_fit_a_screen() {
    let parts = [
        "Struct(\"ä\": ",
        "List(",
        "@",
        "  ",
        "\t",
        "東京",
        "\u{200b}",
        "\"",
        ")",
    ];
    let mut widest = 0;
    for seed in 0..20_000_usize {
        let mut text = String::new();
        let mut state = seed;
        for _ in 0..seed % 60 {
            state = state
                .wrapping_mul(6_364_136_223_846_793_005)
                .wrapping_add(1_442_695_040_888_963_407);
            text += parts[(state >> 33) % parts.len()];
        }
        let error = refused(&text);
        let [shown, caret] = lines(&error.picture(&text));
        let columns = |line: &str| {
            line.chars()
                .map(|letter| if letter > '\u{2e80}' { 2 } else { 1 })
                .sum::<usize>()
        };
        widest = widest.max(columns(&shown)).max(columns(&caret));
        assert!(
            columns(&shown) <= SCREEN && columns(&caret) <= SCREEN,
            "{text}"
        );
        under_the_place(&text, error.place(), &shown, caret.len() - 1, columns);
    }
    assert_eq!(widest, SCREEN);
}

/// What stands over the caret, at so many columns, is the character of the text at the place.
fn under_the_place(
    text: &str,
    place: usize,
    shown: &str,
    column: usize,
    columns: impl Fn(&str) -> usize,
) {
    let ends = shown.char_indices().map(|(at, _)| at).chain([shown.len()]);
    let at = ends.into_iter().find(|at| columns(&shown[..*at]) == column);
    let over = &shown[at.expect("a caret between two characters")..];
    match text[place..].chars().next() {
        None => assert_eq!(over, ""),
        Some('\t') => assert!(over.starts_with("<U+0009>")),
        Some('\u{200b}') => assert!(over.starts_with("<U+200B>")),
        Some(character) => assert!(over.starts_with(character), "{text}"),
    }
}

/// A text other than the one that was refused does no harm.
#[test]
fn picture_of_another_text() {
    let error = refused("RunEndEncoded(Int32, Utf8)");
    assert_eq!(lines(&error.picture("Int8")), drawn("Int8", 4));
    assert_eq!(lines(&error.picture("ääääääääää")), drawn("ääääääääää", 6));
    let error = refused(" ".repeat(MAX_TEXT + 1));
    assert_eq!(lines(&error.picture("Int8")), drawn("Int8", 4));
    assert_eq!(lines(&error.picture("")), drawn("", 0));
}

/// Every place, in texts that were never read: also within a character, and where bytes are not UTF-8.
#[test]
fn picture_of_any_place() {
    let characters = "東a\u{308}ü\u{1f600}\t".repeat(40);
    let bytes: Vec<u8> = (0..=255).collect();
    for place in 0..700 {
        let error = refused(" ".repeat(place));
        assert_eq!(number_and_place(error), (5, place));
        for text in [characters.as_bytes(), &bytes] {
            let [shown, caret] = lines(&error.picture(text));
            let wide = shown.matches('東').count();
            let columns = shown.chars().count() + wide;
            assert!(columns <= SCREEN && caret.len() <= columns + 1, "{shown}");
        }
    }
}

/// The pages show what is printed.
#[cfg(repository)]
#[test]
fn pages() {
    let text = "Struct(\"Küche\" Int8)";
    let error = refused(text);
    let shown = format!("{error}\n{}\n", error.picture(text));
    for page in [
        include_str!("../../../README.md"),
        include_str!("../../README.md"),
    ] {
        assert!(page.contains(text));
        assert!(page.contains(&format!("{shown}```\n")), "{shown}");
    }
}
