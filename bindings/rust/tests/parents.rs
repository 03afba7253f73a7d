//! The parent in each row: as it is read, as soundness asks for it, and as rows without it get it.

use arrow_types::{DataType, Error, Field, MAX_ROWS, ROW_WORDS, set_parents, widen_rows};

/// The word of a row that has its parent, the last; rows had none when they had as many words.
const PARENT: usize = ROW_WORDS - 1;

const STRUCT: &str = r#"Struct("a": List(Int8), "b": Int8)"#;
const DICTIONARY: &str = "Dictionary(Dictionary(Int8, Utf8), Int8)";

fn read(text: &str) -> DataType {
    text.parse().unwrap()
}

/// Rows as they were stored without parents: eleven words each.
fn narrow(rows: &[u32]) -> Vec<u32> {
    let rows = rows.chunks_exact(ROW_WORDS);
    rows.flat_map(|row| &row[..PARENT]).copied().collect()
}

#[test]
fn words_and_views() {
    let texts: [(&str, &[u32]); 3] = [
        ("Int8", &[0]),
        (STRUCT, &[0, 0, 1, 0]),
        (DICTIONARY, &[0, 0, 1, 1, 0]),
    ];
    for (text, expected) in texts {
        let tree = read(text);
        let words: Vec<u32> = tree
            .rows()
            .iter()
            .skip(PARENT)
            .step_by(ROW_WORDS)
            .copied()
            .collect();
        assert_eq!(words, expected);
        let mut views = tree.root().subtree().map(Field::parent);
        assert!(views.next().unwrap().is_none());
        let views: Vec<u32> = views.map(|parent| parent.unwrap().row() as u32).collect();
        assert_eq!(views, expected[1..]);
    }
}

#[test]
fn a_parent_has_its_children() {
    let tree = read(concat!(
        r#"Struct("m": Map("e": non-null Struct("k": non-null Int8, "v": List(Int8)), sorted), "#,
        r#""u": Union(Dense, 3: ("x": Int8)))"#,
    ));
    for field in tree.root().subtree() {
        for child in field.children() {
            assert_eq!(child.parent().map(Field::row), Some(field.row()));
        }
    }
}

#[test]
fn a_wrong_parent_is_not_sound() {
    for text in [STRUCT, DICTIONARY] {
        let (text, rows) = read(text).into_parts();
        for row in 0..rows.len() / ROW_WORDS {
            for parent in (0..6).chain([u32::MAX]) {
                let mut changed = rows.clone();
                changed[row * ROW_WORDS + PARENT] = parent;
                let sound = changed == rows;
                let taken = DataType::from_parts(text.as_str(), changed);
                assert_eq!(taken.is_ok(), sound, "row {row}, parent {parent}");
                assert_eq!(taken.err(), (!sound).then_some(Error::NotSound));
            }
        }
    }
}

#[test]
fn rows_of_eleven_words() {
    // With 12 and 24 rows the eleven words of each make whole rows of twelve.
    let fields = |count: usize| format!("Struct({})", "\"a\": Int8,".repeat(count));
    for text in [
        STRUCT,
        DICTIONARY,
        "Int8",
        &fields(11),
        &fields(23),
        &fields(1_023),
    ] {
        let tree = read(text);
        let stored = narrow(tree.rows());
        let refused = DataType::from_parts(text, stored.as_slice());
        assert_eq!(refused.map_err(Error::number), Err(17));
        assert_eq!(widen_rows(&stored), tree.rows());
        assert_eq!(DataType::from_parts(text, widen_rows(&stored)), Ok(tree));
    }
}

#[test]
fn rows_that_were_no_sound_tree_still_are_none() {
    let tree = read(STRUCT);
    let stored = narrow(tree.rows());
    let not_sound = |stored: &[u32]| {
        let taken = DataType::from_parts(STRUCT, widen_rows(stored));
        assert_eq!(taken, Err(Error::NotSound));
    };
    not_sound(&[]);
    not_sound(&stored[..stored.len() - 1]);
    not_sound(&stored[..stored.len() - PARENT]);
    not_sound(&[stored.as_slice(), &[0]].concat());
    not_sound(&[stored.as_slice(), &stored].concat());
    let mut size = stored.clone();
    size[1] = u32::MAX;
    not_sound(&size);
}

#[test]
fn parents_of_any_words() {
    // Every row stands under the row before it, as far as its word 1 goes.
    let mut rows = vec![u32::MAX; (MAX_ROWS + 1) * ROW_WORDS + 1];
    set_parents(&mut rows);
    for (row, words) in rows.chunks_exact(ROW_WORDS).enumerate() {
        let expected = if row < MAX_ROWS {
            row.saturating_sub(1) as u32
        } else {
            u32::MAX
        };
        assert_eq!(words[PARENT], expected);
        assert!(words[..PARENT].iter().all(|word| *word == u32::MAX));
    }
    assert_eq!(rows.last(), Some(&u32::MAX));

    // No row holds another.
    let mut rows = vec![0; 3 * ROW_WORDS];
    rows.iter_mut()
        .skip(PARENT)
        .step_by(ROW_WORDS)
        .for_each(|parent| *parent = 9);
    set_parents(&mut rows);
    assert_eq!(rows, vec![0; 3 * ROW_WORDS]);
    set_parents(&mut []);
}
