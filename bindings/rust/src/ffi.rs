//! The library's functions, made safe: all `unsafe` of this crate is here. `bindings/c/arrow_types.h` says what each
//! answers and what a caller owes. Slices are never null, and a borrow that is written is no part of one that is read;
//! that is all of it.

use crate::{Error, ReadError, RewriteError, Spelling};

/// The three names that stand in no text, end to end: document 01's name list.
pub const NAME_LIST: &str = "itemrun_endsvalues";

unsafe extern "C" {
    fn arrow_types_read(
        text: *const u8,
        text_length: usize,
        rows: *mut u32,
        rows_length: usize,
        count: *mut usize,
        place: *mut usize,
    ) -> u32;

    fn arrow_types_rows_to_lend(text_length: usize) -> usize;

    fn arrow_types_print(
        text: *const u8,
        text_length: usize,
        names: *const u8,
        names_length: usize,
        rows: *const u32,
        rows_length: usize,
        out: *mut u8,
        out_length: usize,
        length: *mut usize,
    ) -> u32;

    fn arrow_types_print_micro(
        text: *const u8,
        text_length: usize,
        names: *const u8,
        names_length: usize,
        rows: *const u32,
        rows_length: usize,
        out: *mut u8,
        out_length: usize,
        length: *mut usize,
    ) -> u32;

    fn arrow_types_rewrite(
        text: *const u8,
        text_length: usize,
        rows: *mut u32,
        rows_length: usize,
        out: *mut u8,
        out_length: usize,
        back: *mut u32,
        back_length: usize,
        length: *mut usize,
        count: *mut usize,
        number: *mut u32,
        place: *mut usize,
    ) -> u32;

    fn arrow_types_rewrite_micro(
        text: *const u8,
        text_length: usize,
        rows: *mut u32,
        rows_length: usize,
        out: *mut u8,
        out_length: usize,
        back: *mut u32,
        back_length: usize,
        length: *mut usize,
        count: *mut usize,
        number: *mut u32,
        place: *mut usize,
    ) -> u32;

    fn arrow_types_is_sound(
        text: *const u8,
        text_length: usize,
        names: *const u8,
        names_length: usize,
        rows: *const u32,
        rows_length: usize,
    ) -> u32;

    fn arrow_types_depth(
        text: *const u8,
        text_length: usize,
        names: *const u8,
        names_length: usize,
        rows: *const u32,
        rows_length: usize,
        depth: *mut usize,
    ) -> u32;

    fn arrow_types_equal(
        text: *const u8,
        text_length: usize,
        names: *const u8,
        names_length: usize,
        rows: *const u32,
        rows_length: usize,
        text2: *const u8,
        text2_length: usize,
        names2: *const u8,
        names2_length: usize,
        rows2: *const u32,
        rows2_length: usize,
    ) -> u32;

    fn arrow_types_verdict(
        text: *const u8,
        text_length: usize,
        names: *const u8,
        names_length: usize,
        rows: *const u32,
        rows_length: usize,
        yes: *mut u32,
        row: *mut usize,
    ) -> u32;

    fn arrow_types_needs(
        text: *const u8,
        text_length: usize,
        names: *const u8,
        names_length: usize,
        rows: *const u32,
        rows_length: usize,
        needs_text: *const u8,
        needs_text_length: usize,
        needs: *const Need,
        needs_length: usize,
        yes: *mut u32,
        need: *mut usize,
    ) -> u32;

    fn arrow_types_take_column_out(
        text: *const u8,
        text_length: usize,
        names: *const u8,
        names_length: usize,
        rows: *const u32,
        rows_length: usize,
        field: usize,
        rows_left: *mut u32,
        rows_left_length: usize,
        text_left: *mut u8,
        text_left_length: usize,
        count: *mut usize,
        length: *mut usize,
    ) -> u32;

    fn arrow_types_to_archive(
        text: *const u8,
        text_length: usize,
        names: *const u8,
        names_length: usize,
        rows: *const u32,
        rows_length: usize,
        out: *mut u8,
        out_length: usize,
        length: *mut usize,
    ) -> u32;

    fn arrow_types_from_archive(
        image: *const u8,
        image_length: usize,
        rows: *mut u32,
        rows_length: usize,
        text: *mut u8,
        text_length: usize,
        count: *mut usize,
        length: *mut usize,
    ) -> u32;

    fn arrow_types_to_half_rows(
        text: *const u8,
        text_length: usize,
        names: *const u8,
        names_length: usize,
        rows: *const u32,
        rows_length: usize,
        halves: *mut u16,
        halves_length: usize,
        count: *mut usize,
    ) -> u32;

    fn arrow_types_from_half_rows(
        text: *const u8,
        text_length: usize,
        names: *const u8,
        names_length: usize,
        halves: *const u16,
        halves_length: usize,
        rows: *mut u32,
        rows_length: usize,
        count: *mut usize,
    ) -> u32;

    fn arrow_types_set_parents(rows: *mut u32, rows_length: usize);

    fn arrow_types_name(
        text: *const u8,
        text_length: usize,
        names: *const u8,
        names_length: usize,
        home: u32,
        start: u32,
        size: u32,
        name_start: *mut usize,
        name_length: *mut usize,
    ) -> u32;

    fn arrow_types_zone(
        text: *const u8,
        text_length: usize,
        start: u32,
        size: u32,
        zone_start: *mut usize,
        zone_length: *mut usize,
    ) -> u32;
}

/// A tree as the library takes it: its text and its row words. The name list is always the same.
#[derive(Clone, Copy)]
pub struct Tree<'a> {
    pub text: &'a [u8],
    pub rows: &'a [u32],
}

/// A need as the library takes it: `struct arrow_types_need` of the header.
#[derive(Clone, Copy)]
#[repr(C)]
pub struct Need {
    pub name_start: u32,
    pub name_length: u32,
    pub kind: u32,
    pub number: u32,
    pub scale: u32,
    pub null_allowed: bool,
    pub zoned: bool,
}

/// Reads a text into lent rows, for a service that keeps its own: how many are filled.
///
/// Words that make no whole row are not used, and words behind the rows filled stay as they were. A refused text leaves
/// all that is lent zeros; where the rows run out it is refused with [`Error::TooManyRows`], where the type that has no
/// row would have begun. [`rows_to_lend`] says how many are enough.
///
/// ```
/// use arrow_types::{ROW_WORDS, read, rows_to_lend};
///
/// let text = b"List(List(Int8))";
/// let mut rows = vec![0; rows_to_lend(text.len()) * ROW_WORDS];
/// assert_eq!(read(text, &mut rows)?, 3);
/// # Ok::<(), arrow_types::ReadError>(())
/// ```
pub fn read(text: &[u8], rows: &mut [u32]) -> Result<usize, ReadError> {
    let (mut count, mut place) = (0, 0);
    // SAFETY: the pointers are those of slices and of locals, with the slices' lengths; all outlive the call. What is
    // written, `rows`, `count` and `place`, is borrowed mutably, so it is no part of `text`.
    let status = unsafe {
        arrow_types_read(
            text.as_ptr(),
            text.len(),
            rows.as_mut_ptr(),
            rows.len(),
            &mut count,
            &mut place,
        )
    };
    answer(status, count).map_err(|error| ReadError::new(error, place))
}

/// How many rows to lend for a text of so many bytes: a fifth of one more than these, and 1,024 at the most.
///
/// A text that is read with 1,024 rows is read with these too, and fills the same rows. One that is refused with 1,024
/// is refused with these too, with the same error or with [`Error::TooManyRows`].
pub fn rows_to_lend(bytes: usize) -> usize {
    // SAFETY: a number is passed and a number is answered.
    unsafe { arrow_types_rows_to_lend(bytes) }
}

/// Prints a tree in a spelling into a lent buffer: how many bytes are filled.
pub fn print(tree: Tree, spelling: Spelling, out: &mut [u8]) -> Result<usize, Error> {
    let print = match spelling {
        Spelling::Us => arrow_types_print,
        Spelling::Micro => arrow_types_print_micro,
    };
    let mut length = 0;
    // SAFETY: as in `read`; `out` and `length` are written, and are no part of the tree or the name list.
    let status = unsafe {
        print(
            tree.text.as_ptr(),
            tree.text.len(),
            NAME_LIST.as_ptr(),
            NAME_LIST.len(),
            tree.rows.as_ptr(),
            tree.rows.len(),
            out.as_mut_ptr(),
            out.len(),
            &mut length,
        )
    };
    answer(status, length)
}

/// Buffers that a rewrite works in: rows for the text, bytes for what is printed, and rows for what is read back.
pub struct Room<'a> {
    pub rows: &'a mut [u32],
    pub out: &'a mut [u8],
    pub back: &'a mut [u32],
}

/// Rewrites a text in a spelling: how many bytes of `out` are filled.
pub fn rewrite(text: &[u8], spelling: Spelling, room: &mut Room) -> Result<usize, RewriteError> {
    let rewrite = match spelling {
        Spelling::Us => arrow_types_rewrite,
        Spelling::Micro => arrow_types_rewrite_micro,
    };
    let (mut length, mut count, mut number, mut place) = (0, 0, 0, 0);
    // SAFETY: as in `read`; all that is written is borrowed mutably, each by itself, so it is no part of `text`, nor of one
    // another.
    let step = unsafe {
        rewrite(
            text.as_ptr(),
            text.len(),
            room.rows.as_mut_ptr(),
            room.rows.len(),
            room.out.as_mut_ptr(),
            room.out.len(),
            room.back.as_mut_ptr(),
            room.back.len(),
            &mut length,
            &mut count,
            &mut number,
            &mut place,
        )
    };
    match step {
        0 => Ok(length),
        1 => Err(RewriteError::Read(ReadError::new(refusal(number), place))),
        2 => Err(RewriteError::Print(refusal(number))),
        3 => Err(RewriteError::ReadBack(ReadError::new(
            refusal(number),
            place,
        ))),
        4 => Err(RewriteError::Different),
        step => panic!("the library answers the step {step}, which is none"),
    }
}

/// Whether a tree is sound.
pub fn is_sound(tree: Tree) -> bool {
    // SAFETY: the pointers are those of slices, with their lengths, that outlive the call. Nothing is written.
    let sound = unsafe {
        arrow_types_is_sound(
            tree.text.as_ptr(),
            tree.text.len(),
            NAME_LIST.as_ptr(),
            NAME_LIST.len(),
            tree.rows.as_ptr(),
            tree.rows.len(),
        )
    };
    sound == 1
}

/// The depth of a tree, the root being at level 1.
pub fn depth(tree: Tree) -> Result<usize, Error> {
    let mut depth = 0;
    // SAFETY: as in `is_sound`; the local `depth` is written.
    let status = unsafe {
        arrow_types_depth(
            tree.text.as_ptr(),
            tree.text.len(),
            NAME_LIST.as_ptr(),
            NAME_LIST.len(),
            tree.rows.as_ptr(),
            tree.rows.len(),
            &mut depth,
        )
    };
    answer(status, depth)
}

/// Whether two trees are equal.
pub fn equal(tree: Tree, other: Tree) -> bool {
    // SAFETY: as in `is_sound`.
    let equal = unsafe {
        arrow_types_equal(
            tree.text.as_ptr(),
            tree.text.len(),
            NAME_LIST.as_ptr(),
            NAME_LIST.len(),
            tree.rows.as_ptr(),
            tree.rows.len(),
            other.text.as_ptr(),
            other.text.len(),
            NAME_LIST.as_ptr(),
            NAME_LIST.len(),
            other.rows.as_ptr(),
            other.rows.len(),
        )
    };
    equal == 1
}

/// The layout verdict of a tree: none for yes, else the first row that breaks a rule.
pub fn verdict(tree: Tree) -> Result<Option<usize>, Error> {
    let mut yes = 0;
    let mut row = 0;
    // SAFETY: as in `is_sound`; the locals `yes` and `row` are written.
    let status = unsafe {
        arrow_types_verdict(
            tree.text.as_ptr(),
            tree.text.len(),
            NAME_LIST.as_ptr(),
            NAME_LIST.len(),
            tree.rows.as_ptr(),
            tree.rows.len(),
            &mut yes,
            &mut row,
        )
    };
    answer(status, (yes == 0).then_some(row))
}

/// Whether a tree meets needs, whose names stand in a text: none for yes, else the first that is not met.
pub fn needs(tree: Tree, needs_text: &[u8], needs: &[Need]) -> Result<Option<usize>, Error> {
    let mut yes = 0;
    let mut need = 0;
    // SAFETY: as in `is_sound`; the locals `yes` and `need` are written. `Need` is laid out as C does it, and its flags are
    // true or false.
    let status = unsafe {
        arrow_types_needs(
            tree.text.as_ptr(),
            tree.text.len(),
            NAME_LIST.as_ptr(),
            NAME_LIST.len(),
            tree.rows.as_ptr(),
            tree.rows.len(),
            needs_text.as_ptr(),
            needs_text.len(),
            needs.as_ptr(),
            needs.len(),
            &mut yes,
            &mut need,
        )
    };
    answer(status, (yes == 0).then_some(need))
}

/// Takes a field out of a tree whose root is a Struct: how many rows and how many bytes of what is lent are filled by what
/// stays.
pub fn take_column_out(
    tree: Tree,
    field: usize,
    rows_left: &mut [u32],
    text_left: &mut [u8],
) -> Result<(usize, usize), Error> {
    let (mut count, mut length) = (0, 0);
    // SAFETY: as in `is_sound`; all that is written is borrowed mutably, each by itself, or a local, so it is no part of the
    // tree or the name list, nor of one another.
    let status = unsafe {
        arrow_types_take_column_out(
            tree.text.as_ptr(),
            tree.text.len(),
            NAME_LIST.as_ptr(),
            NAME_LIST.len(),
            tree.rows.as_ptr(),
            tree.rows.len(),
            field,
            rows_left.as_mut_ptr(),
            rows_left.len(),
            text_left.as_mut_ptr(),
            text_left.len(),
            &mut count,
            &mut length,
        )
    };
    answer(status, (count, length))
}

/// Writes a tree's image into a lent buffer: how many bytes are filled.
pub fn to_archive(tree: Tree, out: &mut [u8]) -> Result<usize, Error> {
    let mut length = 0;
    // SAFETY: as in `is_sound`; `out`, which is borrowed mutably, and the local `length` are written.
    let status = unsafe {
        arrow_types_to_archive(
            tree.text.as_ptr(),
            tree.text.len(),
            NAME_LIST.as_ptr(),
            NAME_LIST.len(),
            tree.rows.as_ptr(),
            tree.rows.len(),
            out.as_mut_ptr(),
            out.len(),
            &mut length,
        )
    };
    answer(status, length)
}

/// Reads an image into lent rows and a lent text: how many rows and how many bytes are filled.
pub fn from_archive(
    image: &[u8],
    rows: &mut [u32],
    text: &mut [u8],
) -> Result<(usize, usize), Error> {
    let (mut count, mut length) = (0, 0);
    // SAFETY: as in `read`; all that is written is borrowed mutably, each by itself, or a local, so it is no part of `image`,
    // nor of one another.
    let status = unsafe {
        arrow_types_from_archive(
            image.as_ptr(),
            image.len(),
            rows.as_mut_ptr(),
            rows.len(),
            text.as_mut_ptr(),
            text.len(),
            &mut count,
            &mut length,
        )
    };
    answer(status, (count, length))
}

/// Keeps a tree's rows in halves: how many rows.
pub fn to_half_rows(tree: Tree, halves: &mut [u16]) -> Result<usize, Error> {
    let mut count = 0;
    // SAFETY: as in `is_sound`; `halves`, borrowed mutably, and the local `count` are written, and are no part of what is read.
    let status = unsafe {
        arrow_types_to_half_rows(
            tree.text.as_ptr(),
            tree.text.len(),
            NAME_LIST.as_ptr(),
            NAME_LIST.len(),
            tree.rows.as_ptr(),
            tree.rows.len(),
            halves.as_mut_ptr(),
            halves.len(),
            &mut count,
        )
    };
    answer(status, count)
}

/// Brings rows in halves back, over the text that they point into: how many rows.
pub fn from_half_rows(text: &[u8], halves: &[u16], rows: &mut [u32]) -> Result<usize, Error> {
    let mut count = 0;
    // SAFETY: as in `is_sound`; `rows`, borrowed mutably, and the local `count` are written, and are no part of what is read.
    let status = unsafe {
        arrow_types_from_half_rows(
            text.as_ptr(),
            text.len(),
            NAME_LIST.as_ptr(),
            NAME_LIST.len(),
            halves.as_ptr(),
            halves.len(),
            rows.as_mut_ptr(),
            rows.len(),
            &mut count,
        )
    };
    answer(status, count)
}

/// Sets the parents of rows.
pub fn set_parents(rows: &mut [u32]) {
    // SAFETY: the pointer is that of a slice, with its length, that outlives the call and is borrowed mutably.
    unsafe { arrow_types_set_parents(rows.as_mut_ptr(), rows.len()) }
}

/// A field's name, a part of the text or of the name list: empty where its words do not fit.
pub fn name(text: &[u8], home: u32, start: u32, size: u32) -> &[u8] {
    let mut name_start = 0;
    let mut name_length = 0;
    // SAFETY: as in `is_sound`; the locals `name_start` and `name_length` are written.
    let home = unsafe {
        arrow_types_name(
            text.as_ptr(),
            text.len(),
            NAME_LIST.as_ptr(),
            NAME_LIST.len(),
            home,
            start,
            size,
            &mut name_start,
            &mut name_length,
        )
    };
    match home {
        1 => &text[name_start..name_start + name_length],
        2 => &NAME_LIST.as_bytes()[name_start..name_start + name_length],
        _ => &[],
    }
}

/// A zone, a part of the text: none where its words are 0 or do not fit.
pub fn zone(text: &[u8], start: u32, size: u32) -> Option<&[u8]> {
    let mut zone_start = 0;
    let mut zone_length = 0;
    // SAFETY: as in `is_sound`; the locals `zone_start` and `zone_length` are written.
    let found = unsafe {
        arrow_types_zone(
            text.as_ptr(),
            text.len(),
            start,
            size,
            &mut zone_start,
            &mut zone_length,
        )
    };
    (found == 1).then(|| &text[zone_start..zone_start + zone_length])
}

/// A status is 0 or the number of a refusal, which comes with no value.
fn answer<T>(status: u32, value: T) -> Result<T, Error> {
    match status {
        0 => Ok(value),
        number => Err(refusal(number)),
    }
}

fn refusal(number: u32) -> Error {
    Error::from_number(number)
        .unwrap_or_else(|| panic!("the library refuses with {number}, which is no refusal"))
}
