//! The port: the static library of the crate `arrow_types`, linked with the feature `subject` (build.rs).
//! Without that feature only model and Rust are compared.

use crate::archive;
use crate::column_out;
use crate::half_rows;
use crate::model::{Refused, Spelling};
#[cfg(feature = "subject")]
use crate::needs::Need;
use crate::needs::{Answer, Needed, Table};

/// What is compared of the port.
pub trait Subject {
    /// Fills `rows` and answers the row count, or the refusal's number and place.
    fn read(&self, text: &[u8], rows: &mut [u32]) -> Result<usize, Refused>;

    /// Prints in a spelling: fills `out` and answers the printed length or the refusal's number.
    fn print(
        &self,
        spelling: Spelling,
        text: &[u8],
        list: &[u8],
        rows: &[u32],
        out: &mut [u8],
    ) -> Result<usize, u32>;

    /// Sets the parents of rows.
    fn set_parents(&self, rows: &mut [u32]);

    /// Whether a tree has the columns that are needed.
    fn needs(&self, tree: Table, needed: &Needed) -> Answer;

    /// Takes a field out: fills `rows` and `text` with what stays and answers row count and packed length.
    fn take_column_out(
        &self,
        tree: Table,
        field: usize,
        rows: &mut [u32],
        text: &mut [u8],
    ) -> column_out::Answer;

    /// Writes a tree's image into `out` and answers its length.
    fn write_archive(&self, tree: Table, out: &mut [u8]) -> archive::Written;

    /// Reads an image into `rows` and `text` and answers row count and packed length.
    fn read_archive(&self, image: &[u8], rows: &mut [u32], text: &mut [u8]) -> archive::Answer;

    /// Keeps a tree's rows in `halves` and answers the row count.
    fn to_half_rows(&self, tree: Table, halves: &mut [u16]) -> half_rows::Answer;

    /// Brings rows in halves back into `rows` and answers the row count.
    fn from_half_rows(&self, kept: half_rows::Kept, rows: &mut [u32]) -> half_rows::Answer;
}

#[cfg(not(feature = "subject"))]
pub fn linked() -> Option<Box<dyn Subject>> {
    None
}

#[cfg(feature = "subject")]
pub fn linked() -> Option<Box<dyn Subject>> {
    Some(Box::new(Linked))
}

#[cfg(feature = "subject")]
pub struct Linked;

#[cfg(feature = "subject")]
unsafe extern "C" {
    /// A slice is passed as its pointer, never null, and its length.
    fn arrow_types_read(
        text: *const u8,
        text_length: usize,
        rows: *mut u32,
        rows_length: usize,
        count: *mut usize,
        place: *mut usize,
    ) -> u32;

    fn arrow_types_rows_to_lend(text_length: usize) -> usize;

    fn arrow_types_print(
        text: *const u8,
        text_length: usize,
        list: *const u8,
        list_length: usize,
        rows: *const u32,
        rows_length: usize,
        out: *mut u8,
        out_length: usize,
        length: *mut usize,
    ) -> u32;

    fn arrow_types_print_micro(
        text: *const u8,
        text_length: usize,
        list: *const u8,
        list_length: usize,
        rows: *const u32,
        rows_length: usize,
        out: *mut u8,
        out_length: usize,
        length: *mut usize,
    ) -> u32;

    fn arrow_types_set_parents(rows: *mut u32, rows_length: usize);

    fn arrow_types_needs(
        text: *const u8,
        text_length: usize,
        list: *const u8,
        list_length: usize,
        rows: *const u32,
        rows_length: usize,
        needs_text: *const u8,
        needs_text_length: usize,
        needs: *const Need,
        needs_length: usize,
        yes: *mut u32,
        need: *mut usize,
    ) -> u32;

    fn arrow_types_take_column_out(
        text: *const u8,
        text_length: usize,
        names: *const u8,
        names_length: usize,
        rows: *const u32,
        rows_length: usize,
        field: usize,
        rows_left: *mut u32,
        rows_left_length: usize,
        text_left: *mut u8,
        text_left_length: usize,
        count: *mut usize,
        length: *mut usize,
    ) -> u32;

    fn arrow_types_to_archive(
        text: *const u8,
        text_length: usize,
        names: *const u8,
        names_length: usize,
        rows: *const u32,
        rows_length: usize,
        out: *mut u8,
        out_length: usize,
        length: *mut usize,
    ) -> u32;

    fn arrow_types_from_archive(
        image: *const u8,
        image_length: usize,
        rows: *mut u32,
        rows_length: usize,
        text: *mut u8,
        text_length: usize,
        count: *mut usize,
        length: *mut usize,
    ) -> u32;

    fn arrow_types_to_half_rows(
        text: *const u8,
        text_length: usize,
        names: *const u8,
        names_length: usize,
        rows: *const u32,
        rows_length: usize,
        halves: *mut u16,
        halves_length: usize,
        count: *mut usize,
    ) -> u32;

    fn arrow_types_from_half_rows(
        text: *const u8,
        text_length: usize,
        names: *const u8,
        names_length: usize,
        halves: *const u16,
        halves_length: usize,
        rows: *mut u32,
        rows_length: usize,
        count: *mut usize,
    ) -> u32;

    fn arrow_types_is_sound(
        text: *const u8,
        text_length: usize,
        names: *const u8,
        names_length: usize,
        rows: *const u32,
        rows_length: usize,
    ) -> u32;
}

#[cfg(feature = "subject")]
impl Linked {
    /// How many rows to lend for a text of so many bytes.
    pub fn rows_to_lend(&self, bytes: usize) -> usize {
        unsafe { arrow_types_rows_to_lend(bytes) }
    }

    /// Whether rows are a sound tree.
    pub fn is_sound(&self, (text, list, rows): Table) -> bool {
        let answer = unsafe {
            arrow_types_is_sound(
                text.as_ptr(),
                text.len(),
                list.as_ptr(),
                list.len(),
                rows.as_ptr(),
                rows.len(),
            )
        };
        answer == 1
    }
}

#[cfg(feature = "subject")]
impl Subject for Linked {
    fn read(&self, text: &[u8], rows: &mut [u32]) -> Result<usize, Refused> {
        let mut count = usize::MAX;
        let mut place = usize::MAX;
        // The pointers come from slices, which last until the call returns.
        let status = unsafe {
            arrow_types_read(
                text.as_ptr(),
                text.len(),
                rows.as_mut_ptr(),
                rows.len(),
                &mut count,
                &mut place,
            )
        };
        let read = answer(status, count).map_err(|number| (number, place));
        assert!(
            read.is_err() || place == 0,
            "accepted with the place {place}"
        );
        read
    }

    fn print(
        &self,
        spelling: Spelling,
        text: &[u8],
        list: &[u8],
        rows: &[u32],
        out: &mut [u8],
    ) -> Result<usize, u32> {
        let print = match spelling {
            Spelling::Us => arrow_types_print,
            Spelling::Micro => arrow_types_print_micro,
        };
        let mut length = usize::MAX;
        let status = unsafe {
            print(
                text.as_ptr(),
                text.len(),
                list.as_ptr(),
                list.len(),
                rows.as_ptr(),
                rows.len(),
                out.as_mut_ptr(),
                out.len(),
                &mut length,
            )
        };
        answer(status, length)
    }

    fn set_parents(&self, rows: &mut [u32]) {
        unsafe { arrow_types_set_parents(rows.as_mut_ptr(), rows.len()) }
    }

    fn needs(&self, (text, list, rows): Table, needed: &Needed) -> Answer {
        let mut yes = u32::MAX;
        let mut need = usize::MAX;
        let status = unsafe {
            arrow_types_needs(
                text.as_ptr(),
                text.len(),
                list.as_ptr(),
                list.len(),
                rows.as_ptr(),
                rows.len(),
                needed.text.as_ptr(),
                needed.text.len(),
                needed.needs.as_ptr(),
                needed.needs.len(),
                &mut yes,
                &mut need,
            )
        };
        match (status, yes, need) {
            (0, 1, 0) => Ok(None),
            (0, 0, need) => Ok(Some(need)),
            (number, 0, 0) => Err(number),
            answer => panic!("status, yes and need are {answer:?}"),
        }
    }

    fn take_column_out(
        &self,
        (text, list, rows): Table,
        field: usize,
        rows_left: &mut [u32],
        text_left: &mut [u8],
    ) -> column_out::Answer {
        let mut count = usize::MAX;
        let mut length = usize::MAX;
        let status = unsafe {
            arrow_types_take_column_out(
                text.as_ptr(),
                text.len(),
                list.as_ptr(),
                list.len(),
                rows.as_ptr(),
                rows.len(),
                field,
                rows_left.as_mut_ptr(),
                rows_left.len(),
                text_left.as_mut_ptr(),
                text_left.len(),
                &mut count,
                &mut length,
            )
        };
        let (count, length) = (answer(status, count), answer(status, length));
        Ok((count?, length?))
    }

    fn write_archive(&self, (text, list, rows): Table, out: &mut [u8]) -> archive::Written {
        let mut length = usize::MAX;
        let status = unsafe {
            arrow_types_to_archive(
                text.as_ptr(),
                text.len(),
                list.as_ptr(),
                list.len(),
                rows.as_ptr(),
                rows.len(),
                out.as_mut_ptr(),
                out.len(),
                &mut length,
            )
        };
        answer(status, length)
    }

    fn read_archive(&self, image: &[u8], rows: &mut [u32], text: &mut [u8]) -> archive::Answer {
        let mut count = usize::MAX;
        let mut length = usize::MAX;
        let status = unsafe {
            arrow_types_from_archive(
                image.as_ptr(),
                image.len(),
                rows.as_mut_ptr(),
                rows.len(),
                text.as_mut_ptr(),
                text.len(),
                &mut count,
                &mut length,
            )
        };
        let (count, length) = (answer(status, count), answer(status, length));
        Ok((count?, length?))
    }

    fn to_half_rows(&self, (text, list, rows): Table, halves: &mut [u16]) -> half_rows::Answer {
        let mut count = usize::MAX;
        let status = unsafe {
            arrow_types_to_half_rows(
                text.as_ptr(),
                text.len(),
                list.as_ptr(),
                list.len(),
                rows.as_ptr(),
                rows.len(),
                halves.as_mut_ptr(),
                halves.len(),
                &mut count,
            )
        };
        answer(status, count)
    }

    fn from_half_rows(
        &self,
        (text, list, halves): half_rows::Kept,
        rows: &mut [u32],
    ) -> half_rows::Answer {
        let mut count = usize::MAX;
        let status = unsafe {
            arrow_types_from_half_rows(
                text.as_ptr(),
                text.len(),
                list.as_ptr(),
                list.len(),
                halves.as_ptr(),
                halves.len(),
                rows.as_mut_ptr(),
                rows.len(),
                &mut count,
            )
        };
        answer(status, count)
    }
}

/// A status and a value, which is 0 beside a refusal.
#[cfg(feature = "subject")]
fn answer(status: u32, value: usize) -> Result<usize, u32> {
    match (status, value) {
        (0, value) => Ok(value),
        (number, 0) => Err(number),
        (number, value) => panic!("refusal {number} with the value {value}"),
    }
}
