//! The rows and bytes that each thread keeps and lends to its reads and prints.

use crate::ffi::Room;
use crate::{MAX_ROWS, MAX_TEXT, ROW_WORDS};
use std::cell::Cell;
use std::thread::LocalKey;

thread_local! {
    static ROWS: Cell<Vec<u32>> = const { Cell::new(Vec::new()) };
    static OUT: Cell<Vec<u8>> = const { Cell::new(Vec::new()) };
    static BACK: Cell<Vec<u32>> = const { Cell::new(Vec::new()) };
}

/// Lends rows for every text. They are not cleared between reads: only what is filled is looked at.
pub fn with_rows<T>(work: impl FnOnce(&mut [u32]) -> T) -> T {
    lend(&ROWS, MAX_ROWS * ROW_WORDS, work)
}

/// Lends room for every text that is printed.
pub fn with_out<T>(work: impl FnOnce(&mut [u8]) -> T) -> T {
    lend(&OUT, MAX_TEXT, work)
}

/// Lends all that a rewrite works in.
pub fn with_room<T>(work: impl FnOnce(Room) -> T) -> T {
    with_rows(|rows| {
        with_out(|out| {
            lend(&BACK, MAX_ROWS * ROW_WORDS, |back| {
                work(Room { rows, out, back })
            })
        })
    })
}

/// Lends what the thread keeps. It keeps nothing before its first call, nor while its thread-locals are destroyed: then
/// a buffer is made, and dropped where it can't be kept.
fn lend<W: Clone + Default, T>(
    kept: &'static LocalKey<Cell<Vec<W>>>,
    size: usize,
    work: impl FnOnce(&mut [W]) -> T,
) -> T {
    let mut buffer = kept.try_with(Cell::take).unwrap_or_default();
    buffer.resize(size, W::default());
    let answer = work(&mut buffer);
    let _ = kept.try_with(|kept| kept.set(buffer));
    answer
}
