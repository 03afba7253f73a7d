//! Reading, printing and rewriting in threads: while a thread's own values are destroyed, and on a small stack.

use arrow_types::{DataType, MAX_STACK, rewrite};
use std::cell::RefCell;
use std::sync::mpsc::{Sender, channel};
use std::thread;

/// Reads and prints when it is dropped, and hands on what is printed.
struct AtTheEnd(Sender<String>);

impl Drop for AtTheEnd {
    fn drop(&mut self) {
        let text = "Timestamp(Second, Some(\"CET\"))";
        let read: DataType = text.parse().unwrap();
        assert_eq!(rewrite(text), Ok(read.to_string()));
        self.0.send(read.to_string()).unwrap();
    }
}

thread_local! {
    static LAST: RefCell<Option<AtTheEnd>> = const { RefCell::new(None) };
}

/// What is printed while the values of a thread are destroyed, in which this was done.
fn printed_at_the_end(work: impl FnOnce(AtTheEnd) + Send + 'static) -> String {
    let (sender, receiver) = channel();
    let thread = thread::spawn(move || work(AtTheEnd(sender)));
    thread.join().unwrap();
    receiver.recv().unwrap()
}

fn keep(value: AtTheEnd) {
    LAST.set(Some(value));
}

fn read_and_print() {
    let read: DataType = "Int8".parse().unwrap();
    assert_eq!(read.to_string(), "Int8");
}

/// The thread's buffers are gone, or not, when the value is dropped: that depends on which was used first.
#[test]
fn while_a_threads_values_are_destroyed() {
    let expected = "Timestamp(s, \"CET\")";
    let before = printed_at_the_end(|value| {
        read_and_print();
        keep(value);
    });
    assert_eq!(before, expected);
    let behind = printed_at_the_end(|value| {
        keep(value);
        read_and_print();
    });
    assert_eq!(behind, expected);
    assert_eq!(printed_at_the_end(keep), expected);
}

/// What a call takes at the most, and half as much for the thread and for Rust.
const SMALL_STACK: usize = MAX_STACK + MAX_STACK / 2;

/// The deepest texts: 64 levels of each kind that types nest in.
fn deepest() -> Vec<String> {
    let nested = |open: &str, close: &str, levels: usize| {
        format!("{}Int8{}", open.repeat(levels), close.repeat(levels))
    };
    let map = "Map(\"e\": non-null Struct(\"k\": non-null Int8, \"v\": ";
    vec![
        nested("List(", ")", 63),
        nested("LargeListView(non-null ", ", field: 'n')", 63),
        nested("FixedSizeList(4 x ", ")", 63),
        nested("FixedSizeList(4, ", ")", 63),
        nested("Struct(\"a\": Int8, \"b\": ", ")", 63),
        nested("Union(Dense, 0: (\"a\": Int8), 1: (\"b\": ", "))", 63),
        nested("Dictionary(Int8, ", ")", 63),
        nested("Dictionary(", ", Int8)", 63),
        nested("RunEndEncoded(non-null Int32, ", ")", 63),
        nested("RunEndEncoded(\"r\": non-null Int32, \"v\": ", ")", 63),
        nested("RunEndEncoded(\"r\": non-null ", ", \"v\": Int8)", 63),
        format!("List({})", nested(map, "), sorted)", 31)),
    ]
}

#[test]
fn the_deepest_types_on_a_small_stack() {
    let small = thread::Builder::new().stack_size(SMALL_STACK);
    let thread = small.spawn(|| {
        for text in deepest() {
            let read: DataType = text.parse().unwrap();
            assert_eq!(read.depth(), 64);
            let printed = read.print().unwrap();
            assert_eq!(printed.parse::<DataType>().unwrap(), read);
            assert_eq!(rewrite(&text), Ok(printed.clone()));
            let (text, rows) = read.into_parts();
            assert!(DataType::from_parts(text, rows).is_ok());
            let deeper = format!("List({printed})");
            assert_eq!(deeper.parse::<DataType>().unwrap_err().number(), 3);
        }
    });
    thread.unwrap().join().unwrap();
}
