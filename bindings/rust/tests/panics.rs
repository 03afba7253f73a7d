//! What the macros do with a type that does not print: those that the documentation of `Display` names panic.

use arrow_types::DataType;
use std::any::Any;
use std::fmt::Write as _;
use std::io::Write as _;
use std::panic::{AssertUnwindSafe, catch_unwind, set_hook, take_hook};

fn panics<T>(format: impl FnOnce() -> T) -> bool {
    catch_unwind(AssertUnwindSafe(format)).is_err()
}

/// Does this with no message for each panic.
fn silently<T>(work: impl FnOnce() -> T) -> T {
    let hook = take_hook();
    set_hook(Box::new(|_| {}));
    let done = work();
    set_hook(hook);
    done
}

/// Which of them panic, in the order of the documentation.
fn all_that_panic(refused: &DataType) -> [bool; 8] {
    [
        panics(|| refused.to_string()),
        panics(|| format!("{refused}")),
        panics(|| print!("{refused}")),
        panics(|| println!("{refused}")),
        panics(|| eprint!("{refused}")),
        panics(|| eprintln!("{refused}")),
        panics(|| write!(Vec::new(), "{refused}")),
        panics(|| writeln!(Vec::new(), "{refused}")),
    ]
}

/// The message of a panic that names the type.
fn message(refused: &DataType) -> String {
    let named = AssertUnwindSafe(|| panic!("the type {refused} is no column"));
    let panicked: Box<dyn Any + Send> = catch_unwind(named).unwrap_err();
    *panicked.downcast().unwrap()
}

/// One test, since the hook is that of all threads.
#[test]
fn macros() {
    // A zone that no printer here writes, and a name of which each byte prints as six.
    let long = format!("Struct(\"{}\": Int8)", "\u{1f}".repeat(3_000));
    for (number, text) in [(18, "Timestamp(s, \"北京\")"), (19, &long)] {
        let refused: DataType = text.parse().unwrap();
        assert_eq!(refused.print().unwrap_err().number(), number);
        assert_eq!(silently(|| all_that_panic(&refused)), [true; 8]);
        assert_eq!(silently(|| message(&refused)), "the type ");
        assert!(write!(String::new(), "{refused}").is_err());
        assert!(writeln!(String::new(), "{refused}").is_err());
        assert!(format!("{refused:?}").starts_with("DataType"));
    }
}
