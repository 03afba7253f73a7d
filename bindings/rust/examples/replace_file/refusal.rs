//! Why a file is not replaced.

use std::fmt;
use std::io;

/// What was to be done with the file, why it could not be, and what has become of the file.
#[derive(Debug)]
pub struct Refusal {
    operation: String,
    cause: String,
    is_written: bool,
    is_forcible: bool,
}

impl Refusal {
    /// Nothing is written.
    pub fn new(operation: impl Into<String>, cause: impl fmt::Display) -> Refusal {
        Refusal {
            operation: operation.into(),
            cause: cause.to_string(),
            is_written: false,
            is_forcible: false,
        }
    }

    /// The file is no longer the one that was read.
    pub fn changed(operation: &str) -> Refusal {
        Refusal::new(operation, "the file changed while it was read")
    }

    /// One that is not made where the file is to be replaced by force.
    pub fn forcible(self) -> Refusal {
        Refusal {
            is_forcible: true,
            ..self
        }
    }

    /// The file is replaced, and if the machine stops now it may be the old one again.
    pub fn though_written(self) -> Refusal {
        Refusal {
            is_written: true,
            ..self
        }
    }

    /// Whether the file would be replaced by force.
    pub fn is_forcible(&self) -> bool {
        self.is_forcible
    }
}

impl fmt::Display for Refusal {
    fn fmt(&self, formatter: &mut fmt::Formatter<'_>) -> fmt::Result {
        let left = if self.is_written {
            "it is written"
        } else {
            "nothing is written"
        };
        write!(formatter, "{}: {}; {left}", self.operation, self.cause)
    }
}

/// What an operation's error is made to.
pub fn failing(operation: &str) -> impl FnOnce(io::Error) -> Refusal {
    move |error| Refusal::new(operation, error)
}
