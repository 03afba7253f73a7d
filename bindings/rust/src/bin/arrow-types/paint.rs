//! Colours, at a terminal alone.

use std::io::IsTerminal;

/// Whether to paint.
#[derive(Clone, Copy)]
pub struct Paint(bool);

impl Paint {
    /// A terminal is painted, unless the variable NO_COLOR says not to.
    pub fn of(output: &impl IsTerminal) -> Paint {
        let forbidden = std::env::var_os("NO_COLOR").is_some_and(|value| !value.is_empty());
        Paint(output.is_terminal() && !forbidden)
    }

    pub fn name(self, text: &str) -> String {
        self.paint("36", text)
    }

    pub fn zone(self, text: &str) -> String {
        self.paint("32", text)
    }

    pub fn refusal(self, text: &str) -> String {
        self.paint("31", text)
    }

    fn paint(self, colour: &str, text: &str) -> String {
        if self.0 {
            format!("\x1b[{colour}m{text}\x1b[0m")
        } else {
            text.to_owned()
        }
    }
}
