//! The monthly count over the Rust: texts in, a report out, as the port's `type_counts` prints it. Of a refusal the Rust
//! tells only that there is one, so the refused lines are counted together, as `no ?`.

use crate::lines::{BUFFER, children, size};
use crate::oracle::kind;
use arrow_schema::DataType;
use std::io::{self, BufRead, BufReader};
use std::process::ExitCode;

pub fn run() -> Result<ExitCode, String> {
    let input = BufReader::with_capacity(BUFFER, io::stdin().lock());
    print!("{}", report(input).map_err(|error| error.to_string())?);
    Ok(ExitCode::SUCCESS)
}

struct Tally {
    lines: usize,
    ok: usize,
    kinds: [usize; 41],
    deep: usize,
}

fn report(mut input: impl BufRead) -> io::Result<String> {
    let mut tally = Tally {
        lines: 0,
        ok: 0,
        kinds: [0; 41],
        deep: 0,
    };
    let mut line = Vec::new();
    while input.read_until(b'\n', &mut line)? > 0 {
        if line.last() == Some(&b'\n') {
            line.pop();
        }
        tally.add(&line);
        line.clear();
    }
    Ok(tally.report())
}

impl Tally {
    fn add(&mut self, line: &[u8]) {
        self.lines += 1;
        if let Ok(Ok(data_type)) = std::str::from_utf8(line).map(|text| text.parse::<DataType>()) {
            self.ok += 1;
            self.add_rows(&data_type);
            self.deep = self.deep.max(size(&data_type).levels);
        }
    }

    fn add_rows(&mut self, data_type: &DataType) {
        self.kinds[kind(data_type) as usize] += 1;
        for child in children(data_type) {
            self.add_rows(child);
        }
    }

    fn report(&self) -> String {
        let refused = self.lines - self.ok;
        let mut report = format!("lines {}\nok {}\n", self.lines, self.ok);
        if refused > 0 {
            report += &format!("no ? {refused}\n");
        }
        for (number, count) in self
            .kinds
            .iter()
            .enumerate()
            .filter(|(_, count)| **count > 0)
        {
            report += &format!("kind {number} {count}\n");
        }
        report + &format!("deep {}\n", self.deep)
    }
}

#[cfg(test)]
mod tests {
    use super::report;

    fn reported(text: &str) -> String {
        report(text.as_bytes()).expect("no failure in memory")
    }

    #[test]
    fn sample() {
        let text = "Struct(\"slot\": non-null Timestamp(Second), \"kwh\": Decimal64(12, 3),)\n\
            FixedSizeList(4, Int32)\nRunEndEncoded(Int32, Utf8)\n";
        let expected =
            "lines 3\nok 2\nno ? 1\nkind 4 1\nkind 13 1\nkind 29 1\nkind 32 1\nkind 36 1\ndeep 2\n";
        assert_eq!(reported(text), expected);
    }

    #[test]
    fn few() {
        assert_eq!(reported(""), "lines 0\nok 0\ndeep 0\n");
        assert_eq!(reported("\n"), "lines 1\nok 0\nno ? 1\ndeep 0\n");
        assert_eq!(reported("Int8"), "lines 1\nok 1\nkind 2 1\ndeep 1\n");
    }
}
