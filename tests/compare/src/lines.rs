//! The line program over the Rust: texts in, answers out, as the port's `type_lines` prints them. Of a
//! refusal the Rust tells only that there is one, so such a line is `no ?`.

use arrow_schema::DataType;
use std::io::{self, BufRead, BufReader, BufWriter, Write};
use std::process::ExitCode;

/// Bytes of each buffer, as many as the port's.
pub const BUFFER: usize = 65_536;

pub fn run() -> Result<ExitCode, String> {
    let input = BufReader::with_capacity(BUFFER, io::stdin().lock());
    let output = BufWriter::with_capacity(BUFFER, io::stdout().lock());
    answer_all(input, output).map_err(|error| error.to_string())?;
    Ok(ExitCode::SUCCESS)
}

fn answer_all(mut input: impl BufRead, mut output: impl Write) -> io::Result<()> {
    let mut line = Vec::new();
    while input.read_until(b'\n', &mut line)? > 0 {
        if line.last() == Some(&b'\n') {
            line.pop();
        }
        answer(&line, &mut output)?;
        line.clear();
    }
    output.flush()
}

fn answer(line: &[u8], output: &mut impl Write) -> io::Result<()> {
    let read = std::str::from_utf8(line).map(|text| text.parse::<DataType>());
    match read {
        Ok(Ok(data_type)) => {
            let size = size(&data_type);
            writeln!(output, "ok {} {} {data_type}", size.rows, size.levels)
        }
        _ => writeln!(output, "no ?"),
    }
}

/// Rows and levels of a tree.
#[derive(Debug, PartialEq, Eq)]
pub struct Size {
    pub rows: usize,
    pub levels: usize,
}

pub fn size(data_type: &DataType) -> Size {
    above(children(data_type))
}

/// The types one level down, in their order.
pub fn children(data_type: &DataType) -> Vec<&DataType> {
    match data_type {
        DataType::List(field)
        | DataType::LargeList(field)
        | DataType::ListView(field)
        | DataType::LargeListView(field)
        | DataType::FixedSizeList(field, _)
        | DataType::Map(field, _) => vec![field.data_type()],
        DataType::Struct(fields) => fields.iter().map(|field| field.data_type()).collect(),
        DataType::Union(fields, _) => fields.iter().map(|(_, field)| field.data_type()).collect(),
        DataType::Dictionary(key, value) => vec![key, value],
        DataType::RunEndEncoded(run_ends, values) => {
            vec![run_ends.data_type(), values.data_type()]
        }
        _ => vec![],
    }
}

/// The size of a tree with these children.
fn above<'a>(children: impl IntoIterator<Item = &'a DataType>) -> Size {
    let none = Size { rows: 1, levels: 1 };
    children
        .into_iter()
        .map(size)
        .fold(none, |all, child| Size {
            rows: all.rows + child.rows,
            levels: all.levels.max(1 + child.levels),
        })
}

#[cfg(test)]
mod tests {
    use super::{Size, answer_all, size};

    fn answers(text: &str) -> String {
        let mut out = Vec::new();
        answer_all(text.as_bytes(), &mut out).expect("no failure in memory");
        String::from_utf8(out).expect("answers are UTF-8")
    }

    #[test]
    fn sample() {
        let text = "Struct(\"slot\": non-null Timestamp(Second), \"kwh\": Decimal64(12, 3),)\n\
            FixedSizeList(4, Int32)\nRunEndEncoded(Int32, Utf8)\n";
        let expected = "ok 3 2 Struct(\"slot\": non-null Timestamp(s), \"kwh\": Decimal64(12, 3))\n\
            ok 2 2 FixedSizeList(4 x Int32)\nno ?\n";
        assert_eq!(answers(text), expected);
    }

    #[test]
    fn last_line() {
        assert_eq!(answers(""), "");
        assert_eq!(answers("\n"), "no ?\n");
        assert_eq!(answers("Int8"), "ok 1 1 Int8\n");
    }

    #[test]
    fn sizes() {
        let text = "Map(\"e\": non-null Struct(\"k\": non-null Int8, \"v\": List(Int8)), sorted)";
        let tree = text.parse().expect("a type");
        assert_eq!(size(&tree), Size { rows: 5, levels: 4 });
    }
}
