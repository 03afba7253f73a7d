//! Taking a column out (document 02, [12]) of each tree that is compared. Fields, buffers and what they hold are drawn from a
//! generator of their own, so that all else is what it is without them.

use super::{Check, compare_rows, said};
use crate::column_out::{self, Left, NO_ROOM, OUTCOMES};
use crate::generate::Random;
use crate::generate::column_out::{field, long_names, rooms};
use crate::generate::trees::Tree;
use crate::model::{self, MOST_BYTES, NAME_LIST, Spelling, WORDS};
use crate::needs;
use crate::oracle;
use arrow_schema::DataType;

/// How many times a column is taken out of a sound Struct: few roots are.
const OF_A_STRUCT: usize = 3;

/// What came of it.
pub struct Tally {
    random: Random,
    /// How many times each of `OUTCOMES` came.
    pub outcomes: [usize; OUTCOMES.len()],
    /// How many times the Rust had a say.
    pub by_rust: usize,
    /// How many of the trees left the port printed beside the Rust.
    pub printed: usize,
}

impl Tally {
    pub fn new(seed: u64) -> Tally {
        Tally {
            random: Random::new(seed ^ 0x0063_6f6c_756d_6e21),
            outcomes: [0; OUTCOMES.len()],
            by_rust: 0,
            printed: 0,
        }
    }

    /// Whether each outcome came.
    pub fn is_full(&self) -> bool {
        self.outcomes.iter().all(|count| *count > 0)
    }

    /// Prints the counts.
    pub fn print(&self) {
        let all: usize = self.outcomes.iter().sum();
        println!(
            "\ncolumns taken out: {all}, the Rust had a say on {}; trees left that port and Rust printed: {}",
            self.by_rust, self.printed
        );
        for (count, outcome) in self.outcomes.iter().zip(OUTCOMES) {
            println!("{count:>9}  {outcome}");
        }
        if !self.is_full() {
            println!("not all of these came: more trees are needed");
        }
    }
}

impl Check<'_> {
    /// Takes columns out of so many Structs whose names are about as long as may be packed.
    pub fn long_names(&mut self, count: usize) {
        for _ in 0..count {
            let tree = long_names(&mut self.taken.random);
            let Tree { text, list, words } = &tree;
            let data_type = oracle::data_type(text, list, words);
            self.take_out(&tree, Some(&data_type), 0);
            self.columns_out(&tree, Some(&data_type));
        }
    }

    /// Takes random columns out of a tree; of a sound one the Rust's type is given.
    pub(super) fn columns_out(&mut self, tree: &Tree, data_type: Option<&DataType>) {
        let times = match data_type {
            Some(DataType::Struct(_)) => OF_A_STRUCT,
            _ => 1,
        };
        let fields = fields(tree);
        for _ in 0..times {
            let field = field(&mut self.taken.random, fields);
            self.take_out(tree, data_type, field);
        }
    }

    /// What model, Rust and port make of a tree without a field.
    fn take_out(&mut self, tree: &Tree, data_type: Option<&DataType>, field: usize) {
        let table = (&*tree.text, &*tree.list, &*tree.words);
        let left = column_out::left(table, field);
        if let Some(data_type) = data_type {
            self.taken.by_rust += 1;
            let rust = oracle::take_out(data_type, field);
            if let Some(difference) = compare_left(&left, &rust) {
                let what = format!("field {field}, model and Rust: {difference}");
                self.differ_tree(tree, &what);
            }
        }
        let lent = rooms(&mut self.taken.random, left.as_ref().ok());
        let outcome = column_out::outcome(&left, (field, fields(tree)), lent);
        self.taken.outcomes[outcome] += 1;
        if let Some(difference) = self.subject_takes_out(tree, field, &left, lent) {
            let what = format!("field {field}, words and bytes lent {lent:?}: {difference}");
            self.differ_tree(tree, &what);
        }
    }

    /// What is wrong with what the port answers or leaves in the buffers lent, which held random words and bytes.
    fn subject_takes_out(
        &mut self,
        tree: &Tree,
        field: usize,
        left: &Result<Left, u32>,
        (words, bytes): (usize, usize),
    ) -> Option<String> {
        let subject = self.subject?;
        let random = &mut self.taken.random;
        let mut rows: Vec<u32> = (0..words).map(|_| random.word() as u32).collect();
        let mut text: Vec<u8> = (0..bytes).map(|_| random.word() as u8).collect();
        let fits = |left: &&Left| left.rows_fit(words) && left.text_fits(bytes);
        let left = left.as_ref().map_err(|number| *number);
        let left = left.and_then(|left| Some(left).filter(fits).ok_or(NO_ROOM));
        let (mut rows_then, mut text_then) = (rows.clone(), text.clone());
        if let Ok(left) = left {
            rows_then[..left.words.len()].copy_from_slice(&left.words);
            text_then[..left.text.len()].copy_from_slice(&left.text);
        }
        let table = (&*tree.text, &*tree.list, &*tree.words);
        let answer = subject.take_column_out(table, field, &mut rows, &mut text);
        let expected = left.map(|left| (left.words.len() / WORDS, left.text.len()));
        if answer != expected {
            return Some(format!("port {answer:?}, model {expected:?}"));
        }
        if let Some(at) = (0..words).find(|at| rows[*at] != rows_then[*at]) {
            return Some(format!("word {at}: {}, not {}", rows[at], rows_then[at]));
        }
        if let Some(at) = (0..bytes).find(|at| text[*at] != text_then[*at]) {
            return Some(format!("byte {at}: {}, not {}", text[at], text_then[at]));
        }
        let (count, length) = answer.ok()?;
        self.prints_left(tree, field, &rows[..count * WORDS], &text[..length])
    }

    /// How the port prints a tree that it left, where that is not what the Rust prints.
    fn prints_left(
        &mut self,
        tree: &Tree,
        field: usize,
        rows: &[u32],
        text: &[u8],
    ) -> Option<String> {
        let whole = oracle::data_type(&tree.text, &tree.list, &tree.words);
        let rust = oracle::take_out(&whole, field).ok()?;
        let rust = oracle::print(&rust, MOST_BYTES);
        let mut out = vec![0; MOST_BYTES];
        let printed = self
            .subject?
            .print(Spelling::Micro, text, NAME_LIST, rows, &mut out);
        let port = printed.map(|length| out[..length].to_vec());
        self.taken.printed += usize::from(port.is_ok());
        let said = || {
            format!(
                "printed by the port {} by the Rust {}",
                said(&port),
                said(&rust)
            )
        };
        (port != rust).then(said)
    }
}

/// How many fields the root has.
fn fields(tree: &Tree) -> usize {
    let Tree { text, list, words } = tree;
    needs::fields(text, list, &model::from_words(words)).len()
}

/// What differs between the model's tree without a field and the Rust's, if anything does.
fn compare_left(left: &Result<Left, u32>, rust: &Result<DataType, u32>) -> Option<String> {
    let (Left { words, text }, data_type) = match (left, rust) {
        (Ok(left), Ok(data_type)) => (left, data_type),
        _ => {
            let numbers = (left.as_ref().err(), rust.as_ref().err());
            return (numbers.0 != numbers.1).then(|| format!("{numbers:?}"));
        }
    };
    let rows = oracle::rows(data_type);
    let length: usize = rows.iter().map(|row| row.name.len() + row.zone.len()).sum();
    if text.len() != length {
        return Some(format!("{} bytes, not {length}", text.len()));
    }
    let difference = compare_rows(text, &model::from_words(words), &rows, false);
    if difference.is_some() || length > MOST_BYTES {
        return difference;
    }
    let same = model::sound(text, NAME_LIST, words)
        && oracle::data_type(text, NAME_LIST, words) == *data_type;
    (!same).then(|| format!("what is left is not {data_type}"))
}
