//! The check of needed columns (document 02, [7]) over each tree that is compared. What is needed is drawn from a generator
//! of its own, so that texts and trees are what they are without it.

use super::{Check, shown};
use crate::generate::Random;
use crate::generate::needs::needed;
use crate::generate::trees::{self, Letters, Tree};
use crate::model;
use crate::needs::{self, MOST_NEEDS, Need, Needed, OUTCOMES};
use crate::oracle;
use arrow_schema::DataType;

/// How many times a tree is checked whose root is a sound Struct: few roots are.
const OF_A_STRUCT: usize = 6;

/// What came of the checks.
pub struct Tally {
    random: Random,
    /// How many times each of `OUTCOMES` came.
    pub outcomes: [usize; OUTCOMES.len()],
    /// How many times each need was the first that is not met.
    pub first: [usize; MOST_NEEDS],
    /// Checks on which the Rust had a say.
    pub by_rust: usize,
}

impl Tally {
    pub fn new(seed: u64) -> Tally {
        Tally {
            random: Random::new(seed ^ 0x6e65_6564),
            outcomes: [0; OUTCOMES.len()],
            first: [0; MOST_NEEDS],
            by_rust: 0,
        }
    }

    /// Whether each outcome came, and each need was once the first that is not met.
    pub fn is_full(&self) -> bool {
        let mut counts = self.outcomes.iter().chain(&self.first);
        counts.all(|count| *count > 0)
    }

    /// Prints the counts.
    pub fn print(&self) {
        let all: usize = self.outcomes.iter().sum();
        println!(
            "\nchecks of needed columns: {all}, the Rust had a say on {}",
            self.by_rust
        );
        for (count, outcome) in self.outcomes.iter().zip(OUTCOMES) {
            println!("{count:>9}  {outcome}");
        }
        let rarest = self.first.iter().min().expect("32 places");
        println!("each need from 0 to 31 was the first that is not met, {rarest} times or more");
        if !self.is_full() {
            println!("not all of these came: more trees are needed");
        }
    }
}

impl Check<'_> {
    /// Checks so many trees that are made for it: Structs of columns, and a few of any kind; some are changed, some broken.
    /// Columns are taken out of them too.
    pub fn columns(&mut self, count: usize) {
        for _ in 0..count {
            let random = &mut self.needs.random;
            let letters = [Letters::Plain, Letters::Ascii, Letters::Latin, Letters::Any];
            let letters = letters[random.below(4)];
            let tree = match random.below(16) {
                0 => trees::sound(random, letters, 20),
                _ => trees::columns(random, letters),
            };
            let tree = match random.below(8) {
                0 => trees::changed(random, &tree),
                1 => trees::broken(random, &tree).map_or(tree, |(_, broken)| broken),
                _ => tree,
            };
            let Tree { text, list, words } = &tree;
            let sound = model::sound(text, list, words);
            let data_type = sound.then(|| oracle::data_type(text, list, words));
            self.needs(&tree, data_type.as_ref());
            self.columns_out(&tree, data_type.as_ref());
        }
    }

    /// Checks a tree with random needs; of a sound one the Rust's type is given.
    pub(super) fn needs(&mut self, tree: &Tree, data_type: Option<&DataType>) {
        let times = match data_type {
            Some(DataType::Struct(_)) => OF_A_STRUCT,
            _ => 1,
        };
        for _ in 0..times {
            let needed = needed(&mut self.needs.random, tree);
            self.needed(tree, data_type, &needed);
        }
    }

    /// What model, Rust and port say of needs.
    fn needed(&mut self, tree: &Tree, data_type: Option<&DataType>, needed: &Needed) {
        let table = (&*tree.text, &*tree.list, &*tree.words);
        let model = needs::needs(table, needed);
        self.needs.outcomes[needs::outcome(table, needed, model)] += 1;
        if let Ok(Some(at)) = model {
            self.needs.first[at] += 1;
        }
        if let Some(data_type) = data_type
            && !matches!(model, Err(needs::TOO_MANY | needs::WRONG_NAME))
        {
            let rust = oracle::needs(data_type, needed).ok_or(needs::NOT_STRUCT);
            self.needs.by_rust += 1;
            if model != rust {
                let what = format!("model {model:?}, Rust {rust:?} to {}", said(needed));
                self.differ_tree(tree, &what);
            }
        }
        let port = self.subject.map(|port| port.needs(table, needed));
        if let Some(port) = port
            && port != model
        {
            let what = format!("port {port:?}, model {model:?} to {}", said(needed));
            self.differ_tree(tree, &what);
        }
    }
}

/// Needs as they are shown.
fn said(needed: &Needed) -> String {
    let need = |need: &Need| {
        let name = need.name(&needed.text).map_or("no name".into(), shown);
        format!("\n  {name} {need:?}")
    };
    needed.needs.iter().map(need).collect()
}
