//! Steps over the lists of `data/steps` and `data/exact`, each of which the line of an `index` names.
//!
//! Tokens come as lines. Steps over them give the lines of events and of the error (`NAME.steps`), the composer's
//! steps over the same events lines of what is done to documents (`NAME.deeds`), and the count of each deed lines
//! of how large these are with their aliases written out, within each bound that `NAME.sizes` names. Exact steps
//! give the same lines over a list that libyaml reads alike; of the others `NAME.exact` has libyaml's.

#[path = "../lines/data.rs"]
#[allow(dead_code)]
mod data;
mod documents;
mod expected;
#[path = "../lines/fields.rs"]
mod fields;
mod parser;

use data::text_of;
use parser::{token_of, Parser, Token};

/// The bound of a count that stops nowhere below the largest total.
const NO_BOUND: u64 = u64::MAX;

/// A list of tokens.
struct List {
    folder: &'static str,
    name: String,
    tokens: String,
}

impl List {
    /// The text of the file of this ending.
    fn text(&self, ending: &str) -> String {
        text_of(&path_of(self.folder, &format!("{}.{ending}", self.name)))
    }

    /// What steps over the tokens give. If that panics, the list is what was printed last. A document may have `max` nodes with its aliases written out.
    fn parsed(&self, is_exact: bool, max: u64) -> Parser {
        println!("{}/{}", self.folder, self.name);
        let tokens: Vec<Token<'_>> = self.tokens.lines().map(token_of).collect();
        Parser::new(is_exact, max).take_all(&tokens)
    }
}

fn path_of(folder: &str, name: &str) -> String {
    format!("bindings/plain/tests/data/{folder}/{name}")
}

/// The lists of a folder, of which there are so many at least.
fn lists_of(folder: &'static str, least: usize) -> Vec<List> {
    let index = text_of(&path_of(folder, "index"));
    let list = |line: &str| {
        let (name, _) = line.split_once(": ").unwrap();
        let tokens = text_of(&path_of(folder, &format!("{name}.tokens")));
        List { folder, name: name.to_string(), tokens }
    };
    let lists: Vec<List> = index.lines().map(list).collect();
    assert!(lists.len() >= least, "only {} lists in {folder}", lists.len());
    lists
}

#[test]
fn events() {
    for list in lists_of("steps", 40) {
        let parser = list.parsed(false, NO_BOUND);
        assert_eq!(parser.lines, list.text("steps"), "{}.steps", list.name);
        let is_same = list.parsed(true, NO_BOUND).lines == parser.lines;
        assert_ne!(
            is_same, parser.differs,
            "{}: exact steps give the same where libyaml does not",
            list.name
        );
    }
}

#[test]
fn exact() {
    for list in lists_of("exact", 15) {
        assert_eq!(list.parsed(true, NO_BOUND).lines, list.text("exact"), "{}.exact", list.name);
    }
}

#[test]
fn deeds() {
    for list in lists_of("steps", 40) {
        let deeds = list.parsed(false, NO_BOUND).documents.lines;
        assert_eq!(deeds, list.text("deeds"), "{}.deeds", list.name);
    }
}

#[test]
fn sizes() {
    for list in lists_of("steps", 40) {
        let (wanted, mut lines) = (list.text("sizes"), String::new());
        for bound in wanted.lines().filter_map(|line| line.strip_prefix("bound ")) {
            let sizes = list.parsed(false, bound.parse().unwrap()).documents.count.lines;
            lines += &format!("bound {bound}\n{sizes}");
        }
        assert_eq!(lines, wanted, "{}.sizes", list.name);
    }
}
