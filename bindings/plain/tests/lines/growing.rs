//! Lists that grow by a number n, computed or as lists.
//!
//! Such a list is a text of parts with `/` between them. Each has `1`, `n` or `n-1`, how often it is
//! repeated, and after a space token lines with `;` between them, which have `#` for the marks and `@` for
//! how often the part was repeated before.

use super::tokens::token_of;
use pokhvizi::kit::Vec as Tokens;
use pokhvizi::libyaml_types::*;
use pokhvizi::unsafe_libyaml::{yaml_scanner_t, YAML_READER_ERROR};

/// A token line with the marks of this place for `#`, and this text for each `@`.
pub fn filled(line: &str, place: u64, text: &str) -> String {
    let (start, end) = (2 * place, 2 * place + 1);
    line.replace('#', &format!("{start}:0:{start} {end}:0:{end}")).replace('@', text)
}

fn times_of(word: &str, n: u64) -> u64 {
    match word {
        "1" => 1,
        "n" => n,
        "n-1" => n - 1,
        _ => panic!("{word} is no number of times"),
    }
}

/// The token lines of a list at n.
pub fn growing_lines(parts: &str, n: u64) -> impl Iterator<Item = String> + '_ {
    let lines = parts.split('/').flat_map(move |part| {
        let (word, lines) = part.split_once(' ').unwrap();
        (0..times_of(word, n)).flat_map(move |number| lines.split(';').map(move |line| (line, number)))
    });
    lines.zip(0..).map(|((line, number), place)| filled(line, place, &number.to_string()))
}

/// The tokens of a list at n.
pub fn growing(parts: &str, n: u64) -> impl Iterator<Item = yaml_token_t> + '_ {
    growing_lines(parts, n).map(|line| token_of(&line))
}

/// The fault that ends a list's tokens.
pub fn end_of_list() -> yaml_source_fault_t {
    let (problem, context) = (Some("no more tokens"), Some("while reading a vector"));
    yaml_source_fault_t::new(YAML_READER_ERROR, problem, 7, -3, ZERO_MARK, context, ZERO_MARK)
}

/// A list source of a list at n.
pub fn listed(parts: &str, n: u64) -> yaml_list_source_t {
    let tokens: Vec<yaml_token_t> = growing(parts, n).collect();
    yaml_list_source_t::new(Tokens::from(tokens), end_of_list())
}

/// A scanner that computes the tokens of a list.
pub struct Computed<I>(pub I);

impl<I: Iterator<Item = yaml_token_t>> yaml_scanner_t for Computed<I> {
    fn scan(&mut self) -> Result<yaml_token_t, yaml_source_fault_t> {
        self.0.next().ok_or_else(end_of_list)
    }
}
