//! Token lines, and lines of events, documents and errors, as docs/DEFINITIONS.md describes them; and the
//! data of the tests. A test without `alloc` takes `fields` and `data` alone.
#![allow(dead_code)]

pub mod data;
pub mod fields;
pub mod growing;
pub mod pieces;
pub mod tokens;
pub mod written;

/// Compares lines, and tells the first that differs.
pub fn same(name: &str, wanted: &str, given: &str) {
    let mut both = wanted.split('\n').zip(given.split('\n'));
    if let Some(place) = both.position(|(wanted, given)| wanted != given) {
        let line = |lines: &str| lines.split('\n').nth(place).unwrap().to_string();
        panic!("{name}, line {}: {} in place of {}", place + 1, line(given), line(wanted));
    }
    assert_eq!(given.len(), wanted.len(), "{name}: too few or too many lines: {given}");
}
