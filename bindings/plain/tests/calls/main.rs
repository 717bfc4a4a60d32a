//! Calls that no list of tokens shows, with what they must give: the rows of the worked examples, which
//! `crates/vectors` makes too, and of `data/calls`.
// With `alloc` the crate needs a later rustc than without.
#![allow(clippy::incompatible_msrv)]

mod documents;
mod events;
mod half;
mod limits;
#[path = "../lines/mod.rs"]
mod lines;
mod parsers;
mod places;
mod scanners;
mod texts;
mod tokens;

use lines::data::{rows_of, text_of, Row};

const FILES: [&str; 2] = ["crates/vectors/data/calls", "bindings/plain/tests/data/calls"];

/// Compares what the calls of each row of a table give. It has so many rows.
fn table(name: &str, count: usize, given: impl Fn(&Row) -> String) {
    let text = FILES.map(text_of).concat();
    let rows: Vec<Row> = rows_of(&text).into_iter().filter(|row| row.table == name).collect();
    assert_eq!(rows.len(), count);
    for row in rows {
        lines::same(&format!("{name}, {}", row.name), row.wanted, &given(&row));
    }
}

/// These lines in one, with `;` in place of each LF.
fn joined(lines: &str) -> String {
    lines.replace('\n', ";")
}
