//! Hostile use: lists that are large, deep or drawn, texts of every length, sizes beyond all bounds, and
//! allocations that fail. The files `vectors`, `drawn` and `failing` of `data/hostile` have the test vectors, and
//! `large` of `crates/vectors`.
// With `alloc` the crate needs a later rustc than without.
#![allow(clippy::incompatible_msrv)]

#[path = "../allocator/mod.rs"]
mod allocator;
mod bounded;
mod calls;
mod drawn;
mod failing;
mod large;
#[path = "../lines/mod.rs"]
mod lines;
mod shapes;
mod sizes;
mod texts;

use lines::data::{rows_of, text_of, Row};
#[allow(unused_imports)] // What the modules below name stands here.
use pokhvizi::*;

include!(concat!(env!("OUT_DIR"), "/for_tests.rs"));

/// The text of a file of `data/hostile`.
fn read(name: &str) -> String {
    text_of(&format!("bindings/plain/tests/data/hostile/{name}"))
}

/// Does this with each test vector of a table, of which there are so many at least.
fn each_row(table: &str, least: usize, then: impl FnMut(&Row<'_>)) {
    let text = ["vectors", "drawn", "failing"].map(read).concat() + &text_of("crates/vectors/data/large");
    let rows: Vec<Row<'_>> = rows_of(&text).into_iter().filter(|row| row.table == table).collect();
    assert!(rows.len() >= least, "only {} of {table}", rows.len());
    rows.iter().for_each(then);
}
