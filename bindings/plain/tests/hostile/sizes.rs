//! Expanded sizes of documents built by calls: nodes that are shared, parents after children, cycles that are
//! reached and not, and sizes at and past a bound.

use crate::calls::{empty, make, SHORT};
use crate::each_row;
use crate::shapes::assert_shaped;
use pokhvizi::kit::Global;
use pokhvizi::unsafe_libyaml::{yaml_document_append_sequence_item, yaml_document_t};
use pokhvizi::yaml_expansion::{bounded_size, expanded_size};
use std::fmt::Display;

/// Adds so many sequences, each with the next one so many times, and the last with a scalar.
fn add_levels(document: &mut yaml_document_t, depth: i32, times: u64) {
    make(document, "[", SHORT).unwrap();
    for id in 1..=depth {
        make(document, if id < depth { "[" } else { "." }, SHORT).unwrap();
        for _ in 0..times {
            yaml_document_append_sequence_item(document, id, id + 1).unwrap();
        }
    }
}

/// The document of these words, or of `levels DEPTH TIMES`.
pub fn document_of(words: &str) -> yaml_document_t {
    let mut document = empty();
    match words.strip_prefix("levels ").and_then(|levels| levels.split_once(' ')) {
        Some((depth, times)) => add_levels(&mut document, depth.parse().unwrap(), times.parse().unwrap()),
        None => words.split_whitespace().for_each(|word| make(&mut document, word, SHORT).unwrap()),
    }
    document
}

/// The text of a size, or of the error in its place.
fn size_text<E: Display>(size: Result<u64, E>) -> String {
    size.map_or_else(|error| error.to_string(), |size| size.to_string())
}

/// What `bounded_size` says if `expanded_size` says this. A node made by a call starts nowhere.
fn in_other_words(wanted: &str) -> &str {
    match wanted {
        "too many nodes, with aliases written out" => {
            "found too many nodes, with aliases written out at line 1, column 1"
        }
        _ if wanted.ends_with(" contains itself") => {
            "found an alias within the node that it names at line 1, column 1"
        }
        size => size,
    }
}

#[test]
fn documents_have_expanded_sizes() {
    each_row("expanded sizes", 24, |row| {
        let (document, max) = (document_of(row.fields[1]), row.number(0));
        assert_eq!(size_text(expanded_size(Global, &document, max)), row.wanted, "{}", row.name);
        let bounded = size_text(bounded_size(Global, &document, max));
        assert_eq!(bounded, in_other_words(row.wanted), "{}", row.name);
    });
}

#[test]
fn deep_documents_are_made_by_calls() {
    each_row("deep documents, by calls", 1, |row| {
        let document = document_of(row.fields[0]);
        assert_eq!(format!("{} nodes", document.nodes().len()), row.wanted, "{}", row.name);
        assert_shaped(row.name, document.nodes());
    });
}
