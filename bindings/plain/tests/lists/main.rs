//! The lists of `crates/vectors`: each gives the lines that stand there, however it is read.
// With `alloc` the crate needs a later rustc than without.
#![allow(clippy::incompatible_msrv)]

#[path = "../allocator/mod.rs"]
mod allocator;
mod calls;
mod composed;
mod cuts;
#[path = "../lines/mod.rs"]
mod lines;
mod pushed;
mod refused;
#[cfg(feature = "std")]
mod runs;
mod whole;

use lines::data::{lists_of, List, TABLES};
use std::panic::{catch_unwind, resume_unwind, AssertUnwindSafe};

/// What is read of a list.
#[derive(Clone, Copy, Debug, PartialEq)]
enum Given {
    Events,
    /// The documents, where each list of a document has at most so many entries.
    Nodes(i32),
}

/// A list, what is read of it, and the lines that it has to give.
struct Case<'a> {
    list: &'a List,
    ending: &'a str,
    given: Given,
    wanted: String,
}

impl Case<'_> {
    fn tokens(&self) -> &str {
        &self.list.tokens
    }

    fn name(&self) -> String {
        format!("{}/{}.{}", self.list.table, self.list.name, self.ending)
    }

    /// Compares what was read, and tells the first line that differs.
    fn wants(&self, given: &str) {
        lines::same(&self.name(), &self.wanted, given);
    }
}

/// What the file of this ending has; none if it has no lines of events or documents.
fn given_of(ending: &str) -> Option<Given> {
    match ending {
        "events" => Some(Given::Events),
        "nodes" => Some(Given::Nodes(i32::MAX)),
        _ => Some(Given::Nodes(ending.strip_prefix("nodes@")?.parse().unwrap())),
    }
}

/// Does this, and tells the name if it panics.
fn named(name: &str, then: impl FnOnce()) {
    if let Err(panic) = catch_unwind(AssertUnwindSafe(then)) {
        eprintln!("in {name}");
        resume_unwind(panic);
    }
}

/// Hands on each file of events or documents of each list, and names it if that panics.
fn each_case(mut then: impl FnMut(&Case)) {
    let mut cases = 0;
    for list in &lists_of(&TABLES) {
        for ending in &list.endings {
            if let Some(given) = given_of(ending) {
                let wanted = list.text(ending);
                let case = Case { list, ending, given, wanted };
                named(&case.name(), || then(&case));
                cases += 1;
            }
        }
    }
    assert!(cases >= 299, "only {cases} files");
}
