//! Each list with each of its allocations refused in turn, alone: it gives its first lines and then the
//! error out of memory, or all lines.

use crate::allocator::{apart, refuse_each};
use crate::calls::by_calls;
use crate::composed::composed;
use crate::cuts::is_front;
use crate::lines::data::{lists_of, TABLES};
use crate::lines::tokens::source_of;
use crate::Given;
use pokhvizi::unsafe_libyaml::*;

/// What is read of a list.
const READINGS: [Option<Given>; 5] =
    [Some(Given::Events), Some(Given::Nodes(i32::MAX)), Some(Given::Nodes(2)), Some(Given::Nodes(1)), None];

/// The lines of a reading, of composed events if it is none, and the error that the parser keeps.
fn read(source: yaml_list_source_t, reading: Option<Given>) -> (String, yaml_parser_t_prefix) {
    match reading {
        Some(given) => by_calls(source, given),
        None => composed(source, i32::MAX),
    }
}

#[test]
fn a_list_gives_its_first_lines_where_an_allocation_is_refused() {
    let mut refused = 0;
    for list in lists_of(&TABLES) {
        for reading in READINGS {
            let (whole, end) = read(source_of(&list.tokens), reading);
            let work = || read(apart(|| source_of(&list.tokens)), reading);
            refused += refuse_each(work, |(lines, kept), taken| {
                let is_whole = lines == whole && kept == end;
                let is_first = kept == MEMORY_FAULT && is_front(&lines, &whole, "FAULT memory 0:0:0 -\n");
                assert!(is_whole || taken.refused > 0 && is_first, "{}: {lines}", list.name);
            });
        }
    }
    assert!(refused > 3_600, "only {refused} allocations");
}
