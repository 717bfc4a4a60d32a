//! The events of a list with the errors of the loader: those of the list, up to the first with which a load
//! fails.

use crate::allocator::apart;
use crate::calls::assert_over;
use crate::lines::tokens::source_of;
use crate::lines::written::{event_line, fault_lines};
use crate::{each_case, Given};
use pokhvizi::kit::Global;
use pokhvizi::unsafe_libyaml::*;

/// The lines of composed events, and of the error, which the parser keeps.
pub fn composed(source: impl yaml_token_source_t, most: i32) -> (String, yaml_parser_t_prefix) {
    let (mut parser, mut lines) = (yaml_parser_initialize(Global, source), String::new());
    yaml_parser_set_max_entries(&mut parser, most);
    let mut last = NO_FAULT;
    for item in yaml_parser_composed_events(&mut parser) {
        assert_eq!(last, NO_FAULT, "an item after an error");
        last = item.as_ref().err().copied().unwrap_or(NO_FAULT);
        apart(|| lines += &item.as_ref().map_or_else(fault_lines, event_line));
    }
    assert!(yaml_parser_between_documents(&parser));
    assert!(yaml_parser_composed_events(&mut parser).next().is_none());
    assert_eq!(*parser.prefix(), last);
    assert_over(&mut parser);
    (lines, last)
}

/// The lines before an error, and those of the error.
fn split_fault(lines: &str) -> (&str, &str) {
    let start = if lines.starts_with("FAULT ") { Some(0) } else { lines.find("\nFAULT ").map(|end| end + 1) };
    lines.split_at(start.unwrap_or(lines.len()))
}

/// How many of these lines begin so.
fn count(lines: &str, word: &str) -> usize {
    lines.lines().filter(|line| line.starts_with(word)).count()
}

/// Compares with the events of a list and with its loads. If these end by an error of their own, the next
/// event is the one at that place, of which an error of memory has none.
fn assert_up_to(name: &str, given: &str, events: &str, loads: &str) {
    let [(given, fault), (all, end), (documents, wanted)] = [given, events, loads].map(split_fault);
    assert_eq!(fault, wanted, "{name}");
    let rest = all.strip_prefix(given).unwrap_or_else(|| panic!("{name}: other events: {given}"));
    if wanted == end {
        assert!(rest.is_empty(), "{name}: {rest}");
    } else if !wanted.starts_with("FAULT memory ") {
        let place = rest.split(' ').nth(1);
        assert!(place.is_some() && place == wanted.split(' ').nth(2), "{name}: {rest}");
    } else {
        assert!(!rest.is_empty(), "{name}");
    }
    assert_eq!(count(given, "DOCUMENT-END "), count(documents, "DOCUMENT "), "{name}");
}

#[test]
fn composed_events_are_events_up_to_the_error_of_a_load() {
    let mut stopped = 0;
    each_case(|case| {
        if let Given::Nodes(most) = case.given {
            let (lines, events) = (composed(source_of(case.tokens()), most).0, case.list.text("events"));
            assert_up_to(&case.name(), &lines, &events, &case.wanted);
            stopped += usize::from(split_fault(&events).1 != split_fault(&case.wanted).1);
        }
    });
    assert!(stopped >= 5, "only {stopped} lists with an error of a load alone");
}
