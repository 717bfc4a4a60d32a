//! Whole lists: all that they give at once, and by iterators.

use crate::lines::tokens::source_of;
use crate::lines::written::{document_lines, event_line, fault_lines, lines_of};
use crate::{each_case, Given};
use pokhvizi::kit::Global;
use pokhvizi::unsafe_libyaml::*;

/// What a list gives as one value.
fn at_once(tokens: &str, given: Given) -> String {
    let (mut lines, fault) = match given {
        Given::Events => {
            let run = yaml_parser_parse_all(Global, source_of(tokens)).unwrap();
            (run.events.iter().map(event_line).collect::<String>(), run.fault)
        }
        Given::Nodes(_) => {
            let all = yaml_parser_load_all(Global, source_of(tokens)).unwrap();
            (all.documents.iter().map(document_lines).collect(), all.fault)
        }
    };
    lines.extend(fault.as_ref().map(fault_lines));
    lines
}

#[test]
fn a_list_gives_its_lines_at_once() {
    each_case(|case| {
        let is_bounded = matches!(case.given, Given::Nodes(most) if most < i32::MAX);
        if !is_bounded {
            case.wants(&at_once(case.tokens(), case.given));
        }
    });
}

/// What an iterator yields, which ends for good.
fn iterated(tokens: &str, given: Given) -> String {
    let mut parser = yaml_parser_initialize(Global, source_of(tokens));
    let lines = match given {
        Given::Events => lines_of(&mut parser, event_line),
        Given::Nodes(most) => {
            yaml_parser_set_max_entries(&mut parser, most);
            lines_of(yaml_parser_documents(&mut parser), document_lines)
        }
    };
    assert!(yaml_parser_between_documents(&parser));
    assert!(yaml_parser_documents(&mut parser).next().is_none() && parser.next().is_none());
    lines
}

#[test]
fn an_iterator_yields_the_lines_of_a_list_and_no_more() {
    each_case(|case| case.wants(&iterated(case.tokens(), case.given)));
}
