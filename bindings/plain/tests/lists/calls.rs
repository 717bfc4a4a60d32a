//! What a source gives call by call, and after its end or an error.

use crate::allocator::apart;
use crate::lines::tokens::source_of;
use crate::lines::written::{document_lines, event_line, fault_lines};
use crate::{each_case, Given};
use pokhvizi::kit::Global;
use pokhvizi::libyaml_types::unnamed_yaml_event_t_data::NoEvent;
use pokhvizi::unsafe_libyaml::*;

/// More calls than any list takes.
const EVERY_CALL: u32 = 10_000;

/// The line of a document without nodes.
const NO_DOCUMENT: &str = "DOCUMENT 0:0:0 0:0:0 0 0 - 0\n";

pub fn is_empty(event: &yaml_event_t) -> bool {
    matches!(event.content, NoEvent) && (event.start_mark, event.end_mark) == (ZERO_MARK, ZERO_MARK)
}

/// The lines of what the next call gives; none at the end.
fn next<S: yaml_token_source_t>(
    parser: &mut yaml_parser_t<S>,
    given: Given,
) -> Result<Option<String>, yaml_error_type_t> {
    match given {
        Given::Events => {
            let event = yaml_parser_parse(parser)?;
            Ok((!is_empty(&event)).then(|| apart(|| event_line(&event))))
        }
        Given::Nodes(_) => {
            assert!(yaml_parser_between_documents(parser), "a load would begin within a document");
            let document = yaml_parser_load(parser)?;
            let lines = apart(|| document_lines(&document));
            Ok((!document.nodes().is_empty()).then_some(lines))
        }
    }
}

/// After the end or an error three parses give no event, and two loads no document, or the error again.
/// What the parser keeps stays.
pub fn assert_over<S: yaml_token_source_t>(parser: &mut yaml_parser_t<S>) {
    let kept = *parser.prefix();
    for _ in 0..3 {
        assert!(yaml_parser_parse(parser).map_or(false, |event| is_empty(&event)), "an event after the end");
        assert_eq!(*parser.prefix(), kept);
    }
    for _ in 0..2 {
        assert!(yaml_parser_between_documents(parser));
        match yaml_parser_load(parser) {
            Ok(document) => apart(|| {
                assert_eq!(kept.error, YAML_NO_ERROR);
                assert_eq!(document_lines(&document), NO_DOCUMENT);
            }),
            Err(error) => assert!(error == kept.error && error != YAML_NO_ERROR),
        }
        assert_eq!(*parser.prefix(), kept);
    }
}

/// The lines of what the calls over a source give, and what the parser keeps then.
pub fn by_calls(source: impl yaml_token_source_t, given: Given) -> (String, yaml_parser_t_prefix) {
    let (mut parser, mut lines) = (yaml_parser_initialize(Global, source), String::new());
    if let Given::Nodes(most) = given {
        yaml_parser_set_max_entries(&mut parser, most);
        assert_eq!(parser.max_entries(), most);
    }
    for _ in 0..EVERY_CALL {
        match next(&mut parser, given) {
            Ok(Some(more)) => apart(|| lines += &more),
            Ok(None) => break,
            Err(error) => {
                assert_eq!(error, parser.prefix().error);
                apart(|| lines += &fault_lines(parser.prefix()));
                break;
            }
        }
    }
    assert_over(&mut parser);
    (lines, *parser.prefix())
}

#[test]
fn calls_give_the_lines_of_a_list_and_nothing_after_them() {
    each_case(|case| {
        let (lines, kept) = by_calls(source_of(case.tokens()), case.given);
        case.wants(&lines);
        assert_eq!(kept.error == YAML_NO_ERROR, !case.wanted.contains("FAULT "), "{}", case.name());
    });
}
