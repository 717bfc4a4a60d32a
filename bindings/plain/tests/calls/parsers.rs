//! Parsers between documents and after a load, sources that have no memory, and a list's tokens by calls.

use crate::joined;
use crate::lines::data::text_of;
use crate::lines::tokens::source_of;
use crate::lines::written::event_line;
use pokhvizi::kit::{Global, Vec as List};
use pokhvizi::libyaml_types::unnamed_yaml_event_t_data::NoEvent;
use pokhvizi::unsafe_libyaml::*;

/// The list of this name of the worked examples.
fn worked(name: &str) -> yaml_list_source_t {
    source_of(&text_of(&format!("crates/vectors/data/worked/{name}.tokens")))
}

/// Where a parser stands before the first and after each of five events.
fn stands() -> Vec<Option<bool>> {
    let mut parser = yaml_parser_initialize(Global, worked("implicit_document"));
    let mut stands = vec![Some(yaml_parser_between_documents(&parser))];
    stands.extend((0..5).map(|_| {
        let is_event = yaml_parser_parse(&mut parser).map_or(false, |event| event.content != NoEvent);
        is_event.then(|| yaml_parser_between_documents(&parser))
    }));
    stands
}

/// How many nodes a load gives where the parser is between documents, the next event, and whether it then
/// is.
fn goes_on() -> String {
    let mut parser = yaml_parser_initialize(Global, worked("directives_loaded"));
    let is_between = yaml_parser_between_documents(&parser);
    let nodes = is_between.then(|| yaml_parser_load(&mut parser).map(|document| document.nodes().len()));
    let line = joined(&event_line(&yaml_parser_parse(&mut parser).unwrap()));
    format!("{:?}", (nodes, line, yaml_parser_between_documents(&parser)))
}

/// Whether all events and all documents of a source that has no token and no memory are errors.
fn nothing_at_once() -> [bool; 2] {
    let fault = yaml_source_fault_t::new(YAML_MEMORY_ERROR, None, 0, 0, ZERO_MARK, None, ZERO_MARK);
    let source = || yaml_list_source_t::new(List::new(Global), fault);
    [yaml_parser_parse_all(Global, source()).is_err(), yaml_parser_load_all(Global, source()).is_err()]
}

/// Whether a list without a fault of its own, and without a token, fails, and the kind of fault.
fn ends_too_soon() -> (bool, yaml_error_type_t) {
    let mut parser = yaml_parser_initialize(Global, yaml_list_source_t::from(List::new(Global)));
    let fails = yaml_parser_parse(&mut parser).is_err();
    (fails, parser.prefix().error)
}

/// How many tokens calls of a list give, its fault after them, and whether two further calls give that.
fn tokens_and_fault() -> String {
    let mut list = worked("implicit_document");
    let (mut tokens, mut end) = (0, None);
    while end.is_none() && tokens < 10 {
        end = list.next_token().err();
        tokens += usize::from(end.is_none());
    }
    let [again, at_last] = [(); 2].map(|()| list.next_token().err() == end);
    format!("{:?}", (tokens, end, again, at_last))
}

#[test]
fn parsers_go_on_and_lists_end_as_they_should() {
    crate::table("parsers", 5, |row| match row.name {
        "a parser between documents and in one" => format!("{:?}", stands()),
        "an event after a load" => goes_on(),
        "a source without memory gives nothing at once" => format!("{:?}", nothing_at_once()),
        "a list that ends too soon ends by a reader's fault" => format!("{:?}", ends_too_soon()),
        "a list's next tokens, and then its fault" => tokens_and_fault(),
        name => panic!("no call: {name}"),
    });
}
