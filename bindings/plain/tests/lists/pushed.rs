//! Lists whose tokens are handed to a parser or a loader one by one.

use crate::lines::tokens::tokens_of;
use crate::lines::written::{document_lines, event_line, fault_lines};
use crate::{each_case, lines, Given};
use pokhvizi::kit::{Global, Vec as List};
use pokhvizi::libyaml_types::unnamed_yaml_token_t_data::StreamEnd;
use pokhvizi::unsafe_libyaml::*;

/// What takes a token, and appends the lines of what that gives.
type Push<'a> = &'a mut dyn FnMut(yaml_token_t, &mut String) -> Pushed;

/// What a push returns, and what is kept after it.
#[derive(Clone, Copy, Debug, PartialEq)]
struct Pushed(Result<(), yaml_parser_t_prefix>, yaml_parser_t_prefix);

/// The lines of what the tokens give, also after an error or the end, and of the error that is kept. From
/// the first error on each push returns that, and gives nothing.
fn push_all(tokens: &str, push: Push) -> String {
    let (mut lines, mut last) = (String::new(), Pushed(Ok(()), NO_FAULT));
    let one_more = yaml_token_t::new(StreamEnd, ZERO_MARK, ZERO_MARK);
    let count = tokens.lines().count();
    for (place, token) in tokens_of(tokens).into_iter().chain([one_more]).enumerate() {
        if place == count && last.1 == NO_FAULT {
            break;
        }
        let (before, said) = (lines.len(), push(token, &mut lines));
        let is_kept = last.1 == NO_FAULT || (said == last && lines.len() == before);
        assert!(is_kept, "another error than the one that is kept: {said:?} after {last:?}");
        assert_eq!(said.0.err().unwrap_or(NO_FAULT), said.1);
        last = said;
    }
    if last.1 != NO_FAULT {
        lines += &fault_lines(&last.1);
    }
    lines
}

fn pushed(tokens: &str, given: Given) -> String {
    match given {
        Given::Events => {
            let mut parser = yaml_push_parser_t::new(Global);
            push_all(tokens, &mut |token, lines| {
                let mut events = List::new(Global);
                let said = parser.push(token, &mut events);
                lines.extend(events.iter().map(event_line));
                Pushed(said, *parser.prefix())
            })
        }
        Given::Nodes(most) => {
            let mut loader = yaml_push_loader_t::with_max_entries(Global, most);
            push_all(tokens, &mut |token, lines| {
                let mut documents = List::new(Global);
                let said = loader.push(token, &mut documents);
                lines.extend(documents.iter().map(document_lines));
                Pushed(said, *loader.prefix())
            })
        }
    }
}

/// A parser that is handed its tokens knows nothing of a source's error.
#[test]
fn pushes_give_the_lines_of_a_list() {
    each_case(|case| {
        let wanted = case.wanted.split("FAULT reader ").next().unwrap();
        lines::same(&case.name(), wanted, &pushed(case.tokens(), case.given));
    });
}
