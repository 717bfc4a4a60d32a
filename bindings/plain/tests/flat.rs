//! Memory goes back: each work is done so many times, and more often. The second takes no more memory at once,
//! and neither leaves any behind. A body that never frees passes every proof.
// With `alloc` the crate needs a later rustc than without.
#![allow(clippy::incompatible_msrv)]

mod allocator;
#[path = "hostile/calls.rs"]
mod calls;
mod lines;

use allocator::{refusing, Refused};
use calls::{make, SHORT};
use lines::data::text_of;
use lines::growing::{growing, Computed};
use lines::tokens::source_of;
use pokhvizi::kit::{Global, Vec as Events};
use pokhvizi::token_lines::{write_events, yaml_line_source_t, MAX_TOKENS};
use pokhvizi::unsafe_libyaml::*;

/// n documents without content.
const DOCUMENTS: &str = "1 STREAM-START # utf8/n DOCUMENT-START #/1 STREAM-END #";

/// n open flow sequences.
const OPEN: &str = "1 STREAM-START # utf8/n FLOW-SEQUENCE-START #";

/// A flow sequence of n aliases of itself.
const ALIASES: &str = "1 STREAM-START # utf8;ANCHOR # =a;FLOW-SEQUENCE-START #;ALIAS # =a/\
    n-1 FLOW-ENTRY #;ALIAS # =a/1 FLOW-SEQUENCE-END #;STREAM-END #";

/// n tag directives, and the first of them again, which is an error.
const DIRECTIVES: &str = "1 STREAM-START # utf8/n TAG-DIRECTIVE # =!@! =p:/1 TAG-DIRECTIVE # =!@! =p:";

/// A number above that of the tokens of `follows.tokens`, and of its events. A run that is left or broken off
/// goes further each time, up to this.
const ROUNDS: u64 = 600;

/// A text of so many bytes is longer than one that a parser keeps.
const LONG: usize = 65_537;

/// How many bytes longer the lines of a test are that has higher numbers in them.
const OWN: isize = 256;

/// The text of a file of `data/hostile`.
fn read(name: &str) -> String {
    text_of(&format!("bindings/plain/tests/data/hostile/{name}"))
}

/// Does a work so many times, and more often. What it counts may only rise.
fn assert_flat(name: &str, times: u64, more: u64, work: impl Fn(u64) -> u64) {
    let [few, many] = [times, more].map(|times| refusing(Refused::Never, || work(times)));
    assert!(0 < few.0 && few.0 < many.0, "{name}: {} counted, and then {}", few.0, many.0);
    for (times, (_, taken)) in [(times, few), (more, many)] {
        assert_eq!(taken.held, 0, "{name}: what is left behind after {times} times");
    }
    assert!(
        many.1.peak <= few.1.peak + OWN,
        "{name}: left behind until the end: {:?}, then {:?}",
        few.1,
        many.1
    );
    println!("{name}: {} bytes at once, {} counted", many.1.peak, many.0);
}

/// The same of a work that is done anew each time, and is told which round it is.
fn assert_rounds_flat(name: &str, times: u64, more: u64, work: impl Fn(u64) -> u64) {
    assert_flat(name, times, more, |times| (0..times).map(|round| work(round % ROUNDS)).sum());
}

fn computed(parts: &str, n: u64) -> impl yaml_token_source_t + '_ {
    yaml_scanner_source_t::new(Computed(growing(parts, n)), u64::MAX)
}

/// The first so many tokens of lines.
fn source(lines: &str, tokens: u64) -> yaml_line_source_t<&[u8]> {
    yaml_line_source_t::new(Global, lines.as_bytes(), tokens)
}

/// Takes at most so many events of a source by value, deletes the parser, and counts the events.
fn given(source: impl yaml_token_source_t, most: u64) -> u64 {
    let mut parser = yaml_parser_initialize(Global, source);
    let is_event = |_: &u64| yaml_parser_parse(&mut parser).is_ok_and(|event| event.type_() != YAML_NO_EVENT);
    let events = (0..most).take_while(is_event).count() as u64;
    yaml_parser_delete(parser);
    events
}

/// Loads the documents of a source, and counts their nodes.
fn loaded(source: impl yaml_token_source_t) -> u64 {
    let (mut parser, mut nodes) = (yaml_parser_initialize(Global, source), 0);
    while yaml_parser_between_documents(&parser) {
        match yaml_parser_load(&mut parser) {
            Ok(document) if !document.nodes().is_empty() => nodes += document.nodes().len() as u64,
            _ => break,
        }
    }
    nodes
}

/// Loads these lines up to an error in open collections, and counts an error of this kind.
fn loaded_to(lines: &str, error: yaml_error_type_t) -> u64 {
    let mut parser = yaml_parser_initialize(Global, source(lines, MAX_TOKENS));
    u64::from(yaml_parser_load(&mut parser).err() == Some(error))
}

/// An event without content.
fn nothing() -> yaml_event_t {
    let content = unnamed_yaml_event_t_data::NoEvent;
    yaml_event_t { content, start_mark: ZERO_MARK, end_mark: ZERO_MARK }
}

/// Puts at most so many events of a source into one place, deletes the parser, and counts the events.
fn placed(source: impl yaml_token_source_t, most: u64, event: &mut yaml_event_t) -> u64 {
    let mut parser = yaml_parser_initialize(Global, source);
    let events = count_placed(&mut parser, most, event);
    yaml_parser_delete(parser);
    events
}

fn count_placed<S: yaml_token_source_t>(
    parser: &mut yaml_parser_t<S>,
    most: u64,
    event: &mut yaml_event_t,
) -> u64 {
    let is_placed = |_: &u64| yaml_parser_parse_into(parser, event).is_ok() && event.type_() != YAML_NO_EVENT;
    (0..most).take_while(is_placed).count() as u64
}

/// Puts events into one place, which stays from round to round.
fn placed_rounds(times: u64, work: impl Fn(u64, &mut yaml_event_t) -> u64) -> u64 {
    let mut event = nothing();
    (0..times).map(|round| work(round % ROUNDS, &mut event)).sum()
}

/// Writes the lines of the events, and counts their bytes.
fn written(lines: &str) -> u64 {
    let mut parser = yaml_parser_initialize(Global, source(lines, MAX_TOKENS));
    let mut written = Vec::new();
    write_events(&mut parser, &mut written);
    written.len() as u64
}

/// Hands in so many tokens, drops the parser, and counts the events.
fn pushed(lines: &str, tokens: u64) -> u64 {
    let (mut source, mut parser) = (source(lines, tokens), yaml_push_parser_t::new(Global));
    let mut events = Events::new(Global);
    while source.next_token().is_ok_and(|token| parser.push(token, &mut events).is_ok()) {}
    events.len() as u64
}

/// Makes and deletes a token and an event with a text of a thousand bytes, and counts the event.
fn deleted() -> u64 {
    let text = [b'a'; 1000];
    let mut token = yaml_token_t::anchor(Global, &text, ZERO_MARK, ZERO_MARK).unwrap();
    yaml_token_delete(&mut token);
    let style = YAML_ANY_SCALAR_STYLE;
    let mut event = yaml_scalar_event_initialize(Global, None, None, &text, true, true, style).unwrap();
    yaml_event_delete(&mut event);
    1
}

/// Builds a document by calls, deletes it, and counts its nodes.
fn built() -> u64 {
    let mut document = yaml_document_initialize(Global, None, SHORT.directives, true, true).unwrap();
    ["[!", ".!", "{!", "1[2"].iter().for_each(|word| make(&mut document, word, SHORT).unwrap());
    let nodes = document.nodes().len() as u64;
    yaml_document_delete(document);
    nodes
}

/// The same lines, except that each scalar and each tag is longer than a text that a parser keeps.
fn with_long_texts(lines: &str) -> String {
    let long = "x".repeat(LONG);
    lines.replace("=t\n", &format!("={long}\n")).replace("=x plain", &format!("={long} plain"))
}

#[test]
fn streams_of_many_documents_are_flat() {
    assert_flat("parsed", 1000, 10_000, |n| given(computed(DOCUMENTS, n), u64::MAX));
    assert_flat("loaded", 1000, 10_000, |n| loaded(computed(DOCUMENTS, n)));
}

#[test]
fn parsers_that_are_left_are_flat() {
    assert_rounds_flat("left", 100, 1000, |_| given(computed(OPEN, 10), 8));
    assert_rounds_flat("anchored", 100, 1000, |_| loaded(computed(ALIASES, 3)));
    assert_rounds_flat("handles", 100, 1000, |_| given(computed(DIRECTIVES, 3), u64::MAX));
    let (open, refused) = (read("left_open"), read("refused"));
    assert_rounds_flat("open", 100, 1000, |_| loaded_to(&open, YAML_PARSER_ERROR));
    assert_rounds_flat("refused", 100, 1000, |_| loaded_to(&refused, YAML_COMPOSER_ERROR));
}

#[test]
fn calls_are_flat() {
    assert_rounds_flat("deleted", 100, 1000, |_| deleted());
    assert_rounds_flat("built", 100, 1000, |_| built());
}

/// Events that follow one another in each way in which an event's memory is used again.
#[test]
fn events_in_one_place_are_flat() {
    let lines = read("follows.tokens");
    let all = |_, event: &mut yaml_event_t| placed(source(&lines, MAX_TOKENS), u64::MAX, event);
    let broken = |round, event: &mut yaml_event_t| placed(source(&lines, round), u64::MAX, event);
    let deserted = |round, event: &mut yaml_event_t| placed(source(&lines, MAX_TOKENS), round, event);
    assert_flat("placed", 10, 100, |times| placed_rounds(times, all));
    assert_flat("broken", ROUNDS, 2 * ROUNDS, |times| placed_rounds(times, broken));
    assert_flat("deserted", ROUNDS, 2 * ROUNDS, |times| placed_rounds(times, deserted));
}

#[test]
fn events_and_documents_are_flat() {
    let lines = read("follows.tokens");
    assert_rounds_flat("given", 10, 100, |_| given(source(&lines, MAX_TOKENS), u64::MAX));
    assert_rounds_flat("written", 10, 100, |_| written(&lines));
    assert_rounds_flat("pushed", ROUNDS, 2 * ROUNDS, |round| pushed(&lines, round));
    assert_rounds_flat("composed", ROUNDS, 2 * ROUNDS, |round| loaded(source(&lines, round)));
}

#[test]
fn long_texts_are_flat() {
    let lines = with_long_texts(&read("follows.tokens"));
    let all = |_, event: &mut yaml_event_t| placed(source(&lines, MAX_TOKENS), u64::MAX, event);
    assert_flat("long", 1, 3, |times| placed_rounds(times, all));
}

/// A parser that gave a scalar longer than a text that it keeps holds few bytes.
#[test]
fn a_parser_keeps_no_long_text() {
    const PARSERS: usize = 100;
    let lines = with_long_texts(&read("one_scalar"));
    let (parsers, taken) = refusing(Refused::Never, || {
        let used = |_| {
            let mut parser = yaml_parser_initialize(Global, source_of(&lines));
            assert_eq!(count_placed(&mut parser, u64::MAX, &mut nothing()), 7);
            parser
        };
        (0..PARSERS).map(used).collect::<Vec<_>>()
    });
    assert!(taken.held <= (PARSERS * 8192) as isize, "{} bytes left behind in parsers", taken.held);
    println!("kept: {} bytes in {} parsers", taken.held, parsers.len());
}
