//! Tokens by calls: one list of all of them, with its events, and the texts that they refuse.

use crate::joined;
use crate::lines::written::{event_line, lines_of};
use pokhvizi::kit::Global;
use pokhvizi::libyaml_types::unnamed_yaml_token_t_data::*;
use pokhvizi::unsafe_libyaml::*;

const SURROGATE: &[u8] = b"\xed\xa0\x80";

fn mark(column: u64) -> yaml_mark_t {
    yaml_mark_t { index: column, line: 0, column }
}

/// The tokens of a stream's start, `%YAML 1.2`, `%TAG !e! p:`, `---`, `[ &a !e!x "b\0", *a ]` and the
/// stream's end, each an index wide.
fn all_tokens() -> Result<Vec<yaml_token_t>, yaml_refusal_t> {
    let bare = |content, place| yaml_token_t::new(content, mark(place), mark(place + 1));
    Ok(vec![
        yaml_token_t::stream_start(YAML_UTF16LE_ENCODING, mark(0), mark(1)),
        yaml_token_t::version_directive(1, 2, mark(1), mark(2)),
        yaml_token_t::tag_directive(Global, b"!e!", b"p:", mark(2), mark(3))?,
        bare(DocumentStart, 3),
        bare(FlowSequenceStart, 4),
        yaml_token_t::anchor(Global, b"a", mark(5), mark(6))?,
        yaml_token_t::tag(Global, b"!e!", b"x", mark(6), mark(7))?,
        yaml_token_t::scalar(Global, b"b\0", YAML_DOUBLE_QUOTED_SCALAR_STYLE, mark(7), mark(8))?,
        bare(FlowEntry, 8),
        yaml_token_t::alias(Global, b"a", mark(9), mark(10))?,
        bare(FlowSequenceEnd, 10),
        bare(StreamEnd, 11),
    ])
}

/// The lines of the events of these tokens, which have no error.
fn events() -> String {
    let source = yaml_list_source_t::from(pokhvizi::kit::Vec::from(all_tokens().unwrap()));
    let mut parser = yaml_parser_initialize(Global, source);
    let lines = lines_of(&mut parser, event_line);
    let end = if parser.prefix().error == YAML_NO_ERROR { "Ended" } else { "Faulted" };
    joined(&lines) + end
}

/// Makes the call of this name, with a text that is none.
fn made(name: &str) -> Result<yaml_token_t, yaml_refusal_t> {
    let (bad, style, start, end) = (b"\xff", YAML_PLAIN_SCALAR_STYLE, mark(0), mark(1));
    match name {
        "an alias" => yaml_token_t::alias(Global, SURROGATE, start, end),
        "an anchor" => yaml_token_t::anchor(Global, SURROGATE, start, end),
        "a tag's handle" => yaml_token_t::tag(Global, bad, b"x", start, end),
        "a tag's suffix" => yaml_token_t::tag(Global, b"!", bad, start, end),
        "a directive's handle" => yaml_token_t::tag_directive(Global, bad, b"p:", start, end),
        "a directive's prefix" => yaml_token_t::tag_directive(Global, b"!e!", bad, start, end),
        "a value" => yaml_token_t::scalar(Global, b"\xf4\x90\x80\x80", style, start, end),
        _ => panic!("no call: {name}"),
    }
}

#[test]
fn constructors_of_tokens_give_tokens_of_texts_alone() {
    crate::table("tokens", 8, |row| match row.name {
        "the events of all tokens" => events(),
        name => made(name).map_or_else(|refusal| format!("{refusal:?}"), |_| "a token".to_string()),
    });
}
