//! What stays in the reader of a line source: after the stream's end, its bound on tokens, and a bad line. A
//! test vector has the lines, with `;` in place of each LF, the bound, and what comes.

use crate::rows;
use pokhvizi::kit::Global;
use pokhvizi::token_lines::{yaml_line_source_t, MAX_TOKENS};
use pokhvizi::unsafe_libyaml::*;

/// What three calls of a source give, and what it leaves in its reader.
fn called(lines: &str, max_tokens: u64) -> String {
    let mut source = yaml_line_source_t::new(Global, lines.as_bytes(), max_tokens);
    let mut next = || match source.next_token() {
        Ok(token) => Ok(token.type_()),
        Err(fault) => Err(fault.prefix()),
    };
    let given = [next(), next(), next()];
    format!("{given:?} {:?}", std::str::from_utf8(source.into_reader()).unwrap())
}

/// How many events five calls of a parser give, and what stays in its reader.
fn parsed(lines: &str) -> String {
    let source = yaml_line_source_t::new(Global, lines.as_bytes(), MAX_TOKENS);
    let mut parser = yaml_parser_initialize(Global, source);
    let is_event = |_: &i32| yaml_parser_parse(&mut parser).is_ok_and(|event| event.type_() != YAML_NO_EVENT);
    let events = (0..5).take_while(is_event).count();
    let left = yaml_parser_delete(parser).into_reader();
    format!("{events} events {:?}", std::str::from_utf8(left).unwrap())
}

#[test]
fn bytes_stay_in_the_reader() {
    for row in rows("what stays in a reader", 3) {
        let lines = row.fields[0].replace(';', "\n");
        let told = match row.name {
            "after the end" => parsed(&lines),
            _ => called(&lines, row.number(1)),
        };
        assert_eq!(told, row.wanted, "{}", row.name);
    }
}
