//! Runs over token lines that are read and written in pieces, and what stays in the reader.

use crate::lines::data::{lists_of, TABLES};
use crate::lines::pieces::{PieceReader, PieceWriter, EVERY_CALL};
use crate::{each_case, lines, Case, Given};
use pokhvizi::kit::Global;
use pokhvizi::token_lines::*;
use pokhvizi::unsafe_libyaml::*;

/// Reads and writes so many bytes at once.
fn run(case: &Case, piece: usize) -> (Vec<u8>, Outcome) {
    let reader = PieceReader::new(case.tokens().as_bytes(), piece, EVERY_CALL);
    let mut writer = PieceWriter::new(piece, EVERY_CALL);
    let outcome = match case.given {
        Given::Events => run_events(Global, reader, &mut writer),
        Given::Nodes(i32::MAX) => run_nodes(Global, reader, &mut writer),
        Given::Nodes(most) => {
            let mut parser =
                yaml_parser_initialize(Global, yaml_line_source_t::new(Global, reader, MAX_TOKENS));
            yaml_parser_set_max_entries(&mut parser, most);
            write_nodes(&mut parser, &mut writer).outcome()
        }
    };
    (writer.written, outcome)
}

#[test]
fn a_run_in_pieces_writes_the_lines_of_a_list() {
    each_case(|case| {
        for piece in [1, 2, 3, 7, usize::MAX] {
            let (written, outcome) = run(case, piece);
            case.wants(std::str::from_utf8(&written).unwrap());
            let has_fault = case.wanted.lines().any(|line| line.starts_with("FAULT "));
            let wanted = if has_fault { Outcome::Faulted } else { Outcome::Ended };
            assert_eq!(outcome, wanted, "{}, {piece} bytes at once", case.name());
        }
    });
}

/// Whether each of so many calls gives an event, and how many lines the parser's reader has then.
fn lines_left(tokens: &str, calls: usize) -> (bool, usize) {
    let source = yaml_line_source_t::new(Global, tokens.as_bytes(), MAX_TOKENS);
    let mut parser = yaml_parser_initialize(Global, source);
    let gives = (0..calls)
        .all(|_| yaml_parser_parse(&mut parser).map_or(false, |event| !crate::calls::is_empty(&event)));
    let left = yaml_parser_delete(parser).into_reader();
    (gives, left.iter().filter(|byte| **byte == b'\n').count())
}

/// How many tokens have been asked for by each call, up to the first that gives no event.
fn asked(tokens: &str) -> String {
    let (mut counts, mut calls, mut gives) = (String::new(), 0, true);
    while gives {
        let left;
        calls += 1;
        (gives, left) = lines_left(tokens, calls);
        counts += &format!("{}\n", tokens.lines().count() - left);
    }
    counts
}

#[test]
fn calls_ask_for_no_token_more_than_stands_there() {
    let lists = lists_of(&TABLES);
    let has_asked = |list: &&lines::data::List| list.endings.iter().any(|ending| ending == "asked");
    assert!(lists.iter().filter(has_asked).count() >= 4);
    for list in lists.iter().filter(has_asked) {
        lines::same(&format!("{}.asked", list.name), &list.text("asked"), &asked(&list.tokens));
    }
}
