//! Nested sequences under a bound on depth. A row has the parts of a list, its n, and the bound; and the
//! columns of the faults that come.

use crate::lines::data::Row;
use crate::lines::growing::{growing, listed};
use pokhvizi::kit::{Global, Vec as List};
use pokhvizi::token_limits::{token_limiter_t, yaml_limited_source_t};
use pokhvizi::unsafe_libyaml::*;

/// How a run or a call ended.
#[derive(Clone, Copy, PartialEq, Debug)]
enum End {
    Whole,
    /// By the fault of a token at this column that opens one collection too many.
    TooDeep(u64),
    Other,
}

fn end_of(fault: Option<yaml_parser_t_prefix>) -> End {
    let Some(fault) = fault else {
        return End::Whole;
    };
    let column = fault.problem_mark.column;
    let at = yaml_mark_t { index: column, line: 0, column };
    match fault == yaml_source_fault_t::scanner_error("found too many levels", at).prefix() {
        true => End::TooDeep(column),
        false => End::Other,
    }
}

fn list(row: &Row) -> yaml_list_source_t {
    listed(row.fields[0], row.number(1))
}

/// The bound of a row, which may be more than a `usize` of 32 bits.
fn bound(row: &Row) -> usize {
    usize::try_from(row.number::<u64>(2)).unwrap_or(usize::MAX)
}

/// The tokens of a row under its bound.
fn source(row: &Row) -> yaml_limited_source_t<yaml_list_source_t> {
    yaml_limited_source_t::new(list(row), bound(row))
}

/// Pushes each token that passes. One that is refused is refused again, by the same error.
fn push_all(row: &Row) -> Result<(), yaml_parser_t_prefix> {
    let mut limiter = token_limiter_t::new(bound(row));
    let (mut parser, mut events) = (yaml_push_parser_t::new(Global), List::new(Global));
    for token in growing(row.fields[0], row.number(1)) {
        if let Err(fault) = limiter.take(&token) {
            assert_eq!(limiter.take(&token), Err(fault));
            return Err(fault.prefix());
        }
        parser.push(token, &mut events)?;
    }
    Ok(())
}

/// How many tokens a source gives, its fault, a further call's, and its own source's next column.
fn by_calls(row: &Row) -> (usize, End, End, Option<u64>) {
    let mut source = source(row);
    let mut next = || end_of(source.next_token().err().map(|fault| fault.prefix()));
    let (mut tokens, mut first) = (0, next());
    while first == End::Whole && tokens < 1000 {
        (tokens, first) = (tokens + 1, next());
    }
    let again = next();
    let left = source.into_source().next_token();
    (tokens, first, again, left.ok().map(|token| token.start_mark.column))
}

#[test]
fn a_bound_on_depth_ends_events_documents_and_pushes() {
    crate::table("limits", 8, |row| {
        let ends = [
            end_of(yaml_parser_parse_all(Global, source(row)).unwrap().fault),
            end_of(yaml_parser_load_all(Global, source(row)).unwrap().fault),
            end_of(push_all(row).err()),
        ];
        format!("{ends:?} {:?}", by_calls(row))
    });
}
