//! Lists that are cut before each token, with each error of a source after the cut.

use crate::calls::by_calls;
use crate::lines::tokens::{end_of_lines, tokens_of};
use crate::lines::written::fault_lines;
use crate::{each_case, Case};
use pokhvizi::unsafe_libyaml::*;

/// The errors by which a source may end. Their fields tell them from each error of a list.
fn ends_of_sources() -> [yaml_source_fault_t; 3] {
    let mark = |column| yaml_mark_t { index: column, line: 0, column };
    let (problem, at) = (Some("the source broke off"), mark(99));
    let (context, from) = (Some("while giving a vector"), mark(98));
    [
        yaml_source_fault_t::new(YAML_MEMORY_ERROR, None, 1, -1, at, context, from),
        yaml_source_fault_t::new(YAML_READER_ERROR, problem, 2, -3, at, context, from),
        yaml_source_fault_t::new(YAML_SCANNER_ERROR, problem, 3, -2, at, None, from),
    ]
}

/// The first tokens of a list, and this error after them.
fn front_of(case: &Case, count: usize, end: yaml_source_fault_t) -> yaml_list_source_t {
    let mut tokens = tokens_of(case.tokens());
    tokens.truncate(count);
    yaml_list_source_t::new(tokens.into(), end)
}

/// Whether an error is no source's: it has no offset and no value.
fn is_of_no_source(kept: &yaml_parser_t_prefix) -> bool {
    let is_source = [YAML_READER_ERROR, YAML_SCANNER_ERROR].contains(&kept.error);
    !is_source && (kept.problem_offset, kept.problem_value) == (0, 0)
}

/// Whether what is given is wanted, up to the error of the source if that comes, which isn't amid a
/// document.
pub fn is_front(given: &str, wanted: &str, fault: &str) -> bool {
    let Some(before) = given.strip_suffix(fault) else {
        return given == wanted;
    };
    let Some(rest) = wanted.strip_prefix(before) else {
        return false;
    };
    (before.is_empty() || before.ends_with('\n')) && !rest.starts_with(|first: char| first.is_ascii_digit())
}

/// Whether the list ends by this error in place of that with which its lines end, or ends before it.
fn is_whole(given: &str, wanted: &str, fault: &str) -> bool {
    match given.strip_suffix(fault) {
        Some(before) => wanted.strip_prefix(before).map_or(false, |rest| rest.starts_with("FAULT reader ")),
        None => given == wanted,
    }
}

/// Reads a list that is cut before each token, and one that is not cut.
fn assert_cut(case: &Case, end: yaml_source_fault_t) {
    let (fault, count) = (fault_lines(&end.prefix()), case.tokens().lines().count());
    for tokens in 0..=count {
        let (lines, kept) = by_calls(front_of(case, tokens, end), case.given);
        let is_right = if tokens == count { is_whole } else { is_front };
        assert!(is_right(&lines, &case.wanted, &fault), "{}, {tokens} tokens: {lines}", case.name());
        assert!(kept == end.prefix() || is_of_no_source(&kept), "{}, {tokens} tokens: {kept:?}", case.name());
    }
}

#[test]
fn a_cut_list_gives_its_first_lines_and_the_error_of_its_source() {
    each_case(|case| ends_of_sources().into_iter().for_each(|end| assert_cut(case, end)));
}

#[test]
fn the_error_of_a_source_keeps_its_fields() {
    each_case(|case| {
        let end = end_of_lines(case.tokens().lines().count() as u64);
        let (lines, kept) = by_calls(front_of(case, usize::MAX, end), case.given);
        case.wants(&lines);
        let is_sources = case.wanted.contains("FAULT reader ");
        assert!(if is_sources { kept == end.prefix() } else { is_of_no_source(&kept) }, "{}", case.name());
    });
}
