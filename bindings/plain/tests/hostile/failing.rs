//! Allocations that fail: each call is made with its first allocation refused, then with its second, and so on
//! until none is. Made again it gives what it has to, and before that its document is as it was.

use crate::allocator::{refuse_each, refusing, Refused, Taken};
use crate::calls::{construct, empty, make, Texts, SHORT};
use crate::each_row;
use crate::example_theorems::Letters;
use crate::lines::growing::{end_of_list, growing_lines};
use crate::lines::written::{document_lines, event_line};
use crate::sizes::document_of;
use pokhvizi::kit::Global;
use pokhvizi::token_lines::{run_end_t, write_events, write_nodes, yaml_line_source_t};
use pokhvizi::unsafe_libyaml::*;
use pokhvizi::yaml_expansion::{expanded_size, yaml_expansion_error_t};

/// A surrogate, which is no text.
const SURROGATE: &[u8] = b"\xed\xa0\x80";

/// The line of the error of a failed allocation.
const FAILED: &[u8] = b"FAULT memory 0:0:0 -\n";

/// Wants that nothing is left behind.
fn assert_freed(name: &str, taken: Taken) {
    assert_eq!(taken.held, 0, "{name}: what is left behind after {} allocations", taken.asked);
}

/// A stream without documents is parsed and loaded without memory, so that no allocation fails.
#[test]
fn a_stream_without_documents_takes_no_memory() {
    let (are_read, taken) = refusing(Refused::AllFrom(0), || {
        let mut parser = yaml_parser_initialize(Global, Letters::new(Global, b""));
        let mut loader = yaml_parser_initialize(Global, Letters::new(Global, b""));
        let parsed = [yaml_parser_parse(&mut parser).is_ok(), yaml_parser_parse(&mut parser).is_ok()];
        parsed == [true; 2] && yaml_parser_load(&mut loader).is_ok()
    });
    assert!(are_read && taken.asked == 0, "{taken:?}");
}

/// A source returns its error again, also that of a token whose allocation failed.
#[test]
fn a_source_keeps_its_fault() {
    let work = || {
        let mut letters = Letters::new(Global, b"[a,b]");
        let first = (0..8).find_map(|_| letters.next_token().err()).map(|fault| fault.prefix());
        first == letters.next_token().err().map(|fault| fault.prefix()) && first.is_some()
    };
    let refused = refuse_each(work, |is_kept, taken| {
        assert!(is_kept, "after {} allocations", taken.asked);
        assert_freed("letters", taken);
    });
    assert!(refused >= 2, "only {refused}");
}

#[test]
fn an_expanded_size_is_right_or_out_of_memory() {
    let document = document_of("levels 3 2");
    let refused = refuse_each(
        || expanded_size(Global, &document, 15),
        |size, taken| {
            let is_refused = size == Err(yaml_expansion_error_t::Memory) && taken.refused > 0;
            assert!(size == Ok(15) || is_refused, "{size:?} after {} allocations", taken.asked);
            assert_freed("a size", taken);
        },
    );
    assert!(refused >= 1);
}

/// Texts of which this constructor's last is none.
fn bad_texts(name: &str) -> Texts<'static> {
    match name {
        "document start" => Texts { directives: &[(b"!a!", b"p:"), (b"!b!", b"\xff")], ..SHORT },
        "alias" => Texts { anchor: SURROGATE, ..SHORT },
        "scalar" => Texts { value: SURROGATE, ..SHORT },
        _ => Texts { tag: SURROGATE, ..SHORT },
    }
}

/// Bytes that are no text are refused before an allocation for other texts.
#[test]
fn bytes_that_are_no_text_are_refused_first() {
    each_row("bytes that are no text, refused first", 6, |row| {
        let mut document = empty();
        let (refusal, taken) = refusing(Refused::AllFrom(0), || match row.name {
            "value of a document's scalar" => {
                let style = YAML_ANY_SCALAR_STYLE;
                yaml_document_add_scalar(&mut document, Some(SHORT.tag), SURROGATE, style).err()
            }
            name => construct(name, bad_texts(name)).err(),
        });
        assert_eq!(refusal, Some(yaml_refusal_t::NotUtf8), "{}", row.name);
        assert_freed(row.name, taken);
    });
}

/// Makes a call, and again if it is out of memory.
fn again<T>(mut call: impl FnMut() -> Result<T, yaml_refusal_t>) -> T {
    call().or_else(|refusal| if refusal == yaml_refusal_t::Memory { call() } else { Err(refusal) }).unwrap()
}

#[test]
fn constructors_are_called_again() {
    each_row("constructors, called again", 5, |row| {
        let wanted = event_line(&construct(row.name, SHORT).unwrap());
        let work = || again(|| construct(row.name, SHORT));
        let refused = refuse_each(work, |event, taken| {
            assert_eq!(event_line(&event), wanted, "{} after {} allocations", row.name, taken.asked);
        });
        assert!(refused >= 1, "{}", row.name);
    });
}

fn begin() -> Result<yaml_document_t, yaml_refusal_t> {
    yaml_document_initialize(Global, None, SHORT.directives, true, false)
}

/// The lines of a document before the first of these calls, and after each.
fn lines_after_each(words: &str) -> Vec<String> {
    let mut document = begin().unwrap();
    let after = |word| {
        make(&mut document, word, SHORT).unwrap();
        document_lines(&document)
    };
    let mut lines = vec![document_lines(&begin().unwrap())];
    lines.extend(words.split_whitespace().map(after));
    lines
}

#[test]
fn calls_on_a_document_are_made_again() {
    each_row("calls on a document, made again", 17, |row| {
        let lines = lines_after_each(row.wanted);
        let work = || {
            let mut document = again(begin);
            for (word, before) in row.wanted.split_whitespace().zip(&lines) {
                if let Err(refusal) = make(&mut document, word, SHORT) {
                    assert_eq!((refusal, &document_lines(&document)), (yaml_refusal_t::Memory, before));
                    make(&mut document, word, SHORT).unwrap();
                }
            }
            document
        };
        let refused = refuse_each(work, |document, taken| {
            let last = lines.last().unwrap();
            assert_eq!(document_lines(&document), *last, "{} after {} allocations", row.name, taken.asked);
        });
        assert!(refused >= 3, "{}", row.name);
    });
}

/// A scanner over token lines that are there, which takes memory for texts alone.
struct Lines<'a>(std::slice::Iter<'a, String>);

impl yaml_scanner_t for Lines<'_> {
    fn scan(&mut self) -> Result<yaml_token_t, yaml_source_fault_t> {
        let line = self.0.next().ok_or_else(end_of_list)?;
        yaml_line_source_t::new(Global, line.as_bytes(), 1).next_token()
    }
}

/// Writes the lines of a source's events, or of its documents, into a buffer with room for them.
fn write(of: &str, lines: &[String], buffer: &mut Vec<u8>) -> run_end_t {
    buffer.clear();
    let source = yaml_scanner_source_t::new(Lines(lines.iter()), u64::MAX);
    let mut parser = yaml_parser_initialize(Global, source);
    match of {
        "events" => write_events(&mut parser, buffer),
        _ => write_nodes(&mut parser, buffer),
    }
}

/// Lists at 3, parsed and loaded: all lines, or those before the error of a failed allocation.
#[test]
fn computed_lists_come_through_failed_allocations() {
    each_row("lists that are computed", 6, |row| {
        let tokens: Vec<String> = growing_lines(row.wanted, 3).collect();
        for of in ["events", "documents"] {
            let (mut whole, mut refused) = (Vec::new(), 0);
            write(of, &tokens, &mut whole);
            // The buffer's own memory comes before, so none of it is refused.
            let mut buffer = Vec::with_capacity(1 << 16);
            loop {
                let (end, taken) = refusing(Refused::Only(refused), || write(of, &tokens, &mut buffer));
                let front =
                    buffer.strip_suffix(FAILED).filter(|front| front.is_empty() || front.ends_with(b"\n"));
                let is_cut = taken.refused > 0 && front.is_some_and(|front| whole.starts_with(front));
                assert!(buffer == whole || is_cut, "{}, {of} after {refused} allocations: {end:?}", row.name);
                assert!(end != run_end_t::OutputFailed, "{}, {of} after {refused} allocations", row.name);
                assert_freed(row.name, taken);
                if taken.refused == 0 {
                    break;
                }
                refused += 1;
            }
            assert!(refused >= 1, "{}, {of}", row.name);
        }
    });
}
