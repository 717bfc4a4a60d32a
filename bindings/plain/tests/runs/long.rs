//! The longest line, and more lines than are read.

use crate::lines::pieces::EVERY_CALL;
use crate::{ending_of, read_text, rows, Run};
use pokhvizi::kit::Global;
use pokhvizi::token_lines::run_events;

/// A file with so many `x` in place of each `@`.
fn with_long_text(name: &str, length: usize) -> String {
    read_text(name).replace('@', &"x".repeat(length))
}

/// The lines of a scalar of so many bytes.
pub fn long_tokens(length: usize) -> String {
    with_long_text("long_scalar", length)
}

/// In pieces that are none of a line's length, and in memory.
#[test]
fn the_longest_line_is_read_and_no_longer_one() {
    for row in rows("lines as long as any, and longer", 4) {
        let (length, (of, outcome)) = (row.number(0), ending_of(row.fields[1]));
        let (name, lines) = (row.name.to_string(), with_long_text(row.wanted, length).into_bytes());
        let run = Run { name, tokens: long_tokens(length).into_bytes(), of, lines, outcome };
        [4093, 65_536, EVERY_CALL].into_iter().for_each(|piece| run.assert_in_pieces(piece));
        run.assert_in_memory();
    }
}

/// The start of a stream and so many open sequences.
#[test]
fn a_million_lines_are_read_and_no_more() {
    for row in rows("more lines than are read", 2) {
        let open = "FLOW-SEQUENCE-START 0:0:0 0:0:0\n".repeat(row.number(0));
        let tokens = format!("STREAM-START 0:0:0 0:0:0 utf8\n{open}");
        let mut written = Vec::new();
        let ended = run_events(Global, tokens.as_bytes(), &mut written);
        let lines = String::from_utf8(written).unwrap();
        let (count, last) = (lines.lines().count(), lines.lines().last().unwrap());
        assert_eq!(format!("{count} lines, {ended:?}: {last}"), row.wanted, "{}", row.name);
    }
}
