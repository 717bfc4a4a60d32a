//! Allocations that fail: each run is made with its first allocation refused, then with its second, and so on
//! until none is. It is then whole, or cut where the error is shown, and right before; and nothing is left
//! behind. Where none is refused it is whole.

use crate::allocator::{refuse_each, Taken};
use crate::in_memory::{is_whole, ROOM};
use crate::{runs, Of, Run};
use pokhvizi::kit::Global;
use pokhvizi::libyaml_types::yaml_error_type_t::{self, *};
use pokhvizi::token_lines::memory::{memory_outcome_t, memory_run_t};
use pokhvizi::token_lines::*;
use pokhvizi::unsafe_libyaml::*;
use std::io::{Cursor, Result as IoResult, Write};

/// The line of the error of a failed allocation.
const FAILED: &[u8] = b"FAULT memory 0:0:0 -\n";

/// How a run came through a failed allocation.
#[derive(Clone, Copy, Debug, PartialEq)]
enum Passage {
    Whole,
    Cut,
    Wrong,
}

/// Whether these are whole lines that begin the others.
fn are_first_lines(front: &[u8], lines: &[u8]) -> bool {
    lines.starts_with(front) && (front.is_empty() || front.ends_with(b"\n"))
}

/// A writer that takes no memory, has room for more than any run writes, and counts its writes.
struct Room {
    bytes: Cursor<[u8; 4096]>,
    writes: usize,
}

impl Room {
    fn new() -> Self {
        Room { bytes: Cursor::new([0; 4096]), writes: 0 }
    }

    fn written(&self) -> &[u8] {
        &self.bytes.get_ref()[..self.bytes.position() as usize]
    }
}

impl Write for Room {
    fn write(&mut self, buf: &[u8]) -> IoResult<usize> {
        self.writes += 1;
        self.bytes.write(buf)
    }

    fn flush(&mut self) -> IoResult<()> {
        Ok(())
    }
}

fn over_lines(run: &Run) -> Passage {
    let mut room = Room::new();
    let ended = run.of.run(&run.tokens[..], &mut room);
    let front = room.written().strip_suffix(FAILED);
    if run.is_whole(room.written(), ended) {
        Passage::Whole
    } else if ended == Outcome::Faulted && front.is_some_and(|front| are_first_lines(front, &run.lines)) {
        Passage::Cut
    } else {
        Passage::Wrong
    }
}

/// What a run over memory returns that met a failed allocation, whose text is then all there is.
const OUT_OF_MEMORY: memory_run_t =
    memory_run_t { outcome: memory_outcome_t::OutOfMemory, written: FAILED.len(), wanted: FAILED.len() };

fn in_memory(run: &Run) -> Passage {
    let mut buffer = [0; ROOM];
    let ran = run.in_memory(&mut buffer, MAX_TOKENS);
    if is_whole(ran, &buffer, &run.lines, run.outcome) {
        Passage::Whole
    } else if ran == OUT_OF_MEMORY && buffer.starts_with(FAILED) {
        Passage::Cut
    } else {
        Passage::Wrong
    }
}

/// Whether a part was written as it has to be; or the error with which the run ended before it, or none.
type Part = Result<bool, yaml_error_type_t>;

/// Writes an event's line, for which the writer is called once. It is written again where its allocation
/// failed, before which the writer may not be called.
fn is_event_written(event: &yaml_event_t, room: &mut Room) -> bool {
    let before = room.writes;
    let mut wrote = write_event(Global, event, room);
    if wrote == Err(line_refusal_t::Memory) && room.writes == before {
        wrote = write_event(Global, event, room);
    }
    wrote == Ok(()) && room.writes == before + 1
}

/// The same of a document's lines, of which then only whole ones may be written.
fn is_document_written(document: &yaml_document_t, room: &mut Room, lines: &[u8]) -> bool {
    let before = room.bytes.position();
    let mut wrote = write_document(Global, document, room);
    if wrote == Err(line_refusal_t::Memory) && are_first_lines(room.written(), lines) {
        room.bytes.set_position(before);
        wrote = write_document(Global, document, room);
    }
    wrote == Ok(())
}

/// Whether this is the empty event, without marks.
fn is_empty(event: &yaml_event_t) -> bool {
    event.type_() == YAML_NO_EVENT && [event.start_mark, event.end_mark] == [ZERO_MARK; 2]
}

/// Writes the next event or document of a parser.
fn write_next<S: yaml_token_source_t>(run: &Run, parser: &mut yaml_parser_t<S>, room: &mut Room) -> Part {
    match run.of {
        Of::Events => match yaml_parser_parse(parser)? {
            event if is_empty(&event) => Err(YAML_NO_ERROR),
            event => Ok(is_event_written(&event, room)),
        },
        Of::Documents if !yaml_parser_between_documents(parser) => Ok(false),
        Of::Documents => match yaml_parser_load(parser)? {
            document if document.nodes().is_empty() => Err(YAML_NO_ERROR),
            document => Ok(is_document_written(&document, room, &run.lines)),
        },
    }
}

/// A run whose events or documents are written one by one.
fn in_parts(run: &Run) -> Passage {
    let mut parser =
        yaml_parser_initialize(Global, yaml_line_source_t::new(Global, &run.tokens[..], MAX_TOKENS));
    let mut room = Room::new();
    let end = loop {
        match write_next(run, &mut parser, &mut room) {
            Ok(true) => {}
            end => break end,
        }
    };
    match (end, run.lines.strip_prefix(room.written())) {
        (Err(YAML_NO_ERROR), Some([])) => Passage::Whole,
        (Err(YAML_NO_ERROR), _) => Passage::Wrong,
        (Err(YAML_MEMORY_ERROR), Some(_)) => Passage::Cut,
        (Err(_), Some(rest)) if rest.starts_with(b"FAULT ") => Passage::Whole,
        _ => Passage::Wrong,
    }
}

/// Makes each run in this way with each of its allocations refused. Returns how many there are.
fn refuse_all(way: fn(&Run) -> Passage) -> u64 {
    let refuse = |run: Run| {
        let then = |passage, taken: Taken| {
            let is_right = passage == Passage::Whole || passage == Passage::Cut && taken.refused > 0;
            assert!(is_right, "{}: {passage:?} after {} allocations", run.name, taken.asked);
            assert_eq!(taken.held, 0, "{}: what is left behind after {} allocations", run.name, taken.asked);
        };
        refuse_each(|| way(&run), then)
    };
    runs().into_iter().map(refuse).sum()
}

#[test]
fn runs_come_through_failed_allocations() {
    let refused = refuse_all(over_lines);
    assert!(refused > 180, "only {refused}");
}

#[test]
fn runs_in_memory_come_through_failed_allocations() {
    let refused = refuse_all(in_memory);
    assert!(refused > 340, "only {refused}");
}

#[test]
fn events_and_documents_are_written_again_after_failed_allocations() {
    let refused = refuse_all(in_parts);
    assert!(refused > 400, "only {refused}");
}
