//! Runs over token lines, as `yamltokens` makes them: those that `names` in `data/runs` names, over the files
//! of its folder `lists`, and those over one line, which ends with the error of `good_line.events` or
//! `bad_line.events`.
// With `alloc` the crate needs a later rustc than without.
#![allow(clippy::incompatible_msrv)]

#[path = "../allocator/mod.rs"]
mod allocator;
mod commands;
mod failing;
mod flushes;
mod in_memory;
#[path = "../lines/mod.rs"]
mod lines;
mod long;
mod reader;

use lines::data::{rows_of, Row};
use lines::pieces::{PieceReader, PieceWriter, EVERY_CALL};
use pokhvizi::kit::Global;
use pokhvizi::token_lines::{run_events, run_nodes, Outcome};
use std::fs;
use std::io::{BufRead, Write};
use std::path::{Path, PathBuf};

/// The test vectors that are no runs.
const VECTORS: &str = include_str!("../data/runs/vectors");

/// How many bytes a call reads and writes at most.
const PIECES: [usize; 6] = [1, 2, 3, 7, 4096, EVERY_CALL];

/// A file of `data/runs`.
fn path_of(name: &str) -> PathBuf {
    Path::new(env!("CARGO_MANIFEST_DIR")).join("bindings/plain/tests/data/runs").join(name)
}

fn read(name: &str) -> Vec<u8> {
    fs::read(path_of(name)).unwrap_or_else(|error| panic!("{name}: {error}"))
}

fn read_text(name: &str) -> String {
    String::from_utf8(read(name)).unwrap()
}

/// The test vectors of a table, of which there are so many at least.
fn rows(table: &str, least: usize) -> Vec<Row<'static>> {
    let rows: Vec<_> = rows_of(VECTORS).into_iter().filter(|row| row.table == table).collect();
    assert!(rows.len() >= least, "only {} of {table}", rows.len());
    rows
}

/// Whose lines a run writes.
#[derive(Clone, Copy, Debug, PartialEq)]
enum Of {
    Events,
    Documents,
}

impl Of {
    fn run(self, reader: impl BufRead, writer: &mut impl Write) -> Outcome {
        match self {
            Of::Events => run_events(Global, reader, writer),
            Of::Documents => run_nodes(Global, reader, writer),
        }
    }
}

/// Whose lines a run writes, and how it ends, of words such as `events ended`.
fn ending_of(words: &str) -> (Of, Outcome) {
    match words {
        "events ended" => (Of::Events, Outcome::Ended),
        "events faulted" => (Of::Events, Outcome::Faulted),
        "nodes ended" => (Of::Documents, Outcome::Ended),
        "nodes faulted" => (Of::Documents, Outcome::Faulted),
        _ => panic!("no run: {words}"),
    }
}

/// A run: what it reads, whose lines it writes, which these are, and how it ends.
struct Run {
    name: String,
    tokens: Vec<u8>,
    of: Of,
    lines: Vec<u8>,
    outcome: Outcome,
}

impl Run {
    fn named(name: &str) -> Run {
        let (list, ending) = name.split_once(' ').unwrap();
        let (of, outcome) = ending_of(ending);
        let (kind, _) = ending.split_once(' ').unwrap();
        Run {
            name: name.to_string(),
            tokens: read(&format!("lists/{list}.tokens")),
            of,
            lines: read(&format!("lists/{list}.{kind}")),
            outcome,
        }
    }

    /// Wants that a run which wrote this and ended so is whole.
    fn assert_whole(&self, written: &[u8], ended: Outcome, how: &str) {
        assert_eq!(
            (String::from_utf8_lossy(written), ended),
            (String::from_utf8_lossy(&self.lines), self.outcome),
            "{}, {how}",
            self.name
        );
    }

    fn is_whole(&self, written: &[u8], ended: Outcome) -> bool {
        written == self.lines && ended == self.outcome
    }

    /// The run is right in pieces of so many bytes.
    fn assert_in_pieces(&self, piece: usize) {
        let mut writer = PieceWriter::new(piece, EVERY_CALL);
        let ended = self.of.run(PieceReader::new(&self.tokens, piece, EVERY_CALL), &mut writer);
        self.assert_whole(&writer.written, ended, &format!("{piece} bytes at a time"));
    }

    /// The lines of a run over the first so many bytes, with this problem in place of a reader's end, and how
    /// it ends.
    fn front(&self, bytes: usize, problem: &str) -> (Vec<u8>, Outcome) {
        let mut lines = Vec::new();
        let ended = self.of.run(&self.tokens[..bytes], &mut lines);
        if let Some(begun) = lines.strip_suffix(b"no more tokens\n") {
            lines = [begun, problem.as_bytes()].concat();
        }
        (lines, ended)
    }

    /// The run is cut where a read fails, of which there is one for each byte and one for the end, and right
    /// before; after these it is whole.
    fn assert_cut_at_each_read(&self) {
        for calls in 0..self.tokens.len() + 2 {
            let mut writer = PieceWriter::new(4096, EVERY_CALL);
            let ended = self.of.run(PieceReader::new(&self.tokens, 1, calls), &mut writer);
            if self.is_whole(&writer.written, ended) {
                return;
            }
            let bytes = whole_lines(&self.tokens[..calls.min(self.tokens.len())]);
            let (lines, _) = self.front(bytes, "read failed\n");
            let given = (String::from_utf8_lossy(&writer.written), ended);
            assert_eq!(
                given,
                (String::from_utf8_lossy(&lines), Outcome::Faulted),
                "{}, {calls} reads",
                self.name
            );
        }
        panic!("{}: never whole", self.name);
    }

    /// The run is cut where a write fails, or the last flush, and has written all before.
    fn assert_cut_at_each_write(&self) {
        for calls in 0..self.lines.len() + 2 {
            let mut writer = PieceWriter::new(1, calls);
            let ended = self.of.run(&self.tokens[..], &mut writer);
            let outcome = if calls > self.lines.len() { self.outcome } else { Outcome::OutputFailed };
            let wanted = &self.lines[..calls.min(self.lines.len())];
            assert!(writer.written == wanted, "{}, {calls} writes", self.name);
            assert_eq!(ended, outcome, "{}, {calls} writes", self.name);
        }
    }
}

/// How many bytes the lines have that are whole, each with its LF.
fn whole_lines(bytes: &[u8]) -> usize {
    bytes.iter().rposition(|byte| *byte == b'\n').map_or(0, |end| end + 1)
}

/// How many bytes the first line has, with its LF.
fn first_line(bytes: &[u8]) -> usize {
    bytes.iter().position(|byte| *byte == b'\n').map_or(bytes.len(), |end| end + 1)
}

/// The runs that `names` names.
fn runs() -> Vec<Run> {
    let runs: Vec<Run> = read_text("names").lines().map(Run::named).collect();
    assert!(runs.len() >= 41, "only {} runs", runs.len());
    runs
}

/// The runs over each line of the file `KINDs`, whose error is in `KIND.events`.
fn runs_of_lines(kind: &str, least: usize) -> Vec<Run> {
    let (bytes, fault) = (read(&format!("{kind}s")), read(&format!("{kind}.events")));
    let run = |line: &[u8]| Run {
        name: String::from_utf8_lossy(line).into_owned(),
        tokens: line.to_vec(),
        of: Of::Events,
        lines: fault.clone(),
        outcome: Outcome::Faulted,
    };
    let runs: Vec<Run> = bytes.split_inclusive(|byte| *byte == b'\n').map(run).collect();
    assert!(runs.len() >= least, "only {} lines", runs.len());
    runs
}

#[test]
fn runs_are_right_in_pieces() {
    runs().iter().for_each(|run| PIECES.iter().for_each(|piece| run.assert_in_pieces(*piece)));
}

#[test]
fn runs_are_cut_at_each_read_that_fails() {
    runs().iter().for_each(Run::assert_cut_at_each_read);
}

#[test]
fn runs_are_cut_at_each_write_that_fails() {
    runs().iter().for_each(Run::assert_cut_at_each_write);
}

/// Each line that is a token, and each that is none.
#[test]
fn lines_are_read_or_refused() {
    for run in runs_of_lines("good_line", 37).iter().chain(&runs_of_lines("bad_line", 54)) {
        PIECES.iter().for_each(|piece| run.assert_in_pieces(*piece));
        run.assert_cut_at_each_read();
        run.assert_cut_at_each_write();
        run.assert_in_memory();
    }
}
