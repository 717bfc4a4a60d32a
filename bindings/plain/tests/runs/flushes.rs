//! Flushes: how much a run has flushed when its reader is asked for bytes, for which it may have to wait.

use crate::long::long_tokens;
use crate::{first_line, rows, runs, whole_lines, Of, Run};
use pokhvizi::token_lines::Outcome;
use std::cell::Cell;
use std::io::{BufRead, ErrorKind, Read, Result, Write};

/// What is noted of the bytes that were flushed once a call of the writer has failed.
const FAILED: usize = usize::MAX;

/// A call of a writer.
#[derive(Clone, Copy, Debug, PartialEq)]
enum Call {
    Write,
    Flush,
}

/// Which call of a writer fails: the first of its kind after so many.
type Failing = Option<(Call, usize)>;

/// Notes at each call how many bytes were flushed before. It hands out a line a call, or all bytes.
struct NotingReader<'a> {
    bytes: &'a [u8],
    hands_out_all: bool,
    flushed: &'a Cell<usize>,
    noted: Vec<usize>,
}

impl Read for NotingReader<'_> {
    fn read(&mut self, buf: &mut [u8]) -> Result<usize> {
        let count = self.fill_buf()?.read(buf)?;
        self.consume(count);
        Ok(count)
    }
}

impl BufRead for NotingReader<'_> {
    fn fill_buf(&mut self) -> Result<&[u8]> {
        self.noted.push(self.flushed.get());
        match self.hands_out_all {
            true => Ok(self.bytes),
            false => Ok(&self.bytes[..first_line(self.bytes)]),
        }
    }

    fn consume(&mut self, amount: usize) {
        self.bytes = &self.bytes[amount..];
    }
}

/// Tells the reader how much was flushed. A call may fail, and then it notes whether another comes.
struct FlushWriter<'a> {
    written: Vec<u8>,
    flushed: &'a Cell<usize>,
    failing: Failing,
    goes_on: bool,
}

impl FlushWriter<'_> {
    fn count(&mut self, call: Call) -> Result<()> {
        self.goes_on |= self.flushed.get() == FAILED;
        match &mut self.failing {
            Some((failing, 0)) if *failing == call => {
                self.flushed.set(FAILED);
                return Err(ErrorKind::Other.into());
            }
            Some((failing, left)) if *failing == call => *left -= 1,
            _ => {}
        }
        Ok(())
    }
}

impl Write for FlushWriter<'_> {
    fn write(&mut self, buf: &[u8]) -> Result<usize> {
        self.count(Call::Write)?;
        self.written.write(buf)
    }

    fn flush(&mut self) -> Result<()> {
        self.count(Call::Flush)?;
        self.flushed.set(self.written.len());
        Ok(())
    }
}

/// What a run did: how it ended, how many bytes were flushed at each call of the reader, and at the end, and
/// whether the writer was called after a call of it failed.
struct Ran {
    ended: Outcome,
    at_calls: Vec<usize>,
    at_end: usize,
    goes_on: bool,
}

/// Runs, with a call of the writer failing.
fn run_noted(of: Of, tokens: &[u8], hands_out_all: bool, failing: Failing) -> Ran {
    let flushed = &Cell::new(0);
    let mut reader = NotingReader { bytes: tokens, hands_out_all, flushed, noted: Vec::new() };
    let mut writer = FlushWriter { written: Vec::new(), flushed, failing, goes_on: false };
    let ended = of.run(&mut reader, &mut writer);
    Ran { ended, at_calls: reader.noted, at_end: flushed.get(), goes_on: writer.goes_on }
}

/// How many bytes of lines are settled by the first so many bytes of tokens, after which the reader ends; 0 if
/// another error comes than that of its end.
fn settled(run: &Run, bytes: usize) -> usize {
    let mut written = Vec::new();
    run.of.run(&run.tokens[..bytes], &mut written);
    whole_lines(written.strip_suffix(b"no more tokens\n").unwrap_or(b""))
}

/// A run whose reader hands out a line a call flushes just the lines that are settled before the next call.
#[test]
fn lines_are_flushed_before_the_next_is_read() {
    for run in runs() {
        let ran = run_noted(run.of, &run.tokens, false, None);
        assert!(!ran.at_calls.is_empty() && ran.at_end == run.lines.len(), "{}", run.name);
        let mut read = 0;
        for flushed in ran.at_calls {
            let before = whole_lines(&run.tokens[..read]);
            assert_eq!(flushed, settled(&run, before), "{} after {read} bytes", run.name);
            read += first_line(&run.tokens[read..]);
        }
    }
}

/// A run fails at each write and at each flush that fails, and then writes, flushes and reads nothing.
#[test]
fn a_failed_write_or_flush_is_the_last() {
    for run in runs() {
        for call in [Call::Write, Call::Flush] {
            let mut after = 0;
            loop {
                let ran = run_noted(run.of, &run.tokens, false, Some((call, after)));
                assert!(
                    !ran.goes_on && !ran.at_calls.contains(&FAILED),
                    "{}, {after} before {call:?}",
                    run.name
                );
                if ran.at_end != FAILED {
                    assert_eq!(ran.ended, run.outcome, "{}, {after} before {call:?}", run.name);
                    break;
                }
                assert_eq!(ran.ended, Outcome::OutputFailed, "{}, {after} before {call:?}", run.name);
                after += 1;
            }
            assert!(after > 0, "{}: no {call:?}", run.name);
        }
    }
}

/// Of a reader that hands out all bytes: the first event is flushed before the second line is read, if fewer
/// than 1,024 bytes are left then.
#[test]
fn few_bytes_that_are_left_are_no_line() {
    for row in rows("flushes where bytes are left", 2) {
        let tokens = long_tokens(row.number(0));
        let ran = run_noted(Of::Events, tokens.as_bytes(), true, None);
        let flushed = [ran.at_calls, vec![ran.at_end]].concat();
        assert_eq!(format!("{flushed:?}"), row.wanted, "{}", row.name);
    }
}
