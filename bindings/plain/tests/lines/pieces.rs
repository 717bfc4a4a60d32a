//! Readers and writers that cut their bytes, and that fail at a call and from then on.

use std::io::{BufRead, Error, ErrorKind, Read, Result, Write};

/// More calls than any run makes.
pub const EVERY_CALL: usize = usize::MAX;

/// Counts a call, and fails if none is left.
fn count(calls_left: &mut usize) -> Result<()> {
    *calls_left = calls_left.checked_sub(1).ok_or(Error::from(ErrorKind::Other))?;
    Ok(())
}

/// Hands out at most `piece` bytes a call, and fails when no calls are left.
pub struct PieceReader<'a> {
    bytes: &'a [u8],
    piece: usize,
    calls_left: usize,
}

impl<'a> PieceReader<'a> {
    pub fn new(bytes: &'a [u8], piece: usize, calls_left: usize) -> Self {
        PieceReader { bytes, piece, calls_left }
    }

    fn shown(&self) -> &'a [u8] {
        &self.bytes[..self.bytes.len().min(self.piece)]
    }
}

impl Read for PieceReader<'_> {
    fn read(&mut self, buf: &mut [u8]) -> Result<usize> {
        let count = self.fill_buf()?.read(buf)?;
        self.consume(count);
        Ok(count)
    }
}

impl BufRead for PieceReader<'_> {
    fn fill_buf(&mut self) -> Result<&[u8]> {
        count(&mut self.calls_left)?;
        Ok(self.shown())
    }

    fn consume(&mut self, amount: usize) {
        assert!(amount <= self.shown().len(), "more bytes are taken than were shown");
        self.bytes = &self.bytes[amount..];
    }
}

/// Takes at most `piece` bytes a call, and fails when no calls are left. A flush is no call, but fails then
/// too.
pub struct PieceWriter {
    pub written: Vec<u8>,
    piece: usize,
    calls_left: usize,
}

impl PieceWriter {
    pub fn new(piece: usize, calls_left: usize) -> Self {
        PieceWriter { written: Vec::new(), piece, calls_left }
    }
}

impl Write for PieceWriter {
    fn write(&mut self, buf: &[u8]) -> Result<usize> {
        count(&mut self.calls_left)?;
        self.written.write(&buf[..buf.len().min(self.piece)])
    }

    fn flush(&mut self) -> Result<()> {
        match self.calls_left {
            0 => Err(ErrorKind::Other.into()),
            _ => Ok(()),
        }
    }
}
