//! What a program has of its process, and what it reads and writes: `std`'s, with an error where there is no
//! memory.

use super::Global;

/// What the process of a program gives it.
#[derive(Clone, Copy, Debug, Default)]
pub struct HostRuntime;

/// Whoever has an allocator.
pub trait AllocGlobal {
    /// Returns the allocator.
    fn alloc(&self) -> Global {
        Global
    }
}

impl AllocGlobal for HostRuntime {}

impl HostRuntime {
    /// Returns the standard input.
    pub fn stdin(&self) -> std::io::Stdin {
        std::io::stdin()
    }

    /// Returns the standard output.
    pub fn stdout(&self) -> std::io::Stdout {
        std::io::stdout()
    }

    /// Returns the standard error output.
    pub fn stderr(&self) -> std::io::Stderr {
        std::io::stderr()
    }
}

/// The runtime's parts.
pub mod rt {
    /// Whoever has the words of a command line.
    pub trait Env {}

    impl Env for super::HostRuntime {}
}

/// The exit status.
pub mod process {
    pub use std::process::ExitCode;
}

/// The words of the command line.
pub mod env {
    use super::super::{AllocError, Global, String, Vec};
    use super::{io, rt};

    /// The words that are left.
    #[derive(Debug)]
    pub struct Args(Vec<String>);

    /// Returns the program's name and the words after it.
    ///
    /// # Errors
    ///
    /// One is no UTF-8, or there is no memory.
    pub fn args(_: &impl rt::Env) -> io::Result<Args> {
        let mut words = Vec::new(Global);
        for word in std::env::args_os() {
            let word = word.into_string().map_err(|_| io::Error::from(std::io::ErrorKind::InvalidInput))?;
            words.push(word.into())?;
        }
        Ok(Args(words))
    }

    impl Args {
        /// Returns the words without the first.
        pub fn skip(self, count: usize) -> Self {
            let words: std::vec::Vec<String> = self.0.into_iter().skip(count).collect();
            Args(words.into())
        }

        /// Returns the words as a list.
        ///
        /// # Errors
        ///
        /// There is no memory, as [`args`] says.
        pub fn collect(self, _: Global) -> Result<Vec<String>, AllocError> {
            Ok(self.0)
        }
    }
}

/// Readers and writers.
pub mod io {
    use super::super::{AllocError, Global, Vec};
    pub use std::io::{BufRead, Error, ErrorKind, Read, Result, Write};

    impl From<AllocError> for Error {
        fn from(_: AllocError) -> Self {
            std::io::ErrorKind::OutOfMemory.into()
        }
    }

    impl Write for Vec<u8> {
        fn write(&mut self, bytes: &[u8]) -> Result<usize> {
            self.extend_from_slice(bytes)?;
            Ok(bytes.len())
        }

        fn flush(&mut self) -> Result<()> {
            Ok(())
        }
    }

    /// A reader with a buffer.
    #[derive(Debug)]
    pub struct BufReader<R> {
        reader: R,
        buffer: Vec<u8>,
        start: usize,
        end: usize,
    }

    impl<R> BufReader<R> {
        /// Returns a reader that asks `reader` for so many bytes at once.
        ///
        /// # Errors
        ///
        /// There is no memory.
        pub fn with_capacity(alloc: Global, size: usize, reader: R) -> core::result::Result<Self, AllocError> {
            let mut buffer = Vec::with_capacity(alloc, size)?;
            buffer.resize(size, 0)?;
            Ok(BufReader { reader, buffer, start: 0, end: 0 })
        }
    }

    impl<R: Read> Read for BufReader<R> {
        fn read(&mut self, bytes: &mut [u8]) -> Result<usize> {
            let read = self.fill_buf()?.read(bytes)?;
            self.consume(read);
            Ok(read)
        }
    }

    impl<R: Read> BufRead for BufReader<R> {
        fn fill_buf(&mut self) -> Result<&[u8]> {
            if self.start == self.end {
                (self.start, self.end) = (0, 0);
                self.end = self.reader.read(&mut self.buffer)?;
            }
            Ok(&self.buffer[self.start..self.end])
        }

        fn consume(&mut self, count: usize) {
            self.start = self.end.min(self.start + count);
        }
    }

    /// A writer with a buffer. What is still there when it is dropped isn't written: flush it.
    #[derive(Debug)]
    pub struct BufWriter<W> {
        writer: W,
        buffer: Vec<u8>,
    }

    impl<W: Write> BufWriter<W> {
        /// Returns a writer that gives `writer` so many bytes at once.
        ///
        /// # Errors
        ///
        /// There is no memory.
        pub fn with_capacity(alloc: Global, size: usize, writer: W) -> core::result::Result<Self, AllocError> {
            let buffer = Vec::with_capacity(alloc, size)?;
            Ok(BufWriter { writer, buffer })
        }

        #[cold]
        fn empty(&mut self) -> Result<()> {
            let written = self.writer.write_all(&self.buffer);
            self.buffer.clear();
            written
        }
    }

    impl<W: Write> Write for BufWriter<W> {
        #[inline]
        fn write(&mut self, bytes: &[u8]) -> Result<usize> {
            if bytes.len() > self.buffer.capacity() - self.buffer.len() {
                self.empty()?;
                if bytes.len() >= self.buffer.capacity() {
                    return self.writer.write(bytes);
                }
            }
            self.buffer.extend_from_slice(bytes)?;
            Ok(bytes.len())
        }

        fn flush(&mut self) -> Result<()> {
            self.empty()?;
            self.writer.flush()
        }
    }
}
