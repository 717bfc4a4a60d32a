//! Writes what the program `yamltokens` writes, for many lists of token lines at once: after each list stands a line
//! `--`. Its events come, then `== STATUS`, then its documents, and again `== STATUS`, which is 1 after an error.
//!
//! Run by scripts/gate/same_machine.py.

#[path = "../tests/lines/mod.rs"]
mod lines;

use std::io::{self, Read, Write};

fn main() -> io::Result<()> {
    let mut input = String::new();
    io::stdin().read_to_string(&mut input)?;
    let mut output = io::BufWriter::new(io::stdout().lock());
    for list in input.split_terminator("--\n") {
        for told in [lines::written::events(list), lines::written::nodes(list)] {
            let status = u8::from(told.lines().any(|line| line.starts_with("FAULT ")));
            writeln!(output, "{told}== {status}")?;
        }
    }
    output.flush()
}
