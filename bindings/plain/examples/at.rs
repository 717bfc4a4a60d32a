//! Prints the events of the YAML text on standard input, or the text at a path of its first document. In
//! `bindings/plain/libyaml`:
//!
//!     cargo run --example at < ../../../examples/list.yaml
//!     cargo run --example at services web image < ../../../examples/compose.yaml

use pokhvizi_libyaml::{documents, events};
use std::error::Error;
use std::io::Read;
use std::process::ExitCode;
use std::{env, io};

fn main() -> ExitCode {
    match print() {
        Ok(()) => ExitCode::SUCCESS,
        Err(error) => {
            eprintln!("{error}");
            ExitCode::FAILURE
        }
    }
}

fn print() -> Result<(), Box<dyn Error>> {
    let mut text = Vec::new();
    io::stdin().read_to_end(&mut text)?;
    let path: Vec<String> = env::args().skip(1).collect();
    if path.is_empty() {
        for event in events(&text) {
            let event = event?;
            println!("{} at {}", event.type_(), event.start_mark);
        }
        return Ok(());
    }
    let words: Vec<&str> = path.iter().map(String::as_str).collect();
    let document = documents(&text).next().ok_or("no document")??;
    println!("{}", document.text_at(&words).ok_or("no text there")?);
    Ok(())
}
