//! Prints an outline of the YAML text on standard input up to its error, the error, and what was expected there. In
//! `bindings/plain/libyaml`:
//!
//!     cargo run --example outline < FILE.yaml

use pokhvizi::yaml::{Event, EventData, PushParser, TokenSource, TokenType};
use pokhvizi_libyaml::Scanner;
use std::error::Error;
use std::io::{self, Read};

fn main() -> Result<(), Box<dyn Error>> {
    let mut text = Vec::new();
    io::stdin().read_to_end(&mut text)?;
    let mut scanner = Scanner::new(&text)?;
    let (mut parser, mut depth, mut is_over) = (PushParser::new(), 0, false);
    while !is_over {
        let token = match scanner.next_token() {
            Ok(token) => token,
            Err(error) => {
                println!("{error}");
                return Ok(());
            }
        };
        let (mut events, expected) = (Vec::new(), parser.expected());
        is_over = token.type_() == TokenType::YAML_STREAM_END_TOKEN;
        let pushed = parser.push(token, &mut events);
        depth = print_events(&events, depth);
        if let Err(error) = pushed {
            println!("{error}");
            for words in expected.words() {
                println!("expected {words}");
            }
            is_over = true;
        }
    }
    Ok(())
}

/// Prints the line of each event, indented by its depth; returns the depth after them.
fn print_events(events: &[Event], mut depth: usize) -> usize {
    for event in events {
        let (words, after) = told(event, depth);
        if let Some(words) = words {
            println!("{}{words}", "  ".repeat(depth));
        }
        depth = after;
    }
    depth
}

/// Returns the words of an event's line, if it has one, and the depth after it.
fn told(event: &Event, depth: usize) -> (Option<&str>, usize) {
    match &event.content {
        EventData::Scalar(scalar) => (Some(&scalar.value), depth),
        EventData::Alias(alias) => (Some(&alias.anchor), depth),
        EventData::SequenceStart(_) => (Some("sequence"), depth + 1),
        EventData::MappingStart(_) => (Some("mapping"), depth + 1),
        EventData::SequenceEnd | EventData::MappingEnd => (None, depth - 1),
        _ => (None, depth),
    }
}
