//! Prints unused anchors, deep nesting and duplicate keys of the YAML text on standard input. In `bindings/plain/libyaml`:
//!
//!     cargo run --example lint < FILE.yaml

use pokhvizi::yaml::{Event, EventData, Mark, PlacedEvents};
use pokhvizi_libyaml::{documents, Scanner};
use std::collections::BTreeMap;
use std::error::Error;
use std::io::{self, Read};

/// How many collections may be open at once.
const MAX_DEPTH: usize = 4;

fn main() -> Result<(), Box<dyn Error>> {
    let mut text = Vec::new();
    io::stdin().read_to_end(&mut text)?;
    look_at_events(&text)?;
    print_duplicate_keys(&text)
}

/// Prints the anchors that no alias names, and the collections that are nested too deep.
fn look_at_events(text: &[u8]) -> Result<(), Box<dyn Error>> {
    let mut unused = BTreeMap::new();
    for item in PlacedEvents::new(Scanner::new(text)?) {
        let (event, place) = item?;
        note_anchor(&mut unused, &event);
        match (&event.content, place) {
            (EventData::SequenceStart(_) | EventData::MappingStart(_), Some(place))
                if place.depth == MAX_DEPTH =>
            {
                println!("{}: more than {MAX_DEPTH} levels deep", event.start_mark);
            }
            (EventData::DocumentEnd(_), _) => print_anchors(std::mem::take(&mut unused)),
            _ => {}
        }
    }
    Ok(())
}

/// Notes the anchor of a node, or that an alias names one.
fn note_anchor(unused: &mut BTreeMap<String, Mark>, event: &Event) {
    match (event.anchor(), &event.content) {
        (Some(anchor), EventData::Alias(_)) => unused.remove(anchor),
        (Some(anchor), _) => unused.insert(anchor.to_owned(), event.start_mark),
        (None, _) => None,
    };
}

fn print_anchors(unused: BTreeMap<String, Mark>) {
    for (anchor, mark) in unused {
        println!("{mark}: anchor {anchor} is not used");
    }
}

/// Prints the first duplicate key of each document.
fn print_duplicate_keys(text: &[u8]) -> Result<(), Box<dyn Error>> {
    for document in documents(text) {
        if let Some(found) = document?.duplicate_key()? {
            println!("{}: key stands twice in its mapping", found.mark());
        }
    }
    Ok(())
}
