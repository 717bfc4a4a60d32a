//! Texts of every length, in each call that copies texts: none of them fails with ample memory.

use crate::calls::{construct, make, Texts, CONSTRUCTORS};
use crate::{each_row, read};
use pokhvizi::kit::Global;
use pokhvizi::token_lines::{run_events, run_nodes, Outcome};
use pokhvizi::unsafe_libyaml::yaml_document_initialize;

/// Makes each call with this text in each place.
fn make_all(text: &[u8]) {
    let texts = Texts { directives: &[(text, text)], anchor: text, tag: text, value: text };
    CONSTRUCTORS.iter().for_each(|name| drop(construct(name, texts).unwrap()));
    let mut document = yaml_document_initialize(Global, None, texts.directives, true, true).unwrap();
    [".!", "[!", "{!"].iter().for_each(|word| make(&mut document, word, texts).unwrap());
}

/// Nor fails a run over the lines of `text.tokens`, which have `@` in place of each text.
#[test]
fn texts_of_every_length_are_copied() {
    let lines = read("text.tokens");
    each_row("texts of every length", 72, |row| {
        let length = row.name.strip_suffix(" bytes").unwrap().parse().unwrap();
        let text = "a".repeat(length);
        make_all(text.as_bytes());
        let lines = lines.replace('@', &text);
        let mut written = Vec::new();
        assert_eq!(run_events(Global, lines.as_bytes(), &mut written), Outcome::Ended, "{}", row.name);
        assert_eq!(run_nodes(Global, lines.as_bytes(), &mut written), Outcome::Ended, "{}", row.name);
    });
}
