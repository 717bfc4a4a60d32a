//! plain WORK ROUNDS < token-lines: what `libyaml.c` does, by the crate `pokhvizi`. Each copy is made in the variable
//! that the parser passes to its source. WORK is one of:
//!
//! - `place-events`, `iterate-events`: `Parser::next_into`, and the parser as an iterator;
//! - `composed-events`: `ComposedEvents`, with the errors of a load;
//! - `place-nodes`, `iterate-nodes`: `yaml_parser_load`, and `Documents`;
//! - with the feature `more`, `placed-events` and `half-nodes`: `PlacedEvents`, and `Documents::next_or_half`;
//! - with the feature `written`, `written-events`: `PlacedEvents`, of which `Written` keeps what a document doesn't.

#[path = "../../../bindings/plain/tests/lines/mod.rs"]
mod lines;

use pokhvizi::kit::{Global, String as Text};
use pokhvizi::libyaml_types::{
    unnamed_yaml_token_t_data_alias, unnamed_yaml_token_t_data_anchor, unnamed_yaml_token_t_data_scalar,
    unnamed_yaml_token_t_data_tag, unnamed_yaml_token_t_data_tag_directive,
};
use pokhvizi::unsafe_libyaml::{yaml_parser_initialize, yaml_parser_load};
use pokhvizi::yaml::*;
use std::io::Read;

/// Copies of tokens, one after another.
struct Copies<'a>(&'a [Token]);

impl TokenSource for Copies<'_> {
    fn next_token(&mut self) -> Result<Token, SourceError> {
        let place = Mark {
            index: 0,
            line: 0,
            column: 0,
        };
        let mut token = Token::new(TokenData::NoToken, place, place);
        self.next_token_into(&mut token)?;
        Ok(token)
    }

    #[inline(always)]
    fn next_token_into(&mut self, slot: &mut Token) -> Result<(), SourceError> {
        let Some((token, others)) = self.0.split_first() else {
            return Err(SourceError::scanner_error("no more tokens", slot.end_mark));
        };
        self.0 = others;
        slot.start_mark = token.start_mark;
        slot.end_mark = token.end_mark;
        copy_into(&token.content, &mut slot.content);
        Ok(())
    }
}

/// A copy of a text by Rust's own means, as a scanner in Rust makes its texts. The peers' copies don't ask for an
/// error either if there is no memory.
#[inline(always)]
fn copy(text: &str) -> Text {
    Text::from(String::from(text))
}

/// Returns whether a content has texts.
#[inline(always)]
fn has_texts(data: &TokenData) -> bool {
    use TokenData::*;
    matches!(data, Scalar(_) | Alias(_) | Anchor(_) | Tag(_) | TagDirective(_))
}

/// Puts a content in the place of another, of which only texts are dropped.
#[inline(always)]
fn put(data: TokenData, slot: &mut TokenData) {
    if has_texts(slot) {
        drop_texts(slot);
    }
    std::mem::forget(std::mem::replace(slot, data));
}

#[inline(always)]
fn drop_texts(slot: &mut TokenData) {
    let text = match slot {
        TokenData::Scalar(scalar) => &mut scalar.value,
        TokenData::Alias(alias) => &mut alias.value,
        TokenData::Anchor(anchor) => &mut anchor.value,
        _ => return drop_two(slot),
    };
    *text = Text::default();
}

#[inline(never)]
fn drop_two(slot: &mut TokenData) {
    let (first, second) = match slot {
        TokenData::Tag(tag) => (&mut tag.handle, &mut tag.suffix),
        TokenData::TagDirective(tag) => (&mut tag.handle, &mut tag.prefix),
        _ => return,
    };
    (*first, *second) = (Text::default(), Text::default());
}

/// Puts a copy of a content in the place of another.
#[inline(always)]
fn copy_into(data: &TokenData, slot: &mut TokenData) {
    if let TokenData::Scalar(scalar) = data {
        copy_scalar(scalar, slot);
    } else if is_bare(data) {
        put(bare(data), slot);
    } else {
        copy_other(data, slot);
    }
}

#[inline(never)]
fn copy_scalar(scalar: &unnamed_yaml_token_t_data_scalar, slot: &mut TokenData) {
    let (value, style) = (copy(&scalar.value), scalar.style);
    put(
        TokenData::Scalar(unnamed_yaml_token_t_data_scalar { value, style }),
        slot,
    );
}

#[inline(always)]
fn copy_other(data: &TokenData, slot: &mut TokenData) {
    match data {
        TokenData::Tag(tag) => copy_tag(tag, slot),
        TokenData::Anchor(anchor) => copy_anchor(anchor, slot),
        TokenData::Alias(alias) => copy_alias(alias, slot),
        _ => copy_rare(data, slot),
    }
}

#[inline(never)]
fn copy_tag(tag: &unnamed_yaml_token_t_data_tag, slot: &mut TokenData) {
    let (handle, suffix) = (copy(&tag.handle), copy(&tag.suffix));
    put(
        TokenData::Tag(unnamed_yaml_token_t_data_tag { handle, suffix }),
        slot,
    );
}

#[inline(never)]
fn copy_anchor(anchor: &unnamed_yaml_token_t_data_anchor, slot: &mut TokenData) {
    let value = copy(&anchor.value);
    put(
        TokenData::Anchor(unnamed_yaml_token_t_data_anchor { value }),
        slot,
    );
}

#[inline(never)]
fn copy_alias(alias: &unnamed_yaml_token_t_data_alias, slot: &mut TokenData) {
    let value = copy(&alias.value);
    put(TokenData::Alias(unnamed_yaml_token_t_data_alias { value }), slot);
}

#[inline(never)]
fn copy_rare(data: &TokenData, slot: &mut TokenData) {
    *slot = match data {
        TokenData::StreamStart(start) => TokenData::stream_start(start.encoding),
        TokenData::VersionDirective(version) => TokenData::version_directive(version.major, version.minor),
        TokenData::TagDirective(tag) => {
            let (handle, prefix) = (copy(&tag.handle), copy(&tag.prefix));
            TokenData::TagDirective(unnamed_yaml_token_t_data_tag_directive { handle, prefix })
        }
        _ => TokenData::NoToken,
    };
}

/// Returns whether a content has no fields.
#[inline(always)]
fn is_bare(data: &TokenData) -> bool {
    use TokenData::*;
    !matches!(data, NoToken | StreamStart(_) | VersionDirective(_)) && !has_texts(data)
}

/// A copy of a content without fields.
#[inline(always)]
fn bare(data: &TokenData) -> TokenData {
    use TokenData::*;
    match data {
        StreamEnd => StreamEnd,
        DocumentStart => DocumentStart,
        DocumentEnd => DocumentEnd,
        BlockSequenceStart => BlockSequenceStart,
        BlockMappingStart => BlockMappingStart,
        BlockEnd => BlockEnd,
        FlowSequenceStart => FlowSequenceStart,
        FlowSequenceEnd => FlowSequenceEnd,
        FlowMappingStart => FlowMappingStart,
        FlowMappingEnd => FlowMappingEnd,
        BlockEntry => BlockEntry,
        FlowEntry => FlowEntry,
        Key => Key,
        Value => Value,
        _ => NoToken,
    }
}

/// What is seen of a round, or only how much there is.
#[derive(Default)]
struct Seen {
    items: u64,
    checksum: u64,
    is_whole: bool,
}

impl Seen {
    #[inline(always)]
    fn see(&mut self, number: u32, start: Mark, end: Mark) {
        self.items += 1;
        if self.is_whole {
            let sum = self.checksum.wrapping_mul(31).wrapping_add(number.into());
            let sum = sum.wrapping_mul(31).wrapping_add(start.index);
            self.checksum = sum.wrapping_mul(31).wrapping_add(end.index);
        }
    }

    #[inline(always)]
    fn event(&mut self, event: &Event) {
        match self.is_whole {
            true => self.see(event.type_().number(), event.start_mark, event.end_mark),
            false => self.items += 1,
        }
    }

    fn document(&mut self, document: &Document) {
        if !self.is_whole {
            self.items += document.nodes().len() as u64;
            return;
        }
        for node in document.nodes() {
            self.see(node.type_().number(), node.start_mark, node.end_mark);
        }
    }
}

fn parse_in_place(tokens: &[Token], seen: &mut Seen) -> Result<(), Error> {
    let (mut parser, mut event) = (Parser::new(Copies(tokens)), Event::default());
    while let Some(read) = parser.next_into(&mut event) {
        read?;
        seen.event(&event);
    }
    Ok(())
}

fn each_event(events: impl Iterator<Item = Result<Event, Error>>, seen: &mut Seen) -> Result<(), Error> {
    for event in events {
        seen.event(&event?);
    }
    Ok(())
}

fn load(tokens: &[Token], seen: &mut Seen) -> Result<(), Error> {
    let mut parser = yaml_parser_initialize(Global, Copies(tokens));
    loop {
        let Ok(document) = yaml_parser_load(&mut parser) else {
            return Err(Error::from(*parser.prefix()));
        };
        if document.nodes().is_empty() {
            return Ok(());
        }
        seen.document(&document);
    }
}

fn each_document(tokens: &[Token], seen: &mut Seen) -> Result<(), Error> {
    for document in Documents::new(Copies(tokens)) {
        seen.document(&document?);
    }
    Ok(())
}

#[cfg(feature = "more")]
fn each_half(tokens: &[Token], seen: &mut Seen) -> Result<(), Error> {
    let mut documents = Documents::new(Copies(tokens));
    while let Some(document) = documents.next_or_half() {
        seen.document(&document.map_err(|half| half.error)?);
    }
    Ok(())
}

#[cfg(feature = "written")]
fn each_written(tokens: &[Token], seen: &mut Seen) -> Result<(), Error> {
    let mut written = Written::new(Global);
    for item in PlacedEvents::new(Copies(tokens)) {
        let (event, place) = item?;
        written.take(&event, place).expect("there is memory");
        seen.event(&event);
    }
    Ok(())
}

fn run(work: &str, tokens: &[Token], seen: &mut Seen) -> Result<(), Error> {
    match work {
        "place-events" => parse_in_place(tokens, seen),
        "iterate-events" => each_event(Parser::new(Copies(tokens)), seen),
        "composed-events" => each_event(ComposedEvents::new(Copies(tokens)), seen),
        #[cfg(feature = "more")]
        "placed-events" => {
            let placed = PlacedEvents::new(Copies(tokens));
            each_event(placed.map(|item| item.map(|(event, _)| event)), seen)
        }
        #[cfg(feature = "more")]
        "half-nodes" => each_half(tokens, seen),
        #[cfg(feature = "written")]
        "written-events" => each_written(tokens, seen),
        "place-nodes" => load(tokens, seen),
        "iterate-nodes" => each_document(tokens, seen),
        _ => panic!("unknown work {work}"),
    }
}

fn main() -> Result<(), Box<dyn std::error::Error>> {
    let words: Vec<String> = std::env::args().collect();
    let (work, rounds): (&str, u32) = (&words[1], words[2].parse()?);
    let mut input = String::new();
    std::io::stdin().read_to_string(&mut input)?;
    let tokens: Vec<Token> = input.lines().map(lines::tokens::token_of).collect();
    let mut whole = Seen {
        is_whole: true,
        ..Seen::default()
    };
    run(work, &tokens, &mut whole)?;
    let mut counted = Seen::default();
    for _ in 0..rounds {
        run(work, &tokens, &mut counted)?;
    }
    println!("{work} {} {} {}", whole.items, whole.checksum, counted.items);
    Ok(())
}
