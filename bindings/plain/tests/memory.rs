//! Each allocation is refused in turn: every call gives the error out of memory, nothing ends the process, and
//! nothing is left behind.
// With `alloc` the crate needs a later rustc than without.
#![allow(clippy::incompatible_msrv)]

mod allocator;
mod lines;

use allocator::{refusing, Refused};
use lines::data::{lists_of, TABLES};
use lines::tokens::token_of;
use pokhvizi::yaml::*;

/// What a call gave in the end: how much came before, and its error.
type Outcome = (usize, Option<Error>);

/// Runs a call with all of its memory, and then with each allocation refused, and all after it. Returns how many
/// there are.
fn refuse_each(name: &str, call: impl Fn() -> Outcome) -> u64 {
    let (whole, taken) = refusing(Refused::Never, &call);
    for first in 0..taken.asked {
        let (outcome, taken) = refusing(Refused::AllFrom(first), &call);
        assert_eq!(taken.held, 0, "{name}: what is left behind, {first} allocations made");
        // Whoever does without some memory, such as more room than is needed, ends as before.
        if outcome != whole {
            let kind = outcome.1.map(|error| error.kind());
            assert_eq!(kind, Some(ErrorKind::MEMORY), "{name}, {first} allocations made");
            assert!(outcome.0 <= whole.0, "{name}, {first} allocations made");
        }
    }
    taken.asked
}

/// How many values an iterator gives, and its first error.
fn outcome_of<T>(values: impl Iterator<Item = Result<T, Error>>) -> Outcome {
    let mut count = 0;
    for value in values {
        match value {
            Ok(_) => count += 1,
            Err(error) => return (count, Some(error)),
        }
    }
    (count, None)
}

/// The tokens of lines, made one by one: no copy of the list is needed, and each text is an allocation.
fn made_anew(tokens: &[Token]) -> impl Iterator<Item = Result<Token, SourceError>> + '_ {
    tokens.iter().map(|token| {
        let data = match &token.content {
            TokenData::Scalar(scalar) => TokenData::scalar(&scalar.value, scalar.style)?,
            TokenData::Anchor(anchor) => TokenData::anchor(&anchor.value)?,
            TokenData::Alias(alias) => TokenData::alias(&alias.value)?,
            TokenData::Tag(tag) => TokenData::tag(&tag.handle, &tag.suffix)?,
            TokenData::TagDirective(tag) => TokenData::tag_directive(&tag.handle, &tag.prefix)?,
            TokenData::VersionDirective(version) => {
                TokenData::version_directive(version.major, version.minor)
            }
            TokenData::StreamStart(start) => TokenData::stream_start(start.encoding),
            other => bare(other),
        };
        Ok(Token::new(data, token.start_mark, token.end_mark))
    })
}

/// A token's content without texts.
fn bare(data: &TokenData) -> TokenData {
    use TokenData::*;
    let all = [
        StreamEnd,
        DocumentStart,
        DocumentEnd,
        BlockSequenceStart,
        BlockMappingStart,
        BlockEnd,
        FlowSequenceStart,
        FlowSequenceEnd,
        FlowMappingStart,
        FlowMappingEnd,
        BlockEntry,
        FlowEntry,
        Key,
        Value,
    ];
    all.into_iter().find(|known| known == data).unwrap_or(NoToken)
}

/// What is asked of each document.
fn ask(document: Document) -> Result<(), Error> {
    document
        .expanded_size(u64::MAX)
        .or_else(|error| match error.kind() {
            ErrorKind::COMPOSER => Ok(0),
            _ => Err(error),
        })?;
    document.duplicate_key()?;
    Ok(())
}

/// Puts each event into one variable, over the event before it.
fn parse_in_place(tokens: impl TokenSource) -> Outcome {
    let (mut parser, mut event, mut count) = (Parser::new(tokens), Event::default(), 0);
    while let Some(parsed) = parser.next_into(&mut event) {
        if let Err(error) = parsed {
            return (count, Some(error));
        }
        count += 1;
    }
    (count, None)
}

fn push_all(tokens: &[Token]) -> Outcome {
    let (mut parser, mut events, mut pushed) = (PushParser::new(), Vec::new(), 0);
    for token in made_anew(tokens) {
        if let Err(error) = token
            .map_err(Error::from)
            .and_then(|token| parser.push(token, &mut events))
        {
            return (pushed + events.len(), Some(error));
        }
        pushed += events.len();
        events.clear();
    }
    (pushed, None)
}

fn push_documents(tokens: &[Token]) -> Outcome {
    let (mut loader, mut documents) = (PushLoader::new(), Vec::new());
    for token in made_anew(tokens) {
        if let Err(error) = token
            .map_err(Error::from)
            .and_then(|token| loader.push(token, &mut documents))
        {
            return (documents.len(), Some(error));
        }
    }
    (documents.len(), None)
}

/// Does everything with a list. Returns how many allocations that takes.
fn refuse_all(name: &str, list: &[Token]) -> u64 {
    refuse_each(name, || outcome_of(Parser::new(tokens(made_anew(list)))))
        + refuse_each(name, || parse_in_place(tokens(made_anew(list))))
        + refuse_each(name, || {
            outcome_of(Parser::new(limited(tokens(made_anew(list)), 100)))
        })
        + refuse_each(name, || outcome_of(ComposedEvents::new(tokens(made_anew(list)))))
        + refuse_each(name, || {
            let documents = Documents::new(tokens(made_anew(list)));
            outcome_of(documents.map(|document| document.and_then(ask)))
        })
        + refuse_each(name, || push_all(list))
        + refuse_each(name, || push_documents(list))
}

#[test]
fn each_allocation_is_refused_in_turn() {
    let mut made = 0;
    for list in lists_of(&TABLES) {
        // Long lists only repeat what the short ones show.
        let tokens: Vec<Token> = list.tokens.lines().take(300).map(token_of).collect();
        made += refuse_all(&list.name, &tokens);
    }
    assert!(made > 8_000, "only {made} allocations");
}

/// A document with so many tag directives, and so many open sequences, anchors, aliases and keys.
fn large(count: usize) -> Vec<Token> {
    let zero = Mark {
        index: 0,
        line: 0,
        column: 0,
    };
    let name = |number: usize| format!("n{}", number % count);
    let mut data = vec![TokenData::stream_start(Encoding::UTF8)];
    data.extend((0..count).map(|n| TokenData::tag_directive(&format!("!{n}!"), "p").unwrap()));
    data.push(TokenData::DocumentStart);
    data.extend((0..count).map(|_| TokenData::FlowSequenceStart));
    data.push(TokenData::FlowMappingStart);
    for n in 0..2 * count {
        data.extend([TokenData::Key]);
        data.extend((n < count).then(|| TokenData::anchor(&name(n)).unwrap()));
        data.extend([
            TokenData::scalar(&name(n), ScalarStyle::PLAIN).unwrap(),
            TokenData::Value,
        ]);
        data.extend([
            TokenData::alias(&name(n.min(count - 1))).unwrap(),
            TokenData::FlowEntry,
        ]);
    }
    data.push(TokenData::FlowMappingEnd);
    data.extend((0..count).map(|_| TokenData::FlowSequenceEnd));
    data.push(TokenData::StreamEnd);
    data.into_iter()
        .map(|data| Token::new(data, zero, zero))
        .collect()
}

#[test]
fn each_allocation_of_a_large_document_is_refused() {
    let list = large(40);
    let documents: Vec<Document> = Documents::new(tokens(made_anew(&list)))
        .map(Result::unwrap)
        .collect();
    assert_eq!(documents[0].nodes().len(), 41 + 80);
    assert_eq!(
        documents[0].duplicate_key().unwrap().map(|found| found.pairs()[1]),
        Some(40)
    );
    assert!(refuse_all("a large document", &list) > 2_000);
}

/// Nodes with an anchor, a tag and a text, each longer or each shorter than the one before it, and scalars that get
/// longer; after each an event that has none.
fn texts_of_all_lengths() -> Vec<Token> {
    use TokenData::*;
    let mark = Mark {
        index: 0,
        line: 0,
        column: 0,
    };
    let mut data = vec![TokenData::stream_start(Encoding::UTF8), FlowSequenceStart];
    for lengths in [[2, 20, 60], [60, 20, 2]] {
        let scalar = TokenData::scalar(&"x".repeat(lengths[2]), ScalarStyle::PLAIN).unwrap();
        let contents = [
            vec![scalar],
            vec![FlowSequenceStart, FlowSequenceEnd],
            vec![FlowMappingStart, Key, Value, FlowMappingEnd],
        ];
        for content in contents {
            let name = format!("{:a>width$}", data.len(), width = lengths[0]);
            data.push(TokenData::anchor(&name).unwrap());
            data.push(TokenData::tag("!", &"t".repeat(lengths[1])).unwrap());
            data.extend(content);
            data.extend([FlowEntry, FlowSequenceStart, FlowSequenceEnd, FlowEntry]);
        }
    }
    for length in [2, 20, 60] {
        data.push(TokenData::scalar(&"x".repeat(length), ScalarStyle::PLAIN).unwrap());
        data.extend([FlowEntry, FlowSequenceStart, FlowSequenceEnd, FlowEntry]);
    }
    data.extend([FlowSequenceEnd, StreamEnd]);
    data.into_iter()
        .map(|data| Token::new(data, mark, mark))
        .collect()
}

#[test]
fn each_text_goes_with_the_event_over_it() {
    let list = texts_of_all_lengths();
    let mut documents = Documents::new(tokens(made_anew(&list)));
    assert_eq!(documents.next().unwrap().unwrap().nodes().len(), 23);
    assert!(refuse_all("texts of all lengths", &list) > 200);
}
