//! Iterators over events and documents.

use super::{Document, Error, ErrorKind, Event, EventData, TokenSource, TokenTypes};
use crate::kit::Global;
use crate::libyaml_automaton::Reading;
use crate::libyaml_events::{
    is_event, no_event, yaml_parser_delete, yaml_parser_initialize, yaml_parser_parse_into,
    yaml_parser_set_max_entries, yaml_parser_t,
};
use crate::libyaml_loader::{
    event_composer_t, yaml_parser_documents, yaml_parser_load_partial, yaml_place_t as Place,
};
use alloc::string::String;
use core::fmt;
use core::iter::FusedIterator;
use core::mem;
use core::num::NonZeroU32;

/// The events of a source: each [`Event`], or once the [`Error`] that ends them.
///
/// The last event is the end of the stream. After it, or after an error, there is none. libyaml:
/// `yaml_parser_parse`.
pub struct Parser<S> {
    parser: yaml_parser_t<S>,
    /// Where the iterator puts the next event, before it moves it out.
    slot: Event,
}

impl<S: TokenSource> Parser<S> {
    /// Returns a parser of the tokens of a source, which is at its stream's start. Takes no memory.
    pub fn new(source: S) -> Self {
        Parser {
            parser: yaml_parser_initialize(Global, source),
            slot: no_event(),
        }
    }

    /// Puts the next event into a variable, as the iterator returns it: the quickest loop moves no event.
    /// `None` says that there is none; the variable then has no event, [`Event::default`].
    #[inline]
    pub fn next_into(&mut self, event: &mut Event) -> Option<Result<(), Error>> {
        match yaml_parser_parse_into(&mut self.parser, event) {
            Ok(()) if is_event(event) => Some(Ok(())),
            // No event is put if the run is over, and only then.
            Ok(()) => None,
            Err(_) => Some(Err(Error::from(*self.parser.prefix()))),
        }
    }

    /// Returns which types of token may come next, after those of the events so far: those with some token with
    /// which these still begin a whole stream. After the stream's end or an error there are none. The source may
    /// have been asked for that token already, which shows where a document ends.
    pub fn expected(&self) -> TokenTypes {
        expected(&self.parser)
    }

    /// Returns the source, in its state after the last token that was asked for.
    pub fn into_source(self) -> S {
        yaml_parser_delete(self.parser)
    }
}

impl<S: TokenSource> Iterator for Parser<S> {
    type Item = Result<Event, Error>;

    #[inline]
    fn next(&mut self) -> Option<Self::Item> {
        match yaml_parser_parse_into(&mut self.parser, &mut self.slot) {
            Ok(()) if is_event(&self.slot) => Some(Ok(take_event(&mut self.slot))),
            Ok(()) => None,
            Err(_) => Some(Err(Error::from(*self.parser.prefix()))),
        }
    }
}

impl<S: TokenSource> FusedIterator for Parser<S> {}

/// Returns which types of token may follow those of the events so far.
fn expected<S>(parser: &yaml_parser_t<S>) -> TokenTypes {
    match parser.token_parser.is_over() {
        true => TokenTypes::none(),
        false => parser.token_parser.automaton.expected(&Reading::new()),
    }
}

/// Moves an event out. Its marks stay, so that nothing but its kind is written.
#[inline(always)]
fn take_event(slot: &mut Event) -> Event {
    let none = Event {
        content: EventData::NoEvent,
        start_mark: slot.start_mark,
        end_mark: slot.end_mark,
    };
    mem::replace(slot, none)
}

impl<S> fmt::Debug for Parser<S> {
    fn fmt(&self, f: &mut fmt::Formatter<'_>) -> fmt::Result {
        f.debug_struct("Parser").finish_non_exhaustive()
    }
}

impl Default for Event {
    /// Returns no event: what is there before the first one.
    fn default() -> Self {
        no_event()
    }
}

/// An error, with what there is of the document in which it stands: an outline of a text that is being typed.
#[derive(Debug)]
pub struct Half {
    /// The error that ends the documents.
    pub error: Error,
    /// The anchor, alias or undefined tag handle that the error is about.
    pub name: Option<String>,
    /// The document that is open there, with its nodes so far. Its open collections end where the last
    /// event before the error does, and a key that waited for its value has an empty one, unless the list of
    /// nodes is full. There is none between two documents, or if an allocation failed.
    pub document: Option<Document>,
}

/// The documents of a source: each [`Document`], or once the [`Error`] that ends them. libyaml:
/// `yaml_parser_load`.
///
/// Its errors are those of events, and a composer's: an alias whose anchor no node before it has, or a
/// second node with an anchor. A document with a list of more than [`max_entries`](Self::max_entries)
/// nodes, items or pairs is out of memory.
pub struct Documents<S> {
    parser: yaml_parser_t<S>,
}

impl<S: TokenSource> Documents<S> {
    /// Returns the documents of the tokens of a source, which is at its stream's start. Takes no memory.
    pub fn new(source: S) -> Self {
        let parser = yaml_parser_initialize(Global, source);
        Documents { parser }
    }

    /// Bounds the nodes of each document, and the items or pairs of each node. There are at most
    /// 2,147,483,647 in any case.
    #[must_use]
    pub fn max_entries(mut self, most: NonZeroU32) -> Self {
        bound(&mut self.parser, most);
        self
    }

    /// Returns the next document, as the iterator does, and with an error what there is of the one that is
    /// open.
    pub fn next_or_half(&mut self) -> Option<Result<Document, Half>> {
        let has_failed = self.parser.prefix().error != ErrorKind::YAML_NO_ERROR;
        match yaml_parser_load_partial(&mut self.parser) {
            _ if has_failed => None,
            Ok(document) if document.nodes().is_empty() => None,
            Ok(document) => Some(Ok(document)),
            Err(partial) => Some(Err(Half {
                error: Error::from(*self.parser.prefix()),
                name: partial.name.map(String::from),
                document: partial.document,
            })),
        }
    }

    /// Returns which types of token may come next, after those of the events so far: those with some token with
    /// which these still begin a whole stream. After the stream's end or an error there are none. The source may
    /// have been asked for that token already, which shows where a document ends.
    pub fn expected(&self) -> TokenTypes {
        expected(&self.parser)
    }

    /// Returns the source, in its state after the last token that was asked for.
    pub fn into_source(self) -> S {
        yaml_parser_delete(self.parser)
    }
}

impl<S: TokenSource> Iterator for Documents<S> {
    type Item = Result<Document, Error>;

    fn next(&mut self) -> Option<Self::Item> {
        let mut documents = yaml_parser_documents(&mut self.parser);
        documents.next().map(|document| document.map_err(Error::from))
    }
}

impl<S: TokenSource> FusedIterator for Documents<S> {}

impl<S> fmt::Debug for Documents<S> {
    fn fmt(&self, f: &mut fmt::Formatter<'_>) -> fmt::Result {
        f.debug_struct("Documents").finish_non_exhaustive()
    }
}

fn bound<S>(parser: &mut yaml_parser_t<S>, most: NonZeroU32) {
    let most = i32::try_from(most.get()).unwrap_or(i32::MAX);
    yaml_parser_set_max_entries(parser, most);
}

/// The events of a source, up to the first with which [`Documents`] fails; that one's error is in its place.
///
/// It takes one pass and keeps no node: only the open collections and the anchors of a document.
pub struct ComposedEvents<S> {
    parser: yaml_parser_t<S>,
    composer: event_composer_t,
    /// Where the iterator puts the next event, before it moves it out.
    slot: Event,
}

impl<S: TokenSource> ComposedEvents<S> {
    /// Returns the events of the tokens of a source, which is at its stream's start. Takes no memory.
    pub fn new(source: S) -> Self {
        let parser = yaml_parser_initialize(Global, source);
        let composer = event_composer_t::new(Global, i32::MAX as u32);
        ComposedEvents {
            parser,
            composer,
            slot: no_event(),
        }
    }

    /// Returns which types of token may come next, after those of the events so far: those with some token with
    /// which these still begin a whole stream. After the stream's end or an error there are none. The source may
    /// have been asked for that token already, which shows where a document ends.
    pub fn expected(&self) -> TokenTypes {
        expected(&self.parser)
    }

    /// Returns the source, in its state after the last token that was asked for.
    pub fn into_source(self) -> S {
        yaml_parser_delete(self.parser)
    }
}

impl<S: TokenSource> Iterator for ComposedEvents<S> {
    type Item = Result<Event, Error>;

    #[inline]
    fn next(&mut self) -> Option<Self::Item> {
        match yaml_parser_parse_into(&mut self.parser, &mut self.slot) {
            Ok(()) if is_event(&self.slot) => {}
            Ok(()) => return None,
            Err(_) => return Some(Err(Error::from(*self.parser.prefix()))),
        }
        match self.composer.take(&self.slot) {
            Ok(()) => Some(Ok(take_event(&mut self.slot))),
            Err(refusal) => {
                let fault = self.composer.fault(refusal, &self.slot);
                self.parser.keep_fault(fault);
                Some(Err(Error::from(fault)))
            }
        }
    }
}

impl<S: TokenSource> FusedIterator for ComposedEvents<S> {}

impl<S> fmt::Debug for ComposedEvents<S> {
    fn fmt(&self, f: &mut fmt::Formatter<'_>) -> fmt::Result {
        f.debug_struct("ComposedEvents").finish_non_exhaustive()
    }
}

/// The events of [`ComposedEvents`], each with the place of its node or alias in the document.
///
/// The id is that of the node, or of the one that the alias names, as [`Document`] counts them.
/// [`Written`](super::Written) keeps what a document doesn't.
pub struct PlacedEvents<S> {
    parser: yaml_parser_t<S>,
    composer: event_composer_t,
    /// Where the iterator puts the next event, before it moves it out.
    slot: Event,
}

impl<S: TokenSource> PlacedEvents<S> {
    /// Returns the events of the tokens of a source, which is at its stream's start. Takes no memory.
    pub fn new(source: S) -> Self {
        let parser = yaml_parser_initialize(Global, source);
        let composer = event_composer_t::new(Global, i32::MAX as u32);
        PlacedEvents {
            parser,
            composer,
            slot: no_event(),
        }
    }

    /// Returns which types of token may come next, after those of the events so far: those with some token with
    /// which these still begin a whole stream. After the stream's end or an error there are none. The source may
    /// have been asked for that token already, which shows where a document ends.
    pub fn expected(&self) -> TokenTypes {
        expected(&self.parser)
    }

    /// Returns the source, in its state after the last token that was asked for.
    pub fn into_source(self) -> S {
        yaml_parser_delete(self.parser)
    }
}

impl<S: TokenSource> Iterator for PlacedEvents<S> {
    type Item = Result<(Event, Option<Place>), Error>;

    #[inline]
    fn next(&mut self) -> Option<Self::Item> {
        match yaml_parser_parse_into(&mut self.parser, &mut self.slot) {
            Ok(()) if is_event(&self.slot) => {}
            Ok(()) => return None,
            Err(_) => return Some(Err(Error::from(*self.parser.prefix()))),
        }
        match self.composer.take_placed(&self.slot) {
            Ok(place) => Some(Ok((take_event(&mut self.slot), place))),
            Err(refusal) => {
                let fault = self.composer.fault(refusal, &self.slot);
                self.parser.keep_fault(fault);
                Some(Err(Error::from(fault)))
            }
        }
    }
}

impl<S: TokenSource> FusedIterator for PlacedEvents<S> {}

impl<S> fmt::Debug for PlacedEvents<S> {
    fn fmt(&self, f: &mut fmt::Formatter<'_>) -> fmt::Result {
        f.debug_struct("PlacedEvents").finish_non_exhaustive()
    }
}
