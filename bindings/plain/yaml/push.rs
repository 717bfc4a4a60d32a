//! A parser and a loader that are handed their tokens.

use super::{Document, Encoding, Error, Event, Mark, ScalarStyle, Token, TokenData, TokenType, TokenTypes};
use crate::kit::{Global, String, Vec as List};
use crate::libyaml_events::yaml_push_parser_t;
use crate::libyaml_loader::yaml_push_loader_t;
use crate::libyaml_types::unnamed_yaml_token_t_data_scalar;
use alloc::vec::Vec;
use core::{fmt, mem};

/// A parser that is handed one token after another, by a scanner that calls it.
pub struct PushParser {
    parser: yaml_push_parser_t,
}

impl PushParser {
    /// Returns a parser at a stream's start. Takes no memory.
    pub fn new() -> Self {
        let parser = yaml_push_parser_t::new(Global);
        PushParser { parser }
    }

    /// Takes a token, and appends the events that it determines: at most four.
    ///
    /// # Errors
    ///
    /// A parser's, or out of memory, for good: each later push returns it. The events before the error are
    /// appended too.
    pub fn push(&mut self, token: Token, events: &mut Vec<Event>) -> Result<(), Error> {
        let mut list = List::from(mem::take(events));
        let pushed = self.parser.push(token, &mut list);
        *events = list.into();
        Ok(pushed?)
    }

    /// Returns which types of token may come next: those with some token with which the tokens so far still
    /// begin a whole stream. After the stream's end or an error there are none.
    pub fn expected(&self) -> TokenTypes {
        self.parser.expected()
    }

    /// Completes the tokens so far to a whole stream, by empty tokens at this mark, and appends the events. After
    /// the stream's end or an error it does nothing.
    ///
    /// # Errors
    ///
    /// Out of memory; that of a tag without content whose handle is undefined.
    pub fn complete(&mut self, mark: Mark, events: &mut Vec<Event>) -> Result<(), Error> {
        for kind in self.parser.completion(Global)? {
            self.push(empty(kind, mark), events)?;
        }
        Ok(())
    }
}

/// Returns a token of a type that completes a stream, with no text.
fn empty(kind: TokenType, mark: Mark) -> Token {
    let data = match kind {
        TokenType::YAML_STREAM_START_TOKEN => TokenData::stream_start(Encoding::YAML_ANY_ENCODING),
        TokenType::YAML_STREAM_END_TOKEN => TokenData::StreamEnd,
        TokenType::YAML_DOCUMENT_START_TOKEN => TokenData::DocumentStart,
        TokenType::YAML_BLOCK_END_TOKEN => TokenData::BlockEnd,
        TokenType::YAML_FLOW_SEQUENCE_END_TOKEN => TokenData::FlowSequenceEnd,
        TokenType::YAML_FLOW_MAPPING_END_TOKEN => TokenData::FlowMappingEnd,
        _ => TokenData::Scalar(unnamed_yaml_token_t_data_scalar {
            value: String::new(Global),
            style: ScalarStyle::PLAIN,
        }),
    };
    Token::new(data, mark, mark)
}

/// A loader that is handed one token after another.
pub struct PushLoader {
    loader: yaml_push_loader_t,
}

impl PushLoader {
    /// Returns a loader at a stream's start. Takes no memory.
    pub fn new() -> Self {
        let loader = yaml_push_loader_t::new(Global);
        PushLoader { loader }
    }

    /// Takes a token, and appends the documents that end with it.
    ///
    /// # Errors
    ///
    /// A parser's or a composer's, or out of memory, for good: each later push returns it. The documents before
    /// the error are appended too.
    pub fn push(&mut self, token: Token, documents: &mut Vec<Document>) -> Result<(), Error> {
        let mut list = List::from(mem::take(documents));
        let pushed = self.loader.push(token, &mut list);
        *documents = list.into();
        Ok(pushed?)
    }

    /// Returns which types of token may come next, as [`PushParser::expected`] does.
    pub fn expected(&self) -> TokenTypes {
        self.loader.expected()
    }

    /// Completes the tokens so far to a whole stream, as [`PushParser::complete`] does, and appends the document
    /// that was open, with its nodes so far: half a document, where the next token isn't expected.
    ///
    /// # Errors
    ///
    /// Those of [`PushParser::complete`].
    pub fn complete(&mut self, mark: Mark, documents: &mut Vec<Document>) -> Result<(), Error> {
        for kind in self.loader.completion(Global)? {
            self.push(empty(kind, mark), documents)?;
        }
        Ok(())
    }
}

impl Default for PushParser {
    fn default() -> Self {
        PushParser::new()
    }
}

impl Default for PushLoader {
    fn default() -> Self {
        PushLoader::new()
    }
}

impl fmt::Debug for PushParser {
    fn fmt(&self, f: &mut fmt::Formatter<'_>) -> fmt::Result {
        f.debug_struct("PushParser").finish_non_exhaustive()
    }
}

impl fmt::Debug for PushLoader {
    fn fmt(&self, f: &mut fmt::Formatter<'_>) -> fmt::Result {
        f.debug_struct("PushLoader").finish_non_exhaustive()
    }
}
