//! The error of everything in this module.

use super::{Documents, Mark, PushParser, SourceError, TokenData, TokenSource, TokenTypes};
use crate::kit::{AllocError, Global, String as Text};
use crate::libyaml_types::{yaml_error_type_t, yaml_parser_t_prefix, MEMORY_FAULT, ZERO_MARK};
use alloc::string::String;
use alloc::vec::Vec;
use core::fmt;

/// Which part refused the input. libyaml: `yaml_error_type_t`.
#[doc(inline)]
pub use crate::libyaml_types::yaml_error_type_t as ErrorKind;

impl yaml_error_type_t {
    /// An allocation failed.
    pub const MEMORY: Self = Self::YAML_MEMORY_ERROR;
    /// The input cannot be read.
    pub const READER: Self = Self::YAML_READER_ERROR;
    /// The input cannot be split into tokens.
    pub const SCANNER: Self = Self::YAML_SCANNER_ERROR;
    /// The tokens are no YAML stream.
    pub const PARSER: Self = Self::YAML_PARSER_ERROR;
    /// An alias has no anchor, an anchor is there twice, or the document is too large.
    pub const COMPOSER: Self = Self::YAML_COMPOSER_ERROR;
}

/// Why there are no more events or documents: libyaml's words, and places in the text.
///
/// As text it is the problem and its place, or the kind if there is no problem, and then the context and its
/// place, if there is one. Lines and columns count from 1 there, and from 0 in marks. A reader's error that has a
/// position and no mark has that in the mark's place. [`explained`](Self::explained) tells more of it.
#[derive(Clone, Copy, PartialEq, Eq)]
pub struct Error(yaml_parser_t_prefix);

impl Error {
    /// Returns which part refused the input.
    pub fn kind(&self) -> ErrorKind {
        self.0.error
    }

    /// Returns what went wrong, in words. Out of memory has none.
    pub fn problem(&self) -> Option<&'static str> {
        self.0.problem
    }

    /// Returns this error with what was [`expected`](Explained::expected) and its [`name`](Explained::name), for which it
    /// takes the tokens once more: those of a source that gives the same from its start. If it gives others, or if
    /// there is no memory, nothing is told.
    ///
    /// ```
    /// use pokhvizi::yaml::{Encoding, Mark, Parser, Token, TokenData, TokenList};
    ///
    /// let source = || -> TokenList {
    ///     let mark = Mark { index: 0, line: 0, column: 0 };
    ///     let data = [TokenData::stream_start(Encoding::UTF8), TokenData::FlowSequenceStart, TokenData::Value];
    ///     TokenList::from(data.map(|data| Token::new(data, mark, mark)).into_iter().collect::<Vec<_>>())
    /// };
    /// let error = Parser::new(source()).find_map(Result::err).unwrap();
    /// assert_eq!(error.explained(source()).expected().to_string(), "a flow node, a key or ']'");
    /// ```
    pub fn explained(self, source: impl TokenSource) -> Explained {
        match self.kind() {
            ErrorKind::PARSER => self.explained_by_tokens(source),
            ErrorKind::COMPOSER => {
                let mut documents = Documents::new(source);
                let half = core::iter::from_fn(|| documents.next_or_half()).find_map(Result::err);
                let name = half.filter(|half| half.error == self).and_then(|half| half.name);
                Explained::of(self, TokenTypes::none(), name)
            }
            _ => self.into(),
        }
    }

    fn explained_by_tokens(self, mut source: impl TokenSource) -> Explained {
        let (mut parser, mut events, mut handle) = (PushParser::new(), Vec::new(), None);
        while let Ok(token) = source.next_token() {
            let (kind, expected) = (token.type_(), parser.expected());
            let next = match &token.content {
                TokenData::Tag(tag) => Text::from_str(Global, &tag.handle).ok(),
                TokenData::TagDirective(tag) => Text::from_str(Global, &tag.handle).ok(),
                _ => None,
            };
            events.clear();
            match parser.push(token, &mut events) {
                Ok(()) if expected != TokenTypes::none() => handle = next.or(handle),
                Err(error) if error == self => {
                    // That of an undefined handle comes with the token after the tag, whatever it is.
                    let (is_right, name) = match self.problem() {
                        Some("found undefined tag handle") => (true, handle),
                        Some("found duplicate %TAG directive") => (true, next),
                        _ => (expected.contains(kind), None),
                    };
                    let expected = if is_right { TokenTypes::none() } else { expected };
                    return Explained::of(self, expected, name.map(String::from));
                }
                _ => break,
            }
        }
        self.into()
    }

    /// Returns where it went wrong.
    pub fn mark(&self) -> Mark {
        self.0.problem_mark
    }

    /// Returns how far a reader had come when the input could not be read: with libyaml's scanner the byte, from 0.
    /// Its errors have no mark. Of other errors `None`.
    pub fn position(&self) -> Option<u64> {
        (self.0.error == ErrorKind::READER).then_some(self.0.problem_offset)
    }

    /// Returns what was being read, in words.
    pub fn context(&self) -> Option<&'static str> {
        self.0.context
    }

    /// Returns where what was being read begins. It says something only if there is a context.
    pub fn context_mark(&self) -> Mark {
        self.0.context_mark
    }
}

/// An [`Error`] with what was expected and what it is about. [`Error::explained`] makes it.
#[derive(Clone, PartialEq, Eq)]
pub struct Explained {
    error: Error,
    /// One or none: a list asks for its memory, and says if there is none.
    told: Vec<(TokenTypes, Option<String>)>,
}

impl Explained {
    fn of(error: Error, expected: TokenTypes, name: Option<String>) -> Self {
        let mut told = Vec::new();
        if (expected != TokenTypes::none() || name.is_some()) && told.try_reserve_exact(1).is_ok() {
            told.push((expected, name));
        }
        Explained { error, told }
    }

    /// Returns which types of token could have stood in the place of the token of a parser's error. As text they
    /// are words, such as `',' or ']'`. There are none of another error, and if the token's type was right.
    pub fn expected(&self) -> TokenTypes {
        self.told.first().map_or(TokenTypes::none(), |told| told.0)
    }

    /// Returns the anchor, the alias or the tag handle that the error is about.
    pub fn name(&self) -> Option<&str> {
        self.told.first()?.1.as_deref()
    }
}

impl core::ops::Deref for Explained {
    type Target = Error;

    fn deref(&self) -> &Error {
        &self.error
    }
}

impl From<Error> for Explained {
    fn from(error: Error) -> Self {
        Explained::of(error, TokenTypes::none(), None)
    }
}

impl fmt::Debug for Explained {
    fn fmt(&self, f: &mut fmt::Formatter<'_>) -> fmt::Result {
        let mut told = f.debug_struct("Explained");
        told.field("error", &self.error);
        if self.expected() != TokenTypes::none() {
            told.field("expected", &format_args!("{}", self.expected()));
        }
        if let Some(name) = self.name() {
            told.field("name", &name);
        }
        told.finish()
    }
}

impl fmt::Display for Explained {
    fn fmt(&self, f: &mut fmt::Formatter<'_>) -> fmt::Result {
        self.error.fmt(f)
    }
}

impl core::error::Error for Explained {}

impl From<yaml_parser_t_prefix> for Error {
    fn from(fault: yaml_parser_t_prefix) -> Self {
        Error(fault)
    }
}

impl From<SourceError> for Error {
    fn from(fault: SourceError) -> Self {
        Error(fault.prefix())
    }
}

impl From<AllocError> for Error {
    fn from(_: AllocError) -> Self {
        Error(MEMORY_FAULT)
    }
}

impl From<AllocError> for SourceError {
    fn from(_: AllocError) -> Self {
        SourceError::out_of_memory()
    }
}

impl fmt::Debug for Error {
    fn fmt(&self, f: &mut fmt::Formatter<'_>) -> fmt::Result {
        let mut told = f.debug_struct("Error");
        told.field("kind", &self.0.error);
        told.field("problem", &self.0.problem)
            .field("mark", &self.0.problem_mark);
        if self.0.context.is_some() {
            told.field("context", &self.0.context)
                .field("context_mark", &self.0.context_mark);
        }
        told.finish()
    }
}

impl fmt::Display for Error {
    fn fmt(&self, f: &mut fmt::Formatter<'_>) -> fmt::Result {
        match (self.0.problem, self.position()) {
            (Some(problem), Some(position)) if position > 0 && self.0.problem_mark == ZERO_MARK => {
                write!(f, "{problem} at position {position}")
            }
            _ => self.0.fmt(f),
        }
    }
}

impl core::error::Error for Error {}
