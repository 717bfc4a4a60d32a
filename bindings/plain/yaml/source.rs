//! Where tokens come from.

use super::{Mark, Token, TokenList};
use crate::libyaml_types::{yaml_error_type_t, yaml_scanner_source_t, yaml_scanner_t, ZERO_MARK};
use crate::token_limits::yaml_limited_source_t;
use alloc::boxed::Box;
use alloc::vec::Vec;

/// A source of tokens, which a scanner implements by one function. libyaml: `yaml_parser_scan`.
///
/// `next_token` gives the next token, or the error that ends the tokens. A parser asks for no token after
/// STREAM-END or after an error.
#[doc(inline)]
pub use crate::libyaml_types::yaml_token_source_t as TokenSource;

/// Why a source has no more tokens: out of memory, a reader's error or a scanner's. Its words are constants, as
/// libyaml's are.
#[doc(inline)]
pub use crate::libyaml_types::yaml_source_fault_t as SourceError;

/// The tokens of a source within a bound on depth. [`limited`] makes one.
pub type Limited<S> = yaml_limited_source_t<S>;

/// The tokens of an iterator. [`tokens`] makes one.
pub type Tokens<I> = yaml_scanner_source_t<TokenIter<I>>;

impl<S: TokenSource + ?Sized> TokenSource for &mut S {
    fn next_token(&mut self) -> Result<Token, SourceError> {
        (**self).next_token()
    }

    fn next_token_into(&mut self, token: &mut Token) -> Result<(), SourceError> {
        (**self).next_token_into(token)
    }

    fn may_wait(&self) -> bool {
        (**self).may_wait()
    }
}

impl<S: TokenSource + ?Sized> TokenSource for Box<S> {
    fn next_token(&mut self) -> Result<Token, SourceError> {
        (**self).next_token()
    }

    fn next_token_into(&mut self, token: &mut Token) -> Result<(), SourceError> {
        (**self).next_token_into(token)
    }

    fn may_wait(&self) -> bool {
        (**self).may_wait()
    }
}

/// The source of a whole list, without a copy. After a list without STREAM-END it has the error "no more tokens", at the end of the last
/// token.
impl From<Vec<Token>> for TokenList {
    fn from(tokens: Vec<Token>) -> Self {
        let end = tokens.last().map_or(ZERO_MARK, |token| token.end_mark);
        let fault = no_more_tokens(tokens.len() as u64, end);
        TokenList::new(crate::kit::Vec::from(tokens), fault)
    }
}

/// What [`tokens`] asks. Its use is as a part of [`Tokens`].
#[derive(Debug)]
pub struct TokenIter<I> {
    tokens: I,
    given: u64,
    end: Mark,
}

impl<I: Iterator<Item = Result<Token, SourceError>>> yaml_scanner_t for TokenIter<I> {
    fn scan(&mut self) -> Result<Token, SourceError> {
        let token = self
            .tokens
            .next()
            .unwrap_or_else(|| Err(no_more_tokens(self.given, self.end)))?;
        self.given += 1;
        self.end = token.end_mark;
        Ok(token)
    }
}

/// The error of an iterator that ends before STREAM-END: that of a list, at the end of the last token.
fn no_more_tokens(given: u64, end: Mark) -> SourceError {
    let error = yaml_error_type_t::YAML_READER_ERROR;
    SourceError::new(error, Some("no more tokens"), given, -1, end, None, ZERO_MARK)
}

/// Returns a source of the tokens of an iterator, which isn't asked again after an error.
pub fn tokens<I>(tokens: I) -> Tokens<I::IntoIter>
where
    I: IntoIterator<Item = Result<Token, SourceError>>,
{
    let tokens = tokens.into_iter();
    yaml_scanner_source_t::new(
        TokenIter {
            tokens,
            given: 0,
            end: ZERO_MARK,
        },
        u64::MAX,
    )
}

/// Returns a source of the tokens of another, up to the first that opens one collection more than may be open at
/// once. That one's error is a scanner's, "found too many levels".
pub fn limited<S: TokenSource>(source: S, max_depth: usize) -> Limited<S> {
    yaml_limited_source_t::new(source, max_depth)
}
