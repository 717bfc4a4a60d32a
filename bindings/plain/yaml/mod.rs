//! YAML's parser and loader for Rust programs: iterators over the tokens of a scanner.
//!
//! Each name here is one of the proved library's, or a few lines over it: [`Parser`] is an iterator over
//! [`Event`]s, [`Documents`] one over [`Document`]s, and [`Error`] has libyaml's words. Tokens come from a
//! [`TokenSource`]: a scanner of your own, a [`TokenList`], or an iterator ([`tokens`]).
//!
//! ```
//! use pokhvizi::yaml::{tokens, Documents, Encoding, Error, Mark, ScalarStyle, SourceError, Token, TokenData};
//!
//! /// The tokens of `[a, b, ..]`, of the words of a text.
//! fn scan(text: &str) -> impl Iterator<Item = Result<Token, SourceError>> + '_ {
//!     let at = |index: usize| Mark { index: index as u64, line: 0, column: index as u64 };
//!     let plain = move |data, from: usize, to: usize| Ok(Token::new(data, at(from), at(to)));
//!     let start = [TokenData::stream_start(Encoding::UTF8), TokenData::FlowSequenceStart];
//!     let words = text.split(' ').enumerate().flat_map(move |(count, word)| {
//!         let from = word.as_ptr() as usize - text.as_ptr() as usize;
//!         let comma = (count > 0).then(|| plain(TokenData::FlowEntry, from - 1, from));
//!         let scalar = TokenData::scalar(word, ScalarStyle::PLAIN);
//!         comma.into_iter().chain([scalar.and_then(|data| plain(data, from, from + word.len()))])
//!     });
//!     let end = [TokenData::FlowSequenceEnd, TokenData::StreamEnd];
//!     let start = start.into_iter().map(move |data| plain(data, 0, 0));
//!     let end = end.into_iter().map(move |data| plain(data, text.len(), text.len()));
//!     start.chain(words).chain(end)
//! }
//!
//! fn second_word(text: &str) -> Result<Option<String>, Error> {
//!     for document in Documents::new(tokens(scan(text))) {
//!         let document = document?;
//!         return Ok(document.text_at(&["1"]).map(String::from));
//!     }
//!     Ok(None)
//! }
//!
//! assert_eq!(second_word("to be or not").unwrap().as_deref(), Some("be"));
//! ```

mod document;
mod error;
mod parser;
mod push;
mod source;
mod token;

pub use document::DuplicateKey;
pub use error::{Error, ErrorKind, Explained};
pub use parser::{ComposedEvents, Documents, Half, Parser, PlacedEvents};
pub use push::{PushLoader, PushParser};
pub use source::{limited, tokens, Limited, SourceError, TokenIter, TokenSource, Tokens};

#[doc(inline)]
pub use crate::libyaml_documents::{
    unnamed_yaml_node_t_data as NodeData, yaml_document_t as Document, yaml_node_pair_t as NodePair,
    yaml_node_t as Node,
};
#[doc(inline)]
pub use crate::libyaml_loader::{yaml_place_t as Place, yaml_role_t as Role, yaml_written_t as Written};
#[doc(inline)]
pub use crate::libyaml_types::{
    unnamed_yaml_event_t_data as EventData, unnamed_yaml_token_t_data as TokenData,
    yaml_encoding_t as Encoding, yaml_event_t as Event, yaml_event_type_t as EventType,
    yaml_list_source_t as TokenList, yaml_mapping_style_t as MappingStyle, yaml_mark_t as Mark,
    yaml_node_type_t as NodeType, yaml_scalar_style_t as ScalarStyle, yaml_sequence_style_t as SequenceStyle,
    yaml_token_t as Token, yaml_token_type_t as TokenType,
};
#[doc(inline)]
pub use crate::token_steps::TokenTypes;
