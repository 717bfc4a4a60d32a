//! What tokens are made of.

use super::{
    Encoding, MappingStyle, ScalarStyle, SequenceStyle, SourceError, TokenData, TokenType, TokenTypes,
};
use crate::kit::{AllocError, Global, String};
use crate::libyaml_types::{
    unnamed_yaml_token_t_data_alias, unnamed_yaml_token_t_data_anchor, unnamed_yaml_token_t_data_scalar,
    unnamed_yaml_token_t_data_stream_start, unnamed_yaml_token_t_data_tag,
    unnamed_yaml_token_t_data_tag_directive, unnamed_yaml_token_t_data_version_directive,
};
use crate::token_steps::token_kind;
use core::fmt;

impl Encoding {
    /// UTF-8.
    pub const UTF8: Self = Self::YAML_UTF8_ENCODING;
    /// UTF-16, the low byte first.
    pub const UTF16LE: Self = Self::YAML_UTF16LE_ENCODING;
    /// UTF-16, the high byte first.
    pub const UTF16BE: Self = Self::YAML_UTF16BE_ENCODING;
}

impl ScalarStyle {
    /// Plain.
    pub const PLAIN: Self = Self::YAML_PLAIN_SCALAR_STYLE;
    /// In `'`.
    pub const SINGLE_QUOTED: Self = Self::YAML_SINGLE_QUOTED_SCALAR_STYLE;
    /// In `"`.
    pub const DOUBLE_QUOTED: Self = Self::YAML_DOUBLE_QUOTED_SCALAR_STYLE;
    /// A block after `|`.
    pub const LITERAL: Self = Self::YAML_LITERAL_SCALAR_STYLE;
    /// A block after `>`.
    pub const FOLDED: Self = Self::YAML_FOLDED_SCALAR_STYLE;
}

impl SequenceStyle {
    /// Items after `-`.
    pub const BLOCK: Self = Self::YAML_BLOCK_SEQUENCE_STYLE;
    /// In `[` and `]`.
    pub const FLOW: Self = Self::YAML_FLOW_SEQUENCE_STYLE;
}

impl MappingStyle {
    /// Keys by indentation.
    pub const BLOCK: Self = Self::YAML_BLOCK_MAPPING_STYLE;
    /// In `{` and `}`.
    pub const FLOW: Self = Self::YAML_FLOW_MAPPING_STYLE;
}

fn copy(text: &str) -> Result<String, AllocError> {
    String::from_str(Global, text)
}

/// Those that have texts or numbers. The others are written as they are, such as `TokenData::FlowSequenceStart`.
impl TokenData {
    /// Returns STREAM-START, in this encoding.
    pub fn stream_start(encoding: Encoding) -> Self {
        TokenData::StreamStart(unnamed_yaml_token_t_data_stream_start { encoding })
    }

    /// Returns VERSION-DIRECTIVE: `%YAML`, with its version.
    pub fn version_directive(major: i32, minor: i32) -> Self {
        TokenData::VersionDirective(unnamed_yaml_token_t_data_version_directive { major, minor })
    }

    /// Returns TAG-DIRECTIVE: `%TAG`, with a handle and its prefix.
    ///
    /// # Errors
    ///
    /// There is no memory; so of each call below.
    pub fn tag_directive(handle: &str, prefix: &str) -> Result<Self, SourceError> {
        let (handle, prefix) = (copy(handle)?, copy(prefix)?);
        Ok(TokenData::TagDirective(unnamed_yaml_token_t_data_tag_directive {
            handle,
            prefix,
        }))
    }

    /// Returns ALIAS, of the node with this anchor.
    pub fn alias(anchor: &str) -> Result<Self, SourceError> {
        Ok(TokenData::Alias(unnamed_yaml_token_t_data_alias {
            value: copy(anchor)?,
        }))
    }

    /// Returns ANCHOR, of the node that follows.
    pub fn anchor(name: &str) -> Result<Self, SourceError> {
        Ok(TokenData::Anchor(unnamed_yaml_token_t_data_anchor {
            value: copy(name)?,
        }))
    }

    /// Returns TAG, of the node that follows. The handle may be empty.
    pub fn tag(handle: &str, suffix: &str) -> Result<Self, SourceError> {
        let (handle, suffix) = (copy(handle)?, copy(suffix)?);
        Ok(TokenData::Tag(unnamed_yaml_token_t_data_tag { handle, suffix }))
    }

    /// Returns SCALAR, with its text.
    pub fn scalar(text: &str, style: ScalarStyle) -> Result<Self, SourceError> {
        Ok(TokenData::Scalar(unnamed_yaml_token_t_data_scalar {
            value: copy(text)?,
            style,
        }))
    }
}

/// The types of token in the order in which they are told, and the words of each.
const WORDS: [(TokenType, &str); 21] = [
    (TokenType::YAML_STREAM_START_TOKEN, "the start of the stream"),
    (TokenType::YAML_SCALAR_TOKEN, "a scalar"),
    (TokenType::YAML_ALIAS_TOKEN, "an alias"),
    (TokenType::YAML_ANCHOR_TOKEN, "an anchor"),
    (TokenType::YAML_TAG_TOKEN, "a tag"),
    (TokenType::YAML_FLOW_SEQUENCE_START_TOKEN, "'['"),
    (TokenType::YAML_FLOW_MAPPING_START_TOKEN, "'{'"),
    (TokenType::YAML_BLOCK_SEQUENCE_START_TOKEN, "a block sequence"),
    (TokenType::YAML_BLOCK_MAPPING_START_TOKEN, "a block mapping"),
    (TokenType::YAML_BLOCK_ENTRY_TOKEN, "'-'"),
    (TokenType::YAML_KEY_TOKEN, "a key"),
    (TokenType::YAML_VALUE_TOKEN, "a value"),
    (TokenType::YAML_FLOW_ENTRY_TOKEN, "','"),
    (TokenType::YAML_FLOW_SEQUENCE_END_TOKEN, "']'"),
    (TokenType::YAML_FLOW_MAPPING_END_TOKEN, "'}'"),
    (TokenType::YAML_BLOCK_END_TOKEN, "the end of the block sequence"),
    (TokenType::YAML_VERSION_DIRECTIVE_TOKEN, "%YAML"),
    (TokenType::YAML_TAG_DIRECTIVE_TOKEN, "%TAG"),
    (TokenType::YAML_DOCUMENT_START_TOKEN, "'---'"),
    (TokenType::YAML_DOCUMENT_END_TOKEN, "'...'"),
    (TokenType::YAML_STREAM_END_TOKEN, "the end of the stream"),
];

/// The types with which a node begins: in a flow collection, and else, too.
const FLOW_NODE: [TokenType; 6] = [
    TokenType::YAML_ALIAS_TOKEN,
    TokenType::YAML_ANCHOR_TOKEN,
    TokenType::YAML_TAG_TOKEN,
    TokenType::YAML_SCALAR_TOKEN,
    TokenType::YAML_FLOW_SEQUENCE_START_TOKEN,
    TokenType::YAML_FLOW_MAPPING_START_TOKEN,
];
const BLOCK_NODE: [TokenType; 2] = [
    TokenType::YAML_BLOCK_SEQUENCE_START_TOKEN,
    TokenType::YAML_BLOCK_MAPPING_START_TOKEN,
];

impl TokenTypes {
    /// Returns the types of the set, in the order of their numbers.
    pub fn iter(self) -> impl Iterator<Item = TokenType> {
        (0..=21).map(token_kind).filter(move |kind| self.contains(*kind))
    }

    /// Returns the words of what may come, such as `a node` or `','`.
    pub fn words(self) -> impl Iterator<Item = &'static str> + Clone {
        let has_all = |kinds: &[TokenType]| kinds.iter().all(|&kind| self.contains(kind));
        let is_flow_node = has_all(&FLOW_NODE);
        let is_node = is_flow_node && has_all(&BLOCK_NODE);
        let node = match (is_node, is_flow_node) {
            (true, _) => Some("a node"),
            (_, true) => Some("a flow node"),
            _ => None,
        };
        let is_told = move |kind: &TokenType| {
            is_flow_node && FLOW_NODE.contains(kind) || is_node && BLOCK_NODE.contains(kind)
        };
        let others = WORDS
            .iter()
            .filter(move |(kind, _)| self.contains(*kind) && !is_told(kind));
        let told = others.map(move |&(kind, words)| match kind {
            TokenType::YAML_BLOCK_END_TOKEN if self.contains(TokenType::YAML_KEY_TOKEN) => {
                "the end of the block mapping"
            }
            _ => words,
        });
        node.into_iter().chain(told)
    }
}

impl fmt::Display for TokenTypes {
    /// Writes the words, such as `a node, a key or the end of the block mapping`.
    fn fmt(&self, f: &mut fmt::Formatter<'_>) -> fmt::Result {
        let count = self.words().count();
        for (place, word) in self.words().enumerate() {
            let before = match place {
                0 => "",
                _ if place + 1 == count => " or ",
                _ => ", ",
            };
            write!(f, "{before}{word}")?;
        }
        Ok(())
    }
}
