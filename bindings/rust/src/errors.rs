//! What an error tells beside its words, which the original doesn't have.
//!
//! ```
//! use std::mem::MaybeUninit;
//! use unsafe_libyaml::*;
//!
//! let (mut parser, mut event) = (MaybeUninit::uninit(), MaybeUninit::uninit());
//! unsafe {
//!     let parser = parser.as_mut_ptr();
//!     assert!(yaml_parser_initialize(parser).ok);
//!     yaml_parser_set_input_string(parser, b"[a }".as_ptr(), 4);
//!     while yaml_parser_parse(parser, event.as_mut_ptr()).ok {
//!         yaml_event_delete(event.as_mut_ptr());
//!     }
//!     assert_eq!(errors::expected(parser).to_string(), "',' or ']'");
//!     assert_eq!(errors::name(parser), None);
//!     yaml_parser_delete(parser);
//! }
//! ```

use crate::memory::Text;
use crate::parser::Parser;
use original::*;
use std::ffi::CStr;
use std::fmt;

/// The types of token that could have stood in the place of another.
#[derive(Clone, Copy, Debug, Default, PartialEq, Eq)]
pub struct Expected(u32);

/// The types of token in the order in which they are told, and the words of each.
const WORDS: [(yaml_token_type_t, &str); 21] = [
    (YAML_STREAM_START_TOKEN, "the start of the stream"),
    (YAML_SCALAR_TOKEN, "a scalar"),
    (YAML_ALIAS_TOKEN, "an alias"),
    (YAML_ANCHOR_TOKEN, "an anchor"),
    (YAML_TAG_TOKEN, "a tag"),
    (YAML_FLOW_SEQUENCE_START_TOKEN, "'['"),
    (YAML_FLOW_MAPPING_START_TOKEN, "'{'"),
    (YAML_BLOCK_SEQUENCE_START_TOKEN, "a block sequence"),
    (YAML_BLOCK_MAPPING_START_TOKEN, "a block mapping"),
    (YAML_BLOCK_ENTRY_TOKEN, "'-'"),
    (YAML_KEY_TOKEN, "a key"),
    (YAML_VALUE_TOKEN, "a value"),
    (YAML_FLOW_ENTRY_TOKEN, "','"),
    (YAML_FLOW_SEQUENCE_END_TOKEN, "']'"),
    (YAML_FLOW_MAPPING_END_TOKEN, "'}'"),
    (YAML_BLOCK_END_TOKEN, "the end of the block sequence"),
    (YAML_VERSION_DIRECTIVE_TOKEN, "%YAML"),
    (YAML_TAG_DIRECTIVE_TOKEN, "%TAG"),
    (YAML_DOCUMENT_START_TOKEN, "'---'"),
    (YAML_DOCUMENT_END_TOKEN, "'...'"),
    (YAML_STREAM_END_TOKEN, "the end of the stream"),
];

/// The types with which a node begins: in a flow collection, and else, too.
const FLOW_NODE: Expected = Expected::of(&[
    YAML_ALIAS_TOKEN,
    YAML_ANCHOR_TOKEN,
    YAML_TAG_TOKEN,
    YAML_SCALAR_TOKEN,
    YAML_FLOW_SEQUENCE_START_TOKEN,
    YAML_FLOW_MAPPING_START_TOKEN,
]);
const BLOCK_NODE: Expected = Expected::of(&[YAML_BLOCK_SEQUENCE_START_TOKEN, YAML_BLOCK_MAPPING_START_TOKEN]);

impl Expected {
    /// Returns the set with a bit for each type, that of its number.
    pub(crate) fn of_bits(bits: u32) -> Expected {
        Expected(bits)
    }

    const fn of(types: &[yaml_token_type_t]) -> Expected {
        let (mut bits, mut place) = (0, 0);
        while place < types.len() {
            bits |= 1 << types[place] as u32;
            place += 1;
        }
        Expected(bits)
    }

    const fn without(self, others: Expected) -> Expected {
        Expected(self.0 & !others.0)
    }

    const fn has_all(self, others: Expected) -> bool {
        others.without(self).is_empty()
    }

    /// Returns whether nothing was expected.
    pub const fn is_empty(self) -> bool {
        self.0 == 0
    }

    /// Returns whether a token of this type could have stood there.
    pub const fn contains(self, kind: yaml_token_type_t) -> bool {
        self.0 >> kind as u32 & 1 == 1
    }

    /// Returns what could have stood there, in words such as `a node` or `','`.
    pub fn words(self) -> Vec<&'static str> {
        let (node, left) = match (self.has_all(FLOW_NODE), self.has_all(BLOCK_NODE)) {
            (true, true) => (Some("a node"), self.without(FLOW_NODE).without(BLOCK_NODE)),
            (true, false) => (Some("a flow node"), self.without(FLOW_NODE)),
            (false, _) => (None, self),
        };
        let others = WORDS.iter().filter(|(kind, _)| left.contains(*kind));
        let told = others.map(|&(kind, words)| match kind {
            YAML_BLOCK_END_TOKEN if self.contains(YAML_KEY_TOKEN) => "the end of the block mapping",
            _ => words,
        });
        node.into_iter().chain(told).collect()
    }
}

impl fmt::Display for Expected {
    /// Writes the words, such as `a node, a key or the end of the block mapping`.
    fn fmt(&self, f: &mut fmt::Formatter<'_>) -> fmt::Result {
        let words = self.words();
        for (place, word) in words.iter().enumerate() {
            let before = match place {
                0 => "",
                _ if place + 1 == words.len() => " or ",
                _ => ", ",
            };
            write!(f, "{before}{word}")?;
        }
        Ok(())
    }
}

/// Returns what could have stood in the place of a token that a parser refused for its kind. Of another error, or of none, it is
/// empty.
pub unsafe fn expected(parser: *const yaml_parser_t) -> Expected {
    kept(parser).map_or(Expected::default(), |beside| beside.expected)
}

/// Returns the anchor, the alias or the tag handle that a parser's error is about; of another error, or without one, `None`. It lasts
/// until the parser is deleted.
pub unsafe fn name<'a>(parser: *const yaml_parser_t) -> Option<&'a CStr> {
    kept(parser)?.name.as_ref().map(|name| name.c_str())
}

/// What a parser keeps beside an error.
#[derive(Default)]
pub(crate) struct Beside {
    pub expected: Expected,
    pub name: Option<Text>,
}

unsafe fn kept<'a>(parser: *const yaml_parser_t) -> Option<&'a Beside> {
    let run = (*parser.cast::<Parser>()).run.as_ref()?;
    Some(&run.beside)
}
