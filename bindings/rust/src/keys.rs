//! Keys that have to differ within their mapping.

use crate::composer::{Child, Deed, Place};
use crate::door::mark;
use crate::events::Held;
use crate::steps::Shape;
use crate::tokens::Token;
use original::*;
use std::collections::hash_map::{Entry, HashMap};
use std::slice;

/// What tells a key apart. An alias is the node that it names.
#[derive(Clone, PartialEq, Eq, Hash)]
enum Key {
    /// A scalar that is a string to each loader.
    String(Vec<u8>),
    /// A plain scalar without a tag that may be something else.
    Open(Vec<u8>),
    /// A scalar with another tag, and its text.
    Tagged(Vec<u8>, Vec<u8>),
    Collection(i32),
}

impl Key {
    /// The key that a scalar is, of the token that ends with it.
    unsafe fn of_scalar(shape: &Shape, token: Option<&Token>, held: &Held) -> Key {
        let text = match token {
            Some(token) if token.type_ == YAML_SCALAR_TOKEN => {
                let scalar = &token.data.scalar;
                slice::from_raw_parts(scalar.value, scalar.length as usize).to_vec()
            }
            _ => Vec::new(),
        };
        let tag = held.tag().filter(|_| shape.has_tag == 1 && shape.implicit != 1);
        match tag {
            Some(tag) if tag != b"tag:yaml.org,2002:str" => Key::Tagged(tag.to_vec(), text),
            None if shape.implicit == 1 && !is_string(&text) => Key::Open(text),
            _ => Key::String(text),
        }
    }
}

/// Whether a plain scalar without a tag is a string to each loader: none takes it for null, a boolean, a number, a date, a merge key or
/// one of Ruby's symbols. Of some texts loaders make different things, such as `yes` and `0o7`; these are none that are strings to each.
fn is_string(text: &[u8]) -> bool {
    const WORDS: [&[u8]; 10] = [
        b"~", b"null", b"true", b"false", b"yes", b"no", b"on", b"off", b"y", b"n",
    ];
    const OF_NUMBERS: &[u8] = b"0123456789abcdefABCDEFxobBOXTtZz_:,.+- \t";
    let is_word = |words: &[&[u8]], text: &[u8]| words.iter().any(|word| word.eq_ignore_ascii_case(text));
    let unsigned = match text {
        [] | [b':', ..] | b"<<" | b"=" => return false,
        [b'-' | b'+', rest @ ..] => rest,
        _ => text,
    };
    if is_word(&WORDS, text) || is_word(&[b".inf", b".nan"], unsigned) {
        return false;
    }
    let begins = matches!(text[0], b'-' | b'+' | b'.' | b'0'..=b'9');
    !(begins && text.iter().all(|c| OF_NUMBERS.contains(c)) && text.iter().any(u8::is_ascii_digit))
}

/// The keys of a document's open mappings, and what its nodes with anchors are as keys, with the marks of the nodes.
#[derive(Default)]
pub struct Keys {
    open: HashMap<i32, HashMap<Key, yaml_mark_t>>,
    named: HashMap<i32, (Key, yaml_mark_t)>,
}

impl Keys {
    /// Looks at an event's node or alias that is put, or at a collection that ends; returns the mark of the key that its mapping has.
    #[cold]
    pub unsafe fn look(
        &mut self,
        deed: Deed,
        place: &Place,
        shape: &Shape,
        token: Option<&Token>,
        held: &Held,
    ) -> Option<yaml_mark_t> {
        let child = match deed {
            Deed::Puts(child) => child,
            Deed::Closes => {
                self.open.remove(&place.parent);
                return None;
            }
            _ => return None,
        };
        let is_key = child == Child::UniqueKey;
        let (key, at) = match shape.kind {
            _ if !is_key && shape.has_anchor != 1 => return None,
            5 => self.named.get(&place.child)?.clone(),
            6 => (Key::of_scalar(shape, token, held), mark(shape.start_mark)),
            _ => (Key::Collection(place.child), mark(shape.start_mark)),
        };
        if shape.has_anchor == 1 {
            self.named.insert(place.node, (key.clone(), at));
        }
        if !is_key {
            return None;
        }
        match self.open.entry(place.parent).or_default().entry(key) {
            Entry::Occupied(first) => Some(*first.get()),
            Entry::Vacant(free) => {
                free.insert(at);
                None
            }
        }
    }
}
