//! What is asked of a document beside its nodes.

use super::{Document, Error, Mark, Node, Written};
use crate::kit::Global;
use crate::yaml_expansion::bounded_size;
use crate::yaml_keys::{duplicate_key, yaml_duplicate_key_t};
use crate::yaml_path;
use core::fmt;

impl Document {
    /// Returns the node at the end of a path from the root, if it leads to one.
    ///
    /// A word leads in a mapping to the value of the first key that is a scalar of exactly this text, and in a
    /// sequence to the item of that number, from 0.
    pub fn at(&self, path: &[&str]) -> Option<&Node> {
        let id = yaml_path::id_at(self, path)?;
        yaml_path::node_of(self, id)
    }

    /// Returns the text at the end of a path, if it leads to a scalar.
    pub fn text_at(&self, path: &[&str]) -> Option<&str> {
        yaml_path::text_at(self, path)
    }

    /// Returns how many nodes the document has with its aliases written out. Ask before you make a tree of it.
    ///
    /// # Errors
    ///
    /// A composer's: there are more than `max`, at the root; or a node contains itself, at that node. Or out of
    /// memory.
    pub fn expanded_size(&self, max: u64) -> Result<u64, Error> {
        Ok(bounded_size(Global, self, max)?)
    }

    /// Returns the first pair that repeats a key of its mapping, with the first pair of that key.
    ///
    /// Two keys are the same if they are one node, or scalars with the same text and tag and both plain or both
    /// not.
    ///
    /// # Errors
    ///
    /// Out of memory.
    pub fn duplicate_key(&self) -> Result<Option<DuplicateKey<'_>>, Error> {
        let found = duplicate_key(Global, self)?;
        Ok(found.and_then(|found| DuplicateKey::of(self, &found)))
    }
}

/// Two pairs of one mapping that have the same key.
///
/// As text it is an error's: `found duplicate key "a" at line 3, column 1; first at line 1, column 1`.
#[derive(Clone, Copy, PartialEq, Debug)]
pub struct DuplicateKey<'a> {
    mapping: &'a Node,
    pairs: [usize; 2],
    keys: [&'a Node; 2],
}

impl<'a> DuplicateKey<'a> {
    fn of(document: &'a Document, found: &yaml_duplicate_key_t) -> Option<Self> {
        let mapping = yaml_path::node_of(document, found.mapping)?;
        let key = |pair: usize| yaml_path::node_of(document, mapping.pairs().get(pair)?.key);
        Some(DuplicateKey {
            mapping,
            pairs: [found.first, found.second],
            keys: [key(found.first)?, key(found.second)?],
        })
    }

    /// Returns the mapping.
    pub fn mapping(&self) -> &'a Node {
        self.mapping
    }

    /// Returns the places of the two pairs in [`pairs`](Node::pairs) of the mapping, from 0.
    pub fn pairs(&self) -> [usize; 2] {
        self.pairs
    }

    /// Returns the two keys. They are one node if the second is an alias of the first.
    pub fn keys(&self) -> [&'a Node; 2] {
        self.keys
    }

    /// Returns the key's text, if it is a scalar.
    pub fn text(&self) -> Option<&'a str> {
        self.keys[1].text()
    }

    /// Returns where the second key begins: of an alias, the node that it names.
    pub fn mark(&self) -> Mark {
        self.keys[1].start_mark
    }
}

impl fmt::Display for DuplicateKey<'_> {
    fn fmt(&self, f: &mut fmt::Formatter<'_>) -> fmt::Result {
        f.write_str("found duplicate key ")?;
        if let Some(text) = self.text() {
            write!(f, "{text:?} ")?;
        }
        let [first, second] = self.keys.map(|key| key.start_mark);
        write!(f, "at {second}; first at {first}")
    }
}

impl Default for Written {
    /// Returns what is kept before the first event.
    fn default() -> Self {
        Written::new(Global)
    }
}

impl Node {
    /// Returns the text of a scalar, or `None` if the node is a collection.
    pub fn text(&self) -> Option<&str> {
        yaml_path::as_str(self)
    }
}
