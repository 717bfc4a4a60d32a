//! The composer of `pokhvizi/compose.h`: an event in, and what is to be done to the document out.

use crate::bounds;
use crate::door::{self, composer_t, open_t, place_t};
use crate::events::Held;
use crate::expansion::Expansion;
use crate::fault::Fault;
use crate::keys::Keys;
use crate::memory::Text;
use crate::steps::Shape;
use crate::tokens::Token;
use original::yaml_mark_t;
use std::collections::HashMap;

pub type Place = place_t;

/// A place of nothing.
pub const NO_PLACE: Place = place_t {
    node: 0,
    child: 0,
    parent: 0,
    key: 0,
};

const NO_COLLECTION: open_t = open_t {
    node: 0,
    key: 0,
    children: 0,
    is_mapping: 0,
};

// What a call returns.
const PASSES: u32 = 0;
const BEGINS: u32 = 1;
const ENDS: u32 = 2;
const ROOT: u32 = 3;
const ITEM: u32 = 4;
const KEY: u32 = 5;
const VALUE: u32 = 6;
const CLOSES: u32 = 7;
const FULL_STACK: u32 = 8;
pub const UNDEFINED_ALIAS: u32 = 9;
const REPEATED_ANCHOR: u32 = 10;
const ENDLESS: u32 = 14;

/// What is to be done to the document.
#[derive(Clone, Copy, PartialEq)]
pub enum Deed {
    /// Nothing.
    Passes,
    /// It begins.
    Begins,
    /// It is whole.
    Ends,
    /// A node or an alias has its place, if it is in a collection.
    Puts(Child),
    /// A collection ends.
    Closes,
}

impl Deed {
    #[cold]
    fn of_few(deed: u32, fact: i32) -> Result<Deed, Refusal> {
        match deed {
            PASSES => Ok(Deed::Passes),
            BEGINS => Ok(Deed::Begins),
            ENDS => Ok(Deed::Ends),
            deed => Err(Refusal::Deed(deed, (deed == REPEATED_ANCHOR).then_some(fact))),
        }
    }
}

/// What a node or an alias is to its parent.
#[derive(Clone, Copy, PartialEq)]
pub enum Child {
    Root,
    Item,
    Key,
    /// A key that has to differ from the others of its mapping.
    UniqueKey,
    Value,
}

/// Why an event can't be composed.
pub enum Refusal {
    /// The call's number, and the node that carries the anchor, where one does.
    Deed(u32, Option<i32>),
    /// The mark of the key that is there already.
    Key(yaml_mark_t),
    /// No memory.
    Fault(Fault),
}

impl Refusal {
    /// Takes the alias of the token in hand, or the anchor that is held, if it is refused for that.
    #[cold]
    pub unsafe fn name_of(&self, token: Option<&mut Token>, held: &mut Held) -> Option<Text> {
        match self {
            Refusal::Deed(UNDEFINED_ALIAS | ENDLESS, _) => token?.take_text(),
            Refusal::Deed(REPEATED_ANCHOR, _) => held.take_name(),
            _ => None,
        }
    }
}

/// What is looked at in a document if there are bounds on it.
struct Checks {
    expansion: Option<Expansion>,
    keys: Option<Keys>,
}

impl Checks {
    /// Counts a deed of the composer's; returns it, or the number of what stops.
    #[cold]
    fn count(&mut self, deed: u32, kind: u8, place: &Place) -> Result<u32, Refusal> {
        match &mut self.expansion {
            Some(expansion) => expansion.count(deed, kind, place),
            None => Ok(deed),
        }
    }
}

/// The open collections of a document, and its anchors.
pub struct Composer {
    record: composer_t,
    stack: Vec<open_t>,
    anchors: HashMap<Text, i32>,
    checks: Option<Checks>,
    /// The bounds as the parser began.
    max_nodes: u32,
    max_expanded: Option<u64>,
    has_unique_keys: bool,
}

/// A node that an alias may be said to name where none has its anchor: it is then an entry of its list, and no more.
const NOBODY: i32 = i32::MAX;

impl Composer {
    const ROOM: usize = 16;

    pub fn new() -> Composer {
        Composer {
            record: door::composer_new(0),
            stack: Vec::new(),
            anchors: HashMap::new(),
            checks: None,
            max_nodes: bounds::max_nodes(),
            max_expanded: bounds::max_expanded(),
            has_unique_keys: bounds::unique_keys(),
        }
    }

    /// Begins a document.
    pub fn begin(&mut self) {
        self.record = door::composer_new(self.max_nodes);
        self.checks = (self.max_expanded.is_some() || self.has_unique_keys).then(|| Checks {
            expansion: self.max_expanded.map(Expansion::new),
            keys: self.has_unique_keys.then(Keys::default),
        });
    }

    /// Forgets the anchors of a document. Its map isn't kept, since another document would take time for all of it.
    pub fn forget_anchors(&mut self) {
        if !self.anchors.is_empty() {
            self.anchors = HashMap::with_hasher(self.anchors.hasher().clone());
        }
    }

    /// Returns the node that carries an anchor, or 0.
    #[cold]
    pub fn node_of(&self, anchor: &[u8]) -> i32 {
        self.anchors.get(anchor).copied().unwrap_or(0)
    }

    /// Takes an event by its kind and the node that carries its anchor, and writes where its node or alias goes.
    #[inline]
    pub fn compose(&mut self, kind: u8, fact: i32, place: &mut Place) -> Result<Deed, Refusal> {
        loop {
            let mut deed = door::compose(&mut self.record, &mut self.stack, kind, fact, place);
            if let Some(checks) = &mut self.checks {
                deed = checks.count(deed, kind, place)?;
                if deed == KEY && checks.keys.is_some() {
                    return Ok(Deed::Puts(Child::UniqueKey));
                }
            }
            return match deed {
                ROOT => Ok(Deed::Puts(Child::Root)),
                ITEM => Ok(Deed::Puts(Child::Item)),
                KEY => Ok(Deed::Puts(Child::Key)),
                VALUE => Ok(Deed::Puts(Child::Value)),
                CLOSES => Ok(Deed::Closes),
                FULL_STACK => {
                    self.grow()?;
                    continue;
                }
                other => Deed::of_few(other, fact),
            };
        }
    }

    /// Whether there is a bound on nodes, or keys have to differ.
    #[inline]
    pub fn is_bounded(&self) -> bool {
        self.max_nodes < i32::MAX as u32 || self.max_expanded.is_some() || self.has_unique_keys
    }

    /// Counts an event by its shape and the anchor of its node or alias, that is no part of a load, and looks at its keys. Other refusals of
    /// a load are the caller's: an anchor names the last node that has it, and an alias without one no node.
    #[cold]
    pub unsafe fn count(
        &mut self,
        shape: &Shape,
        anchor: Option<&[u8]>,
        token: Option<&Token>,
        held: &Held,
    ) -> Result<(), Refusal> {
        let (mut place, kind) = (NO_PLACE, shape.kind);
        if kind == 3 {
            self.forget_anchors();
            self.begin();
        }
        match (kind, anchor.map_or(0, |anchor| self.node_of(anchor))) {
            (5, 0) => {
                let checks = self.checks.take();
                let deed = self.compose(kind, NOBODY, &mut place);
                self.checks = checks;
                deed?;
            }
            (5, node) => {
                let deed = self.compose(kind, node, &mut place)?;
                self.look_at_keys(deed, &place, shape, token, held)?;
            }
            _ => {
                let deed = self.compose(kind, 0, &mut place)?;
                self.look_at_keys(deed, &place, shape, token, held)?;
                if let Some(anchor) = anchor.filter(|_| place.node != 0) {
                    self.carry(Text::copy(anchor), place.node);
                }
            }
        }
        Ok(())
    }

    /// Looks at the keys of what was composed, if they have to differ.
    ///
    /// # Errors
    ///
    /// Its mapping has the key.
    #[inline]
    pub unsafe fn look_at_keys(
        &mut self,
        deed: Deed,
        place: &Place,
        shape: &Shape,
        token: Option<&Token>,
        held: &Held,
    ) -> Result<(), Refusal> {
        let Some(keys) = self.checks.as_mut().and_then(|checks| checks.keys.as_mut()) else {
            return Ok(());
        };
        match keys.look(deed, place, shape, token, held) {
            Some(first) => Err(Refusal::Key(first)),
            None => Ok(()),
        }
    }

    /// Makes a node the carrier of its anchor.
    #[cold]
    pub fn carry(&mut self, anchor: Text, node: i32) {
        self.anchors.insert(anchor, node);
    }

    #[cold]
    fn grow(&mut self) -> Result<(), Refusal> {
        let more = self.stack.len().max(Composer::ROOM);
        self.stack
            .try_reserve_exact(more)
            .map_err(|_| Refusal::Fault(Fault::memory()))?;
        self.stack.resize(self.stack.len() + more, NO_COLLECTION);
        Ok(())
    }
}
