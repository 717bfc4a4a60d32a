//! What the composer's steps do to the documents of events, and the count of nodes, deed by deed, as lines.

use crate::parser::Texts;
use pokhvizi::document_sizes::{deed_of, sizes_t};
use pokhvizi::document_steps::{anchor_t, carrier};
use pokhvizi::libyaml_composer::{composer_t, event_kind, open_t, place_t};
use pokhvizi::token_steps::text_t;
use std::fmt::Write;

/// How many entries each list of a document may have.
const MAX_ENTRIES: u32 = 50;

/// The count over deeds. Its numbers have no room at first, and take one entry more where they are full.
pub struct Count {
    sizes: sizes_t,
    numbers: Vec<u64>,
    is_over: bool,
    pub lines: String,
}

impl Count {
    fn take(&mut self, deed: u32, kind: u8, place: &place_t) {
        if !self.is_over {
            let mut said = self.count(deed, kind, place);
            if said == 16 {
                self.numbers.push(0);
                said = self.count(deed, kind, place);
            }
            self.is_over = said != 0;
        }
    }

    fn count(&mut self, deed: u32, kind: u8, place: &place_t) -> u32 {
        let deed = deed_of(deed);
        let said = self.sizes.count(&mut self.numbers, deed, event_kind(kind), place).number();
        writeln!(self.lines, "{} {said} {}", deed.number(), self.sizes.total).unwrap();
        said
    }
}

/// The composer over events. Its stack has no room at first, and takes one entry more where it is full.
pub struct Documents {
    composer: composer_t,
    stack: Vec<open_t>,
    anchors: Vec<anchor_t>,
    texts: Texts,
    is_over: bool,
    pub lines: String,
    pub count: Count,
}

impl Documents {
    /// A composer before a stream. A document may have `max` nodes with its aliases written out.
    pub fn new(max: u64) -> Documents {
        Documents {
            composer: composer_t::new(MAX_ENTRIES),
            stack: Vec::new(),
            anchors: Vec::new(),
            texts: Texts::default(),
            is_over: false,
            lines: String::new(),
            count: Count {
                sizes: sizes_t::new(max),
                numbers: Vec::new(),
                is_over: false,
                lines: String::new(),
            },
        }
    }

    /// Takes an event with its anchor, and writes the lines of what is done; after a refusal it takes none.
    pub fn take(&mut self, kind: u8, anchor: Option<&[u8]>) {
        if !self.is_over && self.compose(kind, anchor) == 8 {
            self.stack.push(open_t { node: 0, key: 0, children: 0, is_mapping: 0 });
            self.compose(kind, anchor);
        }
    }

    fn compose(&mut self, kind: u8, anchor: Option<&[u8]>) -> u32 {
        let fact = anchor.map_or(0, |anchor| carrier(&self.anchors, &self.texts.0, anchor));
        let mut place = place_t { node: 0, child: 0, parent: 0, key: 0 };
        let deed = self.composer.compose(&mut self.stack, event_kind(kind), fact, &mut place).number();
        writeln!(self.lines, "{deed} {} {} {} {}", place.node, place.child, place.parent, place.key).unwrap();
        if let (Some(anchor), true) = (anchor, place.node != 0) {
            let text_t { place: at, length } = self.texts.put(anchor);
            self.anchors.push(anchor_t { place: at, length, node: place.node });
        }
        if deed == 1 {
            self.anchors.clear();
            self.texts.0.clear();
        }
        self.is_over = deed >= 9;
        if deed < 8 {
            self.count.take(deed, kind, &place);
        }
        deed
    }
}
