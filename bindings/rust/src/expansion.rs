//! The count of `pokhvizi/compose.h`: how large a document is with its aliases written out.

use crate::composer::{Place, Refusal};
use crate::door::{self, sizes_t};
use crate::fault::Fault;

// What a call returns.
const COUNTED: u32 = 0;
const FULL_SIZES: u32 = 16;

/// The count of a document, with an entry for each of its nodes.
pub struct Expansion {
    record: sizes_t,
    sizes: Vec<u64>,
}

impl Expansion {
    const ROOM: usize = 32;

    /// Begins a document of at most so many nodes.
    pub fn new(max: u64) -> Expansion {
        Expansion {
            record: door::size_new(max),
            sizes: Vec::new(),
        }
    }

    /// Counts a deed of the composer's; returns it, or the number of what stops.
    ///
    /// # Errors
    ///
    /// No memory.
    pub fn count(&mut self, deed: u32, kind: u8, place: &Place) -> Result<u32, Refusal> {
        loop {
            match door::count(&mut self.record, &mut self.sizes, deed, kind, place) {
                COUNTED => return Ok(deed),
                FULL_SIZES => self.grow()?,
                stops => return Ok(stops),
            }
        }
    }

    #[cold]
    fn grow(&mut self) -> Result<(), Refusal> {
        let more = self.sizes.len().max(Expansion::ROOM);
        self.sizes
            .try_reserve_exact(more)
            .map_err(|_| Refusal::Fault(Fault::memory()))?;
        self.sizes.resize(self.sizes.len() + more, 0);
        Ok(())
    }
}
