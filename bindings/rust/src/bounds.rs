//! Bounds on what is parsed and loaded, which the original doesn't have. They hold in all threads for each parser that begins
//! after they were set, and until then there is none.
//!
//! ```
//! unsafe_libyaml::bounds::set_max_depth(1000);
//! ```

use std::sync::atomic::{AtomicBool, AtomicU32, AtomicU64, AtomicUsize, Ordering::Relaxed};

static DEPTH: AtomicUsize = AtomicUsize::new(usize::MAX);
static NODES: AtomicU32 = AtomicU32::new(i32::MAX as u32);
static EXPANDED: AtomicU64 = AtomicU64::new(u64::MAX);
static UNIQUE_KEYS: AtomicBool = AtomicBool::new(false);

/// Sets how many collections may be open at once. The token that opens one more is the parser's fault `found too many levels`.
///
/// A sequence that isn't indented in its mapping, and a pair in a flow sequence, count with what they stand in.
pub fn set_max_depth(depth: usize) {
    DEPTH.store(depth, Relaxed);
}

/// Sets how many nodes a document may have, and how many items or pairs each node. One more is the fault `found too many nodes`: the
/// composer's of a load, the parser's of a parse. The most is 2147483647.
pub fn set_max_nodes(nodes: u32) {
    NODES.store(nodes.min(i32::MAX as u32), Relaxed);
}

/// Sets how many nodes a document may have with its aliases written out: each alias stands for a copy of the node that it names.
/// The node or alias with which there are more is the fault `found too many nodes, with aliases written out`, and an alias within the
/// node that it names the fault `found an alias within the node that it names`: the composer's of a load, the parser's of a parse. From
/// 9223372036854775807 on there is no such bound.
///
/// A parse has no other fault of a composer: an anchor names the last node that has it, and an alias of none counts for its list alone.
pub fn set_max_expanded(nodes: u64) {
    EXPANDED.store(nodes, Relaxed);
}

/// Sets whether a key that its mapping has is refused: the same node, or a scalar of the same tag and text, where an alias is the node
/// that it names. It is the fault `found duplicate key`, with the mark of the `first occurrence`: the composer's of a load, the parser's
/// of a parse.
///
/// A scalar without a tag is a string if it is quoted, or if it is plain and no loader takes it for anything else: `a` and `"a"` are the
/// same key. Other plain scalars (numbers, dates, words such as `yes` and `null`, `<<`) are the same among themselves alone: `1` and `"1"`
/// differ.
pub fn set_unique_keys(are_unique: bool) {
    UNIQUE_KEYS.store(are_unique, Relaxed);
}

pub(crate) fn max_depth() -> usize {
    DEPTH.load(Relaxed)
}

pub(crate) fn max_nodes() -> u32 {
    NODES.load(Relaxed)
}

pub(crate) fn unique_keys() -> bool {
    UNIQUE_KEYS.load(Relaxed)
}

pub(crate) fn max_expanded() -> Option<u64> {
    Some(EXPANDED.load(Relaxed)).filter(|&nodes| nodes < i64::MAX as u64)
}
