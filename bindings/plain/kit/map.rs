//! A map whose new entry gives an error if there is no memory, as Rust's own maps can't.

use super::{AllocError, Global, Vec};
use core::borrow::Borrow;
use core::cmp::Ordering;

/// A map in the order of its keys: a balanced tree (Arne Andersson's) whose nodes are in one list.
#[derive(Debug)]
pub struct BTreeMap<K, V> {
    nodes: Vec<Node<K, V>>,
    root: Option<usize>,
}

/// The longest way in a tree whose nodes a `usize` counts.
const DEEPEST: usize = 2 * usize::BITS as usize;

/// An entry. A left child has a smaller level, a right one that or the same, and a right child's right child a
/// smaller one: so a tree of `n` entries is at most `2 log2(n + 1)` deep.
#[derive(Debug)]
struct Node<K, V> {
    key: K,
    value: V,
    level: u8,
    left: Option<usize>,
    right: Option<usize>,
}

impl<K: Ord, V> BTreeMap<K, V> {
    /// Returns an empty map. Takes no memory.
    pub const fn new(alloc: Global) -> Self {
        let nodes = Vec::new(alloc);
        BTreeMap { nodes, root: None }
    }

    /// Puts a value at a key, and returns the one that was there.
    ///
    /// # Errors
    ///
    /// There is no memory; the map is then as it was.
    pub fn insert(&mut self, key: K, value: V) -> Result<Option<V>, AllocError> {
        let (mut way, mut depth, mut next) = ([0; DEEPEST], 0, self.root);
        let mut is_left = false;
        while let Some(place) = next {
            let node = &self.nodes[place];
            way[depth] = place;
            depth += 1;
            (is_left, next) = match key.cmp(&node.key) {
                Ordering::Less => (true, node.left),
                Ordering::Greater => (false, node.right),
                Ordering::Equal => {
                    return Ok(Some(core::mem::replace(&mut self.nodes[place].value, value)));
                }
            };
        }
        let new = self.nodes.len();
        self.nodes.push(Node {
            key,
            value,
            level: 1,
            left: None,
            right: None,
        })?;
        match way[..depth].last() {
            None => self.root = Some(new),
            Some(&parent) if is_left => self.nodes[parent].left = Some(new),
            Some(&parent) => self.nodes[parent].right = Some(new),
        }
        self.balance(&way[..depth]);
        Ok(None)
    }

    /// Balances the tree along the way to a new node. A turn looks at a child's child, so after two places that
    /// stay as they are no place above them changes.
    fn balance(&mut self, way: &[usize]) {
        let mut same = 0;
        for above in (0..way.len()).rev() {
            let (old, level) = (way[above], self.nodes[way[above]].level);
            let top = self.skewed(old);
            let top = self.split(top);
            if top == old && self.nodes[top].level == level {
                same += 1;
                if same == 2 {
                    return;
                }
                continue;
            }
            same = 0;
            match above.checked_sub(1).map(|parent| way[parent]) {
                None => self.root = Some(top),
                Some(parent) if self.nodes[parent].left == Some(old) => self.nodes[parent].left = Some(top),
                Some(parent) => self.nodes[parent].right = Some(top),
            }
        }
    }

    /// Returns the value at a key.
    pub fn get<Q: Ord + ?Sized>(&self, key: &Q) -> Option<&V>
    where
        K: Borrow<Q>,
    {
        self.place_of(key).map(|place| &self.nodes[place].value)
    }

    /// Returns whether the map has no entry.
    pub fn is_empty(&self) -> bool {
        self.root.is_none()
    }

    fn place_of<Q: Ord + ?Sized>(&self, key: &Q) -> Option<usize>
    where
        K: Borrow<Q>,
    {
        let mut next = self.root;
        while let Some(place) = next {
            let node = &self.nodes[place];
            next = match key.cmp(node.key.borrow()) {
                Ordering::Less => node.left,
                Ordering::Equal => return Some(place),
                Ordering::Greater => node.right,
            };
        }
        None
    }

    /// Turns a left child of the same level into a right one.
    fn skewed(&mut self, top: usize) -> usize {
        match self.nodes[top].left {
            Some(left) if self.nodes[left].level == self.nodes[top].level => {
                self.nodes[top].left = self.nodes[left].right;
                self.nodes[left].right = Some(top);
                left
            }
            _ => top,
        }
    }

    /// Lifts the middle one of three nodes of the same level.
    fn split(&mut self, top: usize) -> usize {
        let Some(right) = self.nodes[top].right else {
            return top;
        };
        match self.nodes[right].right {
            Some(last) if self.nodes[last].level == self.nodes[top].level => {
                self.nodes[top].right = self.nodes[right].left;
                self.nodes[right].left = Some(top);
                self.nodes[right].level += 1;
                right
            }
            _ => top,
        }
    }
}

#[cfg(test)]
mod tests {
    use super::{BTreeMap, Global};
    use alloc::collections;

    fn depth<K, V>(map: &BTreeMap<K, V>, tree: Option<usize>) -> usize {
        tree.map_or(0, |top| {
            let node = &map.nodes[top];
            1 + depth(map, node.left).max(depth(map, node.right))
        })
    }

    /// Puts keys into this map and into Rust's, and wants the same of both, and a shallow tree.
    fn compare(keys: impl Iterator<Item = u32>) {
        let (mut map, mut other) = (BTreeMap::new(Global), collections::BTreeMap::new());
        assert!(map.is_empty());
        for (turn, key) in keys.enumerate() {
            assert_eq!(map.get(&key), other.get(&key));
            assert_eq!(map.insert(key, turn), Ok(other.insert(key, turn)));
            assert_eq!(map.get(&key), Some(&turn));
        }
        assert!(other.iter().all(|(key, value)| map.get(key) == Some(value)));
        assert_eq!(map.nodes.len(), other.len());
        let most = 2 * (map.nodes.len() + 1).ilog2() as usize;
        assert!(
            depth(&map, map.root) <= most,
            "{} of {most}",
            depth(&map, map.root)
        );
    }

    #[test]
    fn a_map_has_what_rusts_has() {
        compare(0..5000);
        compare((0..5000).rev());
        compare((0..5000).map(|n| if n % 2 == 0 { n } else { 10_000 - n }));
        let mut drawn = 1u32;
        compare((0..20_000).map(|_| {
            drawn = drawn.wrapping_mul(1_664_525).wrapping_add(1_013_904_223);
            drawn >> 18
        }));
    }
}
