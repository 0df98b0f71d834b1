//! A stand-in for the crate louds-rs, as far as the map half of trie-rs 0.4.2 uses it.
//! It is written from the scope document's rule alone and is slow on purpose: every question counts bits from the first one on.
//!
//! Nodes are numbered from 1 (the root) in breadth-first order; node m is the m-th one of the bits.
//! The children of node k are the ones between the k-th and the (k+1)-th zero;
//! the parent of node m has as its number the count of zeros before the m-th one.

use std::cell::RefCell;
use std::ops::Range;

thread_local! {
    static LAST_BITS: RefCell<Vec<bool>> = const { RefCell::new(Vec::new()) };
}

/// The bits that were handed over last: the image is read from here, since a trie keeps its bits to itself.
pub fn last_bits() -> Vec<bool> {
    LAST_BITS.with(|bits| bits.borrow().clone())
}

/// The number of a node.
#[derive(Debug, Clone, Copy, PartialEq, Eq, PartialOrd, Ord, Hash)]
pub struct LoudsNodeNum(pub u64);

/// The index of a one among the bits.
#[derive(Debug, Clone, Copy, PartialEq, Eq, PartialOrd, Ord, Hash)]
pub struct LoudsIndex(pub u64);

/// The bits of a tree.
#[derive(Debug, Clone)]
pub struct Louds {
    bits: Vec<bool>,
}

impl From<&[bool]> for Louds {
    fn from(bits: &[bool]) -> Self {
        LAST_BITS.with(|last| *last.borrow_mut() = bits.to_vec());
        Louds { bits: bits.to_vec() }
    }
}

impl Louds {
    // the index of the k-th bit that is `which`, counted from 1
    fn kth(&self, which: bool, k: u64) -> usize {
        let mut seen = 0;
        for (index, bit) in self.bits.iter().enumerate() {
            if *bit == which {
                seen += 1;
                if seen == k {
                    return index;
                }
            }
        }
        panic!("there is no such bit");
    }

    // how many of the first `end` bits are `which`
    fn count(&self, which: bool, end: usize) -> u64 {
        self.bits[..end].iter().filter(|bit| **bit == which).count() as u64
    }

    fn children(&self, node: LoudsNodeNum) -> Range<usize> {
        self.kth(false, node.0) + 1..self.kth(false, node.0 + 1)
    }

    /// The children of a node, in rising order.
    pub fn parent_to_children_nodes(&self, node: LoudsNodeNum) -> ChildNodeIter {
        let range = self.children(node);
        let before = self.count(true, range.start);
        ChildNodeIter { nodes: before + 1..before + 1 + range.len() as u64 }
    }

    /// The indices of a node's children, in rising order.
    pub fn parent_to_children_indices(&self, node: LoudsNodeNum) -> ChildIndexIter {
        let range = self.children(node);
        ChildIndexIter { indices: range.start as u64..range.end as u64 }
    }

    /// A node, its parent, and so on up to a child of the root; nothing from the root.
    pub fn child_to_ancestors(&self, node: LoudsNodeNum) -> AncestorNodeIter<'_> {
        AncestorNodeIter { louds: self, node }
    }

    fn parent(&self, node: LoudsNodeNum) -> LoudsNodeNum {
        LoudsNodeNum(self.count(false, self.kth(true, node.0)))
    }
}

/// The children of a node.
#[derive(Debug, Clone)]
pub struct ChildNodeIter {
    nodes: Range<u64>,
}

impl Iterator for ChildNodeIter {
    type Item = LoudsNodeNum;
    fn next(&mut self) -> Option<LoudsNodeNum> {
        self.nodes.next().map(LoudsNodeNum)
    }
}

impl DoubleEndedIterator for ChildNodeIter {
    fn next_back(&mut self) -> Option<LoudsNodeNum> {
        self.nodes.next_back().map(LoudsNodeNum)
    }
}

/// The indices of a node's children.
#[derive(Debug, Clone)]
pub struct ChildIndexIter {
    indices: Range<u64>,
}

impl Iterator for ChildIndexIter {
    type Item = LoudsIndex;
    fn next(&mut self) -> Option<LoudsIndex> {
        self.indices.next().map(LoudsIndex)
    }
}

/// The way from a node to the root.
#[derive(Debug, Clone)]
pub struct AncestorNodeIter<'a> {
    louds: &'a Louds,
    node: LoudsNodeNum,
}

impl Iterator for AncestorNodeIter<'_> {
    type Item = LoudsNodeNum;
    fn next(&mut self) -> Option<LoudsNodeNum> {
        if self.node.0 <= 1 {
            return None;
        }
        let here = self.node;
        self.node = self.louds.parent(here);
        Some(here)
    }
}
