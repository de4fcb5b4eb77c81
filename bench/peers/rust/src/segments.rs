//! The kept bytes of a release: pieces that do not overlap, in the order of their places, in a tree or in a sorted vector.

use std::collections::{btree_map, BTreeMap};
use std::sync::atomic::{AtomicBool, Ordering};

/// Whether new releases keep their pieces in a sorted vector.
pub static IN_LIST: AtomicBool = AtomicBool::new(false);

pub enum Segments {
    Tree(BTreeMap<u64, Vec<u8>>),
    List(Vec<(u64, Vec<u8>)>),
}

#[derive(Clone)]
pub enum Parts<'a> {
    Tree(btree_map::Range<'a, u64, Vec<u8>>),
    List(std::slice::Iter<'a, (u64, Vec<u8>)>),
}

impl<'a> Iterator for Parts<'a> {
    type Item = (u64, &'a [u8]);

    fn next(&mut self) -> Option<Self::Item> {
        match self {
            Parts::Tree(range) => range.next().map(|(&first, bytes)| (first, bytes.as_slice())),
            Parts::List(iter) => iter.next().map(|(first, bytes)| (*first, bytes.as_slice())),
        }
    }
}

impl Segments {
    pub fn new() -> Segments {
        if IN_LIST.load(Ordering::Relaxed) {
            Segments::List(Vec::new())
        } else {
            Segments::Tree(BTreeMap::new())
        }
    }

    pub fn insert(&mut self, first: u64, bytes: Vec<u8>) {
        match self {
            Segments::Tree(tree) => {
                tree.insert(first, bytes);
            }
            Segments::List(list) => {
                let at = list.partition_point(|part| part.0 < first);
                list.insert(at, (first, bytes));
            }
        }
    }

    pub fn is_empty(&self) -> bool {
        match self {
            Segments::Tree(tree) => tree.is_empty(),
            Segments::List(list) => list.is_empty(),
        }
    }

    pub fn all(&self) -> Parts<'_> {
        match self {
            Segments::Tree(tree) => Parts::Tree(tree.range(..)),
            Segments::List(list) => Parts::List(list.iter()),
        }
    }

    /// Returns the parts from the last one that begins at or before `first` to the last one that begins before `end`.
    pub fn around(&self, first: u64, end: u64) -> Parts<'_> {
        match self {
            Segments::Tree(tree) => {
                let from = tree.range(..=first).next_back().map_or(first, |(&place, _)| place);
                Parts::Tree(tree.range(from..end))
            }
            Segments::List(list) => {
                let from = list.partition_point(|part| part.0 <= first).saturating_sub(1);
                let to = list.partition_point(|part| part.0 < end);
                Parts::List(list[from.min(to)..to].iter())
            }
        }
    }
}
