//! Leaf sets lent as bytes: two are joined, intersected, or tested for equality.
//!
//! It is done in the plainest way, without words: the leaves of a set are taken down by number, one bit after the
//! other, and what is left to do are operations on sets of numbers. Every bit counts, also where a tree has no leaf of
//! that number.

use crate::refuse::{judge_input, judge_room, Answer};
use std::collections::BTreeSet;

/// The most leaves that a tree has.
const MOST_LEAVES: usize = 128;

/// How many bytes a leaf set has: a bit a leaf, in whole words of 64 bits.
pub const SET_BYTES: usize = 8 * MOST_LEAVES.div_ceil(64);

/// How many leaves a leaf set can have: all its bits.
pub const SET_LEAVES: usize = 8 * SET_BYTES;

/// The leaves of a lent set: leaf k is bit k mod 8 of byte k div 8, bit 0 the lowest.
fn leaves_of(set: &[u8]) -> BTreeSet<usize> {
    (0..SET_LEAVES).filter(|leaf| set[leaf / 8] >> (leaf % 8) & 1 == 1).collect()
}

/// The set of these leaves, as it is lent.
pub fn set_of(leaves: impl IntoIterator<Item = usize>) -> Vec<u8> {
    let mut set = vec![0; SET_BYTES];
    leaves.into_iter().for_each(|leaf| set[leaf / 8] |= 1 << (leaf % 8));
    set
}

/// Refusal 2 for one set, then for the other.
fn judge_sets(a: &[u8], b: &[u8]) -> Answer<()> {
    judge_input(a.len(), SET_BYTES)?;
    judge_input(b.len(), SET_BYTES)
}

/// The leaves that are in either set: 2, 3.
pub fn join(a: &[u8], b: &[u8], room: usize) -> Answer<Vec<u8>> {
    judge_sets(a, b)?;
    judge_room(room, SET_BYTES)?;
    Ok(set_of(leaves_of(a).union(&leaves_of(b)).copied()))
}

/// The leaves that are in both sets: 2, 3.
pub fn intersect(a: &[u8], b: &[u8], room: usize) -> Answer<Vec<u8>> {
    judge_sets(a, b)?;
    judge_room(room, SET_BYTES)?;
    Ok(set_of(leaves_of(a).intersection(&leaves_of(b)).copied()))
}

/// Have both sets the same leaves? 2.
pub fn equal(a: &[u8], b: &[u8]) -> Answer<bool> {
    judge_sets(a, b)?;
    Ok(leaves_of(a) == leaves_of(b))
}
