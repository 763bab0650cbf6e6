//! Tree records: a leaf count, a listing and an origin, which says where the tree came from.
//!
//! Both rebuilds mark rebuilt, a lent listing is listed, an import imported; a guess is guessed, where no tree has the
//! table and nowhere else; a graft and a prune make a tree grafted; restandardising a tree keeps its origin.

use crate::refuse::Answer;
use crate::tree;

/// Where a tree came from, in the paper's order.
#[derive(Clone, Copy, Debug, PartialEq, Eq)]
pub enum Origin {
    Rebuilt,
    Listed,
    Imported,
    Guessed,
    Grafted,
}

impl Origin {
    /// From C an origin is a number.
    pub fn number(self) -> u64 {
        match self {
            Origin::Rebuilt => 0,
            Origin::Listed => 1,
            Origin::Imported => 2,
            Origin::Guessed => 3,
            Origin::Grafted => 4,
        }
    }

    /// The origin that a number stands for. What names none is taken as listed: it must not claim to be rebuilt.
    pub fn from_number(number: u32) -> Origin {
        match number {
            0 => Origin::Rebuilt,
            2 => Origin::Imported,
            3 => Origin::Guessed,
            4 => Origin::Grafted,
            _ => Origin::Listed,
        }
    }
}

#[derive(Clone, Debug, PartialEq, Eq)]
pub struct TreeRecord {
    pub leaves: usize,
    pub listing: Vec<u16>,
    pub origin: Origin,
}

/// The record with the standard listing of its tree: 1, 2, 3, 7, 8.
pub fn restandardise(record: &TreeRecord, room: usize) -> Answer<TreeRecord> {
    let listing = tree::standardise(record.leaves, &record.listing, room)?;
    Ok(TreeRecord { listing, ..*record })
}
