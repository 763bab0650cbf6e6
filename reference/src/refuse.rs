//! Causes of refusal: the number of each and the figure returned with it.
//!
//! Sizes go first: 13, 1, 2, 14, 3. Then listings, child by child, 7 before 8; then 4 for the whole diagonal, then 5;
//! records one by one, 10 before 11; names one by one, 15 before 16, and names end before the offset last; then 9;
//! then 12, 6 or 20. Of texts 17, then 18, then 19 come last; only export judges 3 after all else, and only looks judge
//! a second table, by 4 and 5 after 20. Every operation below judges in this order, by `?` on one judgement after the
//! other.

use crate::table::COUNTS;

/// Why a call is refused. Positions, records, steps and leaves count from 0.
#[derive(Clone, Copy, Debug, PartialEq, Eq)]
pub enum Refusal {
    /// 1: leaf count, or that of the result, outside 3..128 (polls and their tables 4..32).
    LeafCount,
    /// 2: lent input not exactly as long as the count needs.
    InputLength,
    /// 3: output buffer shorter than the result.
    OutputShort,
    /// 4: diagonal cell not 0, with the first such leaf.
    Diagonal { leaf: usize },
    /// 5: cells (i,j) and (j,i) unequal, with the first i,j in row order, i < j.
    Halves { i: usize, j: usize },
    /// 6: no binary tree has the table (own choice of merges).
    NoTree,
    /// 7: child neither a leaf 1..n−1 nor an earlier row's node, with its position in the listing.
    Child { position: usize },
    /// 8: child named before, with its position in the listing.
    ChildAgain { position: usize },
    /// 9: question names a leaf ≥ n, or one leaf twice, with the first position where it does.
    Question { position: usize },
    /// 10: record's leaves are not those due there.
    RecordLeaves { record: usize },
    /// 11: pairing code above 6.
    RecordCode { record: usize },
    /// 12: proposal names a leaf ≥ n, one subtree twice, or an ineligible pair.
    Proposal { step: usize },
    /// 13: sheet under 8 or over 21,512 bytes, or not ending 51 54.
    Sheet,
    /// 14: offset + n(n−1) + 8 is not the sheet's length.
    Offset,
    /// 15: name with a bad length or byte, or past the offset (its leaf); names end before the offset (n).
    Name { number: usize },
    /// 16: name equal to an earlier one, with the later leaf.
    NameAgain { leaf: usize },
    /// 17: text breaks the grammar or nests too deep, with the first such byte's offset, or the text's length when it
    /// stops early.
    Grammar { offset: usize },
    /// 18: node not binary apart from a three-way top.
    NotBinary,
    /// 19: name of the text unknown, repeated or missing.
    Unmatched,
    /// 20: edge or leaf named that the tree has not, or a table that is not its own.
    NotOfTree,
}

/// A result, or the cause of refusal.
pub type Answer<T> = Result<T, Refusal>;

impl Refusal {
    pub fn number(self) -> u64 {
        match self {
            Refusal::LeafCount => 1,
            Refusal::InputLength => 2,
            Refusal::OutputShort => 3,
            Refusal::Diagonal { .. } => 4,
            Refusal::Halves { .. } => 5,
            Refusal::NoTree => 6,
            Refusal::Child { .. } => 7,
            Refusal::ChildAgain { .. } => 8,
            Refusal::Question { .. } => 9,
            Refusal::RecordLeaves { .. } => 10,
            Refusal::RecordCode { .. } => 11,
            Refusal::Proposal { .. } => 12,
            Refusal::Sheet => 13,
            Refusal::Offset => 14,
            Refusal::Name { .. } => 15,
            Refusal::NameAgain { .. } => 16,
            Refusal::Grammar { .. } => 17,
            Refusal::NotBinary => 18,
            Refusal::Unmatched => 19,
            Refusal::NotOfTree => 20,
        }
    }

    /// What is returned with the number: 0 for nothing, 256·i + j for the two leaves of 5.
    pub fn figure(self) -> u64 {
        let figure = match self {
            Refusal::LeafCount | Refusal::InputLength | Refusal::OutputShort => 0,
            Refusal::NoTree | Refusal::Sheet | Refusal::Offset => 0,
            Refusal::NotBinary | Refusal::Unmatched | Refusal::NotOfTree => 0,
            Refusal::Diagonal { leaf } | Refusal::NameAgain { leaf } => leaf,
            Refusal::Halves { i, j } => 256 * i + j,
            Refusal::Child { position } | Refusal::ChildAgain { position } | Refusal::Question { position } => position,
            Refusal::RecordLeaves { record } | Refusal::RecordCode { record } => record,
            Refusal::Proposal { step } => step,
            Refusal::Name { number } => number,
            Refusal::Grammar { offset } => offset,
        };
        figure as u64
    }
}

/// The reply of a C entry: bits 0..7 the number, 0 for accepted; bits 8 and up the figure that comes with it, for an
/// accepted call its result where that is a number.
pub fn reply(answer: Answer<u64>) -> u64 {
    match answer {
        Ok(result) => result << 8,
        Err(refusal) => refusal.number() | refusal.figure() << 8,
    }
}

/// A judgement: refused unless the rule holds.
pub fn judge(holds: bool, refusal: Refusal) -> Answer<()> {
    holds.then_some(()).ok_or(refusal)
}

/// Refusal 1 for trees, listings and tables of counts.
pub fn judge_leaf_count(n: usize) -> Answer<()> {
    judge((3..=128).contains(&n), Refusal::LeafCount)
}

/// Refusal 1 for polls and their tables.
pub fn judge_poll_count(n: usize) -> Answer<()> {
    judge((4..=32).contains(&n), Refusal::LeafCount)
}

/// Refusal 1 for a lent table, by the caller's word for it.
pub fn judge_table_count(n: usize, poll: u32) -> Answer<()> {
    match poll {
        COUNTS => judge_leaf_count(n),
        _ => judge_poll_count(n),
    }
}

/// Refusal 2.
pub fn judge_input(length: usize, needed: usize) -> Answer<()> {
    judge(length == needed, Refusal::InputLength)
}

/// Refusal 3.
pub fn judge_room(room: usize, result: usize) -> Answer<()> {
    judge(room >= result, Refusal::OutputShort)
}
