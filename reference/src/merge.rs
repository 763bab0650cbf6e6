//! Merges: lists of eligible merges taken in any order, the rebuild by our own choice and the guided rebuild.
//!
//! Merging starts with n subtrees of one leaf; each leaf i has m(i) = 0. Two different subtrees A and B of a and b
//! leaves are eligible when for every i in A and j in B, cell (i,j) = P(n−a−b) + m(i) + m(j), or six times that for a
//! poll's table. Merging adds P(b) to m of A's leaves and P(a) to m of B's.

use crate::chance::Chance;
use crate::origin::{Origin, TreeRecord};
use crate::refuse::{judge, judge_input, judge_room, judge_table_count, Answer, Refusal};
use crate::table::{judge_cells, pairs_of, times};
use crate::tree::{members, single, size, LeafSet, Tree};

/// The subtrees and the m that the steps so far have left.
#[derive(Clone)]
pub struct Merging<'a> {
    n: usize,
    table: &'a [u32],
    /// How many times an expected value counts: 1, or 6 for a poll's table.
    times: u64,
    m: Vec<u64>,
    /// The subtrees that are left, in no order.
    pub subtrees: Vec<LeafSet>,
    /// The subtrees made, in the order of the merges.
    pub made: Vec<LeafSet>,
}

impl<'a> Merging<'a> {
    /// Single leaves on a table, which is of counts or a poll's, by the caller's word.
    pub fn start(n: usize, poll: u32, table: &'a [u32]) -> Merging<'a> {
        let times = u64::from(times(poll));
        Merging { n, table, times, m: vec![0; n], subtrees: (0..n).map(single).collect(), made: Vec::new() }
    }

    fn cell(&self, i: usize, j: usize) -> u64 {
        u64::from(self.table[i * self.n + j])
    }

    /// The expected value of cell (i,j), which depends on the pairs of leaves outside the two subtrees.
    fn expected(&self, outside: u64, i: usize, j: usize) -> u64 {
        self.times * (outside + self.m[i] + self.m[j])
    }

    /// How many pairs there are of leaves outside two subtrees.
    fn outside(&self, first: LeafSet, second: LeafSet) -> u64 {
        pairs_of(self.n - size(first) - size(second))
    }

    /// Every pair of leaves, one from each subtree, is tested.
    pub fn eligible(&self, first: LeafSet, second: LeafSet) -> bool {
        let outside = self.outside(first, second);
        let fits = |i: usize, j: usize| self.cell(i, j) == self.expected(outside, i, j);
        members(first).all(|i| members(second).all(|j| fits(i, j)))
    }

    /// The sizes of the gaps of two subtrees' cells from their expected values.
    pub fn gap_sizes(&self, [first, second]: [LeafSet; 2]) -> impl Iterator<Item = u64> + '_ {
        let outside = self.outside(first, second);
        let size = move |i: usize, j: usize| self.cell(i, j).abs_diff(self.expected(outside, i, j));
        members(first).flat_map(move |i| members(second).map(move |j| size(i, j)))
    }

    /// Every pair of different subtrees that are left.
    pub fn pairs(&self) -> impl Iterator<Item = [LeafSet; 2]> + '_ {
        let later = |place: usize| self.subtrees[place + 1..].iter();
        let with = move |(place, &first)| later(place).map(move |&second| [first, second]);
        self.subtrees.iter().enumerate().flat_map(with)
    }

    /// Every pair of subtrees that is eligible now.
    pub fn eligible_pairs(&self) -> Vec<[LeafSet; 2]> {
        self.pairs().filter(|&[first, second]| self.eligible(first, second)).collect()
    }

    pub fn merge(&mut self, [first, second]: [LeafSet; 2]) {
        members(first).for_each(|i| self.m[i] += pairs_of(size(second)));
        members(second).for_each(|j| self.m[j] += pairs_of(size(first)));
        self.subtrees.retain(|&subtree| subtree != first && subtree != second);
        self.subtrees.push(first | second);
        self.made.push(first | second);
    }

    /// The subtree that holds a leaf.
    pub fn holding(&self, leaf: usize) -> LeafSet {
        *self.subtrees.iter().find(|&&subtree| subtree & single(leaf) != 0).expect("each leaf is in a subtree")
    }

    /// The tree, once one subtree holds all leaves: each leaf, and each subtree made by a merge other than the last,
    /// is one side of an edge.
    pub fn tree(&self) -> Option<Tree> {
        if self.subtrees.len() > 1 {
            return None;
        }
        let joined = &self.made[..self.n - 2];
        Some(Tree::from_sides(self.n, (0..self.n).map(single).chain(joined.iter().copied())))
    }
}

/// A finished list of merges in an order left to chance, and the tree if one is left.
pub fn finished_list(n: usize, poll: u32, table: &[u32], chance: &mut Chance) -> (Vec<[LeafSet; 2]>, Option<Tree>) {
    let mut merging = Merging::start(n, poll, table);
    let mut list = Vec::new();
    loop {
        let eligible = merging.eligible_pairs();
        if eligible.is_empty() {
            return (list, merging.tree());
        }
        let pair = chance.of(&eligible);
        merging.merge(pair);
        list.push(pair);
    }
}

/// The tree rebuilt from a table by merges of our own choice: 1, 2, 3, 4, 5, 6.
pub fn rebuild(n: usize, poll: u32, table: &[u32], room: usize, chance: &mut Chance) -> Answer<TreeRecord> {
    judge_table_count(n, poll)?;
    judge_input(table.len(), n * n)?;
    judge_room(room, 2 * (n - 2))?;
    judge_cells(n, table)?;
    let (_, tree) = finished_list(n, poll, table, chance);
    let listing = tree.ok_or(Refusal::NoTree)?.standard_listing();
    Ok(TreeRecord { leaves: n, listing, origin: Origin::Rebuilt })
}

/// The tree rebuilt by a lent list of n−1 proposed pairs of leaf numbers: 1, 2, 3, 4, 5, 12.
pub fn rebuild_guided(n: usize, poll: u32, table: &[u32], merges: &[u16], room: usize) -> Answer<TreeRecord> {
    judge_table_count(n, poll)?;
    judge_input(table.len(), n * n)?;
    judge_input(merges.len(), 2 * (n - 1))?;
    judge_room(room, 2 * (n - 2))?;
    judge_cells(n, table)?;
    let mut merging = Merging::start(n, poll, table);
    for (step, proposal) in merges.chunks(2).enumerate() {
        let [first, second] = [usize::from(proposal[0]), usize::from(proposal[1])];
        judge(first < n && second < n, Refusal::Proposal { step })?;
        let pair = [merging.holding(first), merging.holding(second)];
        judge(pair[0] != pair[1] && merging.eligible(pair[0], pair[1]), Refusal::Proposal { step })?;
        merging.merge(pair);
    }
    let listing = merging.tree().expect("n−1 merges leave one tree").standard_listing();
    Ok(TreeRecord { leaves: n, listing, origin: Origin::Rebuilt })
}
