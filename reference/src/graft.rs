//! Strains come and go: a leaf is grafted on an edge, or one is pruned, and the table is kept beside the tree.
//!
//! A graft puts leaf n on an edge, which is named by the node below it in the standard listing, 1 to 2n−3. A prune
//! removes a leaf, leaf 0 too, and higher leaves move down by one. Both work on the sides of the edges alone; the
//! listing is drawn and the table counted from the changed tree.

use crate::origin::{Origin, TreeRecord};
use crate::refuse::{judge, judge_input, judge_leaf_count, judge_room, Answer, Refusal};
use crate::table::{judge_cells, of_tree};
use crate::tree::{all_leaves, judge_children, single, LeafSet, Tree};

/// A tree and the table kept beside it, as they are lent; the edge or leaf that is named; and the room of the outputs.
#[derive(Clone, Debug)]
pub struct Kept {
    pub n: usize,
    pub listing: Vec<u16>,
    pub table: Vec<u32>,
    pub named: usize,
    pub room: usize,
    pub table_room: usize,
}

/// The changed tree and its table.
#[derive(Clone, Debug)]
pub struct Changed {
    pub record: TreeRecord,
    pub table: Vec<u32>,
}

impl Changed {
    fn of(tree: &Tree) -> Changed {
        let record = TreeRecord { leaves: tree.leaves, listing: tree.standard_listing(), origin: Origin::Grafted };
        Changed { record, table: of_tree(tree) }
    }
}

impl Kept {
    /// Lent with as much room as a result of so many leaves needs.
    pub fn with_room(listing: Vec<u16>, table: Vec<u32>, named: usize, result: usize) -> Kept {
        let n = listing.len() / 2 + 2;
        Kept { n, listing, table, named, room: 2 * (result - 2), table_room: result * result }
    }

    /// The tree, by 1, 2, 3, 7, 8, 4, 5. The result has so many leaves.
    fn judged(&self, result: usize) -> Answer<Tree> {
        let n = self.n;
        judge_leaf_count(n)?;
        judge_leaf_count(result)?;
        judge_input(self.listing.len(), 2 * (n - 2))?;
        judge_input(self.table.len(), n * n)?;
        judge_room(self.room, 2 * (result - 2))?;
        judge_room(self.table_room, result * result)?;
        judge_children(n, &self.listing)?;
        judge_cells(n, &self.table)?;
        Ok(Tree::from_listing(n, &self.listing))
    }

    /// Refusal 20 for a table that is not the tree's own, in whatever cell.
    fn judge_own_table(&self, tree: &Tree) -> Answer<()> {
        judge(self.table == of_tree(tree), Refusal::NotOfTree)
    }
}

/// The side below the edge of a number, if there is one: a leaf alone, or the leaves under an inner node.
pub fn edge_below(tree: &Tree, number: usize) -> Option<LeafSet> {
    let n = tree.leaves;
    match number {
        0 => None,
        leaf if leaf < n => Some(single(leaf)),
        node => tree.nodes().get(node - n).map(|node| node.under),
    }
}

/// A set without a leaf; higher leaves have moved down by one.
fn closed_up(set: LeafSet, leaf: usize) -> LeafSet {
    let lower = single(leaf) - 1;
    set & lower | set >> 1 & !lower
}

/// The tree without a leaf. An edge whose one side is empty then is gone, and two that have become one are one.
pub fn without_leaf(tree: &Tree, leaf: usize) -> Tree {
    let left = tree.leaves - 1;
    let sides = tree.edges().map(|side| closed_up(side, leaf));
    Tree::from_sides(left, sides.filter(|&side| side != 0 && side != all_leaves(left)))
}

/// The tree with a leaf moved behind the last; higher leaves have moved down by one.
pub fn with_leaf_last(tree: &Tree, leaf: usize) -> Tree {
    let last = single(tree.leaves - 1);
    let moved = |side: LeafSet| closed_up(side, leaf) | if side & single(leaf) != 0 { last } else { 0 };
    Tree::from_sides(tree.leaves, tree.edges().map(moved))
}

/// Leaf n is put on the edge named: 1, 2, 3, 7, 8, 4, 5, 20.
pub fn graft(kept: &Kept) -> Answer<Changed> {
    let tree = kept.judged(kept.n.saturating_add(1))?;
    let edge = edge_below(&tree, kept.named).ok_or(Refusal::NotOfTree)?;
    kept.judge_own_table(&tree)?;
    Ok(Changed::of(&tree.with_leaf_on(edge)))
}

/// The leaf named is removed: 1, 2, 3, 7, 8, 4, 5, 20.
pub fn prune(kept: &Kept) -> Answer<Changed> {
    let tree = kept.judged(kept.n.saturating_sub(1))?;
    judge(kept.named < kept.n, Refusal::NotOfTree)?;
    kept.judge_own_table(&tree)?;
    Ok(Changed::of(&without_leaf(&tree, kept.named)))
}
