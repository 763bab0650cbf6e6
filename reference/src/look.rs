//! Look before grafting: the total gap that the tree would have to a new strain's table with leaf n on an edge, and
//! that of every edge.
//!
//! Nothing is shared between two edges and nothing is worked from the table kept: for each edge the leaf is put on it,
//! the cells of that tree are counted afresh, and the sizes of the gaps above the diagonal are added up.

use crate::graft::{edge_below, Kept};
use crate::refuse::{judge, judge_input, judge_leaf_count, judge_room, judge_table_count, Answer, Refusal};
use crate::table::{above_diagonal, judge_cells, of_tree, times};
use crate::tree::{judge_children, LeafSet, Tree};

/// A tree and the table kept beside it, which is one of counts; the new strain's table, of one leaf more, and the
/// caller's word for it; the edge to look at, and the room for the totals where all are looked at.
#[derive(Clone, Debug, PartialEq, Eq)]
pub struct LookedAt {
    pub n: usize,
    pub poll: u32,
    pub listing: Vec<u16>,
    pub table: Vec<u32>,
    pub edge: usize,
    pub new_table: Vec<u32>,
    pub room: usize,
}

impl LookedAt {
    /// How many edges the tree has, and so totals.
    pub fn edges(&self) -> usize {
        2 * self.n - 3
    }

    /// The same looked at for another edge.
    pub fn on(&self, edge: usize) -> LookedAt {
        LookedAt { edge, ..self.clone() }
    }

    /// The copy that would be grafted, with room for whatever it makes.
    pub fn copy(&self) -> Kept {
        let LookedAt { n, listing, table, edge, .. } = self.clone();
        Kept { n, listing, table, named: edge, room: usize::MAX, table_room: usize::MAX }
    }

    /// Refusals 1 and 2.
    fn judge_sizes(&self) -> Answer<()> {
        let (n, grown) = (self.n, self.n.saturating_add(1));
        judge_leaf_count(n)?;
        judge_table_count(grown, self.poll)?;
        judge_input(self.listing.len(), 2 * (n - 2))?;
        judge_input(self.table.len(), n * n)?;
        judge_input(self.new_table.len(), grown * grown)
    }

    /// The tree, by 7, 8, and 4, 5 of the table kept.
    fn judged_tree(&self) -> Answer<Tree> {
        judge_children(self.n, &self.listing)?;
        judge_cells(self.n, &self.table)?;
        Ok(Tree::from_listing(self.n, &self.listing))
    }

    /// Refusal 20 for a table kept that is not the tree's own; last of all 4, 5 of the new table.
    fn judge_tables(&self, tree: &Tree) -> Answer<()> {
        judge(self.table == of_tree(tree), Refusal::NotOfTree)?;
        judge_cells(self.n + 1, &self.new_table)
    }

    /// The total gap of the tree with leaf n on an edge: the sum over i < j of the gap's size.
    fn total(&self, tree: &Tree, edge: LeafSet) -> u64 {
        let (grown, times) = (self.n + 1, times(self.poll));
        let own = of_tree(&tree.with_leaf_on(edge));
        let size = |place: usize| u64::from(self.new_table[place].abs_diff(times * own[place]));
        above_diagonal(grown).map(|(i, j)| size(i * grown + j)).sum()
    }
}

/// The total gap to the new table with leaf n on the edge named: 1, 2, 7, 8, 4, 5, 20, then 4, 5 of the new table.
pub fn look(at: &LookedAt) -> Answer<u64> {
    at.judge_sizes()?;
    let tree = at.judged_tree()?;
    let edge = edge_below(&tree, at.edge).ok_or(Refusal::NotOfTree)?;
    at.judge_tables(&tree)?;
    Ok(at.total(&tree, edge))
}

/// The total gap of every edge, 1 to 2n−3, in order: 1, 2, 3, 7, 8, 4, 5, 20, then 4, 5 of the new table.
pub fn look_all(at: &LookedAt) -> Answer<Vec<u64>> {
    at.judge_sizes()?;
    judge_room(at.room, at.edges())?;
    let tree = at.judged_tree()?;
    at.judge_tables(&tree)?;
    Ok((1..=at.edges()).filter_map(|edge| edge_below(&tree, edge)).map(|edge| at.total(&tree, edge)).collect())
}
