//! Counts: the table of a tree, taken from its edges, and the gap between a table and a tree.
//!
//! A table is n × n cells of 32 bits, row by row. Cell (i,j) of a tree's table is the number of unordered pairs p,q of
//! other leaves with i,j paired against p,q. A poll's table counts sixths: a tree has it when it is six times its own.

use crate::refuse::{judge, judge_input, judge_leaf_count, judge_room, judge_table_count, Answer, Refusal};
use crate::tree::{all_leaves, judge_children, least, members, single, size, within, LeafSet, Tree};
use std::cmp::Reverse;

/// Up to this many leaves a table is counted by going through all quartets.
const QUARTETS_UP_TO: usize = 16;

/// P(k) = k(k−1)/2, and P(0) = P(1) = 0.
pub fn pairs_of(k: usize) -> u64 {
    let k = k as u64;
    k * k.saturating_sub(1) / 2
}

/// The caller's word for a table of counts, and one for a poll's; any other number says the same as this one.
pub const COUNTS: u32 = 0;
pub const POLL: u32 = 1;

/// How many times a tree's cell counts in a table, by the caller's word.
pub fn times(poll: u32) -> u32 {
    match poll {
        COUNTS => 1,
        _ => 6,
    }
}

/// A table with every cell so many times as large.
pub fn scaled(table: &[u32], times: u32) -> Vec<u32> {
    table.iter().map(|cell| cell.wrapping_mul(times)).collect()
}

/// The table of a tree.
pub fn of_tree(tree: &Tree) -> Vec<u32> {
    match tree.leaves {
        ..=QUARTETS_UP_TO => by_quartets(tree),
        _ => by_far_sides(tree),
    }
}

/// One cell, straight from its definition: every pair p,q of other leaves is tried against every edge.
pub fn cell_by_pairs(tree: &Tree, i: usize, j: usize) -> u32 {
    let others: Vec<usize> = (0..tree.leaves).filter(|&leaf| leaf != i && leaf != j).collect();
    let paired = |&p: &usize| others.iter().filter(|&&q| p < q && tree.pairs(i, j, p, q)).count() as u32;
    others.iter().map(paired).sum()
}

/// The table by going through all quartets: each adds 1 to the two cells of its pairs and to their mirror cells.
pub fn by_quartets(tree: &Tree) -> Vec<u32> {
    let n = tree.leaves;
    let mut cells = vec![0; n * n];
    for four in quartets(n) {
        add_quartet(&mut cells, n, four, tree.pairing(four), 1);
    }
    cells
}

/// The table by the far sides of every two leaves, for counts where there are too many quartets.
///
/// A far side of i,j is a side of an edge that holds neither. By the definition i,j are paired against p,q exactly
/// when some far side holds both p and q. So the leaves that p is paired with are those of the far sides with p in
/// them, itself left out, and each unordered pair is met twice. A side of one leaf holds no two. Two far sides are
/// nested or apart, so one that lies in a larger one, met before, adds nothing.
pub fn by_far_sides(tree: &Tree) -> Vec<u32> {
    let n = tree.leaves;
    let mut cells = vec![0; n * n];
    for i in 0..n {
        let far_from_i = |side: LeafSet| if side & single(i) == 0 { side } else { all_leaves(n) & !side };
        let mut sides: Vec<LeafSet> = tree.edges().map(far_from_i).filter(|&side| size(side) > 1).collect();
        sides.sort_by_key(|&side| Reverse(size(side)));
        for j in i + 1..n {
            let mut together: [LeafSet; 128] = [0; 128];
            for &side in sides.iter().filter(|&&side| side & single(j) == 0) {
                if !within(side, together[least(side)]) {
                    members(side).for_each(|p| together[p] |= side);
                }
            }
            let met: usize = (0..n).map(|p| size(together[p] & !single(p))).sum();
            put(&mut cells, n, (i, j), met as u32 / 2);
        }
    }
    cells
}

/// The cells above the diagonal, row by row.
pub fn above_diagonal(n: usize) -> impl Iterator<Item = (usize, usize)> {
    (0..n).flat_map(move |i| (i + 1..n).map(move |j| (i, j)))
}

/// Writes a cell and its mirror cell.
pub fn put(cells: &mut [u32], n: usize, (i, j): (usize, usize), value: u32) {
    cells[i * n + j] = value;
    cells[j * n + i] = value;
}

/// Adds so much to the two cells of a pairing's pairs and to their mirror cells.
pub fn add_quartet(cells: &mut [u32], n: usize, [a, b, c, d]: [usize; 4], pairing: u8, much: u32) {
    let pairs = match pairing {
        0 => [(a, b), (c, d)],
        1 => [(a, c), (b, d)],
        _ => [(a, d), (b, c)],
    };
    for (i, j) in pairs {
        cells[i * n + j] += much;
        cells[j * n + i] += much;
    }
}

/// Every quartet a < b < c < d, in lexicographic order.
pub fn quartets(n: usize) -> impl Iterator<Item = [usize; 4]> {
    let pairs = move |from: usize| (from..n).flat_map(move |first| (first + 1..n).map(move |second| (first, second)));
    pairs(0).flat_map(move |(a, b)| pairs(b + 1).map(move |(c, d)| [a, b, c, d]))
}

/// Refusals 4 and 5: the whole diagonal first, then the halves in row order.
pub fn judge_cells(n: usize, table: &[u32]) -> Answer<()> {
    for leaf in 0..n {
        judge(table[leaf * n + leaf] == 0, Refusal::Diagonal { leaf })?;
    }
    for i in 0..n {
        for j in i + 1..n {
            judge(table[i * n + j] == table[j * n + i], Refusal::Halves { i, j })?;
        }
    }
    Ok(())
}

/// The table of a listing's tree: 1, 2, 3, 7, 8.
pub fn table(n: usize, listing: &[u16], room: usize) -> Answer<Vec<u32>> {
    judge_leaf_count(n)?;
    judge_input(listing.len(), 2 * (n - 2))?;
    judge_room(room, n * n)?;
    judge_children(n, listing)?;
    Ok(of_tree(&Tree::from_listing(n, listing)))
}

/// The gap at every cell, the table's cell less the tree's, which counts six times for a poll's table: 1, 2, 3, 7, 8, 4,
/// 5.
pub fn gap(n: usize, poll: u32, table: &[u32], listing: &[u16], room: usize) -> Answer<Vec<i64>> {
    judge_table_count(n, poll)?;
    judge_input(table.len(), n * n)?;
    judge_input(listing.len(), 2 * (n - 2))?;
    judge_room(room, n * n)?;
    judge_children(n, listing)?;
    judge_cells(n, table)?;
    let own = scaled(&of_tree(&Tree::from_listing(n, listing)), times(poll));
    Ok(table.iter().zip(own).map(|(&cell, own)| i64::from(cell) - i64::from(own)).collect())
}
