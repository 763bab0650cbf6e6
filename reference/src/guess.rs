//! The guess: a tree even from a rough table.
//!
//! Where rebuilding says 6, merging starts again from single leaves. Each step merges the two subtrees whose cells have
//! the smallest mean size of gap from the expected value, the means compared exactly as fractions. Ties go to the pair
//! with the smallest least leaf, then the smaller other least leaf. Every mean is worked anew at every step.

use crate::chance::Chance;
use crate::merge::{rebuild, Merging};
use crate::origin::{Origin, TreeRecord};
use crate::refuse::{Answer, Refusal};
use crate::table::{above_diagonal, gap};
use crate::tree::{least, LeafSet, Tree};
use std::cmp::Ordering;

/// A mean: a sum and the number of its terms.
struct Mean {
    sum: u128,
    terms: u128,
}

impl Mean {
    fn of(numbers: impl Iterator<Item = u64>) -> Mean {
        numbers.fold(Mean { sum: 0, terms: 0 }, |mean, number| Mean {
            sum: mean.sum + u128::from(number),
            terms: mean.terms + 1,
        })
    }

    /// The order of two means as fractions, by cross products.
    fn compare(&self, other: &Mean) -> Ordering {
        (self.sum * other.terms).cmp(&(other.sum * self.terms))
    }
}

/// What decides between pairs of equal means: the smaller of their least leaves, then the larger.
fn least_leaves(pair: [LeafSet; 2]) -> (usize, usize) {
    let [one, other] = pair.map(least);
    (one.min(other), one.max(other))
}

/// The two subtrees to merge next, while there are two.
fn nearest(merging: &Merging) -> Option<[LeafSet; 2]> {
    let means = merging.pairs().map(|pair| (Mean::of(merging.gap_sizes(pair)), pair));
    let order = |(mean, pair): &(Mean, [LeafSet; 2]), (other_mean, other): &(Mean, [LeafSet; 2])| {
        mean.compare(other_mean).then(least_leaves(*pair).cmp(&least_leaves(*other)))
    };
    means.min_by(order).map(|(_, pair)| pair)
}

/// The tree that n−1 such merges leave, and the sum of the sizes of the gaps met at them.
pub fn merged_by_means(n: usize, poll: u32, table: &[u32]) -> (Tree, u64) {
    let mut merging = Merging::start(n, poll, table);
    let mut met = 0;
    while let Some(pair) = nearest(&merging) {
        met += merging.gap_sizes(pair).sum::<u64>();
        merging.merge(pair);
    }
    (merging.tree().expect("n−1 merges leave one tree"), met)
}

/// The total gap between a table and a tree: the sum over i < j of the gap's size.
pub fn total_gap(n: usize, poll: u32, table: &[u32], listing: &[u16]) -> u64 {
    let gaps = gap(n, poll, table, listing, n * n).expect("nothing is wrong with the table and the tree");
    above_diagonal(n).map(|(i, j)| gaps[i * n + j].unsigned_abs()).sum()
}

/// A tree record, and the total gap between the table and its tree.
#[derive(Debug)]
pub struct Guess {
    pub record: TreeRecord,
    pub total: u64,
}

impl Guess {
    /// From C both are one figure.
    pub fn figure(&self) -> u64 {
        self.record.origin.number() + 256 * self.total
    }
}

/// The tree that has the table, marked rebuilt, or the guess where none has it, marked guessed: 1, 2, 3, 4, 5.
pub fn guess(n: usize, poll: u32, table: &[u32], room: usize, chance: &mut Chance) -> Answer<Guess> {
    match rebuild(n, poll, table, room, chance) {
        Err(Refusal::NoTree) => {
            let (tree, _) = merged_by_means(n, poll, table);
            let listing = tree.standard_listing();
            let total = total_gap(n, poll, table, &listing);
            Ok(Guess { record: TreeRecord { leaves: n, listing, origin: Origin::Guessed }, total })
        }
        rebuilt => rebuilt.map(|record| Guess { record, total: 0 }),
    }
}
