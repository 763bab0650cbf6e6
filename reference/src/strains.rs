//! Strains that come and go: what a graft or a prune makes is handed on, from call to call.

use crate::cases::{Case, Outcome};
use crate::chance::Chance;
use crate::draw;
use crate::graft::{edge_below, with_leaf_last, Kept};
use crate::known::{wide, Due, Known, GRAFTED};
use crate::operations;
use crate::table::{of_tree, COUNTS};
use crate::tree::Tree;
use crate::{watch, Comparison};

/// How many grafts and prunes the walk has.
const STEPS: usize = 300;

/// The tree and the table that a graft or a prune has made, unless it was refused.
pub fn made_of(n: usize, made: &Outcome) -> Option<(Vec<u16>, Vec<u32>)> {
    if made.reply & 0xFF != 0 {
        return None;
    }
    let (listing, table) = made.written.split_at(2 * (n - 2));
    let narrow = |&child: &i64| child as u16;
    Some((listing.iter().map(narrow).collect(), table.iter().map(|&cell| cell as u32).collect()))
}

/// A tree and its table, lent in any listing for a result of so many leaves.
fn lent(tree: &Tree, table: &[u32], named: usize, result: usize, chance: &mut Chance) -> Kept {
    Kept::with_room(draw::any_listing(tree, chance), table.to_vec(), named, result)
}

/// What a graft or a prune that ends in a tree has to write.
fn written(tree: &Tree) -> Due {
    Due::Written(GRAFTED, [wide(&tree.standard_listing()), wide(&of_tree(tree))].concat())
}

/// The edge on which a leaf has to be grafted to make another tree.
fn edge_to(tree: &Tree, grafted: &Tree) -> usize {
    let makes = |&edge: &usize| edge_below(tree, edge).is_some_and(|side| tree.with_leaf_on(side) == *grafted);
    (1..=2 * tree.leaves - 3).find(makes).expect("some edge has the leaf")
}

impl Comparison {
    /// Hands on what a graft or a prune has made of a tree. The new leaf pruned again gives the old standard listing
    /// and the old table. A pruned leaf is taken by some edge again, as the last leaf.
    pub fn hand_on_change(
        &mut self,
        kept: &Kept,
        result: usize,
        made: Outcome,
        origin: &str,
        chance: &mut Chance,
    ) -> Result<(), String> {
        let Some((listing, table)) = made_of(result, &made) else { return Ok(()) };
        let (old, new) = (Tree::from_listing(kept.n, &kept.listing), Tree::from_listing(result, &listing));
        self.hand_on_kept(&new, &table, origin, chance)?;
        let known = if result > kept.n {
            self.pairs_alike(&new, kept.n, &old, origin, chance)?;
            let case = Case::Prune(lent(&new, &table, kept.n, kept.n, chance));
            Known { name: "the new leaf pruned", case, due: written(&old) }
        } else {
            self.pairs_alike(&old, kept.named, &new, origin, chance)?;
            let again = with_leaf_last(&old, kept.named);
            let case = Case::Graft(lent(&new, &table, edge_to(&new, &again), kept.n, chance));
            Known { name: "a leaf pruned and grafted", case, due: written(&again) }
        };
        self.put_known(&known, origin, chance)
    }

    /// A changed tree stays grafted, and nothing is missing between it and the table kept.
    fn hand_on_kept(&mut self, tree: &Tree, table: &[u32], origin: &str, chance: &mut Chance) -> Result<(), String> {
        let (n, listing) = (tree.leaves, draw::any_listing(tree, chance));
        self.restandardise(n, GRAFTED, &tree.standard_listing(), origin, chance)?;
        let case = Case::Gap { n, poll: COUNTS, table: table.to_vec(), listing, room: n * n };
        let due = Due::Written(0, vec![0; n * n]);
        self.put_known(&Known { name: "the gaps of a table kept", case, due }, origin, chance)
    }

    /// Four leaves are paired by a tree as by the one without another leaf.
    fn pairs_alike(
        &mut self,
        larger: &Tree,
        leaf: usize,
        smaller: &Tree,
        origin: &str,
        chance: &mut Chance,
    ) -> Result<(), String> {
        if smaller.leaves < 4 {
            return Ok(());
        }
        let after = chance.order(smaller.leaves)[..4].to_vec();
        let before = after.iter().map(|&stays| stays + usize::from(stays >= leaf)).collect();
        let mut reply_of = |tree: &Tree, four: Vec<usize>| {
            let question = four.iter().map(|&leaf| leaf as u16).collect();
            let case = Case::Pairing { n: tree.leaves, listing: draw::any_listing(tree, chance), question };
            self.put(&case, origin, chance).map(|outcome| outcome.reply)
        };
        if reply_of(larger, before)? != reply_of(smaller, after)? {
            return Err(format!("{origin}: four leaves that stay are paired otherwise"));
        }
        Ok(())
    }

    /// Grafts and prunes of combs, balanced trees and grown ones of 64 and 126 leaves.
    pub fn large_changes(&mut self) -> Result<(), String> {
        let (mut chance, shapes) = (Chance::new(5, 5), [1, 2, 4]);
        for n in [64, 126] {
            println!("trees of {n} leaves, grafted and pruned: {}", shapes.len());
            for shape in shapes {
                let origin = format!("changes of shape {shape} of {n} leaves");
                watch::note(&origin);
                let tree = draw::tree_of_shape(shape, n, &mut chance);
                for case in operations::changes(&tree, &of_tree(&tree), &mut chance) {
                    self.put(&case, &origin, &mut chance)?;
                }
            }
        }
        Ok(())
    }

    /// A walk of grafts and prunes from three leaves on, each lent what the one before has made. Mostly it goes up in
    /// its first half and down in its second.
    pub fn walk(&mut self) -> Result<(), String> {
        let mut chance = Chance::new(6, 6);
        let (mut tree, mut table, mut most) = (Tree::every(3).remove(0), vec![0; 9], 3);
        for step in 0..STEPS {
            let (n, origin) = (tree.leaves, format!("step {step} of the walk"));
            watch::note(&origin);
            let goes_on = chance.below(16) < 9;
            let grafted = n == 3 || goes_on == (step < STEPS / 2);
            let (case, result) = match grafted {
                true => (Case::Graft(lent(&tree, &table, chance.between(1, 2 * n - 3), n + 1, &mut chance)), n + 1),
                false => (Case::Prune(lent(&tree, &table, chance.below(n), n - 1, &mut chance)), n - 1),
            };
            let made = self.put(&case, &origin, &mut chance)?;
            let Some((listing, cells)) = made_of(result, &made) else {
                return Err(format!("{origin}: refused"));
            };
            (tree, table, most) = (Tree::from_listing(result, &listing), cells, most.max(result));
            self.hand_on(&case, made, &origin, &mut chance)?;
        }
        println!("a walk of grafts and prunes, each lent what the one before has made, up to {most} leaves: {STEPS}");
        Ok(())
    }
}
