//! Looks before grafting: what the part tells beforehand is held against its own grafts and gaps.

use crate::cases::{Case, Outcome};
use crate::chance::Chance;
use crate::draw;
use crate::graft::{edge_below, Kept};
use crate::known::{Due, Known};
use crate::look::LookedAt;
use crate::strains::made_of;
use crate::table::{of_tree, scaled, times, COUNTS, POLL};
use crate::tree::Tree;
use crate::{watch, Comparison};

/// Up to this many leaves each edge of all is looked at once more.
const HANDED_ON_UP_TO: usize = 31;

/// A tree in any listing with its table, and the new strain's table, with as much room as the totals need.
fn looked_at(tree: &Tree, edge: usize, poll: u32, new_table: Vec<u32>, chance: &mut Chance) -> LookedAt {
    let (n, listing) = (tree.leaves, draw::any_listing(tree, chance));
    LookedAt { n, poll, listing, table: of_tree(tree), edge, new_table, room: 2 * n - 3 }
}

/// The tree with leaf n on the edge of a number.
fn grafted(tree: &Tree, edge: usize) -> Tree {
    tree.with_leaf_on(edge_below(tree, edge).expect("the edge is there"))
}

impl Comparison {
    /// Hands on what a look has told: a copy is grafted, and the sizes of its gaps to the new table add up to it.
    pub fn hand_on_look(
        &mut self,
        at: &LookedAt,
        made: Outcome,
        origin: &str,
        chance: &mut Chance,
    ) -> Result<(), String> {
        if made.reply & 0xFF != 0 {
            return Ok(());
        }
        let n = at.n + 1;
        let graft = Case::Graft(Kept::with_room(at.listing.clone(), at.table.clone(), at.edge, n));
        let Some((listing, _)) = made_of(n, &self.put(&graft, origin, chance)?) else {
            return Err(format!("{origin}: looked at, and not grafted"));
        };
        let sum = self.sum_of_gaps(n, at.poll, &at.new_table, &listing, origin, chance)?;
        match made.reply >> 8 {
            total if total == sum => Ok(()),
            total => Err(format!("{origin}: the gaps of a grafted copy add up to {sum}, told is {total}")),
        }
    }

    /// Hands on what a look at all edges has told: a look at each tells the same.
    pub fn hand_on_look_all(
        &mut self,
        at: &LookedAt,
        made: Outcome,
        origin: &str,
        chance: &mut Chance,
    ) -> Result<(), String> {
        for (place, &total) in made.written.iter().enumerate() {
            let (case, due) = (Case::Look(at.on(place + 1)), Due::Written(total as u64, Vec::new()));
            self.put_known(&Known { name: "one edge of all looked at", case, due }, origin, chance)?;
        }
        Ok(())
    }

    /// Looks at an edge and at all for the table that the tree has with leaf n on that edge: nothing is missing there,
    /// and something everywhere else.
    fn look_for_own(
        &mut self,
        tree: &Tree,
        edge: usize,
        poll: u32,
        origin: &str,
        chance: &mut Chance,
    ) -> Result<(), String> {
        let own = scaled(&of_tree(&grafted(tree, edge)), times(poll));
        let at = looked_at(tree, edge, poll, own, chance);
        self.put_and_hand_on(&Case::Look(at.clone()), origin, chance)?;
        let case = Case::LookAll(at);
        let made = self.put(&case, origin, chance)?;
        if (1..).zip(&made.written).any(|(other, &total)| (total == 0) != (other == edge)) {
            return Err(format!("{origin}: at edge {edge} alone nothing is missing, told are {:?}", made.written));
        }
        match (poll, tree.leaves) {
            (COUNTS, ..=HANDED_ON_UP_TO) => self.hand_on(&case, made, origin, chance),
            _ => Ok(()),
        }
    }

    /// Every tree of 3 to 6 leaves looked at on every edge, for the table that it has there and for others.
    pub fn every_look(&mut self) -> Result<(), String> {
        let (mut chance, mut count) = (Chance::new(7, 7), 0);
        for tree in (3..=6).flat_map(Tree::every) {
            for edge in 1..=2 * tree.leaves - 3 {
                let origin = format!("edge {count} looked at");
                watch::note(&origin);
                self.look_for_own(&tree, edge, COUNTS, &origin, &mut chance)?;
                self.look_for_own(&tree, edge, POLL, &origin, &mut chance)?;
                for (poll, new_table) in draw::new_tables(&grafted(&tree, edge), &mut chance) {
                    let at = looked_at(&tree, edge, poll, new_table, &mut chance);
                    self.put_and_hand_on(&Case::Look(at.clone()), &origin, &mut chance)?;
                    self.put(&Case::LookAll(at), &origin, &mut chance)?;
                }
                count += 1;
            }
        }
        println!("edges of every tree of 3 to 6 leaves, looked at for several tables: {count}");
        Ok(())
    }

    /// Combs, balanced trees and grown ones of 31, 64 and 127 leaves, looked at on an edge for a rough table; those of
    /// 31 and a grown one of 127 also on all edges, for the table that the tree has with leaf n on one; and those of 31
    /// for polls' tables, too.
    pub fn large_looks(&mut self) -> Result<(), String> {
        let (mut chance, shapes) = (Chance::new(8, 8), [1, 2, 4]);
        for (n, poll) in [(31, COUNTS), (31, POLL), (64, COUNTS), (127, COUNTS)] {
            let whose = if poll == COUNTS { "tables of counts" } else { "polls' tables" };
            println!("trees of {n} leaves, looked at for {whose}: {}", shapes.len());
            for shape in shapes {
                let origin = format!("looks of shape {shape} of {n} leaves");
                watch::note(&origin);
                let tree = draw::tree_of_shape(shape, n, &mut chance);
                let edge = chance.between(1, 2 * n - 3);
                let kind = chance.below(draw::ROUGH);
                let rough = scaled(&draw::table_of_roughness(kind, n + 1, &mut chance), times(poll));
                let at = looked_at(&tree, edge, poll, rough, &mut chance);
                self.put_and_hand_on(&Case::Look(at), &origin, &mut chance)?;
                if n == 31 || (n, shape) == (127, 4) {
                    self.look_for_own(&tree, edge, poll, &origin, &mut chance)?;
                }
            }
        }
        Ok(())
    }
}
