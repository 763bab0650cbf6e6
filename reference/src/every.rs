//! Every tree of few leaves, and every finished list of merges of a table: demand 3 by trying all there is.
//!
//! For every table with a zero diagonal and equal halves one of two things holds. Either every finished list leaves
//! one tree, always with the same standard listing, and it is the only binary tree with that table. Or every finished
//! list leaves more than one subtree, and no binary tree has that table.

use crate::chance::Chance;
use crate::draw;
use crate::merge::Merging;
use crate::small::every_table;
use crate::table::{self, COUNTS, POLL};
use crate::tree::{LeafSet, Tree};
use std::collections::{BTreeSet, HashMap, HashSet};

/// Every tree of up to seven leaves, found by its table.
pub struct Every {
    listings: HashMap<Vec<u32>, Vec<u16>>,
}

/// The ends of the finished lists of a table.
struct Ends {
    /// The standard listing of the one tree left, or nothing where more than one subtree is left.
    found: BTreeSet<Option<Vec<u16>>>,
    /// How many different states the lists pass through. A state is the set of subtrees made so far.
    states: HashSet<Vec<LeafSet>>,
}

/// How much was tried.
#[derive(Default)]
pub struct Tried {
    pub tables: usize,
    pub states: usize,
}

impl Every {
    pub const LEAVES: usize = 7;

    /// Counts the table of every tree. Two trees with one table stop the program.
    pub fn counted() -> Every {
        let mut listings = HashMap::new();
        for n in 3..=Every::LEAVES {
            for tree in Tree::every(n) {
                let before = listings.insert(table::of_tree(&tree), tree.standard_listing());
                assert_eq!(before, None, "two trees share a table");
            }
        }
        Every { listings }
    }

    /// The standard listing of the one tree that has the table, by the caller's word for it, if there is one.
    pub fn listing_with(&self, poll: u32, table: &[u32]) -> Option<&Vec<u16>> {
        let times = table::times(poll);
        let count = |&cell: &u32| (cell % times == 0).then_some(cell / times);
        self.listings.get(&table.iter().map(count).collect::<Option<Vec<u32>>>()?)
    }

    /// Demand 3 for one table of at most seven leaves, over all its finished lists.
    fn try_table(&self, n: usize, poll: u32, table: &[u32], tried: &mut Tried) -> Result<(), String> {
        let mut ends = Ends { found: BTreeSet::new(), states: HashSet::new() };
        ends.follow(Merging::start(n, poll, table));
        tried.tables += 1;
        tried.states += ends.states.len();
        let due = BTreeSet::from([self.listing_with(poll, table).cloned()]);
        if ends.found == due {
            return Ok(());
        }
        Err(format!("demand 3 fails: n = {n}, poll {poll}, table {table:?}, ends {:?}, due {due:?}", ends.found))
    }

    /// Demand 3 for the tables of all trees of 3 to 6 leaves and these with any one cell changed, for all tables of 3
    /// leaves with cells up to 3, of 4 leaves with cells up to 2, of 5 leaves with cells 0, 1 or 3, and for so many
    /// more of 5 to 7 leaves drawn by chance. Of polls' tables: six times those of all trees of 4 and 5 leaves and these
    /// with any one cell changed, all of 4 leaves with cells 0, 3, 6 or 7, and as many more of 5 and 6 leaves by chance.
    pub fn try_demand_3(&self, drawn: usize) -> Result<Tried, String> {
        let mut tried = Tried::default();
        for n in 3..=6 {
            self.try_near(n, COUNTS, &mut tried)?;
        }
        self.try_all_with(3, COUNTS, &[0, 1, 2, 3], &mut tried)?;
        self.try_all_with(4, COUNTS, &[0, 1, 2], &mut tried)?;
        self.try_all_with(5, COUNTS, &[0, 1, 3], &mut tried)?;
        self.try_near(4, POLL, &mut tried)?;
        self.try_near(5, POLL, &mut tried)?;
        self.try_all_with(4, POLL, &[0, 3, 6, 7], &mut tried)?;
        let mut chance = Chance::new(3, 3);
        for _ in 0..drawn {
            let n = chance.between(5, Every::LEAVES);
            self.try_table(n, COUNTS, &draw::any_table(n, &mut chance), &mut tried)?;
            let n = chance.between(5, 6);
            self.try_table(n, POLL, &draw::any_polled_table(n, &mut chance), &mut tried)?;
        }
        Ok(tried)
    }

    /// What every tree of so many leaves has for its table, and these with any one cell changed.
    fn try_near(&self, n: usize, poll: u32, tried: &mut Tried) -> Result<(), String> {
        let times = table::times(poll);
        for tree in Tree::every(n) {
            let own = table::scaled(&table::of_tree(&tree), times);
            self.try_table(n, poll, &own, tried)?;
            for (i, j) in table::above_diagonal(n) {
                for value in 0..=times * (table::pairs_of(n - 2) as u32 + 1) {
                    let mut changed = own.clone();
                    table::put(&mut changed, n, (i, j), value);
                    self.try_table(n, poll, &changed, tried)?;
                }
            }
        }
        Ok(())
    }

    /// All tables with a zero diagonal and equal halves whose other cells are among these.
    fn try_all_with(&self, n: usize, poll: u32, values: &[u32], tried: &mut Tried) -> Result<(), String> {
        every_table(n, values).try_for_each(|cells| self.try_table(n, poll, &cells, tried))
    }
}

impl Ends {
    /// Goes on from a state with every eligible pair. What a state leads to depends on the subtrees made alone, in
    /// whatever order, as m comes from them; so each state is followed once.
    fn follow(&mut self, merging: Merging) {
        let mut made = merging.made.clone();
        made.sort();
        if !self.states.insert(made) {
            return;
        }
        let eligible = merging.eligible_pairs();
        if eligible.is_empty() {
            self.found.insert(merging.tree().map(|tree| tree.standard_listing()));
        }
        for pair in eligible {
            let mut next = merging.clone();
            next.merge(pair);
            self.follow(next);
        }
    }
}
