//! The reference: another program, written from the paper alone, whose results are compared with the part's.
//!
//! `reference [N [SEED]]` compares, in this order: the paper's own cases; every tree of 3 to 6 leaves, its records also
//! handed from one operation to the next, and one of every shape of 32, 127 and 128; the polls of trees' own pairings;
//! guesses of small tables and of rough ones; grafts and prunes of large trees, and a walk of them; looks at every edge
//! of every tree of 3 to 6 leaves, and at edges of large ones, held against grafts and gaps; every listing, question,
//! list of proposals and poll of very few, every text of up to six bytes and every text close to a right one, leaf sets
//! of every two leaves and of every two bytes, and those that differ in one leaf; and N rounds (20,000 if not given)
//! from SEED on (1 if not given), each with one case of every kind; what these guesses make and these looks tell is
//! handed on. It also tries demand 3 on the reference's own merging, over every finished list of small tables. The
//! first difference stops it.

mod cases;
mod chance;
mod draw;
mod every;
mod graft;
mod guess;
mod known;
mod look;
mod looks;
mod merge;
mod nested;
mod newick;
mod operations;
mod origin;
mod part;
mod poll;
mod refuse;
mod sets;
mod sheet;
mod small;
mod strains;
mod table;
mod texts;
mod tree;
mod watch;

use cases::{Case, Kind, Outcome};
use chance::Chance;
use every::Every;
use known::{known_cases, wide, Due, Known, GUESSED, REBUILT};
use std::collections::BTreeMap;
use std::process::exit;
use std::time::Instant;
use table::{above_diagonal, scaled, times};
use tree::Tree;

/// How many rounds are run when no number is given.
const ROUNDS: u64 = 20_000;

/// How many trees drawn by chance are polled for their own pairings.
const DRAWN_TREES: usize = 60;

/// How many tables of each kind demand 3 is tried on besides the listed ones.
const DRAWN_TABLES: usize = 5_000;

/// From this many rounds on, every refusal of every operation has to have occurred.
const ROUNDS_FOR_ALL: u64 = 2_000;

/// How many bytes of a case are printed.
const SHOWN: usize = 6_000;

fn main() {
    let arguments: Vec<String> = std::env::args().skip(1).collect();
    let is_work = arguments.first().is_some_and(|first| first == watch::WORK);
    let numbers = &arguments[usize::from(is_work)..];
    let number = |place: usize, otherwise: u64| match numbers.get(place) {
        None => Some(otherwise),
        Some(text) => text.parse().ok(),
    };
    let (Some(rounds), Some(seed)) = (number(0, ROUNDS), number(1, 1)) else {
        eprintln!("usage: reference [N [SEED]]");
        exit(2);
    };
    if !is_work {
        exit(watch::watch(rounds, seed));
    }
    let mut comparison = Comparison { every: Every::counted(), noted: numbers.len() > 2, replies: BTreeMap::new() };
    if let Err(difference) = comparison.run(rounds, seed) {
        println!("difference: {difference}");
        exit(1);
    }
}

/// The comparison so far.
struct Comparison {
    every: Every,
    /// Is every case noted before its call?
    noted: bool,
    /// How often each kind was answered by each number.
    replies: BTreeMap<(&'static str, u64), usize>,
}

impl Comparison {
    fn run(&mut self, rounds: u64, seed: u64) -> Result<(), String> {
        let start = Instant::now();
        self.known()?;
        self.every_tree()?;
        self.large_trees()?;
        self.own_polls()?;
        self.guesses()?;
        self.large_changes()?;
        self.walk()?;
        self.every_look()?;
        self.large_looks()?;
        self.every_input()?;
        if !self.noted {
            let tried = self.every.try_demand_3(DRAWN_TABLES)?;
            println!("demand 3, every finished list: {} tables, {} states of merging", tried.tables, tried.states);
        }
        for seed in seed..seed.saturating_add(rounds) {
            watch::note(&format!("seed {seed}"));
            for kind in Kind::ALL {
                let mut chance = Chance::new(seed, kind as u64);
                let case = draw::any_case(kind, &mut chance);
                let origin = format!("seed {seed}");
                let put = match kind {
                    Kind::Guess | Kind::Look => self.put_and_hand_on(&case, &origin, &mut chance),
                    _ => self.put(&case, &origin, &mut chance).map(drop),
                };
                put.map_err(|difference| format!("{difference}\nrepeat with: reference 1 {seed}"))?;
            }
        }
        self.summary(rounds, seed, start)
    }

    /// Puts one case, and counts the number it is answered by.
    pub fn put(&mut self, case: &Case, origin: &str, chance: &mut Chance) -> Result<Outcome, String> {
        let name = case.kind().name();
        if self.noted {
            watch::note(&format!("{origin}, {name}: {}", shown(case)));
        }
        let outcome = case
            .compare(&self.every, chance)
            .map_err(|difference| format!("{origin}, {name}: {difference}\ncase: {}", shown(case)))?;
        *self.replies.entry((name, outcome.reply & 0xFF)).or_default() += 1;
        Ok(outcome)
    }

    /// Puts one case, and hands on what it makes.
    pub fn put_and_hand_on(&mut self, case: &Case, origin: &str, chance: &mut Chance) -> Result<(), String> {
        let made = self.put(case, origin, chance)?;
        self.hand_on(case, made, origin, chance)
    }

    /// The paper's own cases.
    fn known(&mut self) -> Result<(), String> {
        let known = known_cases();
        println!("the paper's own cases: {}", known.len());
        for (place, known) in known.iter().enumerate() {
            watch::note(&format!("the known case {}", known.name));
            self.put_known(known, known.name, &mut Chance::new(0, place as u64))?;
        }
        Ok(())
    }

    /// Puts a case of which the paper says what is due.
    pub fn put_known(&mut self, known: &Known, origin: &str, chance: &mut Chance) -> Result<(), String> {
        let outcome = self.put(&known.case, origin, chance)?;
        if !known.due.agrees(&outcome) {
            return Err(format!("{}: the paper says otherwise than {outcome:?}", known.name));
        }
        Ok(())
    }

    /// Every tree of 3 to 6 leaves in every operation.
    fn every_tree(&mut self) -> Result<(), String> {
        for n in 3..=6 {
            let trees = Tree::every(n);
            println!("every tree of {n} leaves, in every operation: {}", trees.len());
            for (place, tree) in trees.iter().enumerate() {
                let origin = format!("tree {place} of {n} leaves");
                watch::note(&origin);
                let mut chance = Chance::new(n as u64, place as u64);
                for case in operations::cases_of_tree(tree, &mut chance) {
                    self.put_and_hand_on(&case, &origin, &mut chance)?;
                }
            }
        }
        Ok(())
    }

    /// Hands the record that a case has made to the next operation. Restandardised from any listing of its tree it is
    /// the same record. Its gaps to the table given add up to the total that comes with a guess; they are 0 where it is
    /// marked rebuilt, and nowhere else. What grafts and prunes make has a table of its own, and splits are leaf sets.
    pub fn hand_on(&mut self, case: &Case, made: Outcome, origin: &str, chance: &mut Chance) -> Result<(), String> {
        let given = match case {
            Case::Rebuild { poll, table, .. } | Case::Guided { poll, table, .. } | Case::Guess { poll, table, .. } => {
                Some((*poll, table.clone()))
            }
            Case::Import { .. } => None,
            Case::Splits { n, listing, .. } => return self.hand_on_splits(*n, listing, made, origin, chance),
            Case::Graft(kept) => return self.hand_on_change(kept, kept.n + 1, made, origin, chance),
            Case::Prune(kept) => return self.hand_on_change(kept, kept.n - 1, made, origin, chance),
            Case::Look(at) => return self.hand_on_look(at, made, origin, chance),
            Case::LookAll(at) => return self.hand_on_look_all(at, made, origin, chance),
            _ => return Ok(()),
        };
        if made.reply & 0xFF != 0 {
            return Ok(());
        }
        let (mark, total, n) = (made.reply >> 8 & 0xFF, made.reply >> 16, made.written.len() / 2 + 2);
        let listing: Vec<u16> = made.written.iter().map(|&child| child as u16).collect();
        self.restandardise(n, mark, &listing, origin, chance)?;
        let Some((poll, table)) = given else {
            return match mark {
                REBUILT => Err(format!("{origin}: a record is marked rebuilt, and no table was given")),
                _ => Ok(()),
            };
        };
        let sum = self.sum_of_gaps(n, poll, &table, &listing, origin, chance)?;
        if sum != total || (mark == REBUILT) != (sum == 0) {
            return Err(format!("{origin}: the gaps of a record marked {mark} add up to {sum}, told is {total}"));
        }
        match case {
            Case::Guess { .. } => self.rebuild_guess(n, poll, table, listing, mark, origin, chance),
            _ => Ok(()),
        }
    }

    /// The sum over i < j of the size of the part's gap between a table and a tree.
    pub fn sum_of_gaps(
        &mut self,
        n: usize,
        poll: u32,
        table: &[u32],
        listing: &[u16],
        origin: &str,
        chance: &mut Chance,
    ) -> Result<u64, String> {
        let gap = Case::Gap { n, poll, table: table.to_vec(), listing: listing.to_vec(), room: n * n };
        let gaps = self.put(&gap, origin, chance)?.written;
        Ok(above_diagonal(n).map(|(i, j)| gaps[i * n + j].unsigned_abs()).sum())
    }

    /// A record is the same when it is restandardised from any listing of its tree.
    pub fn restandardise(
        &mut self,
        n: usize,
        mark: u64,
        listing: &[u16],
        origin: &str,
        chance: &mut Chance,
    ) -> Result<(), String> {
        let other = draw::any_listing(&Tree::from_listing(n, listing), chance);
        let case = Case::Restandardise { n, origin: mark as u32, listing: other, room: listing.len() };
        let due = Due::Written(mark, wide(listing));
        self.put_known(&Known { name: "a record restandardised", case, due }, origin, chance)
    }

    /// Rebuilds the table that a guess was given: 6 exactly where it is marked guessed, else the same tree. Then rebuilds
    /// the table that its tree has: the same listing.
    fn rebuild_guess(
        &mut self,
        n: usize,
        poll: u32,
        table: Vec<u32>,
        listing: Vec<u16>,
        mark: u64,
        origin: &str,
        chance: &mut Chance,
    ) -> Result<(), String> {
        let room = listing.len();
        let same = || Due::Written(REBUILT, wide(&listing));
        let due = if mark == GUESSED { Due::Refused(6, 0) } else { same() };
        let case = Case::Rebuild { n, poll, table, room };
        self.put_known(&Known { name: "the table of a guess rebuilt", case, due }, origin, chance)?;
        let counted = self.put(&Case::Table { n, listing: listing.clone(), room: n * n }, origin, chance)?.written;
        let own: Vec<u32> = counted.iter().map(|&cell| cell as u32).collect();
        let case = Case::Rebuild { n, poll, table: scaled(&own, times(poll)), room };
        self.put_known(&Known { name: "the own table of a guess rebuilt", case, due: same() }, origin, chance)
    }

    /// Trees of the most leaves that polls and the other operations take, of every shape, in every operation.
    fn large_trees(&mut self) -> Result<(), String> {
        for n in [32, 127, 128] {
            println!("trees of {n} leaves, one of every shape, in every operation: {}", draw::SHAPES);
            for shape in 0..draw::SHAPES {
                let origin = format!("shape {shape} of {n} leaves");
                watch::note(&origin);
                let mut chance = Chance::new(n as u64, shape as u64);
                let tree = draw::tree_of_shape(shape, n, &mut chance);
                for case in operations::cases_of_tree(&tree, &mut chance) {
                    match case {
                        Case::Splits { .. } => self.put_and_hand_on(&case, &origin, &mut chance)?,
                        _ => drop(self.put(&case, &origin, &mut chance)?),
                    }
                }
            }
        }
        Ok(())
    }

    /// The polls of every tree of 4 to 7 leaves, of one of every shape of 32, and of trees drawn by chance.
    fn own_polls(&mut self) -> Result<(), String> {
        let mut chance = Chance::new(32, 32);
        let mut trees: Vec<Tree> = (4..=7).flat_map(Tree::every).collect();
        trees.extend((0..draw::SHAPES).map(|shape| draw::tree_of_shape(shape, 32, &mut chance)));
        for _ in 0..DRAWN_TREES {
            let n = chance.between(8, 32);
            trees.push(draw::any_tree(n, &mut chance));
        }
        println!("polls of trees' own pairings: {}", trees.len());
        for (place, tree) in trees.iter().enumerate() {
            let origin = format!("own poll {place}");
            watch::note(&origin);
            for known in operations::own_poll(tree, &mut chance) {
                self.put_known(&known, &origin, &mut chance)?;
            }
        }
        Ok(())
    }

    /// Guesses of every small table of very few leaves, and of rough tables of up to 128, each handed on.
    fn guesses(&mut self) -> Result<(), String> {
        let small = small::every_guess().map(|case| (case, "the guess of a small table"));
        let rough = operations::rough_guesses().into_iter().map(|case| (case, "the guess of a rough table"));
        let mut count = 0;
        for (case, origin) in small.chain(rough) {
            watch::note(&format!("{origin}, {count}"));
            self.put_and_hand_on(&case, origin, &mut Chance::new(0, count))?;
            count += 1;
        }
        println!("guesses of small tables, and of rough ones of up to 128 leaves, handed on: {count}");
        Ok(())
    }

    /// Every listing, question, list of proposals and poll of few leaves, and every short text, the bad ones too; and
    /// leaf sets in which every leaf and every byte takes its turn.
    fn every_input(&mut self) -> Result<(), String> {
        self.put_all("every listing of few leaves", small::every_listing())?;
        self.put_all("every question of few leaves", small::every_question())?;
        self.put_all("every list of proposals of few leaves", small::every_proposals())?;
        self.put_all("every poll of few leaves", small::every_poll())?;
        self.put_all("the table of every poll of few leaves, rebuilt", small::every_polled_table())?;
        self.put_all("every text of up to six bytes", small::every_text())?;
        self.put_all("every text that is two changes or fewer from a right one", small::every_near_text())?;
        self.put_all("every two leaf sets of one leaf", small::every_two_leaves())?;
        self.put_all("leaf sets that differ in one leaf, in every one", small::every_leaf_more())?;
        self.put_all("leaf sets with every two bytes", small::every_two_bytes())
    }

    fn put_all(&mut self, origin: &str, cases: impl Iterator<Item = Case>) -> Result<(), String> {
        watch::note(origin);
        let mut count = 0;
        for case in cases {
            self.put(&case, origin, &mut Chance::new(0, count))?;
            count += 1;
        }
        println!("{origin}: {count}");
        Ok(())
    }

    /// How many cases of each kind were compared, and how they were answered.
    fn summary(&self, rounds: u64, seed: u64, start: Instant) -> Result<(), String> {
        let mut totals = Vec::new();
        for kind in Kind::ALL {
            let count = |number: u64| self.replies.get(&(kind.name(), number)).copied().unwrap_or(0);
            let refused: Vec<String> = kind.refusals().iter().map(|&no| format!("{no}: {}", count(no))).collect();
            println!("{:>14}  accepted: {}, refused {}", kind.name(), count(0), refused.join(", "));
            if rounds >= ROUNDS_FOR_ALL && kind.refusals().iter().chain(&[0]).any(|&number| count(number) == 0) {
                return Err(format!("{}: one of its answers never occurred", kind.name()));
            }
            let total: usize = kind.refusals().iter().chain(&[0]).map(|&number| count(number)).sum();
            totals.push(format!("{} {total}", kind.name()));
        }
        println!("rounds: {rounds} from seed {seed}, {:.1} seconds", start.elapsed().as_secs_f64());
        println!("compared without a difference: {}", totals.join(", "));
        Ok(())
    }
}

/// A case in print, cut where it is very long; the seed has all of it.
fn shown(case: &Case) -> String {
    let mut text = format!("{case:?}");
    if text.len() > SHOWN {
        text.truncate(SHOWN);
        text.push_str(" …");
    }
    text
}
