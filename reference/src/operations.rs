//! One tree in every operation.

use crate::cases::Case;
use crate::chance::Chance;
use crate::draw;
use crate::graft::Kept;
use crate::known::{Due, Known, REBUILT};
use crate::poll::{poll, LAST_CODE};
use crate::table::{self, COUNTS, POLL};
use crate::texts;
use crate::tree::Tree;

/// How many questions a tree of many leaves is asked.
const QUESTIONS: usize = 200;

/// Four different leaves in any order: each quartet once where there are few leaves, else some.
fn questions(n: usize, chance: &mut Chance) -> Vec<Vec<u16>> {
    let mut questions: Vec<Vec<usize>> = match n {
        3..=6 => table::quartets(n).map(|four| four.to_vec()).collect(),
        _ => (0..QUESTIONS).map(|_| chance.order(n)[..4].to_vec()).collect(),
    };
    questions.iter_mut().for_each(|question| chance.shuffle(question));
    questions.iter().map(|question| question.iter().map(|&leaf| leaf as u16).collect()).collect()
}

/// A table rebuilt by several lists of merges.
fn guided(n: usize, poll: u32, table: &[u32], chance: &mut Chance) -> Vec<Case> {
    let case = |_| {
        let merges = draw::any_merges(n, poll, table, chance);
        Case::Guided { n, poll, table: table.to_vec(), merges, room: 2 * (n - 2) }
    };
    (0..5).map(case).collect()
}

/// Edges of a tree: all, and numbers that no edge has, where there are few leaves; else some, or one.
fn edges(n: usize, chance: &mut Chance) -> Vec<usize> {
    let last = 2 * n - 3;
    let some = [chance.between(1, n - 1), chance.between(n, last), last];
    match n {
        3..=6 => (0..=last + 1).chain([last + 256, (1 << 16) + 1, (1 << 32) + 1, usize::MAX]).collect(),
        7..=64 => some.to_vec(),
        _ => vec![chance.of(&some)],
    }
}

/// Leaves of a tree and numbers that no leaf has, likewise.
fn leaves(n: usize, chance: &mut Chance) -> Vec<usize> {
    let some = [0, chance.between(1, n - 2), n - 1];
    match n {
        3..=6 => (0..=n).chain([256, 1 << 16, 1 << 32, usize::MAX]).collect(),
        7..=64 => some.to_vec(),
        _ => vec![chance.of(&some)],
    }
}

/// A tree and its table in the standard listing or in another, in both where there are few leaves.
fn lent(tree: &Tree, table: &[u32], named: usize, result: usize, chance: &mut Chance) -> Vec<Kept> {
    let mut listings = vec![draw::any_listing(tree, chance), tree.standard_listing()];
    chance.shuffle(&mut listings);
    listings.truncate(if tree.leaves <= 6 { 2 } else { 1 });
    listings.into_iter().map(|listing| Kept::with_room(listing, table.to_vec(), named, result)).collect()
}

/// Grafts and prunes of a tree.
pub fn changes(tree: &Tree, table: &[u32], chance: &mut Chance) -> Vec<Case> {
    let (n, mut cases) = (tree.leaves, Vec::new());
    for edge in edges(n, chance) {
        cases.extend(lent(tree, table, edge, n + 1, chance).into_iter().map(Case::Graft));
    }
    for leaf in leaves(n, chance) {
        cases.extend(lent(tree, table, leaf, n - 1, chance).into_iter().map(Case::Prune));
    }
    cases
}

/// One case or more of every operation for a tree, all accepted but the grafts and prunes that name what is not there
/// or whose result has too few leaves or too many.
pub fn cases_of_tree(tree: &Tree, chance: &mut Chance) -> Vec<Case> {
    let n = tree.leaves;
    let (cells, children) = (n * n, 2 * (n - 2));
    let table = table::of_tree(tree);
    let sheet = draw::good_sheet(n, &table, chance);
    let listing = |chance: &mut Chance| draw::any_listing(tree, chance);
    let mut cases = vec![
        Case::Check { n, listing: listing(chance) },
        Case::Standardise { n, listing: listing(chance), room: children },
        Case::Restandardise { n, origin: chance.below(6) as u32, listing: listing(chance), room: children },
        Case::Splits { n, listing: listing(chance), room: 16 * (n - 3) },
        Case::Table { n, listing: listing(chance), room: cells },
        Case::Gap { n, poll: COUNTS, table: table.clone(), listing: listing(chance), room: cells },
        Case::Gap { n, poll: COUNTS, table: vec![0; cells], listing: listing(chance), room: cells },
    ];
    for question in questions(n, chance) {
        cases.push(Case::Pairing { n, listing: listing(chance), question });
    }
    if (4..=32).contains(&n) {
        let sixths = table::scaled(&table, 6);
        cases.push(Case::Poll { n, records: draw::poll_of_tree(tree), room: cells });
        cases.push(Case::Gap { n, poll: POLL, table: sixths.clone(), listing: listing(chance), room: cells });
        cases.push(Case::Gap { n, poll: POLL, table: vec![0; cells], listing: listing(chance), room: cells });
        cases.extend(guided(n, POLL, &sixths, chance));
        cases.push(Case::Guess { n, poll: POLL, table: sixths.clone(), room: children });
        cases.push(Case::Rebuild { n, poll: POLL, table: sixths, room: children });
    }
    cases.extend(guided(n, COUNTS, &table, chance));
    cases.push(Case::Export { sheet: sheet.clone(), listing: listing(chance), room: texts::export_length(&sheet) });
    cases.extend((0..5).map(|_| {
        let text = texts::right_text(tree, &sheet, chance);
        Case::Import { sheet: sheet.clone(), text, room: children }
    }));
    cases.extend(changes(tree, &table, chance));
    cases.extend([
        Case::Guess { n, poll: COUNTS, table: table.clone(), room: children },
        Case::Rebuild { n, poll: COUNTS, table, room: children },
        Case::CheckSheet { sheet: sheet.clone() },
        Case::SheetTable { sheet: sheet.clone(), room: cells },
        Case::SheetName { sheet: sheet.clone(), leaf: n - 1 },
        Case::RebuildSheet { sheet, room: 2 * children },
    ]);
    cases
}

/// Guesses of rough tables of every kind with 16 to 64 leaves, of polls' tables too, and of some kinds with 128.
pub fn rough_guesses() -> Vec<Case> {
    let mut chance = Chance::new(128, 128);
    let mut cases = Vec::new();
    for (n, poll) in [(16, COUNTS), (32, COUNTS), (32, POLL), (64, COUNTS), (128, COUNTS)] {
        for kind in (0..draw::ROUGH).filter(|kind| n < 128 || [0, 6, 7].contains(kind)) {
            let table = table::scaled(&draw::table_of_roughness(kind, n, &mut chance), table::times(poll));
            cases.push(Case::Guess { n, poll, table, room: 2 * (n - 2) + kind });
        }
    }
    cases
}

/// The poll of a tree's own pairings has six times the table that is counted directly, and is rebuilt as the tree. No
/// tree has the table where one record is a tie instead.
pub fn own_poll(tree: &Tree, chance: &mut Chance) -> Vec<Known> {
    let n = tree.leaves;
    let (cells, children) = (n * n, 2 * (n - 2));
    let (mut records, sixths) = (draw::poll_of_tree(tree), table::scaled(&table::by_far_sides(tree), 6));
    let (listing, wide) = (draw::any_listing(tree, chance), sixths.iter().map(|&cell| cell.into()).collect());
    let merges = draw::any_merges(n, POLL, &sixths, chance);
    let standard = || Due::Written(REBUILT, tree.standard_listing().iter().map(|&child| child.into()).collect());
    let (name, table) = ("the poll of a tree's own pairings", sixths.clone());
    let mut known = vec![
        (Case::Poll { n, records: records.clone(), room: cells }, Due::Written(0, wide)),
        (Case::Rebuild { n, poll: POLL, table: table.clone(), room: children }, standard()),
        (Case::Guided { n, poll: POLL, table: table.clone(), merges, room: children }, standard()),
        (Case::Gap { n, poll: POLL, table, listing, room: cells }, Due::Written(0, vec![0; cells])),
    ];
    let place = chance.below(records.len());
    records[place].code = chance.between(3, LAST_CODE.into()) as u8;
    let table = poll(n, &records, cells).expect("nothing is wrong with the poll");
    known.push((Case::Rebuild { n, poll: POLL, table, room: children }, Due::Refused(6, 0)));
    known.into_iter().map(|(case, due)| Known { name, case, due }).collect()
}
