//! Draws: trees, listings, tables, lists of merges, polls, sheets and leaf sets left to chance, good ones and spoilt
//! ones.
//!
//! Most draws have few leaves and now and then one has 128. A lent input is spoilt at a random place, a length or a
//! room is off by one or more, and several of these meet in one case, so that the order of the refusals shows.

use crate::cases::{Case, Kind};
use crate::chance::Chance;
use crate::graft::{without_leaf, Kept};
use crate::look::LookedAt;
use crate::merge::finished_list;
use crate::part::Cell;
use crate::poll::{poll, records_of, Record, LAST_CODE};
use crate::refuse::judge_table_count;
use crate::sets::{set_of, SET_BYTES, SET_LEAVES};
use crate::table::{above_diagonal, add_quartet, of_tree, pairs_of, put, quartets, scaled, times, COUNTS, POLL};
use crate::texts;
use crate::tree::{members, single, LeafSet, Tree};
use std::collections::HashMap;

/// A case of a kind.
pub fn any_case(kind: Kind, chance: &mut Chance) -> Case {
    match kind {
        Kind::Check => {
            let n = lent_count(chance);
            Case::Check { n, listing: lent_listing(n, chance) }
        }
        Kind::Standardise => {
            let n = lent_count(chance);
            let listing = lent_listing(n, chance);
            Case::Standardise { n, listing, room: lent_room(listing_length(n, chance), chance) }
        }
        Kind::Restandardise => {
            let n = lent_count(chance);
            let listing = lent_listing(n, chance);
            let room = lent_room(listing_length(n, chance), chance);
            Case::Restandardise { n, origin: lent_origin(chance), listing, room }
        }
        Kind::Splits => {
            let n = lent_count(chance);
            let listing = lent_listing(n, chance);
            Case::Splits { n, listing, room: lent_room(8 * listing_length(n, chance).saturating_sub(2), chance) }
        }
        Kind::Pairing => {
            let n = lent_count(chance);
            let listing = lent_listing(n, chance);
            Case::Pairing { n, listing, question: lent_question(n, chance) }
        }
        Kind::Table => {
            let n = lent_count(chance);
            let listing = lent_listing(n, chance);
            Case::Table { n, listing, room: lent_room(table_length(n, chance), chance) }
        }
        Kind::Gap => {
            let (n, poll, table) = lent_table(any_table, chance);
            let listing = lent_listing(n, chance);
            Case::Gap { n, poll, table, listing, room: lent_room(table_length(n, chance), chance) }
        }
        Kind::Rebuild => {
            let (n, poll, table) = lent_table(any_table, chance);
            Case::Rebuild { n, poll, table, room: lent_room(listing_length(n, chance), chance) }
        }
        Kind::Guided => {
            let (n, poll, table) = lent_table(any_table, chance);
            let merges = lent_merges(n, poll, &table, chance);
            Case::Guided { n, poll, table, merges, room: lent_room(listing_length(n, chance), chance) }
        }
        Kind::Guess => {
            let (n, poll, table) = lent_table(rough_table, chance);
            Case::Guess { n, poll, table, room: lent_room(listing_length(n, chance), chance) }
        }
        Kind::Poll => {
            let n = lent_poll_count(chance);
            let records = lent_records(n, chance);
            Case::Poll { n, records, room: lent_room(table_length(n, chance), chance) }
        }
        Kind::CheckSheet => {
            let n = good_count(chance);
            Case::CheckSheet { sheet: lent_sheet(n, vec![0; n * n], chance) }
        }
        Kind::SheetTable => {
            let n = good_count(chance);
            let cells = (0..n * n).map(|_| u32::any(chance)).collect();
            let sheet = lent_sheet(n, cells, chance);
            Case::SheetTable { sheet, room: lent_room(n * n, chance) }
        }
        Kind::SheetName => {
            let n = good_count(chance);
            let sheet = lent_sheet(n, vec![0; n * n], chance);
            Case::SheetName { sheet, leaf: lent_number(n, chance) }
        }
        Kind::RebuildSheet => {
            let n = good_count(chance);
            let cells = any_table(n, chance);
            let sheet = lent_sheet(n, cells, chance);
            Case::RebuildSheet { sheet, room: lent_room(4 * (n - 2), chance) }
        }
        Kind::Export => {
            let n = good_count(chance);
            let sheet = mostly_good_sheet(n, chance);
            let room = lent_room(texts::export_length(&sheet), chance);
            Case::Export { sheet, listing: lent_listing(n, chance), room }
        }
        Kind::Import => {
            let n = good_count(chance);
            let sheet = mostly_good_sheet(n, chance);
            let text = texts::any_text(&any_tree(n, chance), &sheet, chance);
            Case::Import { sheet, text, room: lent_room(2 * (n - 2), chance) }
        }
        Kind::Graft => {
            let n = lent_kept_count(chance);
            let edge = lent_number(n.clamp(3, 128) * 2 - 3, chance).wrapping_add(1);
            Case::Graft(lent_kept(n, edge, n.wrapping_add(1), chance))
        }
        Kind::Prune => {
            let n = lent_kept_count(chance);
            let leaf = lent_number(n.clamp(3, 128), chance);
            Case::Prune(lent_kept(n, leaf, n.wrapping_sub(1), chance))
        }
        Kind::SetJoin => {
            let [a, b] = lent_sets(chance);
            Case::SetJoin { a, b, room: lent_room(SET_BYTES, chance) }
        }
        Kind::SetIntersect => {
            let [a, b] = lent_sets(chance);
            Case::SetIntersect { a, b, room: lent_room(SET_BYTES, chance) }
        }
        Kind::SetEqual => {
            let [a, b] = lent_sets(chance);
            Case::SetEqual { a, b }
        }
        Kind::Look => Case::Look(lent_looked_at(chance)),
        Kind::LookAll => Case::LookAll(lent_looked_at(chance)),
    }
}

// Leaf counts, lengths and rooms.

/// Leaf counts that are refused, small ones and ones whose low bits look right.
const BAD_COUNTS: [usize; 15] =
    [0, 1, 2, 2, 129, 129, 130, 255, 256, 259, 65_535, 65_540, 1 << 32, (1 << 32) + 5, usize::MAX];

fn is_good(n: usize) -> bool {
    (3..=128).contains(&n)
}

fn good_count(chance: &mut Chance) -> usize {
    match chance.below(1000) {
        0 => 128,
        1 => chance.between(101, 127),
        2..=11 => chance.between(33, 100),
        12..=149 => chance.between(15, 32),
        150..=449 => chance.between(8, 14),
        _ => chance.between(3, 7),
    }
}

fn lent_count(chance: &mut Chance) -> usize {
    match chance.below(16) {
        0 => chance.of(&BAD_COUNTS),
        _ => good_count(chance),
    }
}

fn lent_poll_count(chance: &mut Chance) -> usize {
    match chance.below(1000) {
        0..=59 => chance.of(&[0, 1, 2, 3, 3, 33, 33, 34, 36, 128, 260, (1 << 32) + 4, usize::MAX]),
        60..=63 => 32,
        64..=99 => chance.between(15, 31),
        100..=299 => chance.between(9, 14),
        _ => chance.between(4, 8),
    }
}

/// The leaf count of a tree with its table, which a case counts several times: mostly a small one.
fn lent_kept_count(chance: &mut Chance) -> usize {
    match chance.below(1000) {
        0..=59 => chance.of(&BAD_COUNTS),
        60 => chance.between(33, 64),
        61..=69 => chance.between(15, 32),
        70..=149 => chance.between(8, 14),
        _ => chance.between(3, 7),
    }
}

/// The leaf count of a tree that is looked at, as often as it has edges: mostly a small one.
fn lent_look_count(poll: u32, chance: &mut Chance) -> usize {
    let bad = match poll {
        COUNTS => [0, 1, 2, 2, 128, 128, 129, 130, 256, 65_540, (1 << 32) + 5, usize::MAX],
        _ => [0, 2, 2, 32, 32, 33, 127, 128, 129, 259, (1 << 32) + 4, usize::MAX],
    };
    match chance.below(1000) {
        0..=59 => chance.of(&bad),
        60 => 31,
        61..=64 => chance.between(16, 24),
        65..=89 => chance.between(8, 10),
        _ => chance.between(3, 7),
    }
}

/// How many numbers a listing needs; something small for a count without a sensible length.
fn listing_length(n: usize, chance: &mut Chance) -> usize {
    match n {
        2..=131 => 2 * (n - 2),
        _ => chance.below(8),
    }
}

/// How many cells a table needs; something small for a count without a sensible length.
fn table_length(n: usize, chance: &mut Chance) -> usize {
    match n {
        0..=131 => n * n,
        _ => chance.below(8),
    }
}

/// A number below a bound, mostly.
fn lent_number(bound: usize, chance: &mut Chance) -> usize {
    match chance.below(8) {
        0 => chance.of(&[bound, bound + 1, bound + 256, 256, 65_536, 1 << 32, usize::MAX]),
        _ => chance.below(bound),
    }
}

/// A room that is mostly enough.
fn lent_room(result: usize, chance: &mut Chance) -> usize {
    match chance.below(12) {
        0 => result.saturating_sub(1),
        1 => chance.below(result + 1),
        2 => result + 1,
        3..=4 => result + chance.between(2, 40),
        _ => result,
    }
}

/// A length that is off by one or more.
fn spoil_length<T: Cell>(lent: &mut Vec<T>, chance: &mut Chance) {
    match chance.below(6) {
        0 | 1 => drop(lent.pop()),
        2 => lent.truncate(lent.len().saturating_sub(2)),
        3 | 4 => lent.push(T::any(chance)),
        _ => lent.truncate(lent.len() / 2),
    }
}

// Trees and listings.

/// How many shapes of trees there are to draw from.
pub const SHAPES: usize = 5;

/// A tree of a shape: a comb in the order of the leaves or in any, a balanced one, one cut at random places, or one
/// grown leaf by leaf.
pub fn tree_of_shape(shape: usize, n: usize, chance: &mut Chance) -> Tree {
    match shape {
        0 => comb(&(0..n).collect::<Vec<usize>>()),
        1 => comb(&chance.order(n)),
        2 => cut(&chance.order(n), |size| size / 2),
        3 => {
            let order = chance.order(n);
            cut(&order, |size| chance.between(1, size - 1))
        }
        _ => Tree::grown(n, |edges| chance.below(edges)),
    }
}

/// A tree of any shape, every other time a grown one.
pub fn any_tree(n: usize, chance: &mut Chance) -> Tree {
    tree_of_shape(chance.below(8), n, chance)
}

/// The comb with the leaves in this order: every beginning of the order is one side of an edge.
fn comb(order: &[usize]) -> Tree {
    cut(order, |size| size - 1)
}

/// The tree of the parts that an order falls into when each is cut in two until every leaf is alone.
fn cut(order: &[usize], mut place: impl FnMut(usize) -> usize) -> Tree {
    let mut sides: Vec<LeafSet> = Vec::new();
    let mut parts = vec![order];
    while let Some(part) = parts.pop() {
        if part.len() < order.len() {
            sides.push(part.iter().map(|&leaf| single(leaf)).sum());
        }
        if part.len() > 1 {
            let (left, right) = part.split_at(place(part.len()));
            parts.extend([left, right]);
        }
    }
    Tree::from_sides(order.len(), sides)
}

/// A listing of a tree, seldom the standard one: nodes in any order with children first, and children in any order.
pub fn any_listing(tree: &Tree, chance: &mut Chance) -> Vec<u16> {
    let mut waiting = tree.nodes();
    let mut numbers: HashMap<LeafSet, u16> = (1..tree.leaves).map(|leaf| (single(leaf), leaf as u16)).collect();
    let mut listing = Vec::new();
    while !waiting.is_empty() {
        let known = |place: &usize| waiting[*place].children.iter().all(|child| numbers.contains_key(child));
        let ready: Vec<usize> = (0..waiting.len()).filter(known).collect();
        let node = waiting.swap_remove(chance.of(&ready));
        let mut row = node.children.map(|child| numbers[&child]);
        chance.shuffle(&mut row);
        numbers.insert(node.under, (tree.leaves + listing.len() / 2) as u16);
        listing.extend(row);
    }
    listing
}

fn lent_listing(n: usize, chance: &mut Chance) -> Vec<u16> {
    let mut listing: Vec<u16> = match n {
        3..=128 => any_listing(&any_tree(n, chance), chance),
        _ => (0..listing_length(n, chance)).map(|_| chance.below(260) as u16).collect(),
    };
    spoil_listing(n, &mut listing, chance);
    listing
}

/// Every third time one child or two are spoilt, and now and then the length.
fn spoil_listing(n: usize, listing: &mut Vec<u16>, chance: &mut Chance) {
    if chance.one_in(3) {
        for _ in 0..chance.between(1, 2) {
            spoil_child(n, listing, chance);
        }
    }
    if chance.one_in(12) {
        spoil_length(listing, chance);
    }
}

/// Numbers of no origin, some of which have an origin's number in their low bits.
pub const NO_ORIGINS: [u32; 11] = [5, 6, 7, 8, 255, 256, 257, 1 << 16, (1 << 16) + 2, 1 << 31, u32::MAX];

/// An origin's number, or one above 4, whose low bits may be those of an origin's.
fn lent_origin(chance: &mut Chance) -> u32 {
    match chance.below(4) {
        0 => chance.of(&NO_ORIGINS),
        1 => u32::any(chance),
        _ => chance.below(5) as u32,
    }
}

fn spoil_child(n: usize, listing: &mut [u16], chance: &mut Chance) {
    if listing.is_empty() || !is_good(n) {
        return;
    }
    let position = chance.below(listing.len());
    let row = position / 2;
    listing[position] = match chance.below(9) {
        0 => 0,
        1 => (n + row) as u16,
        2 => chance.between(n + row, 2 * n) as u16,
        3 => (2 * n - 3) as u16,
        4 => u16::MAX,
        5 => listing[position].wrapping_add(256),
        6 => chance.below(2 * n) as u16,
        7 => chance.of(listing),
        _ => listing[position.saturating_sub(1)],
    };
}

fn lent_question(n: usize, chance: &mut Chance) -> Vec<u16> {
    let bound = n.clamp(4, 128);
    let mut question: Vec<u16> = chance.order(bound).into_iter().take(4).map(|leaf| leaf as u16).collect();
    if chance.one_in(4) {
        let position = chance.below(4);
        question[position] = match chance.below(6) {
            0 => bound as u16,
            1 => u16::MAX,
            2 => question[position] + 256,
            3 => 128,
            _ => chance.of(&question),
        };
    }
    if chance.one_in(12) {
        spoil_length(&mut question, chance);
    }
    question
}

// Tables and lists of merges.

/// A table with a zero diagonal and equal halves: a tree's, one close to it, or none at all.
pub fn any_table(n: usize, chance: &mut Chance) -> Vec<u32> {
    let tree = any_tree(n, chance);
    let mut cells = of_tree(&tree);
    match chance.below(20) {
        0..=2 => change_cell(&mut cells, n, chance),
        3 => shift_two_cells(&mut cells, n, chance),
        4 => shift_between_sides(&mut cells, &tree, chance),
        5 => shift_row(&mut cells, n, chance),
        6 => exchange_cells(&mut cells, n, chance),
        7 => mix_in(&mut cells, n, chance),
        8 => {
            let most = chance.of(&[1, 2, 3, pairs_of(n - 2) as usize + 1]);
            fill(&mut cells, n, || chance.below(most + 1) as u32);
        }
        9 => {
            let value = chance.of(&[0, 1, pairs_of(n - 2) as u32, u32::MAX]);
            fill(&mut cells, n, || value);
        }
        10 => {
            let most = chance.between(1, 5);
            for _ in 0..most {
                change_cell(&mut cells, n, chance);
            }
        }
        _ => {}
    }
    cells
}

/// Two different leaves.
fn two_leaves(n: usize, chance: &mut Chance) -> (usize, usize) {
    let i = chance.below(n);
    let j = (i + chance.between(1, n - 1)) % n;
    (i, j)
}

fn fill(cells: &mut [u32], n: usize, mut value: impl FnMut() -> u32) {
    above_diagonal(n).for_each(|cell| put(cells, n, cell, value()));
}

/// Another value for a cell: close to it, or equal to it in its low bits.
fn other_value(cell: u32, chance: &mut Chance) -> u32 {
    match chance.below(8) {
        0 | 1 => cell.wrapping_add(1),
        2 | 3 => cell.wrapping_sub(1),
        4 => cell.wrapping_add(chance.of(&[1 << 8, 1 << 16, 1 << 31])),
        5 => cell ^ 1 << chance.below(32),
        6 => chance.of(&[0, 1, 7_875, 65_535, u32::MAX]),
        _ => u32::any(chance),
    }
}

fn change_cell(cells: &mut [u32], n: usize, chance: &mut Chance) {
    let (i, j) = two_leaves(n, chance);
    let value = other_value(cells[i * n + j], chance);
    put(cells, n, (i, j), value);
}

/// Adds 1 to a cell and takes 1 from another.
fn shift_two_cells(cells: &mut [u32], n: usize, chance: &mut Chance) {
    for by in [1, u32::MAX] {
        let (i, j) = two_leaves(n, chance);
        put(cells, n, (i, j), cells[i * n + j].wrapping_add(by));
    }
}

/// Adds 1 to every cell between the two sides of an edge, now and then with one leaf left out.
fn shift_between_sides(cells: &mut [u32], tree: &Tree, chance: &mut Chance) {
    let n = tree.leaves;
    let edges: Vec<LeafSet> = tree.edges().collect();
    let side = chance.of(&edges);
    let left_out = chance.below(2 * n);
    for i in members(side).filter(|&i| i != left_out) {
        for j in (0..n).filter(|&j| side & single(j) == 0) {
            put(cells, n, (i, j), cells[i * n + j].wrapping_add(1));
        }
    }
}

fn shift_row(cells: &mut [u32], n: usize, chance: &mut Chance) {
    let i = chance.below(n);
    for j in (0..n).filter(|&j| j != i) {
        put(cells, n, (i, j), cells[i * n + j].wrapping_add(1));
    }
}

fn exchange_cells(cells: &mut [u32], n: usize, chance: &mut Chance) {
    let (one, other) = (two_leaves(n, chance), two_leaves(n, chance));
    let value = cells[one.0 * n + one.1];
    put(cells, n, one, cells[other.0 * n + other.1]);
    put(cells, n, other, value);
}

/// Takes some cells, or all cells of some leaves, from another tree's table.
fn mix_in(cells: &mut [u32], n: usize, chance: &mut Chance) {
    let other = of_tree(&any_tree(n, chance));
    let leaves: Vec<bool> = (0..n).map(|_| chance.one_in(2)).collect();
    let by_leaf = chance.one_in(2);
    for i in 0..n {
        for j in i + 1..n {
            let taken = match by_leaf {
                true => leaves[i] && leaves[j],
                false => chance.one_in(n),
            };
            if taken {
                put(cells, n, (i, j), other[i * n + j]);
            }
        }
    }
}

/// How many kinds of rough tables there are to draw from.
pub const ROUGH: usize = 9;

/// A table that hardly any tree has, with a zero diagonal and equal halves. A tree's with every cell or some cells off,
/// one counted from quartets of which some are flipped, or one mixed from two trees; or cells of few values, so that
/// means are often equal, of any value, of 0 and the greatest, or all alike.
pub fn table_of_roughness(kind: usize, n: usize, chance: &mut Chance) -> Vec<u32> {
    let tree = any_tree(n, chance);
    let mut cells = if kind < 5 { of_tree(&tree) } else { vec![0; n * n] };
    let off = chance.of(&[1, 1, 2, n]);
    match kind {
        0 | 1 => {
            for (i, j) in above_diagonal(n) {
                let more = cells[i * n + j] + chance.between(0, 2 * off) as u32;
                put(&mut cells, n, (i, j), more.saturating_sub(off as u32));
            }
        }
        2 => (0..chance.between(1, n)).for_each(|_| change_cell(&mut cells, n, chance)),
        3 if n <= 12 => return with_flipped_quartets(&tree, chance),
        3 | 4 => mix_in(&mut cells, n, chance),
        5 => fill(&mut cells, n, || chance.below(off + 1) as u32),
        6 => fill(&mut cells, n, || u32::any(chance)),
        7 => fill(&mut cells, n, || chance.of(&[0, u32::MAX])),
        _ => {
            let value = chance.of(&[0, 1, u32::MAX, u32::MAX]);
            fill(&mut cells, n, || value);
        }
    }
    cells
}

/// A rough table of any kind, now and then one of the others.
fn rough_table(n: usize, chance: &mut Chance) -> Vec<u32> {
    match chance.below(ROUGH + 3) {
        kind if kind < ROUGH => table_of_roughness(kind, n, chance),
        _ => any_table(n, chance),
    }
}

/// The table counted from a tree's quartets, of which every fifth or so has any pairing.
fn with_flipped_quartets(tree: &Tree, chance: &mut Chance) -> Vec<u32> {
    let n = tree.leaves;
    let mut cells = vec![0; n * n];
    for four in quartets(n) {
        let pairing = if chance.one_in(5) { chance.below(3) as u8 } else { tree.pairing(four) };
        add_quartet(&mut cells, n, four, pairing, 1);
    }
    cells
}

/// A table that is lent as a poll's: six times a tree's or one close to it, mostly; else that with a cell changed, a
/// poll's with a tie or more, or one of counts.
pub fn any_polled_table(n: usize, chance: &mut Chance) -> Vec<u32> {
    polled_table(any_table, n, chance)
}

/// The same with the tables of counts from another drawing.
fn polled_table(drawn: Drawing, n: usize, chance: &mut Chance) -> Vec<u32> {
    let counts = drawn(n, chance);
    let mut cells = scaled(&counts, times(POLL));
    match chance.below(8) {
        0 => change_cell(&mut cells, n, chance),
        1 => return counts,
        2 if (4..=10).contains(&n) => return table_of_poll(n, chance),
        _ => {}
    }
    cells
}

/// The table of a poll of a tree's own pairings, of which some may have other codes.
fn table_of_poll(n: usize, chance: &mut Chance) -> Vec<u32> {
    let mut records = poll_of_tree(&any_tree(n, chance));
    for _ in 0..chance.below(3) {
        let place = chance.below(records.len());
        records[place].code = chance.below(usize::from(LAST_CODE) + 1) as u8;
    }
    poll(n, &records, n * n).expect("nothing is wrong with the poll")
}

/// The caller's word for a table, every third time that it is a poll's.
fn lent_word(chance: &mut Chance) -> u32 {
    match chance.below(3) {
        0 => chance.of(&[POLL, POLL, 2, 6, 256, 1 << 16, 1 << 31, u32::MAX]),
        _ => COUNTS,
    }
}

/// A way of drawing tables of counts.
type Drawing = fn(usize, &mut Chance) -> Vec<u32>;

/// A table with its leaf count and the caller's word; now and then the word is wrong.
fn lent_table(drawn: Drawing, chance: &mut Chance) -> (usize, u32, Vec<u32>) {
    let poll = lent_word(chance);
    let n = if poll == COUNTS { lent_count(chance) } else { lent_poll_count(chance) };
    let mut cells = match poll {
        _ if !is_good(n) => vec![0; table_length(n, chance)],
        COUNTS if chance.below(40) > 0 => drawn(n, chance),
        _ => polled_table(drawn, n, chance),
    };
    spoil_table(n, &mut cells, chance);
    (n, poll, cells)
}

/// Now and then cells on the diagonal, in one half alone, or the length are spoilt.
fn spoil_table(n: usize, cells: &mut Vec<u32>, chance: &mut Chance) {
    if is_good(n) && chance.one_in(8) {
        for _ in 0..chance.between(1, 2) {
            let leaf = chance.below(n);
            cells[leaf * n + leaf] = chance.of(&[1, 2, 256, 65_536, 1 << 31, u32::MAX]);
        }
    }
    if is_good(n) && chance.one_in(8) {
        for _ in 0..chance.between(1, 2) {
            let (i, j) = two_leaves(n, chance);
            cells[i * n + j] = other_value(cells[i * n + j], chance);
        }
    }
    if chance.one_in(12) {
        spoil_length(cells, chance);
    }
}

/// A tree in any listing and its table, spoilt or not, with what is named and room for a result of so many leaves.
fn lent_kept(n: usize, named: usize, result: usize, chance: &mut Chance) -> Kept {
    let tree = is_good(n).then(|| any_tree(n, chance));
    lent_with(tree.as_ref(), n, named, result, chance)
}

/// The same of this tree, if there is one of so many leaves.
fn lent_with(tree: Option<&Tree>, n: usize, named: usize, result: usize, chance: &mut Chance) -> Kept {
    let (mut listing, mut table) = match tree {
        Some(tree) => (any_listing(tree, chance), kept_table(tree, chance)),
        None => (vec![1; listing_length(n, chance)], vec![0; table_length(n, chance)]),
    };
    if chance.one_in(2) {
        spoil_listing(n, &mut listing, chance);
        spoil_table(n, &mut table, chance);
    }
    let room = lent_room(listing_length(result, chance), chance);
    Kept { n, listing, table, named, room, table_room: lent_room(table_length(result, chance), chance) }
}

/// The table of a tree, mostly; else with a cell or two changed, six times it, or any other.
fn kept_table(tree: &Tree, chance: &mut Chance) -> Vec<u32> {
    let (n, mut cells) = (tree.leaves, of_tree(tree));
    match chance.below(20) {
        0 | 1 => change_cell(&mut cells, n, chance),
        2 => shift_two_cells(&mut cells, n, chance),
        3 => return scaled(&cells, times(POLL)),
        4 => return any_table(n, chance),
        _ => {}
    }
    cells
}

/// A tree and its table, spoilt or not, with a new strain's table, spoilt or not, and an edge that is mostly there.
fn lent_looked_at(chance: &mut Chance) -> LookedAt {
    let poll = lent_word(chance);
    let n = lent_look_count(poll, chance);
    let (grown, edges) = (n.wrapping_add(1), 2 * n.clamp(3, 128) - 3);
    let counted = is_good(n) && judge_table_count(grown, poll).is_ok();
    let grafted = counted.then(|| any_tree(grown, chance));
    let tree = grafted.as_ref().map(|grafted| without_leaf(grafted, n));
    let mut new_table = match grafted {
        Some(grafted) => new_table(&grafted, poll, chance),
        None => vec![0; table_length(grown, chance)],
    };
    let edge = lent_number(edges, chance).wrapping_add(1);
    let Kept { listing, table, .. } = lent_with(tree.as_ref(), n, edge, grown, chance);
    if chance.one_in(2) {
        spoil_table(grown, &mut new_table, chance);
    }
    LookedAt { n, poll, listing, table, edge, new_table, room: lent_room(edges, chance) }
}

/// A new strain's table by the caller's word for it: the grafted tree's, or that with a cell or a leaf's cells off; a
/// rough one; one of cells of any value; or the grafted tree's of counts, whatever the word is.
fn new_table(grafted: &Tree, poll: u32, chance: &mut Chance) -> Vec<u32> {
    let (n, own) = (grafted.leaves, of_tree(grafted));
    let mut cells = scaled(&own, times(poll));
    match chance.below(9) {
        0 | 1 => change_cell(&mut cells, n, chance),
        2 => shift_row(&mut cells, n, chance),
        3 | 4 => return scaled(&rough_table(n, chance), times(poll)),
        5 => fill(&mut cells, n, || u32::any(chance)),
        6 => return own,
        _ => {}
    }
    cells
}

/// Tables for a look besides the grafted tree's own, with the caller's word for each: that with a cell off, rough ones,
/// and one of the greatest cells.
pub fn new_tables(grafted: &Tree, chance: &mut Chance) -> Vec<(u32, Vec<u32>)> {
    let (n, mut off) = (grafted.leaves, of_tree(grafted));
    change_cell(&mut off, n, chance);
    let mut greatest = vec![0; n * n];
    fill(&mut greatest, n, || u32::MAX);
    let sixths = scaled(&rough_table(n, chance), times(POLL));
    vec![(COUNTS, off), (COUNTS, rough_table(n, chance)), (POLL, sixths), (chance.of(&[COUNTS, POLL]), greatest)]
}

/// A finished list of eligible merges of the table, each subtree named by any of its leaves, filled up to n−1 steps.
pub fn any_merges(n: usize, poll: u32, table: &[u32], chance: &mut Chance) -> Vec<u16> {
    let (list, _) = finished_list(n, poll, table, chance);
    let mut merges = Vec::new();
    for pair in list {
        let mut named = pair.map(|subtree| chance.of(&members(subtree).collect::<Vec<usize>>()) as u16);
        chance.shuffle(&mut named);
        merges.extend(named);
    }
    merges.resize_with(2 * (n - 1), || chance.below(n) as u16);
    merges
}

fn lent_merges(n: usize, poll: u32, table: &[u32], chance: &mut Chance) -> Vec<u16> {
    let mut merges: Vec<u16> = match n {
        3..=128 if table.len() == n * n => any_merges(n, poll, table, chance),
        _ => (0..listing_length(n, chance) + 2).map(|_| chance.below(131) as u16).collect(),
    };
    if is_good(n) && chance.one_in(3) {
        spoil_step(n, &mut merges, chance);
    }
    if chance.one_in(12) {
        spoil_length(&mut merges, chance);
    }
    merges
}

fn spoil_step(n: usize, merges: &mut [u16], chance: &mut Chance) {
    let steps = merges.len() / 2;
    let (step, other) = (chance.below(steps), chance.below(steps));
    let (place, leaf) = (2 * step + chance.below(2), chance.below(n) as u16);
    match chance.below(9) {
        0 => merges[place] = n as u16,
        1 => merges[place] = chance.of(&[u16::MAX, 128, 256]),
        2 => merges[place] += 256,
        3 => merges[2 * step + 1] = merges[2 * step],
        4 => merges.copy_within(2 * other..2 * other + 2, 2 * step),
        5 => {
            merges.swap(2 * step, 2 * other);
            merges.swap(2 * step + 1, 2 * other + 1);
        }
        6 => merges.iter_mut().for_each(|named| *named = chance.below(n) as u16),
        _ => merges[place] = leaf,
    }
}

// Polls.

/// The poll of a tree's own pairings.
pub fn poll_of_tree(tree: &Tree) -> Vec<Record> {
    let record = |four: [usize; 4]| Record { leaves: four.map(|leaf| leaf as u8), code: tree.pairing(four) };
    quartets(tree.leaves).map(record).collect()
}

fn lent_records(n: usize, chance: &mut Chance) -> Vec<Record> {
    let mut records: Vec<Record> = match n {
        4..=10 if chance.one_in(3) => poll_of_tree(&any_tree(n, chance)),
        4..=34 => {
            let codes = chance.between(1, usize::from(LAST_CODE) + 1);
            let record = |four: [usize; 4]| (four.map(|leaf| leaf as u8), chance.below(codes) as u8);
            quartets(n).map(record).map(|(leaves, code)| Record { leaves, code }).collect()
        }
        _ => (0..chance.below(4)).map(|_| Record::any(chance)).collect(),
    };
    assert!(!(4..=34).contains(&n) || records.len() == records_of(n), "a poll has n(n−1)(n−2)(n−3)/24 records");
    if !records.is_empty() && chance.one_in(3) {
        for _ in 0..chance.between(1, 3) {
            spoil_record(&mut records, chance);
        }
    }
    if chance.one_in(12) {
        spoil_length(&mut records, chance);
    }
    records
}

fn spoil_record(records: &mut [Record], chance: &mut Chance) {
    let (any, other, leaf) = (chance.below(records.len()), chance.below(records.len()), chance.below(4));
    let place = chance.of(&[any, any, any, records.len() - 1]);
    match chance.below(9) {
        0 => records.swap(place, other),
        1 => records[place] = records[other],
        2 => records[place].leaves.swap(leaf, 3 - leaf),
        3 => records[place].leaves[leaf] = u8::any(chance),
        4 => records[place].leaves[leaf] ^= 1 << chance.below(8),
        5 => records[place].code = LAST_CODE + 1,
        6 => records[place].code ^= chance.of(&[4, 8, 128]),
        7 => records[place] = Record::any(chance),
        _ => records[place].code = chance.between(usize::from(LAST_CODE) + 1, 255) as u8,
    }
}

// Sheets.

/// The parts of a sheet, each open to being spoilt.
struct Parts {
    names: Vec<Vec<u8>>,
    /// Bytes between the last name and the offset.
    left_over: Vec<u8>,
    cells: Vec<u16>,
    count: u16,
    /// The offset that the trailer names; nothing for the place where the cells begin.
    offset: Option<u32>,
    ending: [u8; 2],
}

impl Parts {
    fn bytes(&self) -> Vec<u8> {
        let mut sheet: Vec<u8> = self.names.concat();
        sheet.extend(&self.left_over);
        let offset = self.offset.unwrap_or(sheet.len() as u32);
        sheet.extend(self.cells.iter().flat_map(|cell| cell.to_le_bytes()));
        sheet.extend(self.count.to_le_bytes());
        sheet.extend(offset.to_le_bytes());
        sheet.extend(self.ending);
        sheet
    }
}

pub const NAME_BYTES: &[u8] = b"ABCDEFGHIJKLMNOPQRSTUVWXYZabcdefghijklmnopqrstuvwxyz0123456789.-";

/// Bytes next to those allowed in a name.
const BAD_BYTES: &[u8] = b"\0 ,/:;@[`{_+~\x7F\x80\xC1\xE1\xFF";

/// A name with its length byte.
fn name(length: usize, chance: &mut Chance) -> Vec<u8> {
    let mut name = vec![length as u8];
    name.extend((0..length).map(|_| chance.of(NAME_BYTES)));
    name
}

fn any_names(n: usize, chance: &mut Chance) -> Vec<Vec<u8>> {
    let lengths = chance.of(&[(1, 3), (1, 3), (1, 12), (1, 40), (40, 40)]);
    let mut names: Vec<Vec<u8>> = Vec::new();
    while names.len() < n {
        let name = name(chance.between(lengths.0, lengths.1), chance);
        if !names.contains(&name) {
            names.push(name);
        }
    }
    names
}

fn parts(n: usize, table: &[u32], chance: &mut Chance) -> Parts {
    Parts {
        names: any_names(n, chance),
        left_over: Vec::new(),
        cells: above_diagonal(n).map(|(i, j)| table[i * n + j] as u16).collect(),
        count: n as u16,
        offset: None,
        ending: [0x51, 0x54],
    }
}

/// A sheet with nothing wrong.
pub fn good_sheet(n: usize, table: &[u32], chance: &mut Chance) -> Vec<u8> {
    parts(n, table, chance).bytes()
}

/// A sheet with cells of any value, mostly with nothing wrong.
fn mostly_good_sheet(n: usize, chance: &mut Chance) -> Vec<u8> {
    let cells: Vec<u32> = (0..n * n).map(|_| u32::any(chance)).collect();
    match chance.one_in(3) {
        true => lent_sheet(n, cells, chance),
        false => good_sheet(n, &cells, chance),
    }
}

fn lent_sheet(n: usize, table: Vec<u32>, chance: &mut Chance) -> Vec<u8> {
    if chance.one_in(40) {
        return short_sheet(chance);
    }
    let mut parts = parts(n, &table, chance);
    let spoilt = if chance.one_in(2) { chance.between(1, 2) } else { 0 };
    for _ in 0..spoilt {
        spoil_parts(n, &mut parts, chance);
    }
    let mut sheet = parts.bytes();
    if chance.one_in(8) {
        spoil_bytes(&mut sheet, chance);
    }
    sheet
}

/// A sheet of a few bytes, now and then with a trailer, whose offset may fit the length in 32 bits alone.
fn short_sheet(chance: &mut Chance) -> Vec<u8> {
    let length = chance.between(0, 20);
    let mut sheet: Vec<u8> = (0..length).map(|_| u8::any(chance)).collect();
    if chance.one_in(2) {
        let count = chance.of(&[0u16, 2, 3, 3, 4, 5, 128, 129]);
        let cells = count.saturating_sub(1) * count;
        let fitting = (length as u32).wrapping_sub(u32::from(cells));
        sheet.extend(count.to_le_bytes());
        sheet.extend(chance.of(&[fitting, fitting, fitting, 0, 1, 9, u32::MAX]).to_le_bytes());
    }
    if chance.below(4) > 0 {
        sheet.extend([0x51, 0x54]);
    }
    sheet
}

fn spoil_parts(n: usize, parts: &mut Parts, chance: &mut Chance) {
    let (place, other) = (chance.below(parts.names.len()), chance.below(parts.names.len()));
    let last = parts.names.len() - 1;
    match chance.below(16) {
        0 => parts.names[place][0] = chance.of(&[0, 1, 2, 40, 41, 127, 128, 255]),
        1 => parts.names[place] = name(chance.of(&[0, 40, 41, 42]), chance),
        2 | 3 => {
            let at = chance.below(parts.names[place].len());
            parts.names[place][at] = chance.of(BAD_BYTES);
        }
        4 | 5 => parts.names[place] = parts.names[other].clone(),
        6 if last > 0 => drop(parts.names.remove(place)),
        7 => parts.left_over = name(chance.between(1, 4), chance),
        8 => parts.left_over = vec![u8::any(chance)],
        9 => run_past_offset(n, parts, chance),
        10 => parts.names[last][0] = parts.names[last][0].wrapping_add(1),
        11 => parts.count = chance.of(&[0, 1, 2, 129, 130, 255, 256, u16::MAX, parts.count ^ 256]),
        12 => parts.count = parts.count.wrapping_add(chance.of(&[1, u16::MAX])),
        13 => {
            let cells_at = parts.names.concat().len() as u32;
            let near = [cells_at + 1, cells_at.saturating_sub(1), 0, u32::MAX, cells_at.wrapping_sub(1 << 16)];
            parts.offset = Some(chance.of(&near));
        }
        14 => parts.cells.truncate(parts.cells.len() - 1),
        _ => parts.ending = chance.of(&[[0x54, 0x51], [0x51, 0x55], [0x50, 0x54], [0, 0]]),
    }
}

/// The last name runs past the offset, and with the bytes of the cells it equals an earlier name.
fn run_past_offset(n: usize, parts: &mut Parts, chance: &mut Chance) {
    let last = parts.names.len() - 1;
    if last == 0 || n * (n - 1) / 2 > parts.cells.len() {
        return;
    }
    let length = chance.between(2, (parts.cells.len() + 1).min(40));
    let past = chance.between(1, length - 1);
    let equal = name(length, chance);
    let mut tail = equal[1 + length - past..].to_vec();
    tail.resize(tail.len() + tail.len() % 2, b'a');
    for (cell, bytes) in parts.cells.iter_mut().zip(tail.chunks(2)) {
        *cell = u16::from_le_bytes([bytes[0], bytes[1]]);
    }
    let earlier = chance.below(last);
    parts.names[last] = equal[..1 + length - past].to_vec();
    parts.names[earlier] = equal;
}

fn spoil_bytes(sheet: &mut Vec<u8>, chance: &mut Chance) {
    let place = chance.below(sheet.len());
    match chance.below(5) {
        0 => drop(sheet.remove(place)),
        1 => sheet.insert(place, chance.of(NAME_BYTES)),
        2 => sheet.truncate(place),
        3 => sheet[place] = u8::any(chance),
        _ => sheet[place] ^= 1 << chance.below(8),
    }
}

// Leaf sets.

/// A set of any leaves, of few or of all but few, of one or of all but one, of none or of all, or of the leaves up to
/// one or from one on.
fn any_set(chance: &mut Chance) -> Vec<u8> {
    let leaf = chance.below(SET_LEAVES);
    match chance.below(10) {
        0 => set_of([]),
        1 => set_of(0..SET_LEAVES),
        2 => set_of([leaf]),
        3 => set_of((0..SET_LEAVES).filter(|&other| other != leaf)),
        4 => set_of(0..leaf),
        5 => set_of(leaf..SET_LEAVES),
        6 => set_of((0..SET_LEAVES).filter(|_| chance.one_in(16))),
        7 => set_of((0..SET_LEAVES).filter(|_| chance.below(16) > 0)),
        _ => (0..SET_BYTES).map(|_| u8::any(chance)).collect(),
    }
}

/// The leaves below two edges of a tree.
fn sets_of_tree(chance: &mut Chance) -> [Vec<u8>; 2] {
    let n = good_count(chance);
    let edges: Vec<LeafSet> = any_tree(n, chance).edges().collect();
    [(); 2].map(|()| set_of(members(chance.of(&edges))))
}

/// Two sets that have nothing to do with each other, or of one tree; else the second is the first, the first with one
/// leaf more or fewer, a part of it, it and more, of other leaves alone, or the first with its bytes moved round.
fn two_sets(chance: &mut Chance) -> [Vec<u8>; 2] {
    let (one, mut other) = (any_set(chance), any_set(chance));
    let (leaf, by) = (chance.below(SET_LEAVES), chance.of(&[1, SET_BYTES / 2, SET_BYTES - 1]));
    let places = 0..SET_BYTES;
    match chance.below(12) {
        0 | 1 => other = one.clone(),
        2 | 3 => {
            other = one.clone();
            other[leaf / 8] ^= 1 << (leaf % 8);
        }
        4 => places.for_each(|place| other[place] &= one[place]),
        5 => places.for_each(|place| other[place] |= one[place]),
        6 => places.for_each(|place| other[place] &= !one[place]),
        7 => other = [&one[by..], &one[..by]].concat(),
        8 | 9 => return sets_of_tree(chance),
        _ => {}
    }
    [one, other]
}

/// Lengths that sets are lent with, a set's first.
pub const SET_LENGTHS: [usize; 8] =
    [SET_BYTES, 0, 1, SET_BYTES / 2, SET_BYTES - 1, SET_BYTES + 1, 2 * SET_BYTES, SET_BYTES + 256];

/// Two sets in any order, of which now and then one or both are longer or shorter than a set.
fn lent_sets(chance: &mut Chance) -> [Vec<u8>; 2] {
    let mut sets = two_sets(chance);
    chance.shuffle(&mut sets);
    for set in &mut sets {
        if chance.one_in(8) {
            set.resize_with(chance.of(&SET_LENGTHS), || u8::any(chance));
        }
    }
    sets
}
