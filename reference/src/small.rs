//! Everything of few leaves: each listing, question, list of proposals and poll, and each short text, the bad ones too;
//! and leaf sets of each leaf.

use crate::cases::Case;
use crate::poll::{poll, Record, LAST_CODE};
use crate::sets::{set_of, SET_BYTES, SET_LEAVES};
use crate::table::{self, COUNTS, POLL};
use crate::tree::Tree;
use std::collections::BTreeSet;

/// Every list of so many numbers from 0 to most.
fn every_list(length: usize, most: usize) -> impl Iterator<Item = Vec<u16>> {
    let values = most + 1;
    let number = move |code: usize, place: usize| (code / values.pow(place as u32) % values) as u16;
    (0..values.pow(length as u32)).map(move |code| (0..length).map(|place| number(code, place)).collect())
}

/// Every table with a zero diagonal and equal halves whose other cells are among these.
pub fn every_table(n: usize, values: &[u32]) -> impl Iterator<Item = Vec<u32>> + '_ {
    every_list(n * (n - 1) / 2, values.len() - 1).map(move |places| {
        let mut cells = vec![0; n * n];
        for (cell, place) in table::above_diagonal(n).zip(places) {
            table::put(&mut cells, n, cell, values[usize::from(place)]);
        }
        cells
    })
}

/// Every listing of 3 and 4 leaves with numbers up to 2n−2.
pub fn every_listing() -> impl Iterator<Item = Case> {
    (3..=4).flat_map(|n| {
        every_list(2 * (n - 2), 2 * n - 2).flat_map(move |listing| {
            let room = 2 * (n - 2);
            [
                Case::Check { n, listing: listing.clone() },
                Case::Standardise { n, listing: listing.clone(), room },
                Case::Restandardise { n, origin: 2, listing, room },
            ]
        })
    })
}

/// Every question with numbers up to n to every tree of 4 and 5 leaves.
pub fn every_question() -> impl Iterator<Item = Case> {
    (4..=5).flat_map(Tree::every).flat_map(|tree| {
        let (n, listing) = (tree.leaves, tree.standard_listing());
        every_list(4, n).map(move |question| Case::Pairing { n, listing: listing.clone(), question })
    })
}

/// Every list of proposals with numbers up to n for the table of every tree of 3 and 4 leaves, and for these with their
/// last cell changed.
pub fn every_proposals() -> impl Iterator<Item = Case> {
    (3..=4).flat_map(Tree::every).flat_map(|tree| {
        let n = tree.leaves;
        let own = table::of_tree(&tree);
        let mut changed = own.clone();
        table::put(&mut changed, n, (n - 2, n - 1), 1 - own[n * n - 2]);
        vec![own, changed].into_iter().flat_map(move |table| {
            let room = 2 * (n - 2);
            let case = move |merges| Case::Guided { n, poll: COUNTS, table: table.clone(), merges, room };
            every_list(2 * (n - 1), n).map(case)
        })
    })
}

/// Every poll of 4 and 5 leaves with codes up to a greatest, and the leaf count.
fn every_records(greatest: u8) -> impl Iterator<Item = (usize, Vec<Record>)> {
    (4..=5).flat_map(move |n| {
        let quartets: Vec<[u8; 4]> = table::quartets(n).map(|four| four.map(|leaf| leaf as u8)).collect();
        every_list(quartets.len(), greatest.into()).map(move |codes| {
            let record = |(&leaves, code): (&[u8; 4], u16)| Record { leaves, code: code as u8 };
            (n, quartets.iter().zip(codes).map(record).collect())
        })
    })
}

/// Every poll of 4 and 5 leaves with codes up to 7.
pub fn every_poll() -> impl Iterator<Item = Case> {
    every_records(LAST_CODE + 1).map(|(n, records)| Case::Poll { n, records, room: n * n })
}

/// The table of every poll of 4 and 5 leaves, rebuilt as a poll's.
pub fn every_polled_table() -> impl Iterator<Item = Case> {
    every_records(LAST_CODE).map(|(n, records)| {
        let table = poll(n, &records, n * n).expect("nothing is wrong with the poll");
        Case::Rebuild { n, poll: POLL, table, room: 2 * (n - 2) }
    })
}

/// So many of all tables of five leaves are guessed: every one in this many.
const SHARE: usize = 10;

/// Guesses: of every table of 3 leaves with cells up to 3, of every one of 4 leaves with cells up to 2, and, as a
/// poll's, with cells 0, 3 or 6; and of a share of those of 5 leaves with cells 0, 1 or 3, and as a poll's 0, 6 or 17.
pub fn every_guess() -> impl Iterator<Item = Case> {
    let guess = |n: usize, poll: u32| move |table| Case::Guess { n, poll, table, room: 2 * (n - 2) };
    let counts =
        every_table(3, &[0, 1, 2, 3]).map(guess(3, COUNTS)).chain(every_table(4, &[0, 1, 2]).map(guess(4, COUNTS)));
    let polled = every_table(4, &[0, 3, 6]).map(guess(4, POLL));
    let of_five = every_table(5, &[0, 1, 3]).step_by(SHARE).map(guess(5, COUNTS));
    counts.chain(polled).chain(of_five).chain(every_table(5, &[0, 6, 17]).step_by(SHARE).map(guess(5, POLL)))
}

/// What short texts are made of.
const TEXT_BYTES: [u8; 8] = *b"(),;: a1";

/// A sheet of three leaves with the names a, 1 and a1.
fn sheet_of_three() -> Vec<u8> {
    b"\x01a\x011\x02a1\0\0\0\0\0\0\x03\0\x07\0\0\0QT".to_vec()
}

fn import(text: Vec<u8>) -> Case {
    Case::Import { sheet: sheet_of_three(), text, room: 2 }
}

/// Every text of up to six of these bytes.
pub fn every_text() -> impl Iterator<Item = Case> {
    let text = |places: Vec<u16>| places.into_iter().map(|place| TEXT_BYTES[usize::from(place)]).collect();
    (0..=6).flat_map(move |length| every_list(length, TEXT_BYTES.len() - 1).map(text)).map(import)
}

/// A text with one of these bytes put in anywhere or in any place of another, or with a byte left out.
fn changed(text: &[u8]) -> Vec<Vec<u8>> {
    let mut changed = Vec::new();
    for place in 0..=text.len() {
        let (before, behind) = text.split_at(place);
        changed.extend(TEXT_BYTES.map(|byte| [before, &[byte], behind].concat()));
        if let Some((_, behind)) = behind.split_first() {
            changed.push([before, behind].concat());
            changed.extend(TEXT_BYTES.map(|byte| [before, &[byte], behind].concat()));
        }
    }
    changed
}

/// Every text that one or two such changes make of a right one, whose top has three parts, or two of which one is a
/// node.
pub fn every_near_text() -> impl Iterator<Item = Case> {
    let right: [&[u8]; 2] = [b"(a,1,a1);", b"(a1,(1,a));"];
    let near: BTreeSet<Vec<u8>> =
        right.iter().flat_map(|text| changed(text)).flat_map(|text| [changed(&text), vec![text]].concat()).collect();
    near.into_iter().map(import)
}

/// Two sets joined, intersected and tested for equality.
fn of_two_sets(a: Vec<u8>, b: Vec<u8>) -> [Case; 3] {
    let room = SET_BYTES;
    [
        Case::SetJoin { a: a.clone(), b: b.clone(), room },
        Case::SetIntersect { a: a.clone(), b: b.clone(), room },
        Case::SetEqual { a, b },
    ]
}

/// Every two sets of one leaf each.
pub fn every_two_leaves() -> impl Iterator<Item = Case> {
    let with = |one: usize| (0..SET_LEAVES).flat_map(move |other| of_two_sets(set_of([one]), set_of([other])));
    (0..SET_LEAVES).flat_map(with)
}

/// What else is in two sets that differ in one leaf: nothing, all, every second or third leaf, or those of one word.
const OTHERS: [fn(usize) -> bool; 6] =
    [|_| false, |_| true, |leaf| leaf % 2 == 0, |leaf| leaf % 3 == 0, |leaf| leaf < 64, |leaf| leaf >= 64];

/// Two sets that differ in one leaf, in every leaf and in both orders.
pub fn every_leaf_more() -> impl Iterator<Item = Case> {
    let leaves_and_others = (0..SET_LEAVES).flat_map(|leaf| OTHERS.map(|has| (leaf, has)));
    leaves_and_others.flat_map(|(leaf, has)| {
        let without = set_of((0..SET_LEAVES).filter(|&other| other != leaf && has(other)));
        let with = set_of((0..SET_LEAVES).filter(|&other| other == leaf || has(other)));
        of_two_sets(without.clone(), with.clone()).into_iter().chain(of_two_sets(with, without))
    })
}

/// Every two bytes, as many pairs of them as a set has bytes in two sets.
pub fn every_two_bytes() -> impl Iterator<Item = Case> {
    let pairs: Vec<(u8, u8)> = (0..=255).flat_map(|a| (0..=255).map(move |b| (a, b))).collect();
    let sets: Vec<(Vec<u8>, Vec<u8>)> = pairs.chunks(SET_BYTES).map(|pairs| pairs.iter().copied().unzip()).collect();
    sets.into_iter().flat_map(|(a, b)| of_two_sets(a, b))
}
