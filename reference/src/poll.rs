//! Polls: one record a quartet, added up to a table in sixths.
//!
//! A record is four leaf numbers a < b < c < d and a pairing code. Codes 0, 1, 2 are the pairings; 3 allows all three,
//! 4 the pairings 0 and 1, 5 the pairings 0 and 2, 6 the pairings 1 and 2. The records stand in lexicographic order of
//! the four leaves.

use crate::refuse::{judge, judge_input, judge_poll_count, judge_room, Answer, Refusal};
use crate::table::{add_quartet, quartets};

/// A record, laid out as in C: five bytes.
#[repr(C)]
#[derive(Clone, Copy, Debug, PartialEq, Eq)]
pub struct Record {
    pub leaves: [u8; 4],
    pub code: u8,
}

/// The highest pairing code.
pub const LAST_CODE: u8 = 6;

/// How many records a poll of n leaves has: n(n−1)(n−2)(n−3)/24.
pub fn records_of(n: usize) -> usize {
    n * (n - 1) * (n - 2) * (n - 3) / 24
}

/// The pairings that a code allows.
fn allowed(code: u8) -> &'static [u8] {
    match code {
        0 => &[0],
        1 => &[1],
        2 => &[2],
        3 => &[0, 1, 2],
        4 => &[0, 1],
        5 => &[0, 2],
        _ => &[1, 2],
    }
}

/// The table of a poll: 1, 2, 3, 10, 11. The six sixths of a record are spread evenly over the pairings it allows: 6 for
/// the pairing of a resolved one, 2 for each of three, 3 for each of two. They are added to the two cells of a
/// pairing's pairs and to their mirror cells.
pub fn poll(n: usize, records: &[Record], room: usize) -> Answer<Vec<u32>> {
    judge_poll_count(n)?;
    judge_input(records.len(), records_of(n))?;
    judge_room(room, n * n)?;
    let mut cells = vec![0; n * n];
    for (record, (due, lent)) in quartets(n).zip(records).enumerate() {
        judge(lent.leaves.map(usize::from) == due, Refusal::RecordLeaves { record })?;
        judge(lent.code <= LAST_CODE, Refusal::RecordCode { record })?;
        let pairings = allowed(lent.code);
        for &pairing in pairings {
            add_quartet(&mut cells, n, due, pairing, 6 / pairings.len() as u32);
        }
    }
    Ok(cells)
}

/// What each code adds to the cells of the pairings 0, 1 and 2.
const ADDED: [[u32; 3]; 7] = [[6, 0, 0], [0, 6, 0], [0, 0, 6], [2, 2, 2], [3, 3, 0], [3, 0, 3], [0, 3, 3]];

/// One cell of a poll's table: what each record with both leaves adds to the pairing that puts them side by side.
pub fn cell_by_records(records: &[Record], i: usize, j: usize) -> u32 {
    let added = |record: &Record| {
        let place = |leaf: usize| record.leaves.iter().position(|&other| usize::from(other) == leaf);
        let pairing = match place(i)? + place(j)? {
            1 | 5 => 0,
            2 | 4 => 1,
            _ => 2,
        };
        Some(ADDED[usize::from(record.code)][pairing])
    };
    records.iter().filter_map(added).sum()
}
