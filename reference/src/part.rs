//! The part: its C entries, and the buffers lent to them.
//!
//! Every buffer stands between two guards. After a call its whole memory, guards included, is compared with what it
//! has to hold, the inputs' too. This is the one file with unsafe code.
//!
//! With `--cfg own` the entries are made of the reference's own operations instead. A driver built so compares the
//! reference with itself; a library built so stands in for the part, and with a fault put in it has to be found out.

use crate::chance::Chance;
use crate::look::LookedAt;
use crate::poll::Record;
use std::fmt::Debug;
use std::ops::Range;

#[cfg(own)]
use self::own::*;

#[cfg(not(own))]
unsafe extern "C" {
    fn quartree_check(n: usize, listing: *const u16, len: usize) -> u64;
    fn quartree_standardise(n: usize, listing: *const u16, len: usize, out: *mut u16, room: usize) -> u64;
    fn quartree_restandardise(
        n: usize,
        origin: u32,
        listing: *const u16,
        len: usize,
        out: *mut u16,
        room: usize,
    ) -> u64;
    fn quartree_splits(n: usize, listing: *const u16, len: usize, out: *mut u8, room: usize) -> u64;
    fn quartree_pairing(n: usize, listing: *const u16, len: usize, question: *const u16, question_len: usize) -> u64;
    fn quartree_table(n: usize, listing: *const u16, len: usize, out: *mut u32, room: usize) -> u64;
    fn quartree_gap(
        n: usize,
        poll: u32,
        table: *const u32,
        cells: usize,
        listing: *const u16,
        len: usize,
        out: *mut i64,
        room: usize,
    ) -> u64;
    fn quartree_rebuild(n: usize, poll: u32, table: *const u32, cells: usize, out: *mut u16, room: usize) -> u64;
    fn quartree_rebuild_guided(
        n: usize,
        poll: u32,
        table: *const u32,
        cells: usize,
        merges: *const u16,
        len: usize,
        out: *mut u16,
        room: usize,
    ) -> u64;
    fn quartree_guess(n: usize, poll: u32, table: *const u32, cells: usize, out: *mut u16, room: usize) -> u64;
    fn quartree_poll(n: usize, records: *const Record, count: usize, out: *mut u32, room: usize) -> u64;
    fn quartree_check_sheet(sheet: *const u8, len: usize) -> u64;
    fn quartree_sheet_table(sheet: *const u8, len: usize, out: *mut u32, room: usize) -> u64;
    fn quartree_sheet_name(sheet: *const u8, len: usize, leaf: usize) -> u64;
    fn quartree_rebuild_sheet(sheet: *const u8, sheet_len: usize, listing: *mut u8, listing_len: usize) -> u32;
    fn quartree_export(
        sheet: *const u8,
        sheet_len: usize,
        listing: *const u16,
        len: usize,
        text: *mut u8,
        room: usize,
    ) -> u64;
    fn quartree_import(
        sheet: *const u8,
        sheet_len: usize,
        text: *const u8,
        text_len: usize,
        out: *mut u16,
        room: usize,
    ) -> u64;
    fn quartree_graft(
        n: usize,
        listing: *const u16,
        len: usize,
        table: *const u32,
        cells: usize,
        edge: usize,
        out: *mut u16,
        room: usize,
        out_table: *mut u32,
        table_room: usize,
    ) -> u64;
    fn quartree_prune(
        n: usize,
        listing: *const u16,
        len: usize,
        table: *const u32,
        cells: usize,
        leaf: usize,
        out: *mut u16,
        room: usize,
        out_table: *mut u32,
        table_room: usize,
    ) -> u64;
    fn quartree_set_join(a: *const u8, a_len: usize, b: *const u8, b_len: usize, out: *mut u8, room: usize) -> u64;
    fn quartree_set_intersect(a: *const u8, a_len: usize, b: *const u8, b_len: usize, out: *mut u8, room: usize)
        -> u64;
    fn quartree_set_equal(a: *const u8, a_len: usize, b: *const u8, b_len: usize) -> u64;
    fn quartree_look(
        n: usize,
        poll: u32,
        listing: *const u16,
        len: usize,
        table: *const u32,
        cells: usize,
        edge: usize,
        new_table: *const u32,
        new_cells: usize,
    ) -> u64;
    fn quartree_look_all(
        n: usize,
        poll: u32,
        listing: *const u16,
        len: usize,
        table: *const u32,
        cells: usize,
        new_table: *const u32,
        new_cells: usize,
        totals: *mut u64,
        room: usize,
    ) -> u64;
}

/// How many cells a guard has at least.
const GUARD: usize = 64;

/// A kind of cell that buffers are made of.
pub trait Cell: Copy + Debug + PartialEq {
    fn any(chance: &mut Chance) -> Self;
}

impl Cell for u8 {
    fn any(chance: &mut Chance) -> u8 {
        chance.number() as u8
    }
}

impl Cell for u16 {
    fn any(chance: &mut Chance) -> u16 {
        chance.number() as u16
    }
}

impl Cell for u32 {
    fn any(chance: &mut Chance) -> u32 {
        chance.number() as u32
    }
}

impl Cell for i64 {
    fn any(chance: &mut Chance) -> i64 {
        chance.number() as i64
    }
}

impl Cell for Record {
    fn any(chance: &mut Chance) -> Record {
        Record { leaves: (chance.number() as u32).to_le_bytes(), code: chance.number() as u8 }
    }
}

/// A buffer lent to the part, between its guards.
pub struct Lent<T> {
    name: &'static str,
    /// Where the buffer is in the memory; the guards are the rest.
    place: Range<usize>,
    memory: Vec<T>,
    /// The memory as it was lent.
    before: Vec<T>,
}

impl<T: Cell> Lent<T> {
    /// An input: these cells.
    pub fn input(name: &'static str, cells: &[T], chance: &mut Chance) -> Lent<T> {
        let first = GUARD + chance.below(8);
        let mut memory: Vec<T> = (0..first + GUARD).map(|_| T::any(chance)).collect();
        memory.splice(first..first, cells.iter().copied());
        Lent { name, place: first..first + cells.len(), before: memory.clone(), memory }
    }

    /// An output: so many cells, of any content.
    pub fn output(name: &'static str, room: usize, chance: &mut Chance) -> Lent<T> {
        let cells: Vec<T> = (0..room).map(|_| T::any(chance)).collect();
        Lent::input(name, &cells, chance)
    }

    fn len(&self) -> usize {
        self.place.len()
    }

    fn pointer(&mut self) -> *mut T {
        self.memory[self.place.start..].as_mut_ptr()
    }

    /// The buffer has to hold what it held, but for these cells at its beginning; nothing outside it has changed.
    pub fn holds(&self, written: &[T]) -> Result<(), String> {
        let mut due = self.before.clone();
        let first = self.place.start;
        due[first..first + written.len()].copy_from_slice(written);
        let Some(place) = (0..due.len()).find(|&place| due[place] != self.memory[place]) else { return Ok(()) };
        Err(format!(
            "{}, {} of {} cells to be written: cell {} holds {:?}; due is {:?}",
            self.name,
            written.len(),
            self.len(),
            place as i64 - first as i64,
            self.memory[place],
            due[place]
        ))
    }

    /// Nothing of it has changed.
    pub fn unchanged(&self) -> Result<(), String> {
        self.holds(&[])
    }
}

pub fn check(n: usize, listing: &mut Lent<u16>) -> u64 {
    unsafe { quartree_check(n, listing.pointer(), listing.len()) }
}

pub fn standardise(n: usize, listing: &mut Lent<u16>, out: &mut Lent<u16>) -> u64 {
    unsafe { quartree_standardise(n, listing.pointer(), listing.len(), out.pointer(), out.len()) }
}

pub fn restandardise(n: usize, origin: u32, listing: &mut Lent<u16>, out: &mut Lent<u16>) -> u64 {
    unsafe { quartree_restandardise(n, origin, listing.pointer(), listing.len(), out.pointer(), out.len()) }
}

pub fn splits(n: usize, listing: &mut Lent<u16>, out: &mut Lent<u8>) -> u64 {
    unsafe { quartree_splits(n, listing.pointer(), listing.len(), out.pointer(), out.len()) }
}

pub fn pairing(n: usize, listing: &mut Lent<u16>, question: &mut Lent<u16>) -> u64 {
    unsafe { quartree_pairing(n, listing.pointer(), listing.len(), question.pointer(), question.len()) }
}

pub fn table(n: usize, listing: &mut Lent<u16>, out: &mut Lent<u32>) -> u64 {
    unsafe { quartree_table(n, listing.pointer(), listing.len(), out.pointer(), out.len()) }
}

pub fn gap(n: usize, poll: u32, table: &mut Lent<u32>, listing: &mut Lent<u16>, out: &mut Lent<i64>) -> u64 {
    let (cells, children, room) = (table.len(), listing.len(), out.len());
    unsafe { quartree_gap(n, poll, table.pointer(), cells, listing.pointer(), children, out.pointer(), room) }
}

pub fn rebuild(n: usize, poll: u32, table: &mut Lent<u32>, out: &mut Lent<u16>) -> u64 {
    unsafe { quartree_rebuild(n, poll, table.pointer(), table.len(), out.pointer(), out.len()) }
}

pub fn rebuild_guided(n: usize, poll: u32, table: &mut Lent<u32>, merges: &mut Lent<u16>, out: &mut Lent<u16>) -> u64 {
    let (cells, leaves, room) = (table.len(), merges.len(), out.len());
    unsafe { quartree_rebuild_guided(n, poll, table.pointer(), cells, merges.pointer(), leaves, out.pointer(), room) }
}

pub fn guess(n: usize, poll: u32, table: &mut Lent<u32>, out: &mut Lent<u16>) -> u64 {
    unsafe { quartree_guess(n, poll, table.pointer(), table.len(), out.pointer(), out.len()) }
}

pub fn poll(n: usize, records: &mut Lent<Record>, out: &mut Lent<u32>) -> u64 {
    unsafe { quartree_poll(n, records.pointer(), records.len(), out.pointer(), out.len()) }
}

pub fn check_sheet(sheet: &mut Lent<u8>) -> u64 {
    unsafe { quartree_check_sheet(sheet.pointer(), sheet.len()) }
}

pub fn sheet_table(sheet: &mut Lent<u8>, out: &mut Lent<u32>) -> u64 {
    unsafe { quartree_sheet_table(sheet.pointer(), sheet.len(), out.pointer(), out.len()) }
}

pub fn sheet_name(sheet: &mut Lent<u8>, leaf: usize) -> u64 {
    unsafe { quartree_sheet_name(sheet.pointer(), sheet.len(), leaf) }
}

pub fn rebuild_sheet(sheet: &mut Lent<u8>, listing: &mut Lent<u8>) -> u64 {
    u64::from(unsafe { quartree_rebuild_sheet(sheet.pointer(), sheet.len(), listing.pointer(), listing.len()) })
}

pub fn export(sheet: &mut Lent<u8>, listing: &mut Lent<u16>, text: &mut Lent<u8>) -> u64 {
    let (bytes, children) = (sheet.len(), listing.len());
    unsafe { quartree_export(sheet.pointer(), bytes, listing.pointer(), children, text.pointer(), text.len()) }
}

pub fn import(sheet: &mut Lent<u8>, text: &mut Lent<u8>, out: &mut Lent<u16>) -> u64 {
    let (bytes, text_bytes) = (sheet.len(), text.len());
    unsafe { quartree_import(sheet.pointer(), bytes, text.pointer(), text_bytes, out.pointer(), out.len()) }
}

/// What the entries of a graft and of a prune both take.
pub type Change =
    unsafe extern "C" fn(usize, *const u16, usize, *const u32, usize, usize, *mut u16, usize, *mut u32, usize) -> u64;

pub const GRAFT: Change = quartree_graft;
pub const PRUNE: Change = quartree_prune;

/// A graft on the edge named, or a prune of the leaf.
pub fn change(
    entry: Change,
    n: usize,
    listing: &mut Lent<u16>,
    table: &mut Lent<u32>,
    named: usize,
    out: &mut Lent<u16>,
    out_table: &mut Lent<u32>,
) -> u64 {
    let (children, cells, room, table_room) = (listing.len(), table.len(), out.len(), out_table.len());
    let (listing, table) = (listing.pointer(), table.pointer());
    unsafe { entry(n, listing, children, table, cells, named, out.pointer(), room, out_table.pointer(), table_room) }
}

/// What the entries that make a set of two both take.
pub type SetOfTwo = unsafe extern "C" fn(*const u8, usize, *const u8, usize, *mut u8, usize) -> u64;

pub const SET_JOIN: SetOfTwo = quartree_set_join;
pub const SET_INTERSECT: SetOfTwo = quartree_set_intersect;

/// Two sets joined, or intersected.
pub fn set_of_two(entry: SetOfTwo, a: &mut Lent<u8>, b: &mut Lent<u8>, out: &mut Lent<u8>) -> u64 {
    unsafe { entry(a.pointer(), a.len(), b.pointer(), b.len(), out.pointer(), out.len()) }
}

pub fn set_equal(a: &mut Lent<u8>, b: &mut Lent<u8>) -> u64 {
    unsafe { quartree_set_equal(a.pointer(), a.len(), b.pointer(), b.len()) }
}

/// What is lent to a look, at one edge or at all.
pub struct LentLook {
    listing: Lent<u16>,
    table: Lent<u32>,
    new_table: Lent<u32>,
}

impl LentLook {
    pub fn of(at: &LookedAt, chance: &mut Chance) -> LentLook {
        LentLook {
            listing: Lent::input("listing", &at.listing, chance),
            table: Lent::input("table", &at.table, chance),
            new_table: Lent::input("new table", &at.new_table, chance),
        }
    }

    /// Neither the tree nor a table has moved.
    pub fn unchanged(&self) -> Result<(), String> {
        self.listing.unchanged()?;
        self.table.unchanged()?;
        self.new_table.unchanged()
    }
}

pub fn look(n: usize, poll: u32, edge: usize, lent: &mut LentLook) -> u64 {
    let LentLook { listing, table, new_table } = lent;
    let (children, cells, new_cells) = (listing.len(), table.len(), new_table.len());
    let (listing, table, new_table) = (listing.pointer(), table.pointer(), new_table.pointer());
    unsafe { quartree_look(n, poll, listing, children, table, cells, edge, new_table, new_cells) }
}

/// The totals are below 2^48, so read as signed numbers they are the same.
pub fn look_all(n: usize, poll: u32, lent: &mut LentLook, totals: &mut Lent<i64>) -> u64 {
    let LentLook { listing, table, new_table } = lent;
    let (children, cells, new_cells, room) = (listing.len(), table.len(), new_table.len(), totals.len());
    let (listing, table, new_table) = (listing.pointer(), table.pointer(), new_table.pointer());
    let totals = totals.pointer().cast();
    unsafe { quartree_look_all(n, poll, listing, children, table, cells, new_table, new_cells, totals, room) }
}

/// The entries made of the reference's own operations.
#[cfg(own)]
mod own {
    use crate::chance::Chance;
    use crate::graft::{graft, prune, Changed, Kept};
    use crate::guess::{self, Guess};
    use crate::look::{look, look_all, LookedAt};
    use crate::origin::{restandardise, Origin, TreeRecord};
    use crate::poll::Record;
    use crate::refuse::{reply, Answer};
    use crate::{merge, newick, poll, sets, sheet, table, tree};
    use std::slice::{from_raw_parts, from_raw_parts_mut};

    /// Writes an accepted result to the beginning of the output.
    unsafe fn give<T: Copy>(answer: Answer<Vec<T>>, out: *mut T, room: usize) -> u64 {
        reply(answer.map(|result| {
            let out = unsafe { from_raw_parts_mut(out, room) };
            out[..result.len()].copy_from_slice(&result);
            0
        }))
    }

    /// Writes an accepted record's listing, and tells its origin.
    unsafe fn give_record(answer: Answer<TreeRecord>, out: *mut u16, room: usize) -> u64 {
        let origin = answer.as_ref().map_or(0, |record| record.origin.number());
        unsafe { give(answer.map(|record| record.listing), out, room) | origin << 8 }
    }

    /// A tree and its table as they are lent.
    unsafe fn lent_kept(
        n: usize,
        (listing, len): (*const u16, usize),
        (table, cells): (*const u32, usize),
        named: usize,
        (room, table_room): (usize, usize),
    ) -> Kept {
        let (listing, table) = unsafe { (from_raw_parts(listing, len), from_raw_parts(table, cells)) };
        Kept { n, listing: listing.to_vec(), table: table.to_vec(), named, room, table_room }
    }

    /// Writes an accepted tree's listing and table, and tells its origin.
    unsafe fn give_change(
        answer: Answer<Changed>,
        (out, room): (*mut u16, usize),
        (out_table, table_room): (*mut u32, usize),
    ) -> u64 {
        let table = answer.as_ref().map(|changed| changed.table.clone()).map_err(|&refusal| refusal);
        unsafe { give(table, out_table, table_room) };
        unsafe { give_record(answer.map(|changed| changed.record), out, room) }
    }

    /// What is looked at, as it is lent.
    unsafe fn lent_looked_at(
        (n, poll): (usize, u32),
        (listing, len): (*const u16, usize),
        (table, cells): (*const u32, usize),
        edge: usize,
        (new_table, new_cells): (*const u32, usize),
        room: usize,
    ) -> LookedAt {
        let (listing, table) =
            unsafe { (from_raw_parts(listing, len).to_vec(), from_raw_parts(table, cells).to_vec()) };
        let new_table = unsafe { from_raw_parts(new_table, new_cells) }.to_vec();
        LookedAt { n, poll, listing, table, edge, new_table, room }
    }

    fn own_choice() -> Chance {
        Chance::new(0, 0)
    }

    #[no_mangle]
    pub unsafe extern "C" fn quartree_check(n: usize, listing: *const u16, len: usize) -> u64 {
        let listing = unsafe { from_raw_parts(listing, len) };
        reply(tree::check(n, listing).map(|()| 0))
    }

    #[no_mangle]
    pub unsafe extern "C" fn quartree_standardise(
        n: usize,
        listing: *const u16,
        len: usize,
        out: *mut u16,
        room: usize,
    ) -> u64 {
        let listing = unsafe { from_raw_parts(listing, len) };
        unsafe { give(tree::standardise(n, listing, room), out, room) }
    }

    #[no_mangle]
    pub unsafe extern "C" fn quartree_restandardise(
        n: usize,
        origin: u32,
        listing: *const u16,
        len: usize,
        out: *mut u16,
        room: usize,
    ) -> u64 {
        let listing = unsafe { from_raw_parts(listing, len) }.to_vec();
        let record = TreeRecord { leaves: n, listing, origin: Origin::from_number(origin) };
        unsafe { give_record(restandardise(&record, room), out, room) }
    }

    #[no_mangle]
    pub unsafe extern "C" fn quartree_splits(
        n: usize,
        listing: *const u16,
        len: usize,
        out: *mut u8,
        room: usize,
    ) -> u64 {
        let listing = unsafe { from_raw_parts(listing, len) };
        unsafe { give(tree::splits(n, listing, room), out, room) }
    }

    #[no_mangle]
    pub unsafe extern "C" fn quartree_pairing(
        n: usize,
        listing: *const u16,
        len: usize,
        question: *const u16,
        question_len: usize,
    ) -> u64 {
        let (listing, question) = unsafe { (from_raw_parts(listing, len), from_raw_parts(question, question_len)) };
        reply(tree::pairing(n, listing, question).map(u64::from))
    }

    #[no_mangle]
    pub unsafe extern "C" fn quartree_table(
        n: usize,
        listing: *const u16,
        len: usize,
        out: *mut u32,
        room: usize,
    ) -> u64 {
        let listing = unsafe { from_raw_parts(listing, len) };
        unsafe { give(table::table(n, listing, room), out, room) }
    }

    #[no_mangle]
    pub unsafe extern "C" fn quartree_gap(
        n: usize,
        poll: u32,
        table: *const u32,
        cells: usize,
        listing: *const u16,
        len: usize,
        out: *mut i64,
        room: usize,
    ) -> u64 {
        let (table, listing) = unsafe { (from_raw_parts(table, cells), from_raw_parts(listing, len)) };
        unsafe { give(table::gap(n, poll, table, listing, room), out, room) }
    }

    #[no_mangle]
    pub unsafe extern "C" fn quartree_rebuild(
        n: usize,
        poll: u32,
        table: *const u32,
        cells: usize,
        out: *mut u16,
        room: usize,
    ) -> u64 {
        let table = unsafe { from_raw_parts(table, cells) };
        unsafe { give_record(merge::rebuild(n, poll, table, room, &mut own_choice()), out, room) }
    }

    #[no_mangle]
    pub unsafe extern "C" fn quartree_rebuild_guided(
        n: usize,
        poll: u32,
        table: *const u32,
        cells: usize,
        merges: *const u16,
        len: usize,
        out: *mut u16,
        room: usize,
    ) -> u64 {
        let (table, merges) = unsafe { (from_raw_parts(table, cells), from_raw_parts(merges, len)) };
        unsafe { give_record(merge::rebuild_guided(n, poll, table, merges, room), out, room) }
    }

    #[no_mangle]
    pub unsafe extern "C" fn quartree_guess(
        n: usize,
        poll: u32,
        table: *const u32,
        cells: usize,
        out: *mut u16,
        room: usize,
    ) -> u64 {
        let table = unsafe { from_raw_parts(table, cells) };
        let answer = guess::guess(n, poll, table, room, &mut own_choice());
        let figure = answer.as_ref().map_or(0, Guess::figure);
        unsafe { give(answer.map(|guess| guess.record.listing), out, room) | figure << 8 }
    }

    #[no_mangle]
    pub unsafe extern "C" fn quartree_poll(
        n: usize,
        records: *const Record,
        count: usize,
        out: *mut u32,
        room: usize,
    ) -> u64 {
        let records = unsafe { from_raw_parts(records, count) };
        unsafe { give(poll::poll(n, records, room), out, room) }
    }

    #[no_mangle]
    pub unsafe extern "C" fn quartree_check_sheet(sheet: *const u8, len: usize) -> u64 {
        let sheet = unsafe { from_raw_parts(sheet, len) };
        reply(sheet::check_sheet(sheet).map(|n| n as u64))
    }

    #[no_mangle]
    pub unsafe extern "C" fn quartree_sheet_table(sheet: *const u8, len: usize, out: *mut u32, room: usize) -> u64 {
        let sheet = unsafe { from_raw_parts(sheet, len) };
        match sheet::sheet_table(sheet, room) {
            Ok((n, table)) => unsafe { give(Ok(table), out, room) | (n as u64) << 8 },
            Err(refusal) => reply(Err(refusal)),
        }
    }

    #[no_mangle]
    pub unsafe extern "C" fn quartree_sheet_name(sheet: *const u8, len: usize, leaf: usize) -> u64 {
        let sheet = unsafe { from_raw_parts(sheet, len) };
        reply(sheet::sheet_name(sheet, leaf).map(|name| (256 * name.start + name.len()) as u64))
    }

    #[no_mangle]
    pub unsafe extern "C" fn quartree_rebuild_sheet(
        sheet: *const u8,
        sheet_len: usize,
        listing: *mut u8,
        listing_len: usize,
    ) -> u32 {
        let sheet = unsafe { from_raw_parts(sheet, sheet_len) };
        let answer = sheet::rebuild_sheet(sheet, listing_len, &mut own_choice());
        unsafe { give(answer, listing, listing_len) as u8 }.into()
    }

    #[no_mangle]
    pub unsafe extern "C" fn quartree_export(
        sheet: *const u8,
        sheet_len: usize,
        listing: *const u16,
        len: usize,
        text: *mut u8,
        room: usize,
    ) -> u64 {
        let (sheet, listing) = unsafe { (from_raw_parts(sheet, sheet_len), from_raw_parts(listing, len)) };
        let answer = newick::export(sheet, listing, room);
        let bytes = answer.as_ref().map_or(0, |text| text.len() as u64);
        unsafe { give(answer, text, room) | bytes << 8 }
    }

    #[no_mangle]
    pub unsafe extern "C" fn quartree_import(
        sheet: *const u8,
        sheet_len: usize,
        text: *const u8,
        text_len: usize,
        out: *mut u16,
        room: usize,
    ) -> u64 {
        let (sheet, text) = unsafe { (from_raw_parts(sheet, sheet_len), from_raw_parts(text, text_len)) };
        unsafe { give_record(newick::import(sheet, text, room), out, room) }
    }

    #[no_mangle]
    pub unsafe extern "C" fn quartree_graft(
        n: usize,
        listing: *const u16,
        len: usize,
        table: *const u32,
        cells: usize,
        edge: usize,
        out: *mut u16,
        room: usize,
        out_table: *mut u32,
        table_room: usize,
    ) -> u64 {
        let kept = unsafe { lent_kept(n, (listing, len), (table, cells), edge, (room, table_room)) };
        unsafe { give_change(graft(&kept), (out, room), (out_table, table_room)) }
    }

    #[no_mangle]
    pub unsafe extern "C" fn quartree_prune(
        n: usize,
        listing: *const u16,
        len: usize,
        table: *const u32,
        cells: usize,
        leaf: usize,
        out: *mut u16,
        room: usize,
        out_table: *mut u32,
        table_room: usize,
    ) -> u64 {
        let kept = unsafe { lent_kept(n, (listing, len), (table, cells), leaf, (room, table_room)) };
        unsafe { give_change(prune(&kept), (out, room), (out_table, table_room)) }
    }

    #[no_mangle]
    pub unsafe extern "C" fn quartree_set_join(
        a: *const u8,
        a_len: usize,
        b: *const u8,
        b_len: usize,
        out: *mut u8,
        room: usize,
    ) -> u64 {
        let (a, b) = unsafe { (from_raw_parts(a, a_len), from_raw_parts(b, b_len)) };
        unsafe { give(sets::join(a, b, room), out, room) }
    }

    #[no_mangle]
    pub unsafe extern "C" fn quartree_set_intersect(
        a: *const u8,
        a_len: usize,
        b: *const u8,
        b_len: usize,
        out: *mut u8,
        room: usize,
    ) -> u64 {
        let (a, b) = unsafe { (from_raw_parts(a, a_len), from_raw_parts(b, b_len)) };
        unsafe { give(sets::intersect(a, b, room), out, room) }
    }

    #[no_mangle]
    pub unsafe extern "C" fn quartree_set_equal(a: *const u8, a_len: usize, b: *const u8, b_len: usize) -> u64 {
        let (a, b) = unsafe { (from_raw_parts(a, a_len), from_raw_parts(b, b_len)) };
        reply(sets::equal(a, b).map(u64::from))
    }

    #[no_mangle]
    pub unsafe extern "C" fn quartree_look(
        n: usize,
        poll: u32,
        listing: *const u16,
        len: usize,
        table: *const u32,
        cells: usize,
        edge: usize,
        new_table: *const u32,
        new_cells: usize,
    ) -> u64 {
        let new_table = (new_table, new_cells);
        let at = unsafe { lent_looked_at((n, poll), (listing, len), (table, cells), edge, new_table, 0) };
        reply(look(&at))
    }

    #[no_mangle]
    pub unsafe extern "C" fn quartree_look_all(
        n: usize,
        poll: u32,
        listing: *const u16,
        len: usize,
        table: *const u32,
        cells: usize,
        new_table: *const u32,
        new_cells: usize,
        totals: *mut u64,
        room: usize,
    ) -> u64 {
        let new_table = (new_table, new_cells);
        let at = unsafe { lent_looked_at((n, poll), (listing, len), (table, cells), 0, new_table, room) };
        unsafe { give(look_all(&at), totals, room) }
    }
}
