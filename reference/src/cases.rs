//! Cases: one call of one operation each, put to the part and to the reference, and compared.
//!
//! Compared are the reply (number and figure) and every byte of every lent buffer and of its guards. Where the paper
//! fixes a result in two ways, the reference also takes a second look at its own answer.

use crate::chance::Chance;
use crate::every::Every;
use crate::graft::{self, Changed, Kept};
use crate::guess::{self, Guess};
use crate::look::{self, LookedAt};
use crate::origin::{self, Origin, TreeRecord};
use crate::part::{self, Cell, Lent};
use crate::poll::{self, Record};
use crate::refuse::{reply, Answer, Refusal};
use crate::sets;
use crate::table::{self, COUNTS};
use crate::tree::{self, Tree};
use crate::{merge, newick, sheet};

/// The operations.
#[derive(Clone, Copy, Debug, PartialEq, Eq)]
pub enum Kind {
    Check,
    Standardise,
    Restandardise,
    Splits,
    Pairing,
    Table,
    Gap,
    Rebuild,
    Guided,
    Guess,
    Poll,
    CheckSheet,
    SheetTable,
    SheetName,
    RebuildSheet,
    Export,
    Import,
    Graft,
    Prune,
    SetJoin,
    SetIntersect,
    SetEqual,
    Look,
    LookAll,
}

impl Kind {
    pub const ALL: [Kind; 24] = [
        Kind::Check,
        Kind::Standardise,
        Kind::Restandardise,
        Kind::Splits,
        Kind::Pairing,
        Kind::Table,
        Kind::Gap,
        Kind::Rebuild,
        Kind::Guided,
        Kind::Guess,
        Kind::Poll,
        Kind::CheckSheet,
        Kind::SheetTable,
        Kind::SheetName,
        Kind::RebuildSheet,
        Kind::Export,
        Kind::Import,
        Kind::Graft,
        Kind::Prune,
        Kind::SetJoin,
        Kind::SetIntersect,
        Kind::SetEqual,
        Kind::Look,
        Kind::LookAll,
    ];

    pub fn name(self) -> &'static str {
        match self {
            Kind::Check => "check",
            Kind::Standardise => "standardise",
            Kind::Restandardise => "restandardise",
            Kind::Splits => "splits",
            Kind::Pairing => "pairing",
            Kind::Table => "table",
            Kind::Gap => "gap",
            Kind::Rebuild => "rebuild",
            Kind::Guided => "rebuild_guided",
            Kind::Guess => "guess",
            Kind::Poll => "poll",
            Kind::CheckSheet => "check_sheet",
            Kind::SheetTable => "sheet_table",
            Kind::SheetName => "sheet_name",
            Kind::RebuildSheet => "rebuild_sheet",
            Kind::Export => "export",
            Kind::Import => "import",
            Kind::Graft => "graft",
            Kind::Prune => "prune",
            Kind::SetJoin => "set_join",
            Kind::SetIntersect => "set_intersect",
            Kind::SetEqual => "set_equal",
            Kind::Look => "look",
            Kind::LookAll => "look_all",
        }
    }

    /// The refusals of the operation, in the order in which they are judged; looks judge a new table by 4 and 5 once
    /// more, last of all.
    pub fn refusals(self) -> &'static [u64] {
        match self {
            Kind::Check => &[1, 2, 7, 8],
            Kind::Standardise | Kind::Restandardise | Kind::Splits | Kind::Table => &[1, 2, 3, 7, 8],
            Kind::Pairing => &[1, 2, 7, 8, 9],
            Kind::Gap => &[1, 2, 3, 7, 8, 4, 5],
            Kind::Rebuild => &[1, 2, 3, 4, 5, 6],
            Kind::Guided => &[1, 2, 3, 4, 5, 12],
            Kind::Guess => &[1, 2, 3, 4, 5],
            Kind::Poll => &[1, 2, 3, 10, 11],
            Kind::CheckSheet => &[13, 1, 14, 15, 16],
            Kind::SheetTable => &[13, 1, 14, 3, 15, 16],
            Kind::SheetName => &[13, 1, 14, 15, 16, 9],
            Kind::RebuildSheet => &[13, 1, 14, 3, 15, 16, 6],
            Kind::Export => &[13, 1, 2, 14, 7, 8, 15, 16, 3],
            Kind::Import => &[13, 1, 14, 3, 15, 16, 17, 18, 19],
            Kind::Graft | Kind::Prune => &[1, 2, 3, 7, 8, 4, 5, 20],
            Kind::SetJoin | Kind::SetIntersect => &[2, 3],
            Kind::SetEqual => &[2],
            Kind::Look => &[1, 2, 7, 8, 4, 5, 20],
            Kind::LookAll => &[1, 2, 3, 7, 8, 4, 5, 20],
        }
    }
}

/// A call: its inputs, and the room of its output in cells.
#[derive(Debug)]
pub enum Case {
    Check { n: usize, listing: Vec<u16> },
    Standardise { n: usize, listing: Vec<u16>, room: usize },
    Restandardise { n: usize, origin: u32, listing: Vec<u16>, room: usize },
    Splits { n: usize, listing: Vec<u16>, room: usize },
    Pairing { n: usize, listing: Vec<u16>, question: Vec<u16> },
    Table { n: usize, listing: Vec<u16>, room: usize },
    Gap { n: usize, poll: u32, table: Vec<u32>, listing: Vec<u16>, room: usize },
    Rebuild { n: usize, poll: u32, table: Vec<u32>, room: usize },
    Guided { n: usize, poll: u32, table: Vec<u32>, merges: Vec<u16>, room: usize },
    Guess { n: usize, poll: u32, table: Vec<u32>, room: usize },
    Poll { n: usize, records: Vec<Record>, room: usize },
    CheckSheet { sheet: Vec<u8> },
    SheetTable { sheet: Vec<u8>, room: usize },
    SheetName { sheet: Vec<u8>, leaf: usize },
    RebuildSheet { sheet: Vec<u8>, room: usize },
    Export { sheet: Vec<u8>, listing: Vec<u16>, room: usize },
    Import { sheet: Vec<u8>, text: Vec<u8>, room: usize },
    Graft(Kept),
    Prune(Kept),
    SetJoin { a: Vec<u8>, b: Vec<u8>, room: usize },
    SetIntersect { a: Vec<u8>, b: Vec<u8>, room: usize },
    SetEqual { a: Vec<u8>, b: Vec<u8> },
    Look(LookedAt),
    LookAll(LookedAt),
}

/// What part and reference agree on: the reply, and the cells written, of one output after the other.
#[derive(Debug, PartialEq, Eq)]
pub struct Outcome {
    pub reply: u64,
    pub written: Vec<i64>,
}

/// Replies have to be equal.
fn same_reply(got: u64, due: u64) -> Result<(), String> {
    if got == due {
        return Ok(());
    }
    let shown = |reply: u64| format!("{} with {}", reply & 0xFF, reply >> 8);
    Err(format!("the part replies {}; due is {}", shown(got), shown(due)))
}

/// Compares the reply of an operation without an output.
fn settle(got: u64, due: Answer<u64>) -> Result<Outcome, String> {
    same_reply(got, reply(due))?;
    Ok(Outcome { reply: got, written: Vec::new() })
}

/// Compares the reply and the output.
fn settle_output<T>(got: u64, due: Answer<(u64, Vec<T>)>, out: &Lent<T>) -> Result<Outcome, String>
where
    T: Cell + Into<i64>,
{
    let (due, written) = match due {
        Ok((figure, written)) => (reply(Ok(figure)), written),
        Err(refusal) => (reply(Err(refusal)), Vec::new()),
    };
    same_reply(got, due)?;
    out.holds(&written)?;
    Ok(Outcome { reply: got, written: written.into_iter().map(T::into).collect() })
}

/// Compares the number alone, without its figure, and the output.
fn settle_number(got: u64, due: Answer<Vec<u8>>, out: &Lent<u8>) -> Result<Outcome, String> {
    let (number, written) = match due {
        Ok(written) => (0, written),
        Err(refusal) => (refusal.number(), Vec::new()),
    };
    same_reply(got, number)?;
    out.holds(&written)?;
    Ok(Outcome { reply: got, written: written.into_iter().map(i64::from).collect() })
}

/// Compares the reply and the listing of an operation that makes a tree record: its origin is the figure.
fn settle_record(got: u64, due: Answer<TreeRecord>, out: &Lent<u16>) -> Result<Outcome, String> {
    settle_output(got, due.map(|record| (record.origin.number(), record.listing)), out)
}

/// An accepted call with an output and no number.
fn no_number<T>(answer: Answer<Vec<T>>) -> Answer<(u64, Vec<T>)> {
    answer.map(|written| (0, written))
}

impl Case {
    pub fn kind(&self) -> Kind {
        match self {
            Case::Check { .. } => Kind::Check,
            Case::Standardise { .. } => Kind::Standardise,
            Case::Restandardise { .. } => Kind::Restandardise,
            Case::Splits { .. } => Kind::Splits,
            Case::Pairing { .. } => Kind::Pairing,
            Case::Table { .. } => Kind::Table,
            Case::Gap { .. } => Kind::Gap,
            Case::Rebuild { .. } => Kind::Rebuild,
            Case::Guided { .. } => Kind::Guided,
            Case::Guess { .. } => Kind::Guess,
            Case::Poll { .. } => Kind::Poll,
            Case::CheckSheet { .. } => Kind::CheckSheet,
            Case::SheetTable { .. } => Kind::SheetTable,
            Case::SheetName { .. } => Kind::SheetName,
            Case::RebuildSheet { .. } => Kind::RebuildSheet,
            Case::Export { .. } => Kind::Export,
            Case::Import { .. } => Kind::Import,
            Case::Graft(_) => Kind::Graft,
            Case::Prune(_) => Kind::Prune,
            Case::SetJoin { .. } => Kind::SetJoin,
            Case::SetIntersect { .. } => Kind::SetIntersect,
            Case::SetEqual { .. } => Kind::SetEqual,
            Case::Look(_) => Kind::Look,
            Case::LookAll(_) => Kind::LookAll,
        }
    }

    /// Puts the case to the part and to the reference; an error says what differs.
    pub fn compare(&self, every: &Every, chance: &mut Chance) -> Result<Outcome, String> {
        match self {
            Case::Check { n, listing } => {
                let due = tree::check(*n, listing).map(|()| 0);
                let mut listing = Lent::input("listing", listing, chance);
                let got = part::check(*n, &mut listing);
                listing.unchanged()?;
                settle(got, due)
            }
            Case::Standardise { n, listing, room } => {
                let due = tree::standardise(*n, listing, *room);
                look_at_standard(*n, listing, &due)?;
                let mut listing = Lent::input("listing", listing, chance);
                let mut out = Lent::output("standard listing", *room, chance);
                let got = part::standardise(*n, &mut listing, &mut out);
                listing.unchanged()?;
                settle_output(got, no_number(due), &out)
            }
            Case::Restandardise { n, origin, listing, room } => {
                let record = TreeRecord { leaves: *n, listing: listing.clone(), origin: Origin::from_number(*origin) };
                let due = origin::restandardise(&record, *room);
                look_at_record(&record, &due)?;
                let mut listing = Lent::input("listing", listing, chance);
                let mut out = Lent::output("standard listing", *room, chance);
                let got = part::restandardise(*n, *origin, &mut listing, &mut out);
                listing.unchanged()?;
                settle_record(got, due, &out)
            }
            Case::Splits { n, listing, room } => {
                let due = tree::splits(*n, listing, *room);
                let mut listing = Lent::input("listing", listing, chance);
                let mut out = Lent::output("splits", *room, chance);
                let got = part::splits(*n, &mut listing, &mut out);
                listing.unchanged()?;
                settle_output(got, no_number(due), &out)
            }
            Case::Pairing { n, listing, question } => {
                let due = tree::pairing(*n, listing, question).map(u64::from);
                let mut listing = Lent::input("listing", listing, chance);
                let mut question = Lent::input("question", question, chance);
                let got = part::pairing(*n, &mut listing, &mut question);
                listing.unchanged()?;
                question.unchanged()?;
                settle(got, due)
            }
            Case::Table { n, listing, room } => {
                let due = table::table(*n, listing, *room);
                look_at_table(*n, listing, &due, chance)?;
                let mut listing = Lent::input("listing", listing, chance);
                let mut out = Lent::output("table", *room, chance);
                let got = part::table(*n, &mut listing, &mut out);
                listing.unchanged()?;
                settle_output(got, no_number(due), &out)
            }
            Case::Gap { n, poll, table, listing, room } => {
                let due = table::gap(*n, *poll, table, listing, *room);
                let mut table = Lent::input("table", table, chance);
                let mut listing = Lent::input("listing", listing, chance);
                let mut out = Lent::output("gaps", *room, chance);
                let got = part::gap(*n, *poll, &mut table, &mut listing, &mut out);
                table.unchanged()?;
                listing.unchanged()?;
                settle_output(got, no_number(due), &out)
            }
            Case::Rebuild { n, poll, table, room } => {
                let due = merge::rebuild(*n, *poll, table, *room, chance);
                look_at_rebuilt(*n, *poll, table, &listing_of(&due), every, chance)?;
                let mut table = Lent::input("table", table, chance);
                let mut out = Lent::output("standard listing", *room, chance);
                let got = part::rebuild(*n, *poll, &mut table, &mut out);
                table.unchanged()?;
                settle_record(got, due, &out)
            }
            Case::Guided { n, poll, table, merges, room } => {
                let due = merge::rebuild_guided(*n, *poll, table, merges, *room);
                if due.is_ok() {
                    look_at_rebuilt(*n, *poll, table, &listing_of(&due), every, chance)?;
                }
                let mut table = Lent::input("table", table, chance);
                let mut merges = Lent::input("merges", merges, chance);
                let mut out = Lent::output("standard listing", *room, chance);
                let got = part::rebuild_guided(*n, *poll, &mut table, &mut merges, &mut out);
                table.unchanged()?;
                merges.unchanged()?;
                settle_record(got, due, &out)
            }
            Case::Guess { n, poll, table, room } => {
                let due = guess::guess(*n, *poll, table, *room, chance);
                look_at_guess(*n, *poll, table, &due)?;
                let mut table = Lent::input("table", table, chance);
                let mut out = Lent::output("standard listing", *room, chance);
                let got = part::guess(*n, *poll, &mut table, &mut out);
                table.unchanged()?;
                settle_output(got, due.map(|guess| (guess.figure(), guess.record.listing)), &out)
            }
            Case::Poll { n, records, room } => {
                let due = poll::poll(*n, records, *room);
                look_at_poll(*n, records, &due, chance)?;
                let mut records = Lent::input("records", records, chance);
                let mut out = Lent::output("table", *room, chance);
                let got = part::poll(*n, &mut records, &mut out);
                records.unchanged()?;
                settle_output(got, no_number(due), &out)
            }
            Case::CheckSheet { sheet } => {
                let due = sheet::check_sheet(sheet).map(|n| n as u64);
                let mut sheet = Lent::input("sheet", sheet, chance);
                let got = part::check_sheet(&mut sheet);
                sheet.unchanged()?;
                settle(got, due)
            }
            Case::SheetTable { sheet, room } => {
                let due = sheet::sheet_table(sheet, *room).map(|(n, table)| (n as u64, table));
                let mut sheet = Lent::input("sheet", sheet, chance);
                let mut out = Lent::output("table", *room, chance);
                let got = part::sheet_table(&mut sheet, &mut out);
                sheet.unchanged()?;
                settle_output(got, due, &out)
            }
            Case::SheetName { sheet, leaf } => {
                let due = sheet::sheet_name(sheet, *leaf).map(|name| (256 * name.start + name.len()) as u64);
                let mut sheet = Lent::input("sheet", sheet, chance);
                let got = part::sheet_name(&mut sheet, *leaf);
                sheet.unchanged()?;
                settle(got, due)
            }
            Case::RebuildSheet { sheet, room } => {
                let due = sheet::rebuild_sheet(sheet, *room, chance);
                look_at_rebuilt_sheet(sheet, &due, every, chance)?;
                let mut sheet = Lent::input("sheet", sheet, chance);
                let mut out = Lent::output("listing bytes", *room, chance);
                let got = part::rebuild_sheet(&mut sheet, &mut out);
                sheet.unchanged()?;
                settle_number(got, due, &out)
            }
            Case::Export { sheet, listing, room } => {
                let due = newick::export(sheet, listing, *room);
                look_at_export(sheet, listing, &due)?;
                let mut sheet = Lent::input("sheet", sheet, chance);
                let mut listing = Lent::input("listing", listing, chance);
                let mut out = Lent::output("text", *room, chance);
                let got = part::export(&mut sheet, &mut listing, &mut out);
                sheet.unchanged()?;
                listing.unchanged()?;
                settle_output(got, due.map(|text| (text.len() as u64, text)), &out)
            }
            Case::Import { sheet, text, room } => {
                let due = newick::import(sheet, text, *room);
                look_at_import(sheet, text, &due)?;
                let mut sheet = Lent::input("sheet", sheet, chance);
                let mut text = Lent::input("text", text, chance);
                let mut out = Lent::output("standard listing", *room, chance);
                let got = part::import(&mut sheet, &mut text, &mut out);
                sheet.unchanged()?;
                text.unchanged()?;
                settle_record(got, due, &out)
            }
            Case::Graft(kept) => {
                let due = graft::graft(kept);
                look_at_graft(kept, &due, chance)?;
                compare_change(part::GRAFT, kept, due, chance)
            }
            Case::Prune(kept) => {
                let due = graft::prune(kept);
                look_at_prune(kept, &due, chance)?;
                compare_change(part::PRUNE, kept, due, chance)
            }
            Case::SetJoin { a, b, room } => {
                let due = sets::join(a, b, *room);
                look_at_set(a, b, &due, |a, b| a | b, |a, b| a | b)?;
                compare_set(part::SET_JOIN, a, b, *room, due, chance)
            }
            Case::SetIntersect { a, b, room } => {
                let due = sets::intersect(a, b, *room);
                look_at_set(a, b, &due, |a, b| a & b, |a, b| a & b)?;
                compare_set(part::SET_INTERSECT, a, b, *room, due, chance)
            }
            Case::SetEqual { a, b } => {
                let due = sets::equal(a, b);
                agreed(due.is_err() || due == Ok(a == b) && due == Ok(words_of(a) == words_of(b)), "equal sets")?;
                let mut a = Lent::input("first set", a, chance);
                let mut b = Lent::input("second set", b, chance);
                let got = part::set_equal(&mut a, &mut b);
                a.unchanged()?;
                b.unchanged()?;
                settle(got, due.map(u64::from))
            }
            Case::Look(at) => {
                let due = look::look(at);
                look_at_look(at, &due)?;
                let mut lent = part::LentLook::of(at, chance);
                let got = part::look(at.n, at.poll, at.edge, &mut lent);
                lent.unchanged()?;
                settle(got, due)
            }
            Case::LookAll(at) => {
                let due = look::look_all(at);
                look_at_look_all(at, &due, chance)?;
                let mut lent = part::LentLook::of(at, chance);
                let mut totals = Lent::output("totals", at.room, chance);
                let got = part::look_all(at.n, at.poll, &mut lent, &mut totals);
                lent.unchanged()?;
                let signed = |totals: Vec<u64>| totals.into_iter().map(|total| total as i64).collect();
                settle_output(got, no_number(due.map(signed)), &totals)
            }
        }
    }
}

/// Puts a graft or a prune to the part.
fn compare_change(
    entry: part::Change,
    kept: &Kept,
    due: Answer<Changed>,
    chance: &mut Chance,
) -> Result<Outcome, String> {
    let mut listing = Lent::input("listing", &kept.listing, chance);
    let mut table = Lent::input("table", &kept.table, chance);
    let mut out = Lent::output("standard listing", kept.room, chance);
    let mut out_table = Lent::output("kept table", kept.table_room, chance);
    let got = part::change(entry, kept.n, &mut listing, &mut table, kept.named, &mut out, &mut out_table);
    listing.unchanged()?;
    table.unchanged()?;
    let cells = due.clone().map(|changed| (changed.record.origin.number(), changed.table));
    let Outcome { reply, mut written } = settle_record(got, due.map(|changed| changed.record), &out)?;
    written.extend(settle_output(got, cells, &out_table)?.written);
    Ok(Outcome { reply, written })
}

/// Puts a join or an intersection of two sets to the part.
fn compare_set(
    entry: part::SetOfTwo,
    a: &[u8],
    b: &[u8],
    room: usize,
    due: Answer<Vec<u8>>,
    chance: &mut Chance,
) -> Result<Outcome, String> {
    let mut a = Lent::input("first set", a, chance);
    let mut b = Lent::input("second set", b, chance);
    let mut out = Lent::output("set", room, chance);
    let got = part::set_of_two(entry, &mut a, &mut b, &mut out);
    a.unchanged()?;
    b.unchanged()?;
    settle_output(got, no_number(due), &out)
}

/// The error of a reference that contradicts itself.
fn agreed(holds: bool, claim: &str) -> Result<(), String> {
    holds.then_some(()).ok_or_else(|| format!("the reference contradicts itself: {claim}"))
}

/// A standard listing stands for the same tree and is its own standard listing.
fn look_at_standard(n: usize, listing: &[u16], due: &Answer<Vec<u16>>) -> Result<(), String> {
    let Ok(standard) = due else { return Ok(()) };
    agreed(Tree::from_listing(n, listing) == Tree::from_listing(n, standard), "standard listing of another tree")?;
    agreed(tree::standardise(n, standard, standard.len()) == *due, "standard listing of a standard listing")
}

/// The listing of a record.
fn listing_of(due: &Answer<TreeRecord>) -> Answer<Vec<u16>> {
    due.clone().map(|record| record.listing)
}

/// A record that is restandardised is of the same tree and origin, whatever this is.
fn look_at_record(record: &TreeRecord, due: &Answer<TreeRecord>) -> Result<(), String> {
    look_at_standard(record.leaves, &record.listing, &listing_of(due))?;
    let Ok(again) = due else { return Ok(()) };
    agreed((again.leaves, again.origin) == (record.leaves, record.origin), "restandardised record of another origin")
}

/// The two ways of counting give the same cells, or one cell straight from the definition does. Every quartet stands
/// in two cells above the diagonal, so all cells together count it four times.
fn look_at_table(n: usize, listing: &[u16], due: &Answer<Vec<u32>>, chance: &mut Chance) -> Result<(), String> {
    let Ok(cells) = due else { return Ok(()) };
    let tree = Tree::from_listing(n, listing);
    agreed(cells.iter().sum::<u32>() as usize == 4 * poll::records_of(n), "sum of the table")?;
    if n <= 20 || (n <= 40 && chance.one_in(20)) {
        agreed(table::by_quartets(&tree) == *cells, "table by quartets")?;
        agreed(table::by_far_sides(&tree) == *cells, "table by far sides")?;
    }
    let (i, j) = (chance.below(n - 1), n - 1);
    agreed(table::cell_by_pairs(&tree, i, j) == cells[i * n + j], "one cell by pairs")
}

/// The cells above the diagonal total 12 times the records, none is above six times the pairs of other leaves, and one
/// cell is what each record adds to it.
fn look_at_poll(n: usize, records: &[Record], due: &Answer<Vec<u32>>, chance: &mut Chance) -> Result<(), String> {
    let Ok(cells) = due else { return Ok(()) };
    agreed(cells.iter().sum::<u32>() as usize == 2 * 12 * records.len(), "sum of a poll")?;
    agreed(cells.iter().all(|&cell| u64::from(cell) <= 6 * table::pairs_of(n - 2)), "largest cell of a poll")?;
    let (i, j) = (chance.below(n), chance.below(n));
    agreed(i == j || poll::cell_by_records(records, i, j) == cells[i * n + j], "one cell by records")
}

/// Demands 2 and 3 for one table. A rebuilt tree has the table; merges in another order end alike; and up to seven
/// leaves the answer is that of a search through every tree.
fn look_at_rebuilt(
    n: usize,
    poll: u32,
    table: &[u32],
    due: &Answer<Vec<u16>>,
    every: &Every,
    chance: &mut Chance,
) -> Result<(), String> {
    let found = match due {
        Ok(listing) => Some(listing),
        Err(Refusal::NoTree) => None,
        Err(_) => return Ok(()),
    };
    if let Some(listing) = found {
        let own = table::of_tree(&Tree::from_listing(n, listing));
        agreed(table::scaled(&own, table::times(poll)) == table, "rebuilt tree without the table")?;
    }
    let (_, other) = merge::finished_list(n, poll, table, chance);
    agreed(other.map(|tree| tree.standard_listing()).as_ref() == found, "merges in another order")?;
    agreed(n > Every::LEAVES || every.listing_with(poll, table) == found, "search through every tree")
}

/// The merges by smallest means end in the tree also where it is rebuilt, since those of its table are eligible. Each
/// cell's expected value at the merge that brings its leaves together is the tree's cell, so the gaps met at the merges
/// add up to the total too.
fn look_at_guess(n: usize, poll: u32, table: &[u32], due: &Answer<Guess>) -> Result<(), String> {
    let Ok(Guess { record, total }) = due else { return Ok(()) };
    let (tree, met) = guess::merged_by_means(n, poll, table);
    agreed(tree.standard_listing() == record.listing, "merges by smallest means")?;
    agreed(met == *total, "gaps met at the merges")?;
    agreed((*total == 0) == (record.origin == Origin::Rebuilt), "guess of a tree with the table")
}

fn look_at_rebuilt_sheet(
    sheet: &[u8],
    due: &Answer<Vec<u8>>,
    every: &Every,
    chance: &mut Chance,
) -> Result<(), String> {
    let Ok((n, table)) = sheet::sheet_table(sheet, usize::MAX) else { return Ok(()) };
    let wide = |bytes: &Vec<u8>| bytes.chunks(2).map(|low| u16::from_le_bytes([low[0], low[1]])).collect();
    look_at_rebuilt(n, COUNTS, &table, &due.as_ref().map(wide).map_err(|&refusal| refusal), every, chance)
}

/// An export is as long as the paper's words make it, and imported it is the exported tree's standard listing.
fn look_at_export(sheet: &[u8], listing: &[u16], due: &Answer<Vec<u8>>) -> Result<(), String> {
    let Ok(text) = due else { return Ok(()) };
    let n = listing.len() / 2 + 2;
    let names: usize = (0..n).map(|leaf| sheet::sheet_name(sheet, leaf).map_or(0, |name| name.len())).sum();
    agreed(text.len() == names + 3 * n - 4, "length of an export")?;
    let standard = tree::standardise(n, listing, listing.len());
    agreed(listing_of(&newick::import(sheet, text, listing.len())) == standard, "import of an export")
}

/// A tree and the same one without a leaf pair alike the leaves that stay. A cell of the larger tree's table also
/// counts the pairs that the leaf is in.
fn look_at_smaller(
    larger: &Tree,
    leaf: usize,
    listing: &[u16],
    cells: &[u32],
    chance: &mut Chance,
) -> Result<(), String> {
    let n = larger.leaves - 1;
    let before = |after: usize| after + usize::from(after >= leaf);
    let tree = Tree::from_listing(n, listing);
    let alike = |four: [usize; 4]| tree.pairing(four) == larger.pairing(four.map(before));
    match n {
        3..=8 => agreed(table::quartets(n).all(alike), "pairing of leaves that stay")?,
        _ => {
            let order = chance.order(n);
            agreed(alike([order[0], order[1], order[2], order[3]]), "pairing of four leaves that stay")?;
        }
    }
    let (i, j) = (chance.below(n - 1), n - 1);
    let with_leaf = |q: &usize| larger.pairs(before(i), before(j), leaf, before(*q));
    let less = (0..n).filter(|&q| q != i && q != j).filter(with_leaf).count() as u32;
    let cell = table::cell_by_pairs(larger, before(i), before(j));
    agreed(cells[i * n + j] + less == cell, "cell without the pairs of a leaf")
}

/// Two leaves on one side of the edge are paired against one on the other side and the new leaf. Pruning this gives the
/// tree back.
fn look_at_graft(kept: &Kept, due: &Answer<Changed>, chance: &mut Chance) -> Result<(), String> {
    let Ok(changed) = due else { return Ok(()) };
    let (n, old) = (kept.n, Tree::from_listing(kept.n, &kept.listing));
    let grafted = Tree::from_listing(n + 1, &changed.record.listing);
    let edge = graft::edge_below(&old, kept.named).expect("the edge is there");
    let (i, j, k) = (chance.below(n), chance.below(n), chance.below(n));
    let below = |leaf: usize| edge & tree::single(leaf) != 0;
    let apart = i != j && below(i) == below(j) && below(j) != below(k);
    agreed(!apart || grafted.pairs(i, j, k, n), "place of the new leaf")?;
    agreed(graft::without_leaf(&grafted, n) == old, "tree pruned of the new leaf")?;
    look_at_smaller(&grafted, n, &kept.listing, &kept.table, chance)
}

/// The leaves that stay pair as before.
fn look_at_prune(kept: &Kept, due: &Answer<Changed>, chance: &mut Chance) -> Result<(), String> {
    let Ok(Changed { record, table }) = due else { return Ok(()) };
    look_at_smaller(&Tree::from_listing(kept.n, &kept.listing), kept.named, &record.listing, table, chance)
}

/// A copy grafted and the gaps added up give the same total. Where grafting is refused, so is the look, and alike
/// unless the new table's size is wrong.
fn look_at_look(at: &LookedAt, due: &Answer<u64>) -> Result<(), String> {
    match (graft::graft(&at.copy()), due) {
        (_, Err(Refusal::LeafCount | Refusal::InputLength)) => Ok(()),
        (Err(refusal), _) => agreed(*due == Err(refusal), "refusal of a look and of a graft"),
        (Ok(changed), Ok(total)) => {
            let gap = guess::total_gap(at.n + 1, at.poll, &at.new_table, &changed.record.listing);
            agreed(gap == *total, "gaps of a grafted copy")
        }
        (Ok(_), Err(refusal)) => {
            let of_new_table = table::judge_cells(at.n + 1, &at.new_table);
            agreed(of_new_table == Err(*refusal), "refusal of a look alone")
        }
    }
}

/// What is said of all edges is what a look says of one, refusals too but for a short output.
fn look_at_look_all(at: &LookedAt, due: &Answer<Vec<u64>>, chance: &mut Chance) -> Result<(), String> {
    let edge = due.as_ref().map_or(1, |totals| chance.between(1, totals.len()));
    let of_edge = due.as_ref().map(|totals| totals[edge - 1]).map_err(|&refusal| refusal);
    agreed(due.as_ref().map_or(true, |totals| totals.len() == at.edges()), "a total for every edge")?;
    agreed(of_edge == Err(Refusal::OutputShort) || of_edge == look::look(&at.on(edge)), "total of one edge of all")
}

/// The words of a set: leaf k is bit k mod 64 of word k div 64.
fn words_of(set: &[u8]) -> Vec<u64> {
    let bit = |leaf: usize| u64::from(set[leaf / 8] >> (leaf % 8) & 1);
    let word = |first: usize| (0..64).map(|place| bit(first + place) << place).sum();
    (0..8 * set.len()).step_by(64).map(word).collect()
}

/// What is got leaf by leaf is also got byte by byte, and a word at a time; the words of a set are its bytes.
fn look_at_set(
    a: &[u8],
    b: &[u8],
    due: &Answer<Vec<u8>>,
    of_bytes: fn(u8, u8) -> u8,
    of_words: fn(u64, u64) -> u64,
) -> Result<(), String> {
    let Ok(set) = due else { return Ok(()) };
    let by_bytes: Vec<u8> = a.iter().zip(b).map(|(&a, &b)| of_bytes(a, b)).collect();
    agreed(by_bytes == *set, "set byte by byte")?;
    let by_words: Vec<u64> = words_of(a).into_iter().zip(words_of(b)).map(|(a, b)| of_words(a, b)).collect();
    agreed(by_words == words_of(set), "set a word at a time")?;
    agreed(by_words.iter().flat_map(|word| word.to_le_bytes()).eq(set.iter().copied()), "words of a set, and back")
}

/// How long a text may be of which every completion is tried.
const TRIED: usize = 400;

/// The listing of an imported text, exported and imported again, is the same. Where the grammar is broken, the bytes up
/// to there begin a right text, and with one byte more they begin none.
fn look_at_import(sheet: &[u8], text: &[u8], due: &Answer<TreeRecord>) -> Result<(), String> {
    match due {
        Ok(TreeRecord { listing, .. }) => {
            let again = newick::export(sheet, listing, usize::MAX)
                .and_then(|export| newick::import(sheet, &export, listing.len()));
            agreed(again == *due, "import of the export of an import")
        }
        Err(Refusal::Grammar { offset }) if text.len() <= TRIED => {
            agreed(begins_right_text(&text[..*offset]), "broken before that byte")?;
            agreed(*offset == text.len() || !begins_right_text(&text[..offset + 1]), "not broken by that byte")?;
            agreed(*offset < text.len() || newick::read(text).is_err(), "not broken by stopping")
        }
        Err(_) => Ok(()),
    }
}

/// Is any text with this beginning right? Whatever is due behind it, one of these is: the rest of a name, a length or a
/// bracket; then the brackets that are open, and the semicolon.
fn begins_right_text(beginning: &[u8]) -> bool {
    let count = |byte: u8| beginning.iter().filter(|&&other| other == byte).count();
    let closing = vec![b')'; count(b'(').saturating_sub(count(b')'))];
    let rights = ["", "a", "1", "(a)"].into_iter().flat_map(|first| ["", ";"].map(|last| (first, last)));
    rights
        .map(|(first, last)| [beginning, first.as_bytes(), &closing, last.as_bytes()].concat())
        .any(|text| newick::read(&text).is_ok())
}
