//! The strain sheet: names, cells, trailer.
//!
//! A name is a length byte 1 to 40, then that many letters, digits, full stops or hyphens (ASCII). Cells are those
//! above the diagonal, row by row, each 16 bits, low byte first. The trailer is the last 8 bytes: the leaf count (16
//! bits), the offset of the first cell (32 bits), both low byte first, then the bytes 51 54 hexadecimal. Names fill
//! everything before that offset, cells everything from it to the trailer.

use crate::chance::Chance;
use crate::merge::finished_list;
use crate::refuse::{judge, judge_leaf_count, judge_room, Answer, Refusal};
use crate::table::{put, COUNTS};
use std::ops::Range;

/// The longest sheet: 128 names of 40 bytes, their cells and the trailer.
pub const LONGEST: usize = 21_512;

/// The trailer's figures.
#[derive(Clone, Copy)]
pub struct Figures {
    pub n: usize,
    pub offset: usize,
}

/// Low byte first.
fn number(bytes: &[u8]) -> u64 {
    bytes.iter().rev().fold(0, |high, &byte| high << 8 | u64::from(byte))
}

/// A sheet's length and ending, and the leaf count: 13, 1.
pub fn judge_ends(sheet: &[u8]) -> Answer<Figures> {
    judge((8..=LONGEST).contains(&sheet.len()) && sheet.ends_with(&[0x51, 0x54]), Refusal::Sheet)?;
    let trailer = &sheet[sheet.len() - 8..];
    let n = number(&trailer[..2]) as usize;
    judge_leaf_count(n)?;
    Ok(Figures { n, offset: number(&trailer[2..6]) as usize })
}

/// The offset: 14.
pub fn judge_offset(sheet: &[u8], Figures { n, offset }: Figures) -> Answer<()> {
    judge(offset + n * (n - 1) + 8 == sheet.len(), Refusal::Offset)
}

/// The sizes of a sheet: 13, 1, 14.
pub fn judge_trailer(sheet: &[u8]) -> Answer<Figures> {
    let figures = judge_ends(sheet)?;
    judge_offset(sheet, figures)?;
    Ok(figures)
}

pub fn fits_in_name(byte: u8) -> bool {
    byte.is_ascii_alphanumeric() || byte == b'.' || byte == b'-'
}

/// Where each name's bytes stand: 15, 16, name by name. A name that would begin at the offset is past it.
pub fn judge_names(sheet: &[u8], figures: Figures) -> Answer<Vec<Range<usize>>> {
    let names = &sheet[..figures.offset];
    let mut found: Vec<Range<usize>> = Vec::new();
    let mut at = 0;
    for leaf in 0..figures.n {
        let bad = Refusal::Name { number: leaf };
        let length = usize::from(*names.get(at).ok_or(bad)?);
        let place = at + 1..at + 1 + length;
        let name = names.get(place.clone()).ok_or(bad)?;
        judge((1..=40).contains(&length) && name.iter().all(|&byte| fits_in_name(byte)), bad)?;
        let named_before = found.iter().any(|earlier| names[earlier.clone()] == *name);
        judge(!named_before, Refusal::NameAgain { leaf })?;
        at = place.end;
        found.push(place);
    }
    judge(at == figures.offset, Refusal::Name { number: figures.n })?;
    Ok(found)
}

fn cells(sheet: &[u8], Figures { n, offset }: Figures) -> Vec<u32> {
    let mut table = vec![0; n * n];
    let mut lent = sheet[offset..sheet.len() - 8].chunks(2);
    for i in 0..n {
        for j in i + 1..n {
            let cell = lent.next().expect("there is a cell for every two leaves");
            put(&mut table, n, (i, j), number(cell) as u32);
        }
    }
    table
}

/// The leaf count of a sheet that keeps the rules: 13, 1, 14, 15, 16.
pub fn check_sheet(sheet: &[u8]) -> Answer<usize> {
    let figures = judge_trailer(sheet)?;
    judge_names(sheet, figures)?;
    Ok(figures.n)
}

/// The sheet's table and its leaf count: 13, 1, 14, 3, 15, 16.
pub fn sheet_table(sheet: &[u8], room: usize) -> Answer<(usize, Vec<u32>)> {
    let figures = judge_trailer(sheet)?;
    judge_room(room, figures.n * figures.n)?;
    judge_names(sheet, figures)?;
    Ok((figures.n, cells(sheet, figures)))
}

/// Where the name of a leaf stands in the sheet: 13, 1, 14, 15, 16, and 9 with position 0 for a leaf ≥ n.
pub fn sheet_name(sheet: &[u8], leaf: usize) -> Answer<Range<usize>> {
    let figures = judge_trailer(sheet)?;
    let names = judge_names(sheet, figures)?;
    names.get(leaf).cloned().ok_or(Refusal::Question { position: 0 })
}

/// Sheet bytes in, listing bytes out, low byte first: 13, 1, 14, 3, 15, 16, 6.
pub fn rebuild_sheet(sheet: &[u8], room: usize, chance: &mut Chance) -> Answer<Vec<u8>> {
    let figures = judge_trailer(sheet)?;
    judge_room(room, 4 * (figures.n - 2))?;
    judge_names(sheet, figures)?;
    let (_, tree) = finished_list(figures.n, COUNTS, &cells(sheet, figures), chance);
    let listing = tree.ok_or(Refusal::NoTree)?.standard_listing();
    Ok(listing.iter().flat_map(|child| child.to_le_bytes()).collect())
}
