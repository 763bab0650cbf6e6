//! Newick texts left to chance: right ones, drawn from any edge or node of a tree, with blanks and lengths; ones that
//! draw no binary tree, or other names; and ones with damaged bytes.

use crate::chance::Chance;
use crate::draw::NAME_BYTES;
use crate::newick::Drawing;
use crate::sheet::{judge_names, judge_trailer};
use crate::tree::{all_leaves, least, size, within, LeafSet, Tree};

/// How many bytes an export with this sheet has: those of the names and 3n − 4 more. The length bytes of the n names
/// stand before the offset, too. Of a sheet that is not right, something small.
pub fn export_length(sheet: &[u8]) -> usize {
    judge_trailer(sheet).map_or(40, |figures| figures.offset + 2 * figures.n - 4)
}

/// The names of a sheet; of one that is not right, names of their own.
fn names_of(sheet: &[u8], n: usize) -> Vec<Vec<u8>> {
    let names = judge_trailer(sheet).and_then(|figures| judge_names(sheet, figures));
    let names = names.map(|places| places.into_iter().map(|place| sheet[place].to_vec()).collect());
    let mut names: Vec<Vec<u8>> = names.unwrap_or_default();
    names.extend((names.len()..n).map(|leaf| format!("leaf-{leaf}").into_bytes()));
    names
}

// Drawings of a tree.

/// The two parts that a side of an edge with more than one leaf falls into at its node.
fn parts_of(side: LeafSet, sides: &[LeafSet]) -> [LeafSet; 2] {
    let inside = sides.iter().filter(|&&other| other != side && within(other, side));
    let larger = *inside.max_by_key(|&&other| size(other)).expect("a side of two leaves or more has parts");
    [larger, side & !larger]
}

fn drawing_of(side: LeafSet, sides: &[LeafSet], names: &[Vec<u8>], chance: &mut Chance) -> Drawing {
    if size(side) == 1 {
        return Drawing::Name(names[least(side)].clone());
    }
    bracket_of(parts_of(side, sides).to_vec(), sides, names, chance)
}

/// A bracket around these parts, in any order.
fn bracket_of(mut parts: Vec<LeafSet>, sides: &[LeafSet], names: &[Vec<u8>], chance: &mut Chance) -> Drawing {
    chance.shuffle(&mut parts);
    Drawing::Bracket(parts.into_iter().map(|part| drawing_of(part, sides, names, chance)).collect())
}

/// A drawing of a tree: a two-way top on any edge, or a three-way top at any inner node.
fn any_drawing(tree: &Tree, names: &[Vec<u8>], chance: &mut Chance) -> Drawing {
    let all = all_leaves(tree.leaves);
    let sides: Vec<LeafSet> = tree.edges().flat_map(|side| [side, all & !side]).collect();
    let side = chance.of(&sides);
    let mut tops = vec![all & !side, side];
    if size(side) > 1 && chance.one_in(2) {
        tops.pop();
        tops.extend(parts_of(side, &sides));
    }
    bracket_of(tops, &sides, names, chance)
}

// What a drawing is written with.

/// How often blanks and lengths are written: never where 0, else once in so many places.
struct Manner {
    blanks: usize,
    lengths: usize,
}

fn any_manner(chance: &mut Chance) -> Manner {
    Manner { blanks: chance.of(&[0, 0, 1, 3, 20]), lengths: chance.of(&[0, 0, 1, 2, 20]) }
}

fn happens(times: usize, chance: &mut Chance) -> bool {
    times > 0 && chance.one_in(times)
}

fn write_blanks(text: &mut Vec<u8>, manner: &Manner, chance: &mut Chance) {
    while happens(manner.blanks, chance) {
        text.push(chance.of(b"\t\n\r "));
        if chance.one_in(2) {
            break;
        }
    }
}

fn write_length(text: &mut Vec<u8>, manner: &Manner, chance: &mut Chance) {
    write_blanks(text, manner, chance);
    if happens(manner.lengths, chance) {
        text.push(b':');
        let usual: [&[u8]; 6] = [b"0", b"0.25", b"1e-3", b"-1.5E+10", b"e", b"+.-"];
        match chance.below(3) {
            0 => text.extend(chance.of(&usual)),
            _ => text.extend((0..chance.between(1, 9)).map(|_| chance.of(b"0123456789.+-eE"))),
        }
        write_blanks(text, manner, chance);
    }
}

fn write_drawing(drawing: &Drawing, text: &mut Vec<u8>, manner: &Manner, chance: &mut Chance) {
    write_blanks(text, manner, chance);
    match drawing {
        Drawing::Name(name) => text.extend(name),
        Drawing::Bracket(parts) => {
            for (place, part) in parts.iter().enumerate() {
                text.push(if place == 0 { b'(' } else { b',' });
                write_drawing(part, text, manner, chance);
            }
            text.push(b')');
        }
    }
    write_length(text, manner, chance);
}

fn text_of(top: &Drawing, chance: &mut Chance) -> Vec<u8> {
    let manner = any_manner(chance);
    let mut text = Vec::new();
    write_drawing(top, &mut text, &manner, chance);
    text.push(b';');
    write_blanks(&mut text, &manner, chance);
    text
}

/// A text that draws the tree with the names of a sheet.
pub fn right_text(tree: &Tree, sheet: &[u8], chance: &mut Chance) -> Vec<u8> {
    text_of(&any_drawing(tree, &names_of(sheet, tree.leaves), chance), chance)
}

// What is wrong with it.

/// Does something to one drawing within the top, or to the top.
fn somewhere(drawing: &mut Drawing, chance: &mut Chance, change: &mut dyn FnMut(&mut Drawing, &mut Chance)) {
    match drawing {
        Drawing::Bracket(parts) if chance.below(4) > 0 => {
            let place = chance.below(parts.len());
            somewhere(&mut parts[place], chance, change);
        }
        _ => change(drawing, chance),
    }
}

/// A node with one part, or with one too many or too few; a top of four; names that stand elsewhere, too.
fn spoil_node(drawing: &mut Drawing, names: &[Vec<u8>], chance: &mut Chance) {
    let named = Drawing::Name(chance.of(&names.iter().collect::<Vec<_>>()).clone());
    match (drawing, chance.below(4)) {
        (Drawing::Bracket(parts), 0) => parts.push(named),
        (Drawing::Bracket(parts), 1) if parts.len() > 1 => drop(parts.swap_remove(chance.below(parts.len()))),
        (Drawing::Bracket(parts), 2) => {
            let place = chance.below(parts.len());
            if let Drawing::Bracket(inner) = parts[place].clone() {
                parts.splice(place..=place, inner);
            }
        }
        (drawing, _) => *drawing = Drawing::Bracket(vec![drawing.clone()]),
    }
}

/// Another name: another strain's, an unknown one, the beginning of one or longer by a byte, or far too long.
fn spoil_name(name: &mut Vec<u8>, names: &[Vec<u8>], chance: &mut Chance) {
    match chance.below(8) {
        0 | 1 => *name = chance.of(&names.iter().collect::<Vec<_>>()).clone(),
        2 if name.len() > 1 => drop(name.pop()),
        3 => name.push(chance.of(NAME_BYTES)),
        4 => name.iter_mut().for_each(|byte| *byte ^= if byte.is_ascii_alphabetic() { 32 } else { 0 }),
        5 => *name = vec![b'x'; chance.of(&[40, 41, 255, 256, 300])],
        6 => name.insert(0, name[0]),
        _ => name[0] = chance.of(NAME_BYTES),
    }
}

/// Damage to one byte, or to the end.
fn spoil_text(text: &mut Vec<u8>, chance: &mut Chance) {
    if text.is_empty() {
        return;
    }
    let (place, other) = (chance.below(text.len()), chance.below(text.len()));
    let near = chance.of(b"()(),,;: \t\n\r\x0B\x0C\x08ax1.+-eE'\"[]{}_/@`#\0\x7F\x80\xFF");
    match chance.below(9) {
        0 => drop(text.remove(place)),
        1 => text.insert(place, text[place]),
        2 => text.truncate(place),
        3 => text[place] = near,
        4 => text.insert(place, near),
        5 => text[place] = chance.number() as u8,
        6 => text[place] ^= 1 << chance.below(8),
        7 => text.push(near),
        _ => text.swap(place, other),
    }
}

/// A text of the tree and the sheet's names, right or not. Several things may be wrong at once, so that the order of
/// the refusals shows.
pub fn any_text(tree: &Tree, sheet: &[u8], chance: &mut Chance) -> Vec<u8> {
    let names = names_of(sheet, tree.leaves);
    let mut top = any_drawing(tree, &names, chance);
    if chance.one_in(4) {
        for _ in 0..chance.between(1, 2) {
            somewhere(&mut top, chance, &mut |node, chance| spoil_node(node, &names, chance));
        }
    }
    if chance.one_in(4) {
        somewhere(&mut top, chance, &mut |leaf, chance| {
            if let Drawing::Name(name) = leaf {
                spoil_name(name, &names, chance);
            }
        });
    }
    let mut text = text_of(&top, chance);
    if chance.one_in(3) {
        for _ in 0..chance.between(1, 2) {
            spoil_text(&mut text, chance);
        }
    }
    text
}
