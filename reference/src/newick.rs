//! Newick text: a tree written with the names of a sheet, and read again.
//!
//! A drawing is a name of one byte or more, or a bracket that holds one drawing or more, with commas between them. A
//! length may follow any name or closing bracket; it is a colon and then one or more digits, full stops, signs, e or E.
//! A text is a bracket, its length if it has one, and a semicolon. Blanks may stand everywhere but inside a name or a
//! length. The text is read by a function for each of these sentences; where one of them finds neither what is due nor
//! a blank, the text breaks the grammar.

use crate::origin::{Origin, TreeRecord};
use crate::refuse::{judge, judge_input, judge_room, Answer, Refusal};
use crate::sheet::{fits_in_name, judge_ends, judge_names, judge_offset, judge_trailer, Figures};
use crate::tree::{judge_children, least, single, size, LeafSet, Node, Tree};

/// How deep a text may nest. The top's bracket is the first.
pub const DEEPEST: usize = 127;

/// What a text draws.
#[derive(Clone, Debug)]
pub enum Drawing {
    Name(Vec<u8>),
    Bracket(Vec<Drawing>),
}

pub fn is_blank(byte: u8) -> bool {
    [9, 10, 13, 32].contains(&byte)
}

pub fn fits_in_length(byte: u8) -> bool {
    byte.is_ascii_digit() || b".+-eE".contains(&byte)
}

/// A text, and how much of it has been read.
struct Reader<'a> {
    text: &'a [u8],
    at: usize,
}

impl<'a> Reader<'a> {
    /// The next byte, or nothing where the text stops.
    fn next(&self) -> Option<u8> {
        self.text.get(self.at).copied()
    }

    /// The text breaks the grammar here, by its next byte or by stopping early.
    fn broken(&self) -> Refusal {
        Refusal::Grammar { offset: self.at }
    }

    /// One byte that is due.
    fn one(&mut self, due: u8) -> Answer<()> {
        judge(self.next() == Some(due), self.broken())?;
        self.at += 1;
        Ok(())
    }

    /// All bytes from here on that fit, perhaps none.
    fn run(&mut self, fits: fn(u8) -> bool) -> &'a [u8] {
        let rest = &self.text[self.at..];
        let run = &rest[..rest.iter().position(|&byte| !fits(byte)).unwrap_or(rest.len())];
        self.at += run.len();
        run
    }

    /// All bytes from here on that fit, of which there has to be one.
    fn run_of_some(&mut self, fits: fn(u8) -> bool) -> Answer<&'a [u8]> {
        let run = self.run(fits);
        judge(!run.is_empty(), self.broken())?;
        Ok(run)
    }

    fn blanks(&mut self) {
        self.run(is_blank);
    }

    /// What may follow a name or a closing bracket: a length, with blanks before it and after it.
    fn length(&mut self) -> Answer<()> {
        self.blanks();
        if self.next() == Some(b':') {
            self.one(b':')?;
            self.run_of_some(fits_in_length)?;
            self.blanks();
        }
        Ok(())
    }

    /// A bracket that nests so deep.
    fn bracket(&mut self, depth: usize) -> Answer<Drawing> {
        judge(depth <= DEEPEST, self.broken())?;
        self.one(b'(')?;
        let mut parts = vec![self.part(depth)?];
        while self.next() == Some(b',') {
            self.one(b',')?;
            parts.push(self.part(depth)?);
        }
        self.one(b')')?;
        self.length()?;
        Ok(Drawing::Bracket(parts))
    }

    /// A drawing inside a bracket that nests so deep.
    fn part(&mut self, depth: usize) -> Answer<Drawing> {
        self.blanks();
        if self.next() == Some(b'(') {
            return self.bracket(depth + 1);
        }
        let name = self.run_of_some(fits_in_name)?.to_vec();
        self.length()?;
        Ok(Drawing::Name(name))
    }

    /// The whole text.
    fn text(&mut self) -> Answer<Drawing> {
        self.blanks();
        let top = self.bracket(1)?;
        self.one(b';')?;
        self.blanks();
        judge(self.next().is_none(), self.broken())?;
        Ok(top)
    }
}

/// What a text draws: 17.
pub fn read(text: &[u8]) -> Answer<Drawing> {
    Reader { text, at: 0 }.text()
}

impl Drawing {
    /// Has every bracket two parts, and this one two or, as a top, three?
    fn is_binary(&self, is_top: bool) -> bool {
        match self {
            Drawing::Name(_) => true,
            Drawing::Bracket(parts) => {
                (parts.len() == 2 || is_top && parts.len() == 3) && parts.iter().all(|part| part.is_binary(false))
            }
        }
    }

    /// The names, from left to right.
    fn names(&self) -> Vec<&[u8]> {
        match self {
            Drawing::Name(name) => vec![name],
            Drawing::Bracket(parts) => parts.iter().flat_map(Drawing::names).collect(),
        }
    }

    /// The leaves of a drawing. Those of each of its parts are one side of an edge, and are noted. The edges at a node
    /// that has two parts and hangs on nothing are one edge, whose two sides are noted: so the node is dropped.
    fn leaves(&self, strains: &[&[u8]], sides: &mut Vec<LeafSet>) -> LeafSet {
        match self {
            Drawing::Name(name) => single(strains.iter().position(|strain| strain == name).expect("a strain's name")),
            Drawing::Bracket(parts) => parts
                .iter()
                .map(|part| {
                    let side = part.leaves(strains, sides);
                    sides.push(side);
                    side
                })
                .sum(),
        }
    }
}

/// The names of a sheet: 15, 16.
fn strains(sheet: &[u8], figures: Figures) -> Answer<Vec<&[u8]>> {
    Ok(judge_names(sheet, figures)?.into_iter().map(|place| &sheet[place]).collect())
}

/// A sheet's tree from its drawing: 18, 19.
fn tree_drawn(top: &Drawing, strains: &[&[u8]]) -> Answer<Tree> {
    judge(top.is_binary(true), Refusal::NotBinary)?;
    let (mut drawn, mut due) = (top.names(), strains.to_vec());
    drawn.sort();
    due.sort();
    judge(drawn == due, Refusal::Unmatched)?;
    let mut sides = Vec::new();
    top.leaves(strains, &mut sides);
    Ok(Tree::from_sides(strains.len(), sides))
}

/// The record of the tree that a text draws with a sheet's names: 13, 1, 14, 3, 15, 16, 17, 18, 19.
pub fn import(sheet: &[u8], text: &[u8], room: usize) -> Answer<TreeRecord> {
    let figures = judge_trailer(sheet)?;
    judge_room(room, 2 * (figures.n - 2))?;
    let strains = strains(sheet, figures)?;
    let listing = tree_drawn(&read(text)?, &strains)?.standard_listing();
    Ok(TreeRecord { leaves: figures.n, listing, origin: Origin::Imported })
}

/// The text of the leaves under a node: a leaf's name, or a bracket with the node's two children.
fn subtree_text(under: LeafSet, nodes: &[Node], strains: &[&[u8]]) -> Vec<u8> {
    if size(under) == 1 {
        return strains[least(under)].to_vec();
    }
    let node = nodes.iter().find(|node| node.under == under).expect("an inner node");
    let [first, second] = node.children.map(|child| subtree_text(child, nodes, strains));
    [b"(", &first[..], b",", &second, b")"].concat()
}

/// The text of a tree: leaf 0's name and the two children of the last node, in one bracket.
fn tree_text(tree: &Tree, strains: &[&[u8]]) -> Vec<u8> {
    let nodes = tree.nodes();
    let last = nodes.last().expect("the node that is joined to leaf 0");
    let [first, second] = last.children.map(|child| subtree_text(child, &nodes, strains));
    [b"(", strains[0], b",", &first[..], b",", &second, b");"].concat()
}

/// The text of a listing's tree with a sheet's names: 13, 1, 2, 14, 7, 8, 15, 16, 3.
pub fn export(sheet: &[u8], listing: &[u16], room: usize) -> Answer<Vec<u8>> {
    let figures = judge_ends(sheet)?;
    judge_input(listing.len(), 2 * (figures.n - 2))?;
    judge_offset(sheet, figures)?;
    judge_children(figures.n, listing)?;
    let strains = strains(sheet, figures)?;
    let text = tree_text(&Tree::from_listing(figures.n, listing), &strains);
    judge_room(room, text.len())?;
    Ok(text)
}
