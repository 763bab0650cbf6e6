//! Trees and listings.
//!
//! A tree is unrooted and binary, and here it is nothing but the set of its 2n−3 edges. An edge is held as the set of
//! leaves on its side without leaf 0. Pairings are read off the edges, and the standard listing is drawn from them.

use crate::refuse::{judge, judge_input, judge_leaf_count, judge_room, Answer, Refusal};
use std::collections::BTreeSet;

/// A leaf set: leaf k is bit k. Its bytes, lowest first, are the sixteen bytes of the paper.
pub type LeafSet = u128;

/// The set of one leaf.
pub fn single(leaf: usize) -> LeafSet {
    1 << leaf
}

/// The set of leaves 0 to n−1.
pub fn all_leaves(n: usize) -> LeafSet {
    LeafSet::MAX >> (128 - n)
}

/// Is every leaf of the inner set in the outer one?
pub fn within(inner: LeafSet, outer: LeafSet) -> bool {
    inner & !outer == 0
}

/// How many leaves a set has.
pub fn size(set: LeafSet) -> usize {
    set.count_ones() as usize
}

/// The least leaf of a set that is not empty.
pub fn least(set: LeafSet) -> usize {
    set.trailing_zeros() as usize
}

/// The leaves of a set, in order.
pub fn members(set: LeafSet) -> impl Iterator<Item = usize> {
    let mut rest = set;
    std::iter::from_fn(move || {
        if rest == 0 {
            return None;
        }
        let leaf = least(rest);
        rest &= rest - 1;
        Some(leaf)
    })
}

/// An unrooted binary tree: its leaf count and its edges, each as the side without leaf 0.
#[derive(Clone, Debug, PartialEq, Eq)]
pub struct Tree {
    pub leaves: usize,
    edges: BTreeSet<LeafSet>,
}

/// An inner node of a tree that hangs from leaf 0: the leaves under it, and under each of its two children.
pub struct Node {
    pub under: LeafSet,
    pub children: [LeafSet; 2],
}

impl Tree {
    /// The tree whose edges have these sides. Either side of an edge will do, and an edge may come twice.
    pub fn from_sides(n: usize, sides: impl IntoIterator<Item = LeafSet>) -> Tree {
        let hung = |side: LeafSet| if side & single(0) == 0 { side } else { all_leaves(n) & !side };
        let edges: BTreeSet<LeafSet> = sides.into_iter().map(hung).collect();
        assert_eq!(edges.len(), 2 * n - 3, "a binary tree on {n} leaves has 2n−3 edges");
        Tree { leaves: n, edges }
    }

    /// The tree of a listing that keeps the rules.
    pub fn from_listing(n: usize, listing: &[u16]) -> Tree {
        let mut under: Vec<LeafSet> = (0..n).map(single).collect();
        for row in listing.chunks(2) {
            under.push(under[usize::from(row[0])] | under[usize::from(row[1])]);
        }
        Tree::from_sides(n, under.split_off(1))
    }

    /// The edge between leaves 0 and 1, from which every tree grows.
    fn smallest() -> Tree {
        Tree { leaves: 2, edges: BTreeSet::from([single(1)]) }
    }

    /// The tree with leaf n hung on the middle of an edge.
    pub fn with_leaf_on(&self, edge: LeafSet) -> Tree {
        let new = single(self.leaves);
        let mut edges: BTreeSet<LeafSet> =
            self.edges.iter().map(|&side| if side != edge && within(edge, side) { side | new } else { side }).collect();
        edges.extend([edge | new, new]);
        Tree { leaves: self.leaves + 1, edges }
    }

    /// A tree grown leaf by leaf, each on the edge that the choice takes out of the edges there are.
    pub fn grown(n: usize, mut choice: impl FnMut(usize) -> usize) -> Tree {
        let mut tree = Tree::smallest();
        while tree.leaves < n {
            let edges: Vec<LeafSet> = tree.edges().collect();
            tree = tree.with_leaf_on(edges[choice(edges.len())]);
        }
        tree
    }

    /// Every tree on n leaves, each once: every tree on one leaf fewer, with the last leaf on each of its edges.
    pub fn every(n: usize) -> Vec<Tree> {
        let mut trees = vec![Tree::smallest()];
        for _ in 2..n {
            trees = trees.iter().flat_map(|tree| tree.edges().map(move |edge| tree.with_leaf_on(edge))).collect();
        }
        trees
    }

    /// The edges, each as its side without leaf 0.
    pub fn edges(&self) -> impl Iterator<Item = LeafSet> + '_ {
        self.edges.iter().copied()
    }

    /// The tree pairs i,j against p,q when some edge separates i and j from p and q.
    pub fn pairs(&self, i: usize, j: usize, p: usize, q: usize) -> bool {
        let (these, those) = (single(i) | single(j), single(p) | single(q));
        let separate = |inner, outer, side| within(inner, side) && side & outer == 0;
        self.edges().any(|side| separate(these, those, side) || separate(those, these, side))
    }

    /// The pairing of four different leaves: 0 (first with second), 1 (first with third) or 2 (first with fourth).
    pub fn pairing(&self, [a, b, c, d]: [usize; 4]) -> u8 {
        match [self.pairs(a, b, c, d), self.pairs(a, c, b, d), self.pairs(a, d, b, c)] {
            [true, false, false] => 0,
            [false, true, false] => 1,
            [false, false, true] => 2,
            _ => panic!("a binary tree pairs four leaves in one way"),
        }
    }

    /// The inner nodes in the standard order: post-order, and of two children the one with the smaller least leaf
    /// first.
    pub fn nodes(&self) -> Vec<Node> {
        let mut nodes = Vec::new();
        self.visit(all_leaves(self.leaves) & !single(0), &mut nodes);
        assert_eq!(nodes.len(), self.leaves - 2, "a binary tree on n leaves has n−2 inner nodes");
        nodes
    }

    fn visit(&self, under: LeafSet, nodes: &mut Vec<Node>) {
        if size(under) == 1 {
            return;
        }
        let inside = self.edges().filter(|&side| side != under && within(side, under));
        let larger = inside.max_by_key(|&side| size(side)).expect("an inner node has children");
        let mut children = [larger, under & !larger];
        assert!(self.edges.contains(&children[1]), "an inner node has two children");
        children.sort_by_key(|&child| least(child));
        for child in children {
            self.visit(child, nodes);
        }
        nodes.push(Node { under, children });
    }

    /// The standard listing.
    pub fn standard_listing(&self) -> Vec<u16> {
        let nodes = self.nodes();
        let number = |set: LeafSet| match nodes.iter().position(|node| node.under == set) {
            Some(row) => (self.leaves + row) as u16,
            None => least(set) as u16,
        };
        nodes.iter().flat_map(|node| node.children.map(number)).collect()
    }

    /// The splits in the standard listing's node order: the leaves under each inner node other than the last.
    pub fn splits(&self) -> Vec<LeafSet> {
        let mut splits: Vec<LeafSet> = self.nodes().iter().map(|node| node.under).collect();
        splits.pop();
        splits
    }
}

/// Refusals 7 and 8, child by child: a child is a leaf 1 to n−1 or the node of an earlier row, and each stands once.
pub fn judge_children(n: usize, listing: &[u16]) -> Answer<()> {
    for (position, &child) in listing.iter().enumerate() {
        let row = position / 2;
        let leaf = (1..n).contains(&usize::from(child));
        let earlier_node = (n..n + row).contains(&usize::from(child));
        judge(leaf || earlier_node, Refusal::Child { position })?;
        judge(!listing[..position].contains(&child), Refusal::ChildAgain { position })?;
    }
    Ok(())
}

/// Checks a listing: 1, 2, 7, 8.
pub fn check(n: usize, listing: &[u16]) -> Answer<()> {
    judge_leaf_count(n)?;
    judge_input(listing.len(), 2 * (n - 2))?;
    judge_children(n, listing)
}

/// The standard listing of a listing's tree: 1, 2, 3, 7, 8.
pub fn standardise(n: usize, listing: &[u16], room: usize) -> Answer<Vec<u16>> {
    judge_leaf_count(n)?;
    judge_input(listing.len(), 2 * (n - 2))?;
    judge_room(room, 2 * (n - 2))?;
    judge_children(n, listing)?;
    Ok(Tree::from_listing(n, listing).standard_listing())
}

/// The splits of a listing's tree, sixteen bytes each: 1, 2, 3, 7, 8.
pub fn splits(n: usize, listing: &[u16], room: usize) -> Answer<Vec<u8>> {
    judge_leaf_count(n)?;
    judge_input(listing.len(), 2 * (n - 2))?;
    judge_room(room, 16 * (n - 3))?;
    judge_children(n, listing)?;
    Ok(Tree::from_listing(n, listing).splits().iter().flat_map(|split| split.to_le_bytes()).collect())
}

/// The pairing of the question's four leaves: 1, 2, 7, 8, 9.
pub fn pairing(n: usize, listing: &[u16], question: &[u16]) -> Answer<u8> {
    judge_leaf_count(n)?;
    judge_input(listing.len(), 2 * (n - 2))?;
    judge_input(question.len(), 4)?;
    judge_children(n, listing)?;
    for (position, leaf) in question.iter().enumerate() {
        let fits = usize::from(*leaf) < n && !question[..position].contains(leaf);
        judge(fits, Refusal::Question { position })?;
    }
    let four = [0, 1, 2, 3].map(|position| usize::from(question[position]));
    Ok(Tree::from_listing(n, listing).pairing(four))
}
