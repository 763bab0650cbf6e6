//! The reference's operations as a library for C: what the fuzzer's target compares the archive with.
//!
//! The entries are those with which the reference stands in for the part (`--cfg own`, reference/src/part.rs). They
//! bear the part's names here; fuzz/run renames each `quartree_NAME` to `reference_NAME`, so that both stand in one
//! program.

// Of part.rs only the stand-in is used, and of the other files only what the entries call.
#![allow(dead_code)]

#[path = "../reference/src/chance.rs"]
mod chance;
#[path = "../reference/src/graft.rs"]
mod graft;
#[path = "../reference/src/guess.rs"]
mod guess;
#[path = "../reference/src/look.rs"]
mod look;
#[path = "../reference/src/merge.rs"]
mod merge;
#[path = "../reference/src/newick.rs"]
mod newick;
#[path = "../reference/src/origin.rs"]
mod origin;
#[path = "../reference/src/part.rs"]
mod part;
#[path = "../reference/src/poll.rs"]
mod poll;
#[path = "../reference/src/refuse.rs"]
mod refuse;
#[path = "../reference/src/sets.rs"]
mod sets;
#[path = "../reference/src/sheet.rs"]
mod sheet;
#[path = "../reference/src/table.rs"]
mod table;
#[path = "../reference/src/tree.rs"]
mod tree;
