//! Splits as leaf sets: what the part writes for a tree is joined, intersected and compared by the part.

use crate::cases::{Case, Outcome};
use crate::chance::Chance;
use crate::known::{wide, Due, Known};
use crate::sets::{set_of, SET_BYTES};
use crate::tree::Tree;
use crate::Comparison;

impl Comparison {
    /// Hands on the splits of a tree. The sets of a node's two children have no leaf in common, and joined they are the
    /// node's. Two splits are nested or have no leaf in common.
    pub fn hand_on_splits(
        &mut self,
        n: usize,
        listing: &[u16],
        made: Outcome,
        origin: &str,
        chance: &mut Chance,
    ) -> Result<(), String> {
        if made.reply & 0xFF != 0 {
            return Ok(());
        }
        let bytes: Vec<u8> = made.written.iter().map(|&byte| byte as u8).collect();
        let mut under: Vec<Vec<u8>> = (0..n).map(|leaf| set_of([leaf])).collect();
        under.extend(bytes.chunks(SET_BYTES).map(<[u8]>::to_vec));
        under.push(set_of(1..n));
        for (row, node) in Tree::from_listing(n, listing).standard_listing().chunks(2).zip(&under[n..]) {
            let [a, b] = [0, 1].map(|child| under[usize::from(row[child])].clone());
            let (case, due) = (Case::SetIntersect { a: a.clone(), b: b.clone(), room: SET_BYTES }, wide(&set_of([])));
            let apart = Known { name: "the sets of two children intersected", case, due: Due::Written(0, due) };
            self.put_known(&apart, origin, chance)?;
            let (case, due) = (Case::SetJoin { a, b, room: SET_BYTES }, Due::Written(0, wide(node)));
            self.put_known(&Known { name: "the sets of two children joined", case, due }, origin, chance)?;
        }
        let splits = &under[n..2 * n - 3];
        for (place, one) in splits.iter().enumerate() {
            splits[..place].iter().try_for_each(|other| self.nested_or_apart(one, other, origin, chance))?;
        }
        Ok(())
    }

    /// What two different sets have in common is one of them, or nothing.
    fn nested_or_apart(&mut self, one: &[u8], other: &[u8], origin: &str, chance: &mut Chance) -> Result<(), String> {
        let case = Case::SetIntersect { a: one.into(), b: other.into(), room: SET_BYTES };
        let common: Vec<u8> = self.put(&case, origin, chance)?.written.iter().map(|&byte| byte as u8).collect();
        let mut equal = 0;
        for set in [one, other, &set_of([])] {
            equal += self.put(&Case::SetEqual { a: common.clone(), b: set.into() }, origin, chance)?.reply >> 8;
        }
        match equal {
            1 => Ok(()),
            _ => Err(format!("{origin}: the splits {one:?} and {other:?} overlap")),
        }
    }
}
