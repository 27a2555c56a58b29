//! Where a place is, on a table that is sound: along the way to the floor; of two places, by the set of those around one.

use super::NOWHERE;
use crate::cell::{has, Cell};

/// The nearest place of this name around q.
pub fn nearest(cell: &Cell, q: u8, name: u16) -> u8 {
    let mut at = q;
    while at != 0 {
        at = cell.places[at as usize].parent;
        if cell.places[at as usize].name.name == name {
            return at;
        }
    }
    NOWHERE
}

/// The innermost place that holds or is both.
pub fn common(cell: &Cell, q: u8, r: u8) -> u8 {
    let (mut around, mut at) = (1u64, r);
    while at != 0 {
        around |= 1 << at;
        at = cell.places[at as usize].parent;
    }
    at = q;
    while !has(around, at) {
        at = cell.places[at as usize].parent;
    }
    at
}
