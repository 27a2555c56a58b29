//! Where a place is, on a table that is sound.

use crate::cell::Cell;

/// A place and those around it, out to the floor; one on its way has its destination around it.
fn outwards(cell: &Cell, q: u8) -> Vec<u8> {
    let mut way = vec![q];
    let mut at = q;
    while at != 0 {
        at = cell.places[at as usize].parent;
        way.push(at);
    }
    way
}

/// The nearest place of this name around q.
pub fn nearest(cell: &Cell, q: u8, name: u16) -> Option<u8> {
    outwards(cell, q).into_iter().skip(1).find(|&p| cell.places[p as usize].name.name == name)
}

/// The innermost place that holds or is both.
pub fn common(cell: &Cell, q: u8, r: u8) -> u8 {
    let around = outwards(cell, r);
    outwards(cell, q).into_iter().find(|p| around.contains(p)).unwrap_or(0)
}
