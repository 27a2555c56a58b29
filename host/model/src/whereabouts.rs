//! Which bonder is it in: document 02, W10. "Tool crib staff ask where a holder is. Two questions, with a place on its way read at its
//! destination". The cell is a sound one.

use crate::cell::Cell;
use crate::{NOT_YET_GIVEN, TOO_LARGE};

/// "the nearest enclosing place of a given name, the place itself not counted"; it "answers none exactly if no enclosing place has that name."
pub fn nearest(cell: &Cell, place: u8, name: u16) -> Result<Option<u8>, u8> {
    in_use(cell, &[place])?;
    let path = path(cell, place);
    let enclosing = &path[1..];
    Ok(enclosing.iter().copied().find(|number| cell.places[number].name == name))
}

/// "the innermost place that holds or is both of two given places"; it "always has an answer, the floor if nothing deeper."
pub fn common(cell: &Cell, place: u8, other: u8) -> Result<u8, u8> {
    in_use(cell, &[place, other])?;
    let others = path(cell, other);
    let both = path(cell, place).into_iter().find(|number| others.contains(number));
    Ok(both.expect("the floor is on every path"))
}

/// The place, the one around it, the one around that, and so on to the floor: "a place on its way read at its destination".
fn path(cell: &Cell, place: u8) -> Vec<u8> {
    let mut path = vec![place];
    let mut at = place;
    while let Some(around) = cell.places[&at].around() {
        path.push(around);
        at = around;
    }
    path
}

/// "After 10, a place number above 63 is 3, then an unused one is 5": of two numbers, either above 63 is 3 before either is 5.
fn in_use(cell: &Cell, numbers: &[u8]) -> Result<(), u8> {
    if numbers.iter().any(|&number| number > 63) {
        return Err(TOO_LARGE);
    }
    if numbers.iter().any(|number| !cell.places.contains_key(number)) {
        return Err(NOT_YET_GIVEN);
    }
    Ok(())
}
