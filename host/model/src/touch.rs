//! Touches: document 02, W3. "A place carries a touch count, starting at 0."

use crate::cell::Cell;
use crate::{NOT_YET_GIVEN, TOO_LARGE, TOO_MANY_TOUCHES};

/// "A table whose sum passes 1,000,000,000,000 is unsound."
pub const MOST_TOUCHES: u128 = 1_000_000_000_000;

/// "A touch call adds a four-byte number to a place." It "answers the place's new count, or 3 for a place above 63 and 5 for an unused
/// one. .. Checks: 15, last in a touch call, if that call would make it so": if the sum would pass the most. The cell is a sound one.
pub fn touch(cell: &mut Cell, place: u8, number: u32) -> Result<u64, u8> {
    touches(cell, place)?;
    let mut after = cell.clone();
    let place = after.places.get_mut(&place).ok_or(NOT_YET_GIVEN)?;
    place.touches += number as u64;
    let count = place.touches;
    if touch_sum(&after) > MOST_TOUCHES {
        return Err(TOO_MANY_TOUCHES);
    }
    *cell = after;
    Ok(count)
}

/// The count of a place; refused as a touch call is, "3 for a place above 63 and 5 for an unused one".
pub fn touches(cell: &Cell, place: u8) -> Result<u64, u8> {
    if place > 63 {
        return Err(TOO_LARGE);
    }
    cell.places.get(&place).map(|place| place.touches).ok_or(NOT_YET_GIVEN)
}

/// "The sum over places in use".
pub fn touch_sum(cell: &Cell) -> u128 {
    cell.places.values().map(|place| place.touches as u128).sum()
}
