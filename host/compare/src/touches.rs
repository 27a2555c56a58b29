//! Touches, seen on the library's own cells and files.

use crate::files::records;
use crate::rows::ORDER;
use model::{Table, MOST_TOUCHES, SIZE};

/// Where the touch counts start.
const TOUCHES: usize = 5200;

/// All touches that a file loads: the counts of its touch records.
pub fn loaded(file: &[u8]) -> u128 {
    let count = |row: &Vec<u8>| u32::from_le_bytes([row[2], row[3], row[4], row[5]]) as u128;
    records(file).iter().filter(|row| row.len() == 6 && row[0] == 5).map(count).sum()
}

/// The sum over the places in use.
pub fn sum(table: &Table) -> u128 {
    table.places_in_use().map(|(number, _)| table.touches[number as usize] as u128).sum()
}

/// "The sum over places in use equals all touches loaded and added, after any mixture of calls"; and in a cell that came from a load, a
/// number that is not in use has no touches.
pub fn all_there(table: &Table, total: u128) -> Result<(), String> {
    let sum = sum(table);
    if sum != total {
        return Err(format!("the places in use have {sum} touches, and {total} were loaded and added"));
    }
    match (0..64).find(|&number| !table.used[number] && table.touches[number] != 0) {
        Some(number) => Err(format!("place {number} is not in use and has {} touches", table.touches[number])),
        None => Ok(()),
    }
}

/// How many touches may still be added.
pub fn left(table: &Table) -> u128 {
    MOST_TOUCHES.saturating_sub(sum(table))
}

/// A touch call adds to the count of its place and changes nothing else: these bytes with so many touches more.
pub fn added(bytes: &[u8; SIZE], place: u8, number: u32) -> [u8; SIZE] {
    let mut after = *bytes;
    let at = TOUCHES + 8 * place as usize;
    let count = u64::from_ne_bytes(after[at..at + 8].try_into().expect("eight bytes"));
    after[at..at + 8].copy_from_slice(&(count + number as u64).to_ne_bytes());
    after
}

/// Sets the count of a place.
pub fn set(bytes: &mut [u8; SIZE], place: usize, count: u64) {
    bytes[TOUCHES + 8 * place..TOUCHES + 8 * place + 8].copy_from_slice(&count.to_ne_bytes());
}

/// Whether a step pooled touches: a number that went out of use had some. Whatever the counts of unused numbers are, a step leaves them
/// alone; a number that goes out of use has none, and neither has one that comes into use.
pub fn pooled(before: &[u8; SIZE], after: &[u8; SIZE]) -> Result<bool, String> {
    if before[TOUCHES..ORDER] == after[TOUCHES..ORDER] {
        return Ok(false);
    }
    let (before, after) = (Table::read(before), Table::read(after));
    for number in (0..64).filter(|&number| !before.used[number] || !after.used[number]) {
        let right = if before.used[number] || after.used[number] { 0 } else { before.touches[number] };
        if after.touches[number] != right {
            return Err(format!(
                "place {number} goes out of use, comes into it or is not in it, and has {} touches, not {right}",
                after.touches[number]
            ));
        }
    }
    Ok((0..64).any(|number| before.used[number] && !after.used[number] && before.touches[number] > 0))
}
