//! The row of place numbers, the longest standing first, seen on the library's own cells and files.

use crate::files::records;
use model::{qualifying, Cell, Kind, Table, Word, SIZE};

/// Where the row starts.
pub const ORDER: usize = 5712;

/// The row of a cell's bytes.
pub fn row(bytes: &[u8; SIZE]) -> &[u8] {
    &bytes[ORDER..]
}

/// "Loaded places count in file order": the row that an accepted file gives, in which the numbers that it does not give come first.
pub fn loaded(file: &[u8]) -> Vec<u8> {
    let given: Vec<u8> = records(file).iter().filter(|row| matches!(row[0], 1 | 6)).map(|row| row[1]).collect();
    (0..64).filter(|number| !given.contains(number)).chain(given.iter().copied()).collect()
}

/// "Places .. are numbered as they appear", and their age is the order in which they do: the row that a text with so many places gives.
pub fn read(places: usize) -> Vec<u8> {
    (0..64).filter(|&number| number == 0 || number > places as u8).chain(1..=places as u8).collect()
}

/// "A place that comes is the latest; children freed by an opening become the latest and keep their order among themselves": the row after
/// a step of this agent, from the cell before it. Numbers that are not in use, places elsewhere and the opened one keep their order too. Document 02,
/// W11: "a put place is the latest of W5."
pub fn stepped(before: &[u8; SIZE], agent: u8, word: Word) -> Vec<u8> {
    let table = Table::read(before);
    let stepping = &table.agents[agent as usize];
    let unused = table.used.iter().position(|&used| !used);
    let latest = |number: u8| match word {
        Word::Came => number == stepping.home,
        Word::Opened => table.place(number).is_some_and(|place| place.parent == stepping.chosen),
        Word::Put => Some(number as usize) == unused,
        _ => false,
    };
    let (last, first): (Vec<u8>, Vec<u8>) = table.order.iter().partition(|&&number| latest(number));
    [first, last].concat()
}

/// The row of these bytes is this one.
pub fn same(what: &str, bytes: &[u8; SIZE], expected: &[u8]) -> Result<(), String> {
    match row(bytes).iter().zip(expected).position(|(one, other)| one != other) {
        None => Ok(()),
        Some(at) => Err(format!("the row after {what} has {:?} from {at} on, and not {:?}", &row(bytes)[at..], &expected[at..])),
    }
}

/// The places among which this agent would choose, if they are several and its wish is for none of them; the lowest number first.
pub fn several(cell: &Cell, agent: u8, wish: u8) -> Option<Vec<u8>> {
    let stepping = cell.agents.get(&agent).filter(|agent| agent.stage == 2)?;
    let action = *stepping.unused.first().filter(|action| action.kind != Kind::Exit)?;
    let found = qualifying(&cell.places, stepping.home, stepping.remembered?, action);
    (found.len() > 1 && !found.contains(&wish)).then_some(found)
}
