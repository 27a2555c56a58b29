//! The cell of a cell file: one record after another, from a bare floor.

use crate::cell::{has, members, Action, Cell, Name, Place};

/// A refused file or text: the number and the byte offset.
pub struct Refused {
    pub number: u8,
    pub offset: usize,
}

impl Refused {
    /// The answer of a call that refuses so.
    pub fn answer(&self) -> u64 {
        (self.offset as u64) << 8 | self.number as u64
    }
}

/// The places of a file as they come in it, and those of them that had a touch record.
struct Came {
    row: [u8; 63],
    count: usize,
    touched: u64,
}

/// Makes a bare floor the cell of a whole file, or answers the first refusal. A file of length 0 is a bare floor. The places stand at the end of the row, as they
/// come in the file.
pub fn load(cell: &mut Cell, file: &[u8]) -> Result<(), Refused> {
    if file.is_empty() {
        return Ok(());
    }
    let mut came = Came { row: [0; 63], count: 0, touched: 0 };
    let mut rest = file;
    loop {
        let (number, after) = match *rest {
            [3, agent, kind, low, high, ref after @ ..] => {
                (action(cell, agent, Action { kind, name: u16::from_le_bytes([low, high]) }), after)
            }
            [2, number, home, ref after @ ..] => (agent(cell, number, home), after),
            [1, number, parent, low, high, ref after @ ..] => {
                (place(cell, &mut came, number, parent, Name::plain(u16::from_le_bytes([low, high]))), after)
            }
            [6, number, parent, a, b, c, d, e, f, g, h, ref after @ ..] => {
                let [name, entering, exiting, opening] = [[a, b], [c, d], [e, f], [g, h]].map(u16::from_le_bytes);
                (place(cell, &mut came, number, parent, Name { name, entering, exiting, opening }), after)
            }
            [5, place, a, b, c, d, ref after @ ..] => (touches(cell, &mut came, place, u32::from_le_bytes([a, b, c, d])), after),
            [4] => break,
            [4, ..] => return Err(Refused { number: 9, offset: file.len() - rest.len() + 1 }),
            [] | [1..=3 | 5 | 6, ..] => (1, rest),
            _ => (2, rest),
        };
        if number != 0 {
            return Err(Refused { number, offset: file.len() - rest.len() });
        }
        rest = after;
    }
    let (others, latest) = cell.order.split_at_mut(64 - came.count);
    others.iter_mut().zip(members(!cell.used | 1)).for_each(|(number, unused)| *number = unused);
    latest.copy_from_slice(&came.row[..came.count]);
    Ok(())
}

/// Adds a place, and answers 0 or the number of its refusal.
fn place(cell: &mut Cell, came: &mut Came, number: u8, parent: u8, name: Name) -> u8 {
    match () {
        _ if number == 0 || number > 63 => 3,
        _ if parent > 63 => 13,
        _ if has(cell.used, number) => 4,
        _ if !has(cell.used, parent) => 5,
        _ if name.name == 0 => 6,
        _ => {
            cell.places[number as usize] = Place { name, parent, way: 0 };
            cell.used |= 1 << number;
            came.row[came.count] = number;
            came.count += 1;
            0
        }
    }
}

/// Adds an agent, and answers 0 or the number of its refusal.
fn agent(cell: &mut Cell, number: u8, home: u8) -> u8 {
    match () {
        _ if number > 63 => 14,
        _ if home > 63 => 13,
        _ if has(cell.given, number) => 4,
        _ if !has(cell.used, home) => 5,
        _ => {
            cell.agents[number as usize].home = home;
            cell.given |= 1 << number;
            0
        }
    }
}

/// Adds an action, and answers 0 or the number of its refusal.
fn action(cell: &mut Cell, agent: u8, action: Action) -> u8 {
    if agent > 63 {
        return 14;
    }
    let row = &mut cell.agents[agent as usize];
    match () {
        _ if !has(cell.given, agent) => 5,
        _ if !matches!(action.kind, 1..=4) => 7,
        _ if action.name == 0 => 6,
        _ if row.count >= 16 => 8,
        _ => {
            row.actions[row.count as usize] = action;
            row.count += 1;
            row.stage = 0;
            0
        }
    }
}

/// Sets the touches of a place, and answers 0 or the number of its refusal.
fn touches(cell: &mut Cell, came: &mut Came, place: u8, count: u32) -> u8 {
    match () {
        _ if place > 63 => 3,
        _ if has(came.touched, place) => 4,
        _ if !has(cell.used, place) => 5,
        _ => {
            cell.touches[place as usize] = count as u64;
            came.touched |= 1 << place;
            0
        }
    }
}
