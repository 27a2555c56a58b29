//! The cell file: "One byte of kind, then a body whose length the kind fixes. Two-byte numbers have the low byte first."

use crate::cell::{Action, Agent, Cell, Keys, Kind, Place, Stands};
use crate::{ACTION_KIND, AFTER_THE_END, AGENT_TOO_LARGE, CUT_SHORT, GIVEN_TWICE, NAME_ZERO, NOT_YET_GIVEN};
use crate::{PARENT_TOO_LARGE, SEVENTEENTH_ACTION, TOO_LARGE, UNKNOWN_KIND};
use std::collections::BTreeSet;

/// A refused load "answers the number and the byte offset of the record".
#[derive(Clone, Copy, PartialEq, Eq, Debug)]
pub struct Refused {
    pub number: u8,
    pub offset: usize,
}

/// "A load starts from a bare floor"; "the first faulty record decides"; the offset is "for a missing end, the file's length; for 9,
/// the first byte after the end". Document 02, W1: a file of length 0 "loads as a bare floor with no agents, as `04` does. .. A file
/// that begins and lacks its end is still cut short."
pub fn load(file: &[u8]) -> Result<Cell, Refused> {
    let mut cell = Cell::bare();
    if file.is_empty() {
        return Ok(cell);
    }
    let mut touched = BTreeSet::new();
    let mut offset = 0;
    loop {
        let refused = |number| Refused { number, offset };
        let kind = *file.get(offset).ok_or(refused(CUT_SHORT))?;
        let length = body_length(kind).ok_or(refused(UNKNOWN_KIND))?;
        let next = offset + 1 + length;
        let body = file.get(offset + 1..next).ok_or(refused(CUT_SHORT))?;
        match kind {
            1 | 6 => place(&mut cell, body).map_err(refused)?,
            2 => agent(&mut cell, body).map_err(refused)?,
            3 => action(&mut cell, body).map_err(refused)?,
            5 => touches(&mut cell, &mut touched, body).map_err(refused)?,
            _ if next < file.len() => return Err(Refused { number: AFTER_THE_END, offset: next }),
            _ => return Ok(cell),
        }
        offset = next;
    }
}

/// The length of a body, from the table of kinds; document 02, W3: "Kind 5 leaves the unknown kinds"; W6: "Record kind 6 is number, parent,
/// name, then the three keys" of two bytes each; an unknown kind has none.
fn body_length(kind: u8) -> Option<usize> {
    match kind {
        1 => Some(4),
        2 => Some(2),
        3 => Some(4),
        4 => Some(0),
        5 => Some(5),
        6 => Some(10),
        _ => None,
    }
}

/// "Two-byte numbers have the low byte first."
fn two_bytes(low: u8, high: u8) -> u16 {
    low as u16 + 256 * high as u16
}

/// Document 02, W2: "Number 3 shall be for a place record's own number. A parent or home above 63 gets 13, an agent number above 63 gets
/// 14. .. of the three, the earlier byte in the record decides": the faulty one among these bytes of a record, which are given in its
/// order, each with the test that it must pass and its number.
fn in_range(bytes: &[(u8, fn(u8) -> bool, u8)]) -> Result<(), u8> {
    match bytes.iter().find(|(byte, right, _)| !right(*byte)) {
        Some(&(_, _, number)) => Err(number),
        None => Ok(()),
    }
}

/// "Place numbers in records are 1 to 63".
fn is_place(number: u8) -> bool {
    (1..=63).contains(&number)
}

/// "parents and homes 0 to 63", an agent "has a number 0 to 63", and a touch record has "place number 0 to 63".
fn to_63(number: u8) -> bool {
    number <= 63
}

/// "1 place | number, parent, name (2 bytes)": "Place numbers in records are 1 to 63; parents .. 0 to 63. A parent .. must have been
/// given earlier (the floor always is)." Document 02, W6: "Record kind 6 is number, parent, name, then the three keys", it "is checked as kind
/// 1 is", and "Kind 1 sets all three to the name".
fn place(cell: &mut Cell, body: &[u8]) -> Result<(), u8> {
    let (number, parent, name) = (body[0], body[1], two_bytes(body[2], body[3]));
    let keys = match body[4..] {
        [a, b, c, d, e, f] => [two_bytes(a, b), two_bytes(c, d), two_bytes(e, f)],
        _ => [name; 3],
    };
    in_range(&[(number, is_place, TOO_LARGE), (parent, to_63, PARENT_TOO_LARGE)])?;
    if cell.places.contains_key(&number) {
        return Err(GIVEN_TWICE);
    }
    if !cell.places.contains_key(&parent) {
        return Err(NOT_YET_GIVEN);
    }
    if name == 0 {
        return Err(NAME_ZERO);
    }
    cell.places.insert(number, Place { name, keys: Keys::of(keys), stands: Stands::Linked(parent), touches: 0 });
    cell.children.comes(number, parent);
    Ok(())
}

/// "2 agent | number, place it lives in"; "an agent loaded without actions is at 8".
fn agent(cell: &mut Cell, body: &[u8]) -> Result<(), u8> {
    let (number, home) = (body[0], body[1]);
    in_range(&[(number, to_63, AGENT_TOO_LARGE), (home, to_63, PARENT_TOO_LARGE)])?;
    if cell.agents.contains_key(&number) {
        return Err(GIVEN_TWICE);
    }
    if !cell.places.contains_key(&home) {
        return Err(NOT_YET_GIVEN);
    }
    cell.agents.insert(number, Agent { home, stage: 8, remembered: None, chosen: None, unused: Vec::new() });
    Ok(())
}

/// "3 action | agent, action kind, name (2 bytes), put after that agent's earlier ones"; an agent "loaded with some at 0".
fn action(cell: &mut Cell, body: &[u8]) -> Result<(), u8> {
    let (number, kind, name) = (body[0], body[1], two_bytes(body[2], body[3]));
    in_range(&[(number, to_63, AGENT_TOO_LARGE)])?;
    let agent = cell.agents.get_mut(&number).ok_or(NOT_YET_GIVEN)?;
    let kind = Kind::of(kind).ok_or(ACTION_KIND)?;
    if name == 0 {
        return Err(NAME_ZERO);
    }
    if agent.unused.len() == 16 {
        return Err(SEVENTEENTH_ACTION);
    }
    agent.unused.push(Action { kind, name });
    agent.stage = 0;
    Ok(())
}

/// Document 02, W3: "Record kind 5 gives one: place number 0 to 63, then four bytes, low byte first; it may stand once for each place, after
/// that place." "in it a place above 63 is 3, a second record for a place is 4, a place not given is 5." `touched` are the places that
/// had one so far.
fn touches(cell: &mut Cell, touched: &mut BTreeSet<u8>, body: &[u8]) -> Result<(), u8> {
    let number = body[0];
    in_range(&[(number, to_63, TOO_LARGE)])?;
    if touched.contains(&number) {
        return Err(GIVEN_TWICE);
    }
    let place = cell.places.get_mut(&number).ok_or(NOT_YET_GIVEN)?;
    place.touches = body[1..].iter().rev().fold(0, |count, &byte| 256 * count + byte as u64);
    touched.insert(number);
    Ok(())
}
