//! The check of a trail, on the table as it is loaded: each move is tested and made in one pass over its kind, and the listing at the end is compared.

use super::list::list;
use super::load::load;
use super::sound::{linked, linked_to};
use super::step::{next_action, ENTER, EXIT, OPEN};
use crate::cell::{has, members, Cell, Name, Place, LISTING_LONGEST, NONE};

/// A reason: a move that is not permitted.
pub const NOT_PERMITTED: u8 = 1;
/// A reason: an agent that is not given or has no action left.
pub const NO_ACTION: u8 = 2;
/// A reason: an odd last byte.
pub const ODD_BYTE: u8 = 3;
/// A reason: another listing at the end.
pub const OTHER_LAYOUT: u8 = 4;

/// The byte of a move that names no place.
pub const NO_BYTE: u8 = 255;

/// The answer of an audit that says no.
pub fn denied(moves: usize, reason: u8) -> u64 {
    (moves as u64) << 16 | (reason as u64) << 8
}

/// The answer of an audit.
pub fn audit(file: &[u8], trail: &[u8], text: &[u8]) -> u64 {
    let mut cell = Cell::BARE;
    if let Err(refused) = load(&mut cell, file) {
        return refused.answer();
    }
    let (moves, odd) = trail.as_chunks::<2>();
    if !odd.is_empty() {
        return denied(moves.len(), ODD_BYTE);
    }
    for (made, &[x, byte]) in moves.iter().enumerate() {
        let reason = make(&mut cell, x, byte);
        if reason != 0 {
            return denied(made, reason);
        }
    }
    let mut page = [0; LISTING_LONGEST];
    match list(&cell, &mut page) {
        Some(length) if page[..length] == *text => 0,
        _ => denied(moves.len(), OTHER_LAYOUT),
    }
}

/// Makes the move of agent x that the byte tells, and answers 0; or why it is denied.
fn make(cell: &mut Cell, x: u8, byte: u8) -> u8 {
    if !has(cell.given, x) {
        return NO_ACTION;
    }
    let agent = &mut cell.agents[x as usize];
    if agent.next >= agent.count {
        return NO_ACTION;
    }
    let (home, action) = (agent.home, next_action(agent));
    agent.next += 1;
    let parent = cell.places[home as usize].parent;
    let fits = |q: u8| cell.places[q as usize].name.key(action.kind) == action.name;
    match action.kind {
        ENTER if linked(cell, home) && byte != home && linked_to(cell, byte, parent) && fits(byte) => {
            cell.places[home as usize].parent = byte;
        }
        EXIT if byte == NO_BYTE && linked(cell, home) && linked(cell, parent) && fits(parent) => {
            cell.places[home as usize].parent = cell.places[parent as usize].parent;
        }
        OPEN if linked_to(cell, byte, home) && fits(byte) => open(cell, home, byte),
        ENTER | EXIT | OPEN => return NOT_PERMITTED,
        _ => {
            let q = cell.used.trailing_ones() as u8;
            if byte != NO_BYTE || q == NONE {
                return NOT_PERMITTED;
            }
            cell.places[q as usize] = Place { name: Name::plain(action.name), parent: home, way: 0 };
            cell.used |= 1 << q;
        }
    }
    0
}

/// Dissolves place t into p.
fn open(cell: &mut Cell, p: u8, t: u8) {
    cell.used &= !(1 << t);
    for q in members(cell.used & !1) {
        let place = &mut cell.places[q as usize];
        if place.parent == t {
            place.parent = p;
        }
    }
    for y in members(cell.given) {
        let agent = &mut cell.agents[y as usize];
        if agent.home == t {
            agent.home = p;
        }
    }
}
