//! The check of a trail, on the table as it is loaded: each move is tested and made, and the listing at the end is compared.

use super::list::listing;
use super::sound::{linked, linked_to};
use super::step::{ENTER, EXIT, OPEN};
use super::Plain;
use crate::cell::{has, Cell, Name, Place};
use crate::keeper::Keeper;
use crate::tuned::{denied, NOT_PERMITTED, NO_ACTION, NO_BYTE, ODD_BYTE, OTHER_LAYOUT};

/// The answer of an audit.
pub fn audit(file: &[u8], trail: &[u8], text: &[u8]) -> u64 {
    let mut cell = Cell::BARE;
    let loaded = Plain::load(&mut cell, file);
    if loaded != 0 {
        return loaded;
    }
    if trail.len() % 2 == 1 {
        return denied(trail.len() / 2, ODD_BYTE);
    }
    for (made, pair) in trail.chunks(2).enumerate() {
        let (x, byte) = (pair[0], pair[1]);
        if !has(cell.given, x) || !cell.agents[x as usize].has_actions_left() {
            return denied(made, NO_ACTION);
        }
        if !permitted(&cell, x, byte) {
            return denied(made, NOT_PERMITTED);
        }
        make(&mut cell, x, byte);
    }
    if listing(&cell).as_bytes() != text {
        return denied(trail.len() / 2, OTHER_LAYOUT);
    }
    0
}

/// Whether the next action of agent x may be made as the byte tells.
fn permitted(cell: &Cell, x: u8, byte: u8) -> bool {
    let agent = &cell.agents[x as usize];
    let (home, action) = (agent.home, agent.action());
    let parent = cell.places[home as usize].parent;
    let fits = |q: u8| cell.places[q as usize].name.key(action.kind) == action.name;
    match action.kind {
        ENTER => linked(cell, home) && byte != home && linked_to(cell, byte, parent) && fits(byte),
        EXIT => byte == NO_BYTE && linked(cell, home) && linked(cell, parent) && fits(parent),
        OPEN => linked_to(cell, byte, home) && fits(byte),
        _ => byte == NO_BYTE && (0..64).any(|q| !has(cell.used, q)),
    }
}

/// Makes it.
fn make(cell: &mut Cell, x: u8, byte: u8) {
    let (home, action) = (cell.agents[x as usize].home, cell.agents[x as usize].action());
    match action.kind {
        ENTER => cell.places[home as usize].parent = byte,
        EXIT => {
            let parent = cell.places[home as usize].parent;
            cell.places[home as usize].parent = cell.places[parent as usize].parent;
        }
        OPEN => {
            for q in 0..64 {
                if has(cell.used, q) && cell.places[q as usize].parent == byte {
                    cell.places[q as usize].parent = home;
                }
                if has(cell.given, q) && cell.agents[q as usize].home == byte {
                    cell.agents[q as usize].home = home;
                }
            }
            cell.used &= !(1 << byte);
        }
        _ => {
            if let Some(q) = (0..64).find(|&q| !has(cell.used, q)) {
                cell.places[q as usize] = Place { name: Name::plain(action.name), parent: home, way: 0 };
                cell.used |= 1 << q;
            }
        }
    }
    cell.agents[x as usize].next += 1;
}
