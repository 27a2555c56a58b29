//! The cell of a text: one pass over its bytes, in which the cell is filled; no tree and no stack, so that a text may be nested as deeply as it
//! likes. Where there are too many of anything the rest is read all the same.

use super::load::Refused;
use super::{OUTSIDE_LANGUAGE, TOO_MANY};
use crate::cell::{Action, Cell, Name, Place};

/// Makes a bare floor the cell of a whole text, or answers its refusal.
pub fn read(cell: &mut Cell, text: &[u8]) -> Result<(), Refused> {
    let fault = |offset| Refused { number: OUTSIDE_LANGUAGE, offset };
    if text.first() == Some(&b'0') {
        return if text.len() == 1 { Ok(()) } else { Err(fault(1)) };
    }
    let mut site = Site { cell, places: 0, agents: 0, here: 0, lost: 0, over: false };
    parts(text, &mut site).map_err(fault)?;
    if site.over {
        return Err(Refused { number: TOO_MANY, offset: text.len() });
    }
    site.finish();
    Ok(())
}

/// The cell so far: how many places and agents, the place whose contents are read, how many places within it that did not fit are open, and
/// whether there were too many of anything.
struct Site<'a> {
    cell: &'a mut Cell,
    places: usize,
    agents: usize,
    here: u8,
    lost: usize,
    over: bool,
}

impl Site<'_> {
    fn place(&mut self, name: Name) {
        if self.places == 63 {
            self.over = true;
            self.lost += 1;
        } else {
            self.places += 1;
            self.cell.places[self.places] = Place { name, parent: self.here, way: 0 };
            self.here = self.places as u8;
        }
    }

    /// Ends the contents of a place; false where none is open.
    fn close(&mut self) -> bool {
        if self.lost > 0 {
            self.lost -= 1;
        } else if self.here == 0 {
            return false;
        } else {
            self.here = self.cell.places[self.here as usize].parent;
        }
        true
    }

    /// The sets and the row, which follow from the counts.
    fn finish(self) {
        let Site { cell, places, agents, .. } = self;
        cell.used = u64::MAX >> (63 - places);
        cell.given = if agents == 0 { 0 } else { u64::MAX >> (64 - agents) };
        let row = (0..1).chain(places as u8 + 1..64).chain(1..places as u8 + 1);
        cell.order.iter_mut().zip(row).for_each(|(place, number)| *place = number);
    }
}

/// Something that was read, with the offset after it; or the offset of a fault.
type Read<T> = Result<(T, usize), usize>;

/// Reads all parts to the end of the text.
fn parts(text: &[u8], site: &mut Site) -> Result<(), usize> {
    let mut at = 0;
    loop {
        match text.get(at) {
            Some(b'1'..=b'9') => {
                let name;
                (name, at) = head(text, at)?;
                site.place(name);
                if text.get(at) != Some(&b']') {
                    continue;
                }
            }
            _ => at = agent(text, at, site)?,
        }
        while text.get(at) == Some(&b']') {
            if !site.close() {
                return Err(at);
            }
            at += 1;
        }
        if at == text.len() && site.here == 0 && site.lost == 0 {
            return Ok(());
        }
        at = expect(text, at, b" | ")?;
    }
}

/// The offset after these bytes, or that of the first that differs.
fn expect<const N: usize>(text: &[u8], at: usize, bytes: &[u8; N]) -> Result<usize, usize> {
    if text[at..].starts_with(bytes) {
        return Ok(at + N);
    }
    Err(at + text[at..].iter().zip(bytes).take_while(|(one, other)| one == other).count())
}

/// The eight bytes from there on, the first one lowest; 0 for those after the end.
fn eight(text: &[u8], at: usize) -> u64 {
    match text[at..].first_chunk() {
        Some(&bytes) => u64::from_le_bytes(bytes),
        None => text[at..].iter().rev().fold(0, |word, &byte| word << 8 | byte as u64),
    }
}

/// A place's name and keys, up to its bracket.
fn head(text: &[u8], at: usize) -> Read<Name> {
    let (name, mut at) = number(text, at)?;
    let mut keys = [name; 3];
    if text.get(at) == Some(&b'/') {
        for key in &mut keys {
            at = expect(text, at, b"/")?;
            (*key, at) = if text.get(at) == Some(&b'0') { (0, at + 1) } else { number(text, at)? };
        }
    }
    let [entering, exiting, opening] = keys;
    Ok((Name { name, entering, exiting, opening }, expect(text, at, b"[")?))
}

/// An agent's actions, and the offset after them.
fn agent(text: &[u8], mut at: usize, site: &mut Site) -> Result<usize, usize> {
    let (mut count, mut actions) = (0, [Action { kind: 0, name: 0 }; 16]);
    loop {
        let (kind, name);
        (kind, at) = word(text, at)?;
        (name, at) = number(text, at)?;
        match actions.get_mut(count) {
            Some(action) => *action = Action { kind, name },
            None => site.over = true,
        }
        count += 1;
        if text.get(at) != Some(&b'.') {
            break;
        }
        at += 1;
    }
    match site.cell.agents.get_mut(site.agents) {
        Some(agent) => {
            (agent.home, agent.stage, agent.count, agent.actions) = (site.here, 0, count as u8, actions);
            site.agents += 1;
        }
        None => site.over = true,
    }
    Ok(at)
}

/// The kind of an action by its word, and the offset of the number.
fn word(text: &[u8], at: usize) -> Read<u8> {
    let word = eight(text, at);
    match () {
        _ if word << 16 == u64::from_le_bytes(*b"\0\0enter ") => Ok((1, at + 6)),
        _ if word << 24 == u64::from_le_bytes(*b"\0\0\0exit ") => Ok((2, at + 5)),
        _ if word << 24 == u64::from_le_bytes(*b"\0\0\0open ") => Ok((3, at + 5)),
        _ if word == u64::from_le_bytes(*b"release ") => Ok((4, at + 8)),
        _ => Err(word_fault(text, at)),
    }
}

/// The offset at which no word goes on so.
#[cold]
fn word_fault(text: &[u8], at: usize) -> usize {
    let words: [&[u8]; 4] = [b"enter ", b"exit ", b"open ", b"release "];
    let same = |word: &[u8]| text[at..].iter().zip(word).take_while(|(one, other)| one == other).count();
    at + words.map(same).into_iter().max().unwrap_or(0)
}

/// A number from 1 to 65,535, and the offset after it.
#[inline(always)]
fn number(text: &[u8], mut at: usize) -> Read<u16> {
    let mut number = match text.get(at) {
        Some(digit @ b'1'..=b'9') => (digit - b'0') as u32,
        _ => return Err(at),
    };
    at += 1;
    while let Some(digit @ b'0'..=b'9') = text.get(at) {
        number = 10 * number + (digit - b'0') as u32;
        if number > 65_535 {
            return Err(at);
        }
        at += 1;
    }
    Ok((number as u16, at))
}
