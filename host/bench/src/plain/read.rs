//! The cell of a text: its parts are read into a tree by functions that call each other, as the language is written down, and then numbered. A text
//! that is nested too deeply for the stack ends the program.

use crate::cell::{Action, Cell, Name, Place};
use crate::tuned::{Refused, OUTSIDE_LANGUAGE, TOO_MANY};

/// A part of a text.
enum Part {
    Agent(Vec<Action>),
    Place(Name, Vec<Part>),
}

/// The cell of a whole text, or its refusal.
pub fn read(text: &[u8]) -> Result<Cell, Refused> {
    let mut reader = Reader { text, at: 0 };
    let parts = reader.floor().map_err(|Fault| Refused { number: OUTSIDE_LANGUAGE, offset: reader.at })?;
    let mut numbering = Numbering { cell: Cell::BARE, places: 0, agents: 0 };
    numbering.parts(&parts, 0).ok_or(Refused { number: TOO_MANY, offset: text.len() })?;
    let Numbering { mut cell, places, .. } = numbering;
    let row = (0..64).filter(|&number| number == 0 || number > places).chain(1..=places);
    cell.order.iter_mut().zip(row).for_each(|(place, number)| *place = number as u8);
    Ok(cell)
}

/// The text, and how far it is read.
struct Reader<'a> {
    text: &'a [u8],
    at: usize,
}

/// The byte that is next cannot stand there.
struct Fault;

impl Reader<'_> {
    fn next(&self) -> Option<u8> {
        self.text.get(self.at).copied()
    }

    fn expect(&mut self, bytes: &[u8]) -> Result<(), Fault> {
        for &byte in bytes {
            if self.next() != Some(byte) {
                return Err(Fault);
            }
            self.at += 1;
        }
        Ok(())
    }

    /// The whole text.
    fn floor(&mut self) -> Result<Vec<Part>, Fault> {
        let parts = if self.next() == Some(b'0') {
            self.at += 1;
            vec![]
        } else {
            self.parts()?
        };
        if self.at < self.text.len() {
            return Err(Fault);
        }
        Ok(parts)
    }

    /// One part or more.
    fn parts(&mut self) -> Result<Vec<Part>, Fault> {
        let mut parts = vec![self.part()?];
        while self.next() == Some(b' ') {
            self.expect(b" | ")?;
            parts.push(self.part()?);
        }
        Ok(parts)
    }

    fn part(&mut self) -> Result<Part, Fault> {
        match self.next() {
            Some(b'1'..=b'9') => self.place(),
            _ => self.agent(),
        }
    }

    fn place(&mut self) -> Result<Part, Fault> {
        let name = self.number(1)?;
        let mut keys = [name; 3];
        if self.next() == Some(b'/') {
            for key in &mut keys {
                self.expect(b"/")?;
                *key = self.number(0)?;
            }
        }
        self.expect(b"[")?;
        let contents = if self.next() == Some(b']') { vec![] } else { self.parts()? };
        self.expect(b"]")?;
        let [entering, exiting, opening] = keys;
        Ok(Part::Place(Name { name, entering, exiting, opening }, contents))
    }

    fn agent(&mut self) -> Result<Part, Fault> {
        let mut actions = vec![self.action()?];
        while self.next() == Some(b'.') {
            self.at += 1;
            actions.push(self.action()?);
        }
        Ok(Part::Agent(actions))
    }

    fn action(&mut self) -> Result<Action, Fault> {
        let kind = match self.next() {
            Some(b'o') => {
                self.expect(b"open ")?;
                3
            }
            Some(b'r') => {
                self.expect(b"release ")?;
                4
            }
            _ => {
                self.expect(b"e")?;
                if self.next() == Some(b'n') {
                    self.expect(b"nter ")?;
                    1
                } else {
                    self.expect(b"xit ")?;
                    2
                }
            }
        };
        Ok(Action { kind, name: self.number(1)? })
    }

    /// A number from this one on.
    fn number(&mut self, least: u8) -> Result<u16, Fault> {
        let mut number = match self.next() {
            Some(digit @ b'0'..=b'9') if digit - b'0' >= least => (digit - b'0') as u32,
            _ => return Err(Fault),
        };
        self.at += 1;
        while let Some(digit @ b'0'..=b'9') = self.next() {
            let longer = 10 * number + (digit - b'0') as u32;
            if number == 0 || longer > 65_535 {
                return Err(Fault);
            }
            number = longer;
            self.at += 1;
        }
        Ok(number as u16)
    }
}

/// The cell so far.
struct Numbering {
    cell: Cell,
    places: usize,
    agents: usize,
}

impl Numbering {
    /// Numbers the parts that stand in a place; none if there are too many of anything.
    fn parts(&mut self, parts: &[Part], around: u8) -> Option<()> {
        for part in parts {
            match part {
                Part::Place(name, contents) => {
                    self.places += 1;
                    *self.cell.places.get_mut(self.places)? = Place { name: *name, parent: around, way: 0 };
                    self.cell.used |= 1 << self.places;
                    self.parts(contents, self.places as u8)?;
                }
                Part::Agent(actions) => {
                    let agent = self.cell.agents.get_mut(self.agents)?;
                    agent.actions.get_mut(..actions.len())?.copy_from_slice(actions);
                    (agent.home, agent.stage, agent.count) = (around, 0, actions.len() as u8);
                    self.cell.given |= 1 << self.agents;
                    self.agents += 1;
                }
            }
        }
        Some(())
    }
}
