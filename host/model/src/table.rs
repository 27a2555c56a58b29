//! The table as a host lends it: numbers in a struct of C, any of which may be wrong.

use crate::cell::{Action, Agent, Cell, Keys, Kind, Place, Stands};
use crate::children::Children;
use crate::sound::sound;
use std::collections::BTreeMap;

/// The size of the struct in bytes: places 10 bytes each, locks 1, agents 70, two sets of 8 bytes, a count of 8 bytes for each place, and a row
/// of 64 numbers.
pub const SIZE: usize = ORDER + 64;
/// The size of a place: a name and three keys of two bytes each, and two bytes.
const PLACE: usize = 4 * 2 + 2;
/// Where the locks start.
const LOCKS: usize = 64 * PLACE;
/// Where the agents start.
const AGENTS: usize = LOCKS + 64;
/// The size of an agent: six bytes and sixteen actions of four bytes.
const AGENT: usize = 6 + 16 * 4;
/// Where the sets start.
const SETS: usize = AGENTS + 64 * AGENT;
/// Where the touch counts start.
const TOUCHES: usize = SETS + 8 + 8;
/// Where the row starts.
const ORDER: usize = TOUCHES + 64 * 8;
/// What an agent's record has as the remembered place where it sleeps "on no place" (document 02, W11): a number that no place has.
pub const NO_PLACE: u8 = 64;

/// A place's record: its name, its keys for entering, exiting and opening; way 0 is linked to the parent, any other way is on its way to it;
/// the floor has name 0, keys 0, parent 0 and a way other than 0.
#[derive(Clone, Copy, PartialEq, Eq, Debug)]
pub struct PlaceRecord {
    pub name: u16,
    pub keys: [u16; 3],
    pub parent: u8,
    pub way: u8,
}

/// An action's record: its kind's number and its name.
#[derive(Clone, Copy, PartialEq, Eq, Debug)]
pub struct ActionRecord {
    pub kind: u8,
    pub name: u16,
}

/// An agent's record: its unused actions are those from `next` to before `count`.
#[derive(Clone, Copy, PartialEq, Eq, Debug)]
pub struct AgentRecord {
    pub home: u8,
    pub stage: u8,
    pub remembered: u8,
    pub chosen: u8,
    pub next: u8,
    pub count: u8,
    pub actions: [ActionRecord; 16],
}

/// All records, in use or not; a lock of 64 is free; a number is in use where its set says so; the row of all place numbers has first the
/// one that has been where it stands longest.
#[derive(Clone, PartialEq, Eq, Debug)]
pub struct Table {
    pub places: Vec<PlaceRecord>,
    pub locks: Vec<u8>,
    pub agents: Vec<AgentRecord>,
    pub used: Vec<bool>,
    pub given: Vec<bool>,
    pub touches: Vec<u64>,
    pub order: Vec<u8>,
}

impl AgentRecord {
    /// The unused actions, if `next` and `count` are in range.
    pub fn unused(&self) -> Option<&[ActionRecord]> {
        self.actions.get(self.next as usize..self.count as usize)
    }

    /// The kind of the next action, if there is one of a known kind.
    pub fn next_kind(&self) -> Option<Kind> {
        self.unused()?.first().and_then(|action| Kind::of(action.kind))
    }

    /// "An agent remembers a place at stages 1 to 3 and 7", but for one that sleeps on no place.
    pub fn remembered_place(&self) -> Option<u8> {
        (matches!(self.stage, 1 | 2 | 3 | 7) && !self.sleeps_on_no_place()).then_some(self.remembered)
    }

    /// Document 02, W11: "asleep" a release agent, "and no other agent, may remember no place".
    fn sleeps_on_no_place(&self) -> bool {
        self.stage == 7 && self.next_kind() == Some(Kind::Release) && self.remembered == NO_PLACE
    }

    /// "and a chosen place at stage 3 of enter and open".
    pub fn chosen_place(&self) -> Option<u8> {
        (self.stage == 3 && self.next_kind() != Some(Kind::Exit)).then_some(self.chosen)
    }
}

impl Table {
    /// Takes the bytes of the struct apart.
    pub fn read(bytes: &[u8; SIZE]) -> Table {
        let two = |at: usize| u16::from_ne_bytes([bytes[at], bytes[at + 1]]);
        let place = |number: usize| {
            let at = PLACE * number;
            PlaceRecord { name: two(at), keys: [two(at + 2), two(at + 4), two(at + 6)], parent: bytes[at + 8], way: bytes[at + 9] }
        };
        let agent = |number: usize| {
            let at = AGENTS + AGENT * number;
            let action = |index: usize| ActionRecord { kind: bytes[at + 6 + 4 * index], name: two(at + 6 + 4 * index + 2) };
            AgentRecord {
                home: bytes[at],
                stage: bytes[at + 1],
                remembered: bytes[at + 2],
                chosen: bytes[at + 3],
                next: bytes[at + 4],
                count: bytes[at + 5],
                actions: std::array::from_fn(action),
            }
        };
        let eight = |at: usize| u64::from_ne_bytes(bytes[at..at + 8].try_into().expect("eight bytes"));
        let set = |at: usize| (0..64).map(|number| eight(at) >> number & 1 == 1).collect();
        Table {
            places: (0..64).map(place).collect(),
            locks: bytes[LOCKS..AGENTS].to_vec(),
            agents: (0..64).map(agent).collect(),
            used: set(SETS),
            given: set(SETS + 8),
            touches: (0..64).map(|number| eight(TOUCHES + 8 * number)).collect(),
            order: bytes[ORDER..].to_vec(),
        }
    }

    /// The place with this number, if it is in use.
    pub fn place(&self, number: u8) -> Option<&PlaceRecord> {
        self.used.get(number as usize)?.then(|| &self.places[number as usize])
    }

    /// The places in use, with their numbers.
    pub fn places_in_use(&self) -> impl Iterator<Item = (u8, &PlaceRecord)> {
        (0..64).filter_map(|number| Some((number, self.place(number)?)))
    }

    /// The agents in use, with their numbers.
    pub fn agents_in_use(&self) -> impl Iterator<Item = (u8, &AgentRecord)> {
        (0..64).filter(|&number| self.given[number as usize]).map(|number| (number, &self.agents[number as usize]))
    }

    /// The cell that a sound table keeps; none if it is unsound.
    pub fn cell(&self) -> Option<Cell> {
        if !sound(self) {
            return None;
        }
        let mut cell = Cell { places: BTreeMap::new(), children: Children::default(), locks: BTreeMap::new(), agents: BTreeMap::new() };
        for (number, record) in self.places_in_use() {
            let stands = match (number, record.way) {
                (0, _) => Stands::TheFloor,
                (_, 0) => Stands::Linked(record.parent),
                _ => Stands::OnItsWay(record.parent),
            };
            let touches = self.touches[number as usize];
            cell.places.insert(number, Place { name: record.name, keys: Keys::of(record.keys), stands, touches });
            if self.locks[number as usize] != 64 {
                cell.locks.insert(number, self.locks[number as usize]);
            }
        }
        for &number in &self.order {
            if let Some(parent) = cell.places.get(&number).and_then(Place::linked_to) {
                cell.children.comes(number, parent);
            }
        }
        for (number, record) in self.agents_in_use() {
            let unused = record.unused()?.iter().map(|action| Some(Action { kind: Kind::of(action.kind)?, name: action.name }));
            let agent = Agent {
                home: record.home,
                stage: record.stage,
                remembered: record.remembered_place(),
                chosen: record.chosen_place(),
                unused: unused.collect::<Option<Vec<Action>>>()?,
            };
            cell.agents.insert(number, agent);
        }
        Some(cell)
    }
}
