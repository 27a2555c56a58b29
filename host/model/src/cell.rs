//! What a cell is: "The cell" of document 01.

use crate::children::Children;
use std::collections::BTreeMap;

/// "An action is a kind (1 enter, 2 exit, 3 open)"; document 02, W11: "Action kind 4, release n".
#[derive(Clone, Copy, PartialEq, Eq, Debug)]
pub enum Kind {
    Enter,
    Exit,
    Open,
    Release,
}

/// "An action is a kind .. and a name." Document 02, W6, calls the name of an action its number.
#[derive(Clone, Copy, PartialEq, Eq, Debug)]
pub struct Action {
    pub kind: Kind,
    pub name: u16,
}

/// Document 02, W6: "A place gets three two-byte keys: enter, exit, open. .. 0 means nobody may": then there is no key.
#[derive(Clone, Copy, PartialEq, Eq, Debug)]
pub struct Keys {
    pub enter: Option<u16>,
    pub exit: Option<u16>,
    pub open: Option<u16>,
}

/// "A place other than the floor is linked to a parent or on its way to a destination."
#[derive(Clone, Copy, PartialEq, Eq, Debug)]
pub enum Stands {
    TheFloor,
    Linked(u8),
    OnItsWay(u8),
}

/// A place without its lock: its name, its keys (document 02, W6), where it stands, and, W3: "A place carries a touch count, starting at 0."
#[derive(Clone, Copy, PartialEq, Eq, Debug)]
pub struct Place {
    pub name: u16,
    pub keys: Keys,
    pub stands: Stands,
    pub touches: u64,
}

/// The places in use, by number.
pub type Places = BTreeMap<u8, Place>;

/// "An agent .. lives in one place, and carries a row of sixteen actions at most." What it remembers and has chosen is there only at
/// the stages that use it; document 02, W11: one that sleeps "on no place" remembers none.
#[derive(Clone, PartialEq, Eq, Debug)]
pub struct Agent {
    pub home: u8,
    pub stage: u8,
    pub remembered: Option<u8>,
    pub chosen: Option<u8>,
    pub unused: Vec<Action>,
}

/// The places, for each the ones linked to it in the order in which they came, for each held lock its holder, and the agents.
#[derive(Clone, PartialEq, Eq, Debug)]
pub struct Cell {
    pub places: Places,
    pub children: Children,
    pub locks: BTreeMap<u8, u8>,
    pub agents: BTreeMap<u8, Agent>,
}

impl Kind {
    /// The kind with this number: "1 enter, 2 exit, 3 open", and "kind 4, release".
    pub fn of(number: u8) -> Option<Kind> {
        match number {
            1 => Some(Kind::Enter),
            2 => Some(Kind::Exit),
            3 => Some(Kind::Open),
            4 => Some(Kind::Release),
            _ => None,
        }
    }

    /// The number of this kind: "1 enter, 2 exit, 3 open", and "kind 4, release".
    pub fn number(self) -> u8 {
        match self {
            Kind::Enter => 1,
            Kind::Exit => 2,
            Kind::Open => 3,
            Kind::Release => 4,
        }
    }
}

impl Keys {
    /// The keys with these numbers, those for entering, exiting and opening: "0 means nobody may".
    pub fn of(numbers: [u16; 3]) -> Keys {
        let [enter, exit, open] = numbers.map(|number| if number == 0 { None } else { Some(number) });
        Keys { enter, exit, open }
    }

    /// The numbers of the keys, in the order of the file: 0 where nobody may.
    pub fn numbers(self) -> [u16; 3] {
        [self.enter, self.exit, self.open].map(|key| key.unwrap_or(0))
    }

    /// "An action's number is compared with the key of its kind": whether the place with these keys may be entered, left or opened by the
    /// action. A release enters, leaves and opens nothing.
    pub fn fit(self, action: Action) -> bool {
        let key = match action.kind {
            Kind::Enter => self.enter,
            Kind::Exit => self.exit,
            Kind::Open => self.open,
            Kind::Release => None,
        };
        key == Some(action.name)
    }
}

impl Place {
    /// The place that a release n puts into this one; document 02, W11: "a new place named n .. with no agents, touches 0 and all keys n".
    pub fn fresh(name: u16, parent: u8) -> Place {
        Place { name, keys: Keys::of([name; 3]), stands: Stands::Linked(parent), touches: 0 }
    }

    /// The parent that the place is linked to, if it is linked.
    pub fn linked_to(&self) -> Option<u8> {
        match self.stands {
            Stands::Linked(parent) => Some(parent),
            _ => None,
        }
    }

    /// The destination that the place is on its way to, if it is on its way.
    pub fn on_its_way_to(&self) -> Option<u8> {
        match self.stands {
            Stands::OnItsWay(destination) => Some(destination),
            _ => None,
        }
    }

    /// The parent, or "the destination for a place on its way"; the floor has none.
    pub fn around(&self) -> Option<u8> {
        self.linked_to().or(self.on_its_way_to())
    }
}

impl Cell {
    /// "A load starts from a bare floor": "Place 0 is the floor: name 0, no parent". Of its keys, document 02, W6: "the floor's are 0".
    pub fn bare() -> Cell {
        let floor = Place { name: 0, keys: Keys::of([0; 3]), stands: Stands::TheFloor, touches: 0 };
        let places = BTreeMap::from([(0, floor)]);
        Cell { places, children: Children::default(), locks: BTreeMap::new(), agents: BTreeMap::new() }
    }

    /// "A cell is settled when no lock is held and nothing is on its way."
    pub fn settled(&self) -> bool {
        self.locks.is_empty() && self.places.values().all(|place| place.on_its_way_to().is_none())
    }

    /// "whether all agents are asleep or done": 7 and 8 are the stages at which a step call answers that word.
    pub fn idle(&self) -> bool {
        self.agents.values().all(|agent| agent.stage == 7 || agent.stage == 8)
    }

    /// "It is one tree when following parents or destinations leads every place to the floor."
    pub fn one_tree(&self) -> bool {
        self.places.keys().all(|&start| {
            let mut at = start;
            for _ in 0..self.places.len() {
                match self.places.get(&at).and_then(Place::around) {
                    Some(around) => at = around,
                    None => break,
                }
            }
            at == 0
        })
    }
}
