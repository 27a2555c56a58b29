//! The cell as a host lends it, one struct for all keepers, and sets of numbers below 64 as words.

/// No place and no agent; the lock of a place that is free; what an agent remembers that sleeps on no place.
pub const NONE: u8 = 64;

/// The longest listing.
pub const LISTING_LONGEST: usize = 16_225;

/// A name with its keys: what an enter, an exit and an open are compared with; 0 is compared with none.
#[repr(C)]
#[derive(Clone, Copy, PartialEq, Eq, Debug)]
pub struct Name {
    pub name: u16,
    pub entering: u16,
    pub exiting: u16,
    pub opening: u16,
}

/// One place. Way 0: linked to its parent; otherwise on its way to it, or the floor.
#[repr(C)]
#[derive(Clone, Copy, PartialEq, Eq, Debug)]
pub struct Place {
    pub name: Name,
    pub parent: u8,
    pub way: u8,
}

/// An action: 1 enter, 2 exit, 3 open, and the number that the key of that kind must be; or 4 release, and the name of the place that is put.
#[repr(C)]
#[derive(Clone, Copy, PartialEq, Eq, Debug)]
pub struct Action {
    pub kind: u8,
    pub name: u16,
}

/// An agent: its unused actions are those from `next` to before `count`.
#[repr(C)]
#[derive(Clone, Copy, PartialEq, Eq, Debug)]
pub struct Agent {
    pub home: u8,
    pub stage: u8,
    pub remembered: u8,
    pub chosen: u8,
    pub next: u8,
    pub count: u8,
    pub actions: [Action; 16],
}

/// The most touches that the places in use may have together.
pub const MOST_TOUCHES: u64 = 1_000_000_000_000;

/// The cell: places and agents by number, the lock of each place, the numbers in use, the touches of each place, and all place numbers in a
/// row, first the one that has been where it stands longest.
#[repr(C)]
#[derive(Clone, Copy, PartialEq, Eq, Debug)]
pub struct Cell {
    pub places: [Place; 64],
    pub locks: [u8; 64],
    pub agents: [Agent; 64],
    pub used: u64,
    pub given: u64,
    pub touches: [u64; 64],
    pub order: [u8; 64],
}

const _: () = assert!(size_of::<Place>() == 10 && size_of::<Agent>() == 70 && size_of::<Cell>() == 5776);

impl Name {
    /// No name and no keys: the floor's, and that of a number that is not in use.
    pub const NONE: Name = Name { name: 0, entering: 0, exiting: 0, opening: 0 };

    /// A name whose keys all equal it.
    pub fn plain(name: u16) -> Name {
        Name { name, entering: name, exiting: name, opening: name }
    }

    /// The key of a kind of action.
    pub fn key(&self, kind: u8) -> u16 {
        match kind {
            1 => self.entering,
            2 => self.exiting,
            _ => self.opening,
        }
    }
}

impl Place {
    /// A place that is not in use.
    pub const NONE: Place = Place { name: Name::NONE, parent: 0, way: 0 };
}

impl Cell {
    /// A bare floor: one place, no lock held, no agents.
    pub const BARE: Cell = {
        let mut places = [Place::NONE; 64];
        places[0].way = 1;
        let actions = [Action { kind: 0, name: 0 }; 16];
        let agent = Agent { home: 0, stage: 8, remembered: 0, chosen: 0, next: 0, count: 0, actions };
        let mut order = [0; 64];
        let mut q = 0;
        while q < 64 {
            order[q] = q as u8;
            q += 1;
        }
        Cell { places, locks: [NONE; 64], agents: [agent; 64], used: 1, given: 0, touches: [0; 64], order }
    };
}

/// Whether i is in the set.
pub fn has(set: u64, i: u8) -> bool {
    i < 64 && set >> i & 1 == 1
}

/// The members of a set, lowest first.
pub fn members(mut set: u64) -> impl Iterator<Item = u8> {
    std::iter::from_fn(move || {
        (set != 0).then(|| {
            let lowest = set.trailing_zeros() as u8;
            set &= set - 1;
            lowest
        })
    })
}
