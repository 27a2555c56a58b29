//! The memory that a host lends, and the exports of the library: the only unsafe code of the crate.
//!
//! Each function answers the library's number as it is; the bits are described in `keeper.h`. [`crate::Cell`] takes them apart. Where the
//! library does not fit ([`fits`]), it is not called: the answer is 255 and nothing changes.

mod window;

pub use window::{Window, WINDOW_SIZE};

use crate::refusal::Refusal;
use crate::VERSION;
use core::mem::{offset_of, size_of};

/// The size of a cell in bytes.
pub const SIZE: usize = 5_776;

/// The number of places that a cell has room for; place 0 is the floor.
pub const PLACES: usize = 64;

/// The number of agents that a cell has room for.
pub const AGENTS: usize = 64;

/// The number of actions that an agent has room for.
pub const ACTIONS: usize = 16;

/// The lock of a place that no agent holds.
pub const FREE: u8 = 64;

/// What an agent remembers that sleeps on no place: one whose next action is a release and that found all place numbers in use.
pub const NO_PLACE: u8 = 64;

/// A name with its three keys. An action's number is compared with the key of its kind on the place entered, left or opened, and not with
/// the name; a key of 0 fits no action, so that nobody may. In a cell file a place record of kind 1 sets all three keys to the name, one of
/// kind 6 gives each of them.
#[repr(C)]
#[derive(Clone, Copy, PartialEq, Eq, Debug)]
pub struct Name {
    /// What the place is called and listed by, from 1 on; the floor's is 0.
    pub name: u16,
    /// The key for entering: `enter n` takes a place into one where this is n. The floor's is 0.
    pub entering: u16,
    /// The key for exiting: `exit n` takes a place out of one where this is n. The floor's is 0.
    pub exiting: u16,
    /// The key for opening: `open n` opens a place where this is n. The floor's is 0.
    pub opening: u16,
}

/// A place.
#[repr(C)]
#[derive(Clone, Copy, PartialEq, Eq, Debug)]
pub struct Place {
    /// Its name with its keys.
    pub name: Name,
    /// The place that it is linked to, or on its way to; the floor's is 0.
    pub parent: u8,
    /// 0 where it is linked, else it is on its way; the floor's is 1.
    pub way: u8,
}

/// An action.
#[repr(C)]
#[derive(Clone, Copy, PartialEq, Eq, Debug)]
pub struct Action {
    /// 1 enter, 2 exit, 3 open, 4 release.
    pub kind: u8,
    /// Means nothing: no answer depends on it, and what it holds after a call, a refused one too, is not promised.
    pub padding: u8,
    /// The number that the key of that kind must be on the place that it acts on, from 1 on; where the place has no keys of its own, that is
    /// its name. Of a release, the name of the place that it puts, whose three keys are that name too.
    pub name: u16,
}

/// An agent.
#[repr(C)]
#[derive(Clone, Copy, PartialEq, Eq, Debug)]
pub struct Agent {
    /// The place that it lives in.
    pub home: u8,
    /// Its stage, 0 to 8.
    pub stage: u8,
    /// The place that it remembers at stages 1 to 3 and 7; at stage 7, where its next action is a release, also [`NO_PLACE`].
    pub remembered: u8,
    /// The place that it has chosen, at stage 3 of enter and open.
    pub chosen: u8,
    /// The index of its next action; those before it are used up.
    pub next: u8,
    /// How many actions it was loaded with.
    pub count: u8,
    /// Its actions.
    pub actions: [Action; ACTIONS],
}

/// A cell as the library keeps it. Two are equal where all their bytes are, also those that mean nothing.
#[repr(C)]
#[derive(Clone, PartialEq, Eq, Debug)]
pub struct Lent {
    /// The places.
    pub places: [Place; PLACES],
    /// For each place the agent that holds its lock, or [`FREE`].
    pub locks: [u8; PLACES],
    /// The agents.
    pub agents: [Agent; AGENTS],
    /// Bit i is set where place i is in use.
    pub used: u64,
    /// Bit i is set where agent i is in use.
    pub given: u64,
    /// For each place its touch count.
    pub touches: [u64; PLACES],
    /// All place numbers, 0 to 63, each once: of places linked to one parent the one that has been there longest comes first.
    pub order: [u8; PLACES],
}

const _: () = assert!(size_of::<Name>() == 8 && offset_of!(Name, entering) == 2);
const _: () = assert!(offset_of!(Name, exiting) == 4 && offset_of!(Name, opening) == 6);
const _: () = assert!(size_of::<Place>() == 10 && offset_of!(Place, parent) == 8 && offset_of!(Place, way) == 9);
const _: () = assert!(size_of::<Action>() == 4 && offset_of!(Action, padding) == 1 && offset_of!(Action, name) == 2);
const _: () = assert!(size_of::<Agent>() == 70 && offset_of!(Agent, stage) == 1 && offset_of!(Agent, remembered) == 2);
const _: () = assert!(offset_of!(Agent, chosen) == 3 && offset_of!(Agent, next) == 4 && offset_of!(Agent, count) == 5);
const _: () = assert!(offset_of!(Agent, actions) == 6 && size_of::<Lent>() == SIZE);
const _: () = assert!(offset_of!(Lent, locks) == 640 && offset_of!(Lent, agents) == 704);
const _: () = assert!(offset_of!(Lent, used) == 5184 && offset_of!(Lent, given) == 5192 && offset_of!(Lent, touches) == 5200);
const _: () = assert!(offset_of!(Lent, order) == 5712);

extern "C" {
    fn keeper_version() -> u64;
    fn keeper_cell_bytes() -> u64;
    fn keeper_bare(cell: *mut Lent) -> u64;
    fn keeper_load(cell: *mut Lent, file: *const u8, len: usize) -> u64;
    fn keeper_read(cell: *mut Lent, text: *const u8, length: usize) -> u64;
    fn keeper_step(cell: *mut Lent, agent: u8, wish: u8) -> u64;
    fn keeper_ask(cell: *const Lent, agent: u8, wish: u8) -> u64;
    fn keeper_commit(cell: *mut Lent, agent: u8, wish: u8, asked: u64) -> u64;
    fn keeper_list(cell: *const Lent, text: *mut u8, room: usize) -> u64;
    fn keeper_check(cell: *const Lent) -> u64;
    fn keeper_idle(cell: *const Lent) -> u64;
    fn keeper_touch(cell: *mut Lent, place: u8, number: u32) -> u64;
    fn keeper_touches(cell: *const Lent, place: u8) -> u64;
    fn keeper_nearest(cell: *const Lent, place: u8, name: u16) -> u64;
    fn keeper_common(cell: *const Lent, place: u8, other: u8) -> u64;
    fn keeper_ceiling(cell: *const Lent) -> u64;
    fn keeper_trail(agent: u8, asked: u64, trail: *mut u8, room: usize) -> u64;
    fn keeper_audit(file: *const u8, n: usize, trail: *const u8, m: usize, listing: *const u8, k: usize) -> u64;
}

/// The version of the linked library: the major number from bit 16 on, the minor one in bits 8 to 15, the patch in bits 0 to 7.
pub fn version() -> u64 {
    // SAFETY: it takes nothing and touches no memory.
    unsafe { keeper_version() }
}

/// The size of a cell in bytes, as the linked library keeps it.
pub fn cell_bytes() -> u64 {
    // SAFETY: it takes nothing and touches no memory.
    unsafe { keeper_cell_bytes() }
}

/// Whether the linked library is one that this crate was made for: the same major number, the same minor number or a later one, and a
/// cell of [`SIZE`] bytes.
pub fn fits() -> bool {
    fitting(version(), cell_bytes())
}

/// Whether a library of this version, with cells of this size, is one that this crate was made for.
fn fitting(version: u64, cell_bytes: u64) -> bool {
    version >> 16 == VERSION >> 16 && version >> 8 >= VERSION >> 8 && cell_bytes == SIZE as u64
}

/// The answer of a call, which is made only where the library fits.
fn answered(call: impl FnOnce() -> u64) -> u64 {
    if fits() {
        call()
    } else {
        Refusal::OTHER_LIBRARY.into()
    }
}

// SAFETY of every call below: the library fits, so it takes a cell for what `Lent` says; a reference is not null, is aligned, is initialised and is not shared with a writer for as long as the
// call runs, and references that are lent together do not overlap. The library keeps no pointer after a call, and writes only values
// for which every bit pattern is allowed. All fields are integers without gaps between them, so a cell can be read and written as bytes.

/// Writes the two bytes of the move that an ask of this agent told, if it told one, to the start of what is left of a trail.
pub fn trail(agent: u8, asked: u64, trail: &mut [u8]) -> u64 {
    answered(|| unsafe { keeper_trail(agent, asked, trail.as_mut_ptr(), trail.len()) })
}

/// Whether a trail leads from a cell file to a listing.
pub fn audit(file: &[u8], trail: &[u8], listing: &[u8]) -> u64 {
    let (file, n, trail, m) = (file.as_ptr(), file.len(), trail.as_ptr(), trail.len());
    answered(|| unsafe { keeper_audit(file, n, trail, m, listing.as_ptr(), listing.len()) })
}

impl Lent {
    /// A cell of zeros, which is no sound table yet.
    pub fn zeros() -> Lent {
        let action = Action { kind: 0, padding: 0, name: 0 };
        let agent = Agent { home: 0, stage: 0, remembered: 0, chosen: 0, next: 0, count: 0, actions: [action; ACTIONS] };
        let name = Name { name: 0, entering: 0, exiting: 0, opening: 0 };
        let places = [Place { name, parent: 0, way: 0 }; PLACES];
        Lent { places, locks: [0; PLACES], agents: [agent; AGENTS], used: 0, given: 0, touches: [0; PLACES], order: [0; PLACES] }
    }

    /// Makes the cell a bare floor.
    pub fn bare(&mut self) -> u64 {
        answered(|| unsafe { keeper_bare(self) })
    }

    /// Makes the cell what the cell file says.
    pub fn load(&mut self, file: &[u8]) -> u64 {
        answered(|| unsafe { keeper_load(self, file.as_ptr(), file.len()) })
    }

    /// Makes the cell what the text, of the listing's language, says. It may have any bytes.
    pub fn read(&mut self, text: &[u8]) -> u64 {
        answered(|| unsafe { keeper_read(self, text.as_ptr(), text.len()) })
    }

    /// One lock step of an agent.
    pub fn step(&mut self, agent: u8, wish: u8) -> u64 {
        answered(|| unsafe { keeper_step(self, agent, wish) })
    }

    /// What a step of an agent would answer, and the place that it would choose.
    pub fn ask(&self, agent: u8, wish: u8) -> u64 {
        answered(|| unsafe { keeper_ask(self, agent, wish) })
    }

    /// The step, if an ask would answer this number now.
    pub fn commit(&mut self, agent: u8, wish: u8, asked: u64) -> u64 {
        answered(|| unsafe { keeper_commit(self, agent, wish, asked) })
    }

    /// Writes the listing to the start of the text.
    pub fn list(&self, text: &mut [u8]) -> u64 {
        answered(|| unsafe { keeper_list(self, text.as_mut_ptr(), text.len()) })
    }

    /// Whether the table is sound.
    pub fn check(&self) -> u64 {
        answered(|| unsafe { keeper_check(self) })
    }

    /// Whether all agents are asleep or done.
    pub fn idle(&self) -> u64 {
        answered(|| unsafe { keeper_idle(self) })
    }

    /// Adds a number to the touch count of a place.
    pub fn touch(&mut self, place: u8, number: u32) -> u64 {
        answered(|| unsafe { keeper_touch(self, place, number) })
    }

    /// The touch count of a place, if the table is sound and the place in use; the field `touches` holds the counts of all places.
    pub fn touches(&self, place: u8) -> u64 {
        answered(|| unsafe { keeper_touches(self, place) })
    }

    /// The nearest place of this name around a place, which is not counted itself.
    pub fn nearest(&self, place: u8, name: u16) -> u64 {
        answered(|| unsafe { keeper_nearest(self, place, name) })
    }

    /// The innermost place that holds or is both of two.
    pub fn common(&self, place: u8, other: u8) -> u64 {
        answered(|| unsafe { keeper_common(self, place, other) })
    }

    /// How many step calls can still change the cell, at most.
    pub fn ceiling(&self) -> u64 {
        answered(|| unsafe { keeper_ceiling(self) })
    }

    /// The bytes of the cell.
    pub fn bytes(&self) -> &[u8; SIZE] {
        unsafe { &*(self as *const Lent).cast() }
    }

    /// The bytes of the cell, to write.
    pub fn bytes_mut(&mut self) -> &mut [u8; SIZE] {
        unsafe { &mut *(self as *mut Lent).cast() }
    }
}

#[cfg(test)]
mod tests {
    use super::{fits, fitting, SIZE, VERSION};

    #[test]
    fn libraries_that_fit() {
        let size = SIZE as u64;
        assert!(fits());
        assert!(fitting(VERSION, size) && fitting(VERSION + 1, size) && fitting(VERSION + 256, size));
        assert!(!fitting(VERSION + 65_536, size) && !fitting(VERSION - 65_536, size) && !fitting(VERSION - 256, size));
        assert!(!fitting(VERSION, size + 8) && !fitting(VERSION, 0));
    }
}
