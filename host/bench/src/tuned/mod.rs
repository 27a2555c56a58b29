//! The tuned peer: a Rust keeper with the same calls, the same tests at every call, and the same answers, written to be fast.
//!
//! The cell is changed in place. Every pass over places and agents walks over the numbers in use only. Nothing is remembered between calls, so every
//! call tests soundness in full, as the proved keeper does.
//! The calls are not inlined into the loops that measure them, as those of the library are not.

mod ask;
mod audit;
mod list;
mod load;
mod read;
mod sound;
mod step;
mod whereabouts;

use crate::cell::{has, members, Agent, Cell, MOST_TOUCHES};
use crate::keeper::Keeper;
pub use audit::{denied, NOT_PERMITTED, NO_ACTION, NO_BYTE, ODD_BYTE, OTHER_LAYOUT};
pub use load::Refused;
use sound::{sound, sound_touches};

/// Refusal: a place above 63.
pub const TOO_LARGE: u64 = 3;
/// Refusal: a place that is not in use.
pub const NOT_GIVEN: u64 = 5;
/// Refusal: unsound table.
pub const UNSOUND: u64 = 10;
/// Refusal: no such agent.
pub const NO_SUCH_AGENT: u64 = 11;
/// Refusal: listing longer than the buffer.
pub const TOO_LONG: u64 = 12;
/// Refusal: too many touches.
pub const TOO_MANY_TOUCHES: u64 = 15;
/// Refusal: the step would answer otherwise.
pub const ANSWER_DIFFERS: u64 = 18;
/// Refusal: a text outside the language.
pub const OUTSIDE_LANGUAGE: u8 = 16;
/// Refusal: a text with too many of anything.
pub const TOO_MANY: u8 = 17;

/// What is answered for a place where there is none of the name.
pub const NOWHERE: u8 = 255;

/// The tuned Rust keeper.
pub struct Tuned;

/// Makes a bare floor the cell of some bytes, and sets the cell to it and answers 0; or answers why they are refused.
fn given(cell: &mut Cell, bytes: &[u8], fill: fn(&mut Cell, &[u8]) -> Result<(), Refused>) -> u64 {
    let mut given = Cell::BARE;
    match fill(&mut given, bytes) {
        Ok(()) => {
            *cell = given;
            0
        }
        Err(refused) => refused.answer(),
    }
}

impl Keeper for Tuned {
    #[inline(never)]
    fn bare(cell: &mut Cell) -> u64 {
        *cell = Cell::BARE;
        0
    }

    #[inline(never)]
    fn load(cell: &mut Cell, file: &[u8]) -> u64 {
        given(cell, file, load::load)
    }

    #[inline(never)]
    fn read(cell: &mut Cell, text: &[u8]) -> u64 {
        given(cell, text, read::read)
    }

    #[inline(never)]
    fn step(cell: &mut Cell, agent: u8, wish: u8) -> u64 {
        if !sound(cell) {
            return UNSOUND;
        }
        if !has(cell.given, agent) {
            return NO_SUCH_AGENT;
        }
        let (word, woken) = step::step(cell, agent, wish);
        (woken as u64) << 16 | (word as u64) << 8
    }

    #[inline(never)]
    fn ask(cell: &Cell, agent: u8, wish: u8) -> u64 {
        if !sound(cell) {
            return UNSOUND;
        }
        if !has(cell.given, agent) {
            return NO_SUCH_AGENT;
        }
        ask::told(cell, agent, wish)
    }

    #[inline(never)]
    fn commit(cell: &mut Cell, agent: u8, wish: u8, asked: u64) -> u64 {
        if !sound(cell) {
            return UNSOUND;
        }
        if !has(cell.given, agent) {
            return NO_SUCH_AGENT;
        }
        if ask::told(cell, agent, wish) != asked {
            return ANSWER_DIFFERS;
        }
        step::step(cell, agent, wish);
        asked & 0xFF_FFFF
    }

    #[inline(never)]
    fn list(cell: &Cell, text: &mut [u8]) -> u64 {
        if !sound(cell) {
            return UNSOUND;
        }
        match list::list(cell, text) {
            Some(length) => (length as u64) << 8,
            None => TOO_LONG,
        }
    }

    #[inline(never)]
    fn check(cell: &Cell) -> u64 {
        if sound(cell) {
            0
        } else {
            UNSOUND
        }
    }

    #[inline(never)]
    fn idle(cell: &Cell) -> u64 {
        if !sound(cell) {
            return UNSOUND;
        }
        let at_rest = members(cell.given).all(|x| cell.agents[x as usize].stage >= 7);
        (at_rest as u64) << 8
    }

    #[inline(never)]
    fn touch(cell: &mut Cell, place: u8, number: u32) -> u64 {
        match sound_touches(cell) {
            None => UNSOUND,
            Some(_) if place > 63 => TOO_LARGE,
            Some(_) if !has(cell.used, place) => NOT_GIVEN,
            Some(sum) if number as u64 > MOST_TOUCHES - sum => TOO_MANY_TOUCHES,
            Some(_) => {
                cell.touches[place as usize] += number as u64;
                cell.touches[place as usize] << 8
            }
        }
    }

    #[inline(never)]
    fn touches(cell: &Cell, place: u8) -> u64 {
        match () {
            _ if !sound(cell) => UNSOUND,
            _ if place > 63 => TOO_LARGE,
            _ if !has(cell.used, place) => NOT_GIVEN,
            _ => cell.touches[place as usize] << 8,
        }
    }

    #[inline(never)]
    fn nearest(cell: &Cell, place: u8, name: u16) -> u64 {
        match () {
            _ if !sound(cell) => UNSOUND,
            _ if place > 63 => TOO_LARGE,
            _ if !has(cell.used, place) => NOT_GIVEN,
            _ => (whereabouts::nearest(cell, place, name) as u64) << 8,
        }
    }

    #[inline(never)]
    fn common(cell: &Cell, place: u8, other: u8) -> u64 {
        match () {
            _ if !sound(cell) => UNSOUND,
            _ if place > 63 || other > 63 => TOO_LARGE,
            _ if !has(cell.used, place) || !has(cell.used, other) => NOT_GIVEN,
            _ => (whereabouts::common(cell, place, other) as u64) << 8,
        }
    }

    #[inline(never)]
    fn ceiling(cell: &Cell) -> u64 {
        if !sound(cell) {
            return UNSOUND;
        }
        let left_of = |agent: &Agent| 2 * (agent.count - agent.next) as u64 + (4..=6).contains(&agent.stage) as u64;
        let left: u64 = members(cell.given).map(|x| left_of(&cell.agents[x as usize])).sum();
        (5 * cell.given.count_ones() as u64 * (left + 1) + left) << 8
    }

    #[inline(never)]
    fn trail(agent: u8, asked: u64, trail: &mut [u8]) -> u64 {
        if asked & 255 != 0 || !matches!(asked >> 8 & 255, 5 | 7 | 8) {
            return 0;
        }
        match trail.first_chunk_mut() {
            Some(pair) => {
                *pair = [agent, (asked >> 24) as u8];
                2 << 8
            }
            None => TOO_LONG,
        }
    }

    #[inline(never)]
    fn audit(file: &[u8], trail: &[u8], listing: &[u8]) -> u64 {
        audit::audit(file, trail, listing)
    }
}
