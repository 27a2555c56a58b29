//! The plain peer: a Rust keeper with the same tests at every call and the same answers, as one writes it first.
//!
//! The cell is changed in place; an ask steps a copy, and a commit takes that copy. Every pass goes over all 64 numbers and asks of each whether
//! it is in use. Loading is the tuned peer's.

mod audit;
mod list;
mod read;
mod sound;
mod step;
mod whereabouts;

use crate::cell::{has, Cell};
use crate::keeper::Keeper;
use crate::tuned::{Tuned, ANSWER_DIFFERS, NOT_GIVEN, NOWHERE, NO_SUCH_AGENT, TOO_LARGE, TOO_LONG, TOO_MANY_TOUCHES, UNSOUND};
use sound::{few_touches, sound};

/// The plain Rust keeper.
pub struct Plain;

impl Keeper for Plain {
    fn bare(cell: &mut Cell) -> u64 {
        Tuned::bare(cell)
    }

    fn load(cell: &mut Cell, file: &[u8]) -> u64 {
        Tuned::load(cell, file)
    }

    #[inline(never)]
    fn read(cell: &mut Cell, text: &[u8]) -> u64 {
        match read::read(text) {
            Ok(given) => {
                *cell = given;
                0
            }
            Err(refused) => refused.answer(),
        }
    }

    #[inline(never)]
    fn step(cell: &mut Cell, agent: u8, wish: u8) -> u64 {
        if !sound(cell) {
            return UNSOUND;
        }
        if !has(cell.given, agent) {
            return NO_SUCH_AGENT;
        }
        let (word, woken) = step::step(cell, agent, wish);
        woken << 16 | word << 8
    }

    #[inline(never)]
    fn ask(cell: &Cell, agent: u8, wish: u8) -> u64 {
        match told(cell, agent, wish) {
            Ok((_, number)) => number,
            Err(refused) => refused,
        }
    }

    #[inline(never)]
    fn commit(cell: &mut Cell, agent: u8, wish: u8, asked: u64) -> u64 {
        match told(cell, agent, wish) {
            Ok((after, number)) if number == asked => {
                *cell = after;
                number & 0xFF_FFFF
            }
            Ok(_) => ANSWER_DIFFERS,
            Err(refused) => refused,
        }
    }

    #[inline(never)]
    fn list(cell: &Cell, text: &mut [u8]) -> u64 {
        if !sound(cell) {
            return UNSOUND;
        }
        let listing = list::listing(cell);
        match text.get_mut(..listing.len()) {
            Some(text) => {
                text.copy_from_slice(listing.as_bytes());
                (listing.len() as u64) << 8
            }
            None => TOO_LONG,
        }
    }

    #[inline(never)]
    fn check(cell: &Cell) -> u64 {
        if sound(cell) {
            0
        } else {
            UNSOUND
        }
    }

    #[inline(never)]
    fn idle(cell: &Cell) -> u64 {
        if !sound(cell) {
            return UNSOUND;
        }
        let at_rest = (0..64).all(|x| !has(cell.given, x) || cell.agents[x as usize].stage >= 7);
        (at_rest as u64) << 8
    }

    #[inline(never)]
    fn touch(cell: &mut Cell, place: u8, number: u32) -> u64 {
        let refused = refused_places(cell, &[place]);
        if refused != 0 {
            return refused;
        }
        if !few_touches(cell, number as u64) {
            return TOO_MANY_TOUCHES;
        }
        cell.touches[place as usize] += number as u64;
        cell.touches[place as usize] << 8
    }

    #[inline(never)]
    fn touches(cell: &Cell, place: u8) -> u64 {
        match refused_places(cell, &[place]) {
            0 => cell.touches[place as usize] << 8,
            refused => refused,
        }
    }

    #[inline(never)]
    fn nearest(cell: &Cell, place: u8, name: u16) -> u64 {
        match refused_places(cell, &[place]) {
            0 => (whereabouts::nearest(cell, place, name).unwrap_or(NOWHERE) as u64) << 8,
            refused => refused,
        }
    }

    #[inline(never)]
    fn common(cell: &Cell, place: u8, other: u8) -> u64 {
        match refused_places(cell, &[place, other]) {
            0 => (whereabouts::common(cell, place, other) as u64) << 8,
            refused => refused,
        }
    }

    #[inline(never)]
    fn ceiling(cell: &Cell) -> u64 {
        if !sound(cell) {
            return UNSOUND;
        }
        let (mut agents, mut left) = (0, 0);
        for agent in (0..64).filter(|&x| has(cell.given, x)).map(|x| &cell.agents[x as usize]) {
            agents += 1;
            left += 2 * (agent.count - agent.next) as u64 + (4..=6).contains(&agent.stage) as u64;
        }
        (5 * agents * (left + 1) + left) << 8
    }

    #[inline(never)]
    fn trail(agent: u8, asked: u64, trail: &mut [u8]) -> u64 {
        let mut told = Vec::new();
        if asked & 255 == 0 && [5, 7, 8].contains(&(asked >> 8 & 255)) {
            told.extend([agent, (asked >> 24) as u8]);
        }
        match trail.get_mut(..told.len()) {
            Some(trail) => {
                trail.copy_from_slice(&told);
                (told.len() as u64) << 8
            }
            None => TOO_LONG,
        }
    }

    #[inline(never)]
    fn audit(file: &[u8], trail: &[u8], listing: &[u8]) -> u64 {
        audit::audit(file, trail, listing)
    }
}

/// The cell after the step, and the number that an ask tells; or its refusal.
fn told(cell: &Cell, agent: u8, wish: u8) -> Result<(Cell, u64), u64> {
    let mut after = *cell;
    match Plain::step(&mut after, agent, wish) {
        answer if answer & 255 == 0 => Ok((after, answer | (step::chosen(cell, agent, wish) as u64) << 24)),
        refused => Err(refused),
    }
}

/// The refusal of a call for these places, or 0.
fn refused_places(cell: &Cell, places: &[u8]) -> u64 {
    if !sound(cell) {
        UNSOUND
    } else if places.iter().any(|&place| place > 63) {
        TOO_LARGE
    } else if places.iter().any(|&place| !has(cell.used, place)) {
        NOT_GIVEN
    } else {
        0
    }
}
