//! The calls of a keeper, and the proved keeper behind its C exports.

use crate::card::{by_step, Window};
use crate::cell::Cell;

/// A keeper: bits 0 to 7 of an answer are 0 or the refusal's number, what else there is to say stands above them.
pub trait Keeper {
    fn bare(cell: &mut Cell) -> u64;
    fn load(cell: &mut Cell, file: &[u8]) -> u64;
    fn read(cell: &mut Cell, text: &[u8]) -> u64;
    fn step(cell: &mut Cell, agent: u8, wish: u8) -> u64;
    fn ask(cell: &Cell, agent: u8, wish: u8) -> u64;
    fn commit(cell: &mut Cell, agent: u8, wish: u8, asked: u64) -> u64;
    fn list(cell: &Cell, text: &mut [u8]) -> u64;
    fn check(cell: &Cell) -> u64;
    fn idle(cell: &Cell) -> u64;
    fn touch(cell: &mut Cell, place: u8, number: u32) -> u64;
    fn touches(cell: &Cell, place: u8) -> u64;
    fn nearest(cell: &Cell, place: u8, name: u16) -> u64;
    fn common(cell: &Cell, place: u8, other: u8) -> u64;
    fn ceiling(cell: &Cell) -> u64;
    fn trail(agent: u8, asked: u64, trail: &mut [u8]) -> u64;
    fn audit(file: &[u8], trail: &[u8], listing: &[u8]) -> u64;

    /// The command in a card's window; of a peer, its step and the window's bytes.
    fn command(cell: &mut Cell, window: &mut Window)
    where
        Self: Sized,
    {
        by_step::<Self>(cell, window)
    }
}

extern "C" {
    fn keeper_bare(cell: *mut Cell) -> u64;
    fn keeper_load(cell: *mut Cell, file: *const u8, len: usize) -> u64;
    fn keeper_read(cell: *mut Cell, text: *const u8, length: usize) -> u64;
    fn keeper_step(cell: *mut Cell, agent: u8, wish: u8) -> u64;
    fn keeper_ask(cell: *const Cell, agent: u8, wish: u8) -> u64;
    fn keeper_commit(cell: *mut Cell, agent: u8, wish: u8, asked: u64) -> u64;
    fn keeper_list(cell: *const Cell, text: *mut u8, room: usize) -> u64;
    fn keeper_check(cell: *const Cell) -> u64;
    fn keeper_idle(cell: *const Cell) -> u64;
    fn keeper_touch(cell: *mut Cell, place: u8, number: u32) -> u64;
    fn keeper_touches(cell: *const Cell, place: u8) -> u64;
    fn keeper_nearest(cell: *const Cell, place: u8, name: u16) -> u64;
    fn keeper_common(cell: *const Cell, place: u8, other: u8) -> u64;
    fn keeper_ceiling(cell: *const Cell) -> u64;
    fn keeper_trail(agent: u8, asked: u64, trail: *mut u8, room: usize) -> u64;
    fn keeper_audit(file: *const u8, n: usize, trail: *const u8, m: usize, listing: *const u8, k: usize) -> u64;
    fn keeper_command(cell: *mut Cell, window: *mut Window);
}

/// The proved keeper, as libkeeper.a exports it.
pub struct Proved;

impl Keeper for Proved {
    fn bare(cell: &mut Cell) -> u64 {
        unsafe { keeper_bare(cell) }
    }
    fn load(cell: &mut Cell, file: &[u8]) -> u64 {
        unsafe { keeper_load(cell, file.as_ptr(), file.len()) }
    }
    fn read(cell: &mut Cell, text: &[u8]) -> u64 {
        unsafe { keeper_read(cell, text.as_ptr(), text.len()) }
    }
    fn step(cell: &mut Cell, agent: u8, wish: u8) -> u64 {
        unsafe { keeper_step(cell, agent, wish) }
    }
    fn ask(cell: &Cell, agent: u8, wish: u8) -> u64 {
        unsafe { keeper_ask(cell, agent, wish) }
    }
    fn commit(cell: &mut Cell, agent: u8, wish: u8, asked: u64) -> u64 {
        unsafe { keeper_commit(cell, agent, wish, asked) }
    }
    fn list(cell: &Cell, text: &mut [u8]) -> u64 {
        unsafe { keeper_list(cell, text.as_mut_ptr(), text.len()) }
    }
    fn check(cell: &Cell) -> u64 {
        unsafe { keeper_check(cell) }
    }
    fn idle(cell: &Cell) -> u64 {
        unsafe { keeper_idle(cell) }
    }
    fn touch(cell: &mut Cell, place: u8, number: u32) -> u64 {
        unsafe { keeper_touch(cell, place, number) }
    }
    fn touches(cell: &Cell, place: u8) -> u64 {
        unsafe { keeper_touches(cell, place) }
    }
    fn nearest(cell: &Cell, place: u8, name: u16) -> u64 {
        unsafe { keeper_nearest(cell, place, name) }
    }
    fn common(cell: &Cell, place: u8, other: u8) -> u64 {
        unsafe { keeper_common(cell, place, other) }
    }
    fn ceiling(cell: &Cell) -> u64 {
        unsafe { keeper_ceiling(cell) }
    }
    fn trail(agent: u8, asked: u64, trail: &mut [u8]) -> u64 {
        unsafe { keeper_trail(agent, asked, trail.as_mut_ptr(), trail.len()) }
    }
    fn audit(file: &[u8], trail: &[u8], listing: &[u8]) -> u64 {
        unsafe { keeper_audit(file.as_ptr(), file.len(), trail.as_ptr(), trail.len(), listing.as_ptr(), listing.len()) }
    }
    fn command(cell: &mut Cell, window: &mut Window) {
        unsafe { keeper_command(cell, window) }
    }
}
