//! What a step would answer and which place it would choose, found without a change: the tests of the step, and a count of those it would wake.

use super::sound::{linked, linked_to};
use super::step::{choose, fires, next_action, Word, ENTER, EXIT, OPEN, RELEASE};
use crate::cell::{members, Agent, Cell, NONE};

/// No place is told.
const NONE_CHOSEN: u8 = 255;

/// The number of an ask on a table that is sound, for an agent that is there.
pub fn told(cell: &Cell, x: u8, wish: u8) -> u64 {
    let agent = &cell.agents[x as usize];
    let home = agent.home;
    let (word, woken, chosen) = match agent.stage {
        0 if matches!(next_action(agent).kind, OPEN | RELEASE) || cell.places[home as usize].way == 0 => (Word::Looked, 0, NONE_CHOSEN),
        0 => (Word::Slept, 0, NONE_CHOSEN),
        1 => (lock(cell, agent.remembered), 0, NONE_CHOSEN),
        2 => holding_one(cell, agent, wish),
        3 => holding_both(cell, agent),
        4 => (lock(cell, home), 0, NONE_CHOSEN),
        5 => (lock(cell, cell.places[home as usize].parent), 0, NONE_CHOSEN),
        6 => {
            let destination = cell.places[home as usize].parent;
            let beyond = if linked(cell, destination) { cell.places[destination as usize].parent } else { destination };
            let woken = count(cell, |agent| agent.asleep_on(home) || agent.asleep_on(destination) || agent.asleep_on(beyond));
            (Word::Came, woken, NONE_CHOSEN)
        }
        7 => (Word::Asleep, 0, NONE_CHOSEN),
        _ => (Word::Done, 0, NONE_CHOSEN),
    };
    (chosen as u64) << 24 | (woken as u64) << 16 | (word as u64) << 8
}

/// The word of a step that needs this lock.
fn lock(cell: &Cell, q: u8) -> Word {
    if cell.locks[q as usize] == NONE {
        Word::Took
    } else {
        Word::Held
    }
}

fn holding_one(cell: &Cell, agent: &Agent, wish: u8) -> (Word, u32, u8) {
    let (home, p, action) = (agent.home, agent.remembered, next_action(agent));
    if action.kind == RELEASE {
        let full = cell.used == u64::MAX;
        return if full { (Word::Slept, 0, NONE_CHOSEN) } else { (Word::Put, count(cell, |agent| agent.asleep_on(p)), NONE_CHOSEN) };
    }
    if action.kind != OPEN && !linked_to(cell, home, p) {
        return (Word::Back, 0, NONE_CHOSEN);
    }
    match choose(cell, action, home, p, wish) {
        None => (Word::Slept, 0, NONE_CHOSEN),
        Some(_) if action.kind == EXIT => (lock(cell, home), 0, NONE_CHOSEN),
        Some(q) if action.kind == ENTER => (lock(cell, home), 0, q),
        Some(q) => (lock(cell, q), 0, q),
    }
}

fn holding_both(cell: &Cell, agent: &Agent) -> (Word, u32, u8) {
    let (home, p, chosen, action) = (agent.home, agent.remembered, agent.chosen, next_action(agent));
    if !fires(cell, action, home, p, if action.kind == EXIT { p } else { chosen }) {
        return (Word::Back, 0, NONE_CHOSEN);
    }
    if action.kind == OPEN {
        return (Word::Opened, count(cell, |agent| agent.woken_by_opening(p, chosen)), chosen);
    }
    let woken = count(cell, |agent| agent.asleep_on(p) || agent.asleep_on(home));
    (Word::Left, woken, if action.kind == EXIT { NONE_CHOSEN } else { chosen })
}

/// How many of the given agents satisfy a test.
fn count(cell: &Cell, sleeps: impl Fn(&Agent) -> bool) -> u32 {
    members(cell.given).map(|y| sleeps(&cell.agents[y as usize]) as u32).sum()
}
