//! Whether a table is sound: a pass over the agents, one over the places, from each place the way to the floor, the touches, and the row.

use crate::cell::{has, Action, Agent, Cell, Name, MOST_TOUCHES, NONE};

const EXIT: u8 = 2;
const OPEN: u8 = 3;
const RELEASE: u8 = 4;

impl Agent {
    pub fn has_actions_left(&self) -> bool {
        self.next < self.count
    }

    /// The next action, or one of kind 0.
    pub fn action(&self) -> Action {
        if self.has_actions_left() && self.next < 16 {
            self.actions[self.next as usize]
        } else {
            Action { kind: 0, name: 0 }
        }
    }
}

/// Whether q is in use and linked.
pub fn linked(cell: &Cell, q: u8) -> bool {
    has(cell.used, q) && cell.places[q as usize].way == 0
}

/// Whether q is in use and linked to p.
pub fn linked_to(cell: &Cell, q: u8, p: u8) -> bool {
    linked(cell, q) && cell.places[q as usize].parent == p
}

/// Whether the table is sound.
pub fn sound(cell: &Cell) -> bool {
    if !has(cell.used, 0) {
        return false;
    }
    // The places that agents hold, and those that they move.
    let (mut held, mut going) = (0, 0);
    for x in 0..64 {
        if has(cell.given, x) && !agent_fits(cell, x, &mut held, &mut going) {
            return false;
        }
    }
    for q in 0..64 {
        if has(cell.used, q) && !place_fits(cell, q, held, going) {
            return false;
        }
    }
    for q in 0..64 {
        if has(cell.used, q) && !leads_to_the_floor(cell, q) {
            return false;
        }
    }
    few_touches(cell, 0) && whole(cell)
}

/// Whether every number stands in the row once.
fn whole(cell: &Cell) -> bool {
    let mut seen = [false; 64];
    for q in cell.order {
        if q > 63 || seen[q as usize] {
            return false;
        }
        seen[q as usize] = true;
    }
    true
}

/// Whether the places in use have few enough touches, with so many more.
pub fn few_touches(cell: &Cell, more: u64) -> bool {
    let mut sum = more;
    for q in 0..64 {
        if has(cell.used, q) {
            if cell.touches[q as usize] > MOST_TOUCHES - sum {
                return false;
            }
            sum += cell.touches[q as usize];
        }
    }
    true
}

/// Whether agent x is as it should be; what it holds and moves is noted.
fn agent_fits(cell: &Cell, x: u8, held: &mut u64, going: &mut u64) -> bool {
    let agent = &cell.agents[x as usize];
    if !has(cell.used, agent.home) || agent.next > agent.count || agent.count > 16 {
        return false;
    }
    for j in agent.next..agent.count {
        let action = agent.actions[j as usize];
        if action.kind < 1 || action.kind > RELEASE || action.name == 0 {
            return false;
        }
    }
    let (home, kind, p) = (agent.home, agent.action().kind, agent.remembered);
    let mut holds = |q: u8| {
        let mine = has(cell.used, q) && cell.locks[q as usize] == x;
        if mine {
            *held |= 1 << q;
        }
        mine
    };
    match agent.stage {
        0 => agent.has_actions_left(),
        1..=3 => {
            if !agent.has_actions_left() || !has(cell.used, p) || (kind >= OPEN && p != home) {
                return false;
            }
            if agent.stage >= 2 && !holds(p) {
                return false;
            }
            if agent.stage == 3 {
                if kind == RELEASE {
                    return false;
                }
                if kind != OPEN && !linked_to(cell, home, p) || kind != EXIT && !linked_to(cell, agent.chosen, p) {
                    return false;
                }
                return holds(if kind == OPEN { agent.chosen } else { home });
            }
            true
        }
        4..=6 => {
            if has(*going, home) {
                return false;
            }
            *going |= 1 << home;
            (agent.stage < 5 || holds(home)) && (agent.stage < 6 || holds(cell.places[home as usize].parent))
        }
        7 => agent.has_actions_left() && (has(cell.used, p) || kind == RELEASE && p == NONE),
        8 => !agent.has_actions_left(),
        _ => false,
    }
}

/// Whether place q is as it should be: its lock is free or held by an agent whose stage says so, it stands in a place in use, and it is on
/// its way just if an agent moves it.
fn place_fits(cell: &Cell, q: u8, held: u64, going: u64) -> bool {
    let place = &cell.places[q as usize];
    if cell.locks[q as usize] != NONE && !has(held, q) {
        return false;
    }
    if q == 0 {
        place.name == Name::NONE && place.parent == 0 && place.way != 0 && !has(going, q)
    } else {
        place.name.name != 0 && has(cell.used, place.parent) && has(going, q) == (place.way != 0)
    }
}

/// Whether following parents from q leads to the floor.
fn leads_to_the_floor(cell: &Cell, q: u8) -> bool {
    let (mut at, mut steps) = (q, 0);
    while at != 0 {
        at = cell.places[at as usize].parent;
        steps += 1;
        if steps > 63 {
            return false;
        }
    }
    true
}
