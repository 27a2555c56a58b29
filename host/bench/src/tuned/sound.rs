//! Whether a table is sound: one pass over the row, one over the agents, and one over the places, which follows their ways to the floor too.

use crate::cell::{has, members, Action, Agent, Cell, Name, MOST_TOUCHES, NONE};

/// Whether the table is sound.
pub fn sound(cell: &Cell) -> bool {
    sound_touches(cell).is_some()
}

/// The touches of all places in use, if the table is sound.
pub fn sound_touches(cell: &Cell) -> Option<u64> {
    let mut seen = Seen { held: 0, going: 0 };
    let sound = floor_fits(cell) && whole(&cell.order) && members(cell.given).all(|x| seen.agent_fits(cell, x, &cell.agents[x as usize]));
    if sound {
        seen.touches(cell)
    } else {
        None
    }
}

/// Whether the floor is in use, has no name, and stands in itself without being linked.
fn floor_fits(cell: &Cell) -> bool {
    let floor = &cell.places[0];
    has(cell.used, 0) && floor.name == Name::NONE && floor.parent == 0 && floor.way != 0
}

/// Whether every number stands in the row, and so none twice and none above 63.
fn whole(order: &[u8; 64]) -> bool {
    let seen = order.iter().fold(0u64, |seen, q| seen | 1 << (q & 63));
    let bits = order.as_chunks::<8>().0.iter().fold(0, |bits, &eight| bits | u64::from_le_bytes(eight));
    seen == u64::MAX && bits & 0xC0C0_C0C0_C0C0_C0C0 == 0
}

/// Whether all actions of a row have a kind and a name, without a branch: a kind less 1 is below 4, and a name less 1 borrows nothing. By itself it is compiled
/// to vectors.
#[inline(never)]
fn row_fits(row: &[Action; 16]) -> bool {
    let bits = |action: &Action| (action.kind as u32).wrapping_sub(1) | (action.name as u32).wrapping_sub(1) >> 16;
    row.iter().fold(0, |all, action| all | bits(action)) < 4
}

/// The same of the unused actions, of which there may be fewer.
fn actions_fit(agent: &Agent, unused: &[Action]) -> bool {
    if agent.count == 16 && row_fits(&agent.actions) {
        return true;
    }
    for action in unused {
        if !matches!(action.kind, 1..=4) || action.name == 0 {
            return false;
        }
    }
    true
}

/// What the agents say: the places whose locks they hold, and the places on their way.
struct Seen {
    held: u64,
    going: u64,
}

impl Seen {
    /// Whether agent x is as it should be; what it holds and moves is noted.
    fn agent_fits(&mut self, cell: &Cell, x: u8, agent: &Agent) -> bool {
        let Some(unused) = agent.actions.get(agent.next as usize..agent.count as usize) else { return false };
        if !has(cell.used, agent.home) {
            return false;
        }
        let Some(first) = unused.first() else { return agent.stage == 8 || self.moves(cell, x, agent) };
        if !actions_fit(agent, unused) {
            return false;
        }
        let remembers = has(cell.used, agent.remembered) && (first.kind < 3 || agent.remembered == agent.home);
        match agent.stage {
            0 => true,
            1 => remembers,
            2 => remembers && self.holds(cell, x, agent.remembered),
            3 => {
                let second = if first.kind == 3 { agent.chosen } else { agent.home };
                first.kind != 4
                    && remembers
                    && (first.kind == 3 || linked_to(cell, agent.home, agent.remembered))
                    && (first.kind == 2 || linked_to(cell, agent.chosen, agent.remembered))
                    && self.holds(cell, x, agent.remembered)
                    && self.holds(cell, x, second)
            }
            7 => has(cell.used, agent.remembered) || first.kind == 4 && agent.remembered == NONE,
            _ => self.moves(cell, x, agent),
        }
    }

    /// Whether agent x moves its home, as no other does, and holds the locks that its stage says.
    fn moves(&mut self, cell: &Cell, x: u8, agent: &Agent) -> bool {
        let home = agent.home;
        let first = !has(self.going, home);
        self.going |= 1 << home;
        first
            && matches!(agent.stage, 4..=6)
            && (agent.stage == 4 || self.holds(cell, x, home))
            && (agent.stage != 6 || self.holds(cell, x, cell.places[home as usize].parent))
    }

    /// Whether the lock of q is agent x's.
    fn holds(&mut self, cell: &Cell, x: u8, q: u8) -> bool {
        has(cell.used, q) && cell.locks[q as usize] == x && {
            self.held |= 1 << q;
            true
        }
    }

    /// The touches of all places, if these are as they should be: a lock is free or held by an agent whose stage says so; a place but the floor
    /// has a name and leads to the floor; those on their way are those that agents move; and the touches, of which none has bits that all
    /// together have not, are not too many.
    fn touches(&self, cell: &Cell) -> Option<u64> {
        let free = |q: u8| cell.locks[q as usize] == NONE || has(self.held, q);
        let (mut known, mut on_way) = (1, 0);
        let (mut sum, mut bits) = (cell.touches[0], cell.touches[0]);
        for q in members(cell.used & !1) {
            let place = &cell.places[q as usize];
            sum = sum.wrapping_add(cell.touches[q as usize]);
            bits |= cell.touches[q as usize];
            if place.way != 0 {
                on_way |= 1 << q;
            }
            if !free(q) || place.name.name == 0 || !(has(known, place.parent) || leads_to_the_floor(cell, &mut known, q)) {
                return None;
            }
            known |= 1 << q;
        }
        (free(0) && on_way == self.going && bits <= MOST_TOUCHES && sum <= MOST_TOUCHES).then_some(sum)
    }
}

/// Whether following parents from q leads to a place that is known to lead to the floor, and never twice to the same; those on the way are then known too.
fn leads_to_the_floor(cell: &Cell, known: &mut u64, mut q: u8) -> bool {
    let mut path = 0u64;
    while !has(*known, q) {
        if !has(cell.used & !path, q) {
            return false;
        }
        path |= 1 << q;
        q = cell.places[q as usize].parent;
    }
    *known |= path;
    true
}

/// Whether q is in use and linked to p.
pub fn linked_to(cell: &Cell, q: u8, p: u8) -> bool {
    linked(cell, q) && cell.places[q as usize].parent == p
}

/// Whether q is in use and linked.
pub fn linked(cell: &Cell, q: u8) -> bool {
    has(cell.used, q) && cell.places[q as usize].way == 0
}
